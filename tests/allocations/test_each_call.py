"""Refuses each call for memory in turn, in the tests and in the program, as `rt ci` built them.

- A test must pass all the same, or stop and name the want of memory.
- The program is given the worked rows and the examples, line by line. Each reply is the row's own, or `error
  1 OutOfMemory`. Then counts, mounts and files are as before, and the same line given again gets the row's
  reply. Or memory was refused before the first line was read, and the program ends with status 1.
- With words that are wrong or ask for help it says what it says else, or that memory is out, with status 1.
- A server tells no port. Or one session of its three gets `error 1 OutOfMemory` alone, for its buffers, its
  receipts or a line; or no reply, where its connection could not be held. The others are served by the one
  worker. Or the audit is refused, with status 1.

Nothing may be left held at the end. What is tried goes side by side.
"""
import os
import re
import socket
import subprocess
from collections.abc import Callable, Iterator
from concurrent.futures import Future, ThreadPoolExecutor
from contextlib import suppress
from dataclasses import dataclass
from pathlib import Path
from typing import Any

import built
import pytest
from built import PROGRAM, SECONDS, TOP, Case, Client, Memory, Ran, Words, cases, replies_in

OUT_OF_MEMORY = b"error 1 OutOfMemory\n"
# How a test that stops names what it wanted.
NAMES_IT = re.compile(r"AllocError|AllocFailed|OutOfMemory|\bMemory\b|out of memory")
# In these several threads meet, or a refusal ends a run whose replies they want. They are run once, with no
# call refused; the program tries the others.
ONCE = ("places::", "rows::", "stress::", "filling::", "making::", "over_tcp::", "sources::", "runs::")
WORDS = [
    ["--help"],
    ["--version"],
    ["script", "--help"],
    ["--page", "3"],
    ["--frames", "4,4,4,4,4"],
    ["--slots", "4", "script"],
    ["serve"],
    ["serve", "--help"],
    ["serve", "--port", "0", "--sessions", "1", "--workers", "1", "--trace", "x"],
    ["a", "b"],
]
# The commands that ask for no memory, neither as their line is read nor as their step is done.
WITHOUT_MEMORY = {
    b"connect",
    b"attach",
    b"exit",
    b"unmap",
    b"mount",
    b"umount",
    b"unlink",
    b"truncate",
    b"punch",
    b"read",
    b"stat",
    b"df",
    b"nr",
    b"overcommit",
    b"meminfo",
    b"nodes",
}
# So many of the files made last are looked at after a refusal.
LAST_FILES = 8

# A file, by its slot and its name.
File = tuple[bytes, bytes]


def run_test(program: Path, test: str, memory: Memory, refused: int) -> int:
    """Runs one test with this call refused, and answers how many calls it made."""
    run = subprocess.run(
        [program, test], env=memory.environment(refused), capture_output=True, timeout=3 * SECONDS
    )
    said = (run.stdout + run.stderr).decode(errors="replace")
    calls, held, _ = memory.told()
    assert (
        not run.returncode or refused and NAMES_IT.search(said)
    ), f"call {refused} refused: status {run.returncode}: {said.strip()[-400:]}"
    assert held == 0, f"call {refused} refused: blocks are still held at the end"
    return calls


def try_test(memory: Memory, program: Path, test: str) -> None:
    calls = run_test(program, test, memory, 0)
    if not test.startswith(ONCE):
        for refused in range(1, calls + 1):
            run_test(program, test, memory, refused)


def shown(client: Client, slots: int) -> list[bytes]:
    """The counts, and what each slot's mount uses."""
    return [client.ask(b"meminfo\n")] + [client.ask(b"df %d\n" % slot) for slot in range(slots)]


def files_shown(client: Client, made: list[File]) -> list[bytes]:
    """What the files that were made last hold, and the names on their slots."""
    slots = sorted({slot for slot, _ in made})
    return [client.ask(b"stat %s %s\n" % file) for file in made] + [
        client.ask(b"ls %s\n" % slot) for slot in slots
    ]


def must_show_files(where: str, words: Words, client: Client, lines: list[bytes]) -> None:
    """The files are as in a program that got these lines with no refusal."""
    twin = Client(PROGRAM, words)
    for line in lines:
        twin.ask(line)
    created = [line.split() for line in lines if line.startswith(b"create ") and line.count(b" ") == 2]
    made = [(words[1], words[2]) for words in created if len(words) == 3][-LAST_FILES:]
    same = files_shown(client, made) == files_shown(twin, made)
    assert same, f"{where}: a line was refused memory, and the files differ"
    twin.close()


def run_case(case: Case, memory: Memory, refused: int) -> int:
    """Gives the program the case's lines with this call refused, and answers how many calls it made."""
    slots = int(case.words[case.words.index("--slots") + 1]) if "--slots" in case.words else 4
    given = ["script", *case.words] if case.words else []
    client = Client(PROGRAM, given, memory.environment(refused))
    where = f"call {refused} refused"
    again, earlier = 0, list[bytes]()
    for line, expected in case.lines():
        if not line.endswith(b"\n"):
            client.input.write(line)
            break
        before = shown(client, slots)
        reply = client.ask(line)
        if before[0] == b"":
            status, _, faults = client.close()
            end = (status, faults)
            assert refused and end == (1, built.OUT_OF_MEMORY), f"{where}: an end before the first line"
            return memory.told()[0]
        if reply == OUT_OF_MEMORY and refused:
            again += 1
            assert line.split()[0] not in WITHOUT_MEMORY, f"{where}: {line!r} was refused memory"
            after = shown(client, slots)
            assert after == before, f"{where}: {line!r} was refused memory, and the counts moved"
            must_show_files(where, given, client, earlier)
            reply = client.ask(line)
        assert reply == expected, f"{where}: {line!r}"
        earlier.append(line)
    wanted = b"" if case.script.endswith(b"\n") else case.lines()[-1][1]
    assert client.close() == (0, wanted, b"") and again <= 1, f"{where}: {again} lines refused memory"
    calls, held, _ = memory.told()
    assert held == 0, f"{where}: blocks are still held at the end"
    return calls


def try_case(memory: Memory, case: Case) -> None:
    for refused in range(1, run_case(case, memory, 0) + 1):
        run_case(case, memory, refused)


def run_words(words: Words, memory: Memory, refused: int) -> Ran:
    run = subprocess.run(
        [PROGRAM, *words], env=memory.environment(refused), input=b"", capture_output=True, timeout=SECONDS
    )
    return run.returncode, run.stdout, run.stderr


def try_words(memory: Memory, words: Words) -> None:
    """Wrong words, and those that ask for help."""
    expected = run_words(words, memory, 0)
    for refused in range(1, memory.told()[0] + 1):
        wanted = (expected, (1, b"", built.OUT_OF_MEMORY))
        assert run_words(words, memory, refused) in wanted, f"call {refused} refused"
        assert memory.told()[1] == 0, f"call {refused} refused: blocks are still held at the end"


def replies_of(port: int, script: bytes) -> list[bytes]:
    """The replies that a session gets to a script; one that was not opened is reset, or has none."""
    got = b""
    with suppress(OSError), socket.create_connection(("127.0.0.1", port), timeout=SECONDS) as link:
        link.sendall(script)
        link.shutdown(socket.SHUT_WR)
        while more := link.recv(65536):
            got += more
    return replies_in(got)


SCRIPT = built.text_of(
    ["nr 4", "connect 1 0", "create 0 a", "map 1 0 a 0 2 shared", "store 1 0 1 0 0 ff"]
    + ["fork 1 2", "ls 0", "exit 2", "exit 1", "preallocate 0 a 0 4", "mount 1 -", "remount 1 size=2K"]
)
REPLIES = [b"ok 4\n", b"ok\n", b"ok\n", b"ok 1\n", b"ok\n", b"ok\n", b"text 1\na\n", *[b"ok\n"] * 5]


@dataclass(frozen=True)
class Served:
    """How many calls a server made, whether a session was told that it had no memory, and whether one was
    told nothing."""

    calls: int
    was_told: bool
    was_left: bool


def run_server(trace: int, memory: Memory, refused: int) -> Served:
    """A server of three sessions with this call refused."""
    where = f"call {refused} refused"
    words = ["serve", "--port", "0", "--sessions", "3", "--workers", "1", "--trace", str(trace)]
    with subprocess.Popen(
        [PROGRAM, *words],
        stdin=subprocess.DEVNULL,
        stdout=subprocess.PIPE,
        stderr=subprocess.PIPE,
        env=memory.environment(refused),
    ) as server:
        try:
            assert server.stdout
            port = server.stdout.readline()
            scripts = (SCRIPT, b"nr 3\n", b"nr 2\n") if port else ()
            sessions = [replies_of(int(port.split()[1]), script) for script in scripts]
            output, faults = server.communicate(timeout=SECONDS)
        finally:
            server.kill()
    end, out_of_memory = (server.returncode, faults), (1, built.OUT_OF_MEMORY)
    if not port:
        assert refused and end == out_of_memory, f"{where}: an end before the port"
    else:
        wants = sum(OUT_OF_MEMORY in replies or not replies for replies in sessions) + (end == out_of_memory)
        right = [REPLIES, [b"ok 3\n"], [b"ok 2\n"]]
        is_right = (
            end in [(0, b""), out_of_memory] and wants <= bool(refused) and (wants or sessions == right)
        )
        assert is_right, f"{where}: {end}, {output!r}, {sessions}"
        assert server.returncode or output.startswith(b"audit ok\n" if trace else b"HugePages_Total:"), where
    calls, held, _ = memory.told()
    assert held == 0, f"{where}: blocks are still held at the end"
    return Served(calls, [OUT_OF_MEMORY] in sessions, [] in sessions)


def try_server(memory: Memory, trace: int) -> None:
    calls = run_server(trace, memory, 0).calls
    tries = [run_server(trace, memory, refused) for refused in range(1, calls + 1)]
    told = sum(it.was_told for it in tries)
    assert told == (9 if trace else 6), "sessions that were told of their two buffers, or their receipts"
    assert sum(it.was_left for it in tries) == 3, "sessions whose connection could not be held"


def is_built(_: Memory, program: Path) -> None:
    assert program.exists(), "it is not there: rt ci builds it, and rt test in its crate"


def of_tests(crate: Path) -> Iterator[Any]:
    """What is tried of a crate: each of its tests."""
    program = crate / f"out/{crate.name}_tests"
    if any("#[test]" in file.read_text() for file in (crate / "src").rglob("*.rt")):
        if not program.exists():
            yield pytest.param((is_built, program), id=crate.name)
            return
        listed = subprocess.run([program, "--list"], capture_output=True, text=True, check=True).stdout
        for test in (line.removesuffix(": test") for line in listed.splitlines() if line.endswith(": test")):
            yield pytest.param((try_test, program, test), id=f"{crate.name}-{test}")


def attempts() -> Iterator[Any]:
    """What is tried with its words; the names of those of the program begin with hugetlbd."""
    for crate in sorted((TOP / "crates").iterdir()):
        yield from of_tests(crate)
    yield from (pytest.param((try_case, case), id=f"hugetlbd-{case.name}") for case in cases())
    yield from (pytest.param((try_words, words), id=f"hugetlbd-{' '.join(words)}") for words in WORDS)
    yield from (
        pytest.param((try_server, trace), id=f"hugetlbd-a server with room {trace}") for trace in (0, 100)
    )


@pytest.fixture(scope="module")
def begun(
    request: pytest.FixtureRequest, refuse: Path, tmp_path_factory: pytest.TempPathFactory
) -> Iterator[dict[str, Future[None]]]:
    """The tries that this run has of this file, begun side by side, by the names of the tests that wait."""
    folder = tmp_path_factory.mktemp("reports")
    items: list[Any] = [
        it for it in request.session.items if isinstance(it, pytest.Function) and it.module is request.module
    ]
    with ThreadPoolExecutor(len(os.sched_getaffinity(0))) as pool:

        def begin(at: int, tries: Callable[..., None], *given: object) -> Future[None]:
            return pool.submit(tries, Memory(refuse, folder / str(at)), *given)

        yield {it.name: begin(at, *it.callspec.params["attempt"]) for at, it in enumerate(items)}
        pool.shutdown(cancel_futures=True)


@pytest.mark.parametrize("attempt", attempts())
def test_bears_each_refusal(
    begun: dict[str, Future[None]], attempt: object, request: pytest.FixtureRequest
) -> None:
    begun[request.node.name].result()
