"""How a server starts, and why one does not."""
import shlex
import socket
import subprocess
import time
from pathlib import Path

import pytest
from built import OUT_OF_MEMORY, SECONDS, TOP, Memory, Run, blocks_of
from serving import ended, whole_replies, words_of


def test_tells_its_port_in_a_file(program: Path, tmp_path: Path) -> None:
    """The line of the port is in a file as soon as a session can be had."""
    told = tmp_path / "port"
    with open(told, "wb") as file:
        words = words_of(1, 1, 0)
        started = subprocess.Popen(
            [program, *words], stdin=subprocess.DEVNULL, stdout=file, stderr=subprocess.PIPE
        )
    try:
        until = time.monotonic() + SECONDS
        while not told.read_bytes().endswith(b"\n") and time.monotonic() < until:
            time.sleep(0.01)
        with socket.create_connection(("127.0.0.1", int(told.read_text().split()[1]))) as link:
            assert whole_replies(link, b"nr 3\n") == b"ok 3\n"
        assert started.stderr and (started.wait(SECONDS), started.stderr.read()) == (0, b"")
    finally:
        started.kill()
        started.communicate()


def test_answers_in_two_terminals(program: Path) -> None:
    """The server and the session that docs/PROTOCOL.md shows, at a port that the system chooses."""
    shown = next(it.lines for it in blocks_of(TOP / "docs/PROTOCOL.md") if it.head == ["text"])
    at = shown.index("")
    serves, printed = shlex.split(shown[0])[2:], shown[1:at]
    _, _, lines, *_, port = shlex.split(shown[at + 1])
    assert printed == [f"port {port}"] and f"--port {port} " in shown[0]
    started = subprocess.Popen(
        [program, *("0" if word == port else word for word in serves)],
        stdin=subprocess.DEVNULL,
        stdout=subprocess.PIPE,
        stderr=subprocess.PIPE,
    )
    try:
        assert started.stdout
        chosen = int(started.stdout.readline().split()[1])
        with socket.create_connection(("127.0.0.1", chosen), timeout=SECONDS) as link:
            replies = whole_replies(link, lines.encode().decode("unicode_escape").encode())
        assert replies.decode().splitlines() == shown[at + 2 :]
    finally:
        started.kill()
        started.communicate()


def test_tells_of_a_port_in_use(program: Path) -> None:
    with socket.create_server(("127.0.0.1", 0)) as taken:
        words = words_of(1, 1, 0, port=taken.getsockname()[1])
        assert ended(program, words) == (1, b"hugetlbd: network failed\n")


def test_tells_of_an_output_that_is_full(program: Path) -> None:
    with open("/dev/full", "wb") as full:
        assert ended(program, words_of(1, 1, 0), stdout=full) == (1, b"hugetlbd: write failed\n")


@pytest.mark.parametrize("refused", [3, 5, 10, 15])
def test_tells_of_a_want_of_memory(run: Run, memory: Memory, refused: int) -> None:
    ran = run(words_of(1, 1, 100), environment=memory.environment(refused))
    assert ran == (1, b"", OUT_OF_MEMORY)


def test_starts_no_machine_larger_than_memory(program: Path, memory: Memory) -> None:
    """A machine whose nodes would be granted one by one, but not in one piece, does not start.

    So it is where it is served, and where it is a script's.
    """
    small, large = ["--frames", "500,1500"], ["--frames", "1500,1500"]
    short_of_memory = memory.environment(above=1 << 21)
    assert ended(program, ["script", *small], environment=short_of_memory) == (0, b"")
    for words in (["script", *large], [*words_of(1, 1, 0), *large]):
        ran = ended(program, words, stdout=subprocess.PIPE, environment=short_of_memory)
        assert ran == (1, OUT_OF_MEMORY)
