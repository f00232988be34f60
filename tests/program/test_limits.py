"""Each limit of the profile: what it allows is done at the limit and one below, and refused one above."""
import re
import subprocess
from collections.abc import Callable
from pathlib import Path

import pytest
from built import replies_in, text_of
from limit_table import ELSEWHERE, OF_WORDS, Size, sizes

SECONDS = 60


@pytest.mark.parametrize("size", [pytest.param(size, id=name) for name, size in sizes()])
def test_answers_within_and_refuses_above(run: Callable[..., tuple[int, bytes, bytes]], size: Size) -> None:
    status, output, faults = run(size.words, text_of(size.lines))
    replies = [it.decode().removesuffix("\n") for it in replies_in(output)]
    assert (status, len(replies), faults) == (0, len(size.lines), b"")
    assert replies[-len(size.replies) :] == size.replies


def started(program: Path, option: str, value: int) -> str:
    """The first line of a server with this value of an option, or of its fault, with no numbers."""
    values = {"port": 0, "sessions": 1, "workers": 1, "trace": 0} | {option: value}
    words = [word for name, it in values.items() for word in (f"--{name}", str(it))]
    with subprocess.Popen(
        [program, "serve", *words], stdout=subprocess.PIPE, stderr=subprocess.STDOUT, text=True
    ) as server:
        assert server.stdout
        try:
            return re.sub(r"\d+", "N", server.stdout.readline())
        finally:
            server.kill()


@pytest.mark.parametrize("name", OF_WORDS)
def test_serves_with_words_up_to_their_limit(program: Path, name: str) -> None:
    """Also with a worker for each of the most sessions at a time; a port may be another's."""
    option, most = name.removeprefix("most_"), OF_WORDS[name]
    may = {"port N\n"} | ({"hugetlbd: network failed\n"} if name == "most_port" else set())
    assert {started(program, option, value) for value in (most - 1, most)} <= may
    words = ["serve", "--port=0", "--sessions=1", "--workers=1", "--trace=0"]
    words = [it for it in words if not it.startswith(f"--{option}=")]
    ran = subprocess.run([program, *words, f"--{option}={most + 1}"], capture_output=True, timeout=SECONDS)
    assert (ran.returncode, ran.stderr) == (2, f"hugetlbd: bad value for --{option}\n".encode())


def fed(program: Path, count: int, end: bytes) -> tuple[int, bytes, bytes]:
    """What the program says of an input of so many bytes and these behind them."""
    piece = b"x" * (1 << 20)
    with subprocess.Popen(
        [program], stdin=subprocess.PIPE, stdout=subprocess.PIPE, stderr=subprocess.PIPE
    ) as started:
        assert started.stdin
        try:
            for _ in range(count // len(piece)):
                started.stdin.write(piece)
            started.stdin.write(piece[: count % len(piece)] + end)
        except BrokenPipeError:
            pass
        output, faults = started.communicate(timeout=SECONDS)
    return started.returncode, output, faults


@pytest.mark.parametrize("more, ended", [(-1, True), (0, True), (1, False)])
def test_takes_an_input_of_so_many_bytes(program: Path, more: int, ended: bool) -> None:
    """The last line of an input at the limit has its reply; one byte more, and it has none."""
    line = b"\nnr 3\n"
    status, output, faults = fed(program, ELSEWHERE["most_input_bytes"] + more - len(line), line)
    if ended:
        assert (status, output, faults) == (0, b"error 22 LineTooLong\nok 3\n", b"")
    else:
        assert (status, output) == (1, b"error 22 LineTooLong\n") and faults


@pytest.mark.parametrize(
    "room, status, fault",
    [
        (16_777_215, 1, b"out of memory"),
        (16_777_216, 1, b"out of memory"),
        (16_777_217, 2, b"bad value for --trace"),
    ],
)
def test_takes_so_many_places(program: Path, room: int, status: int, fault: bytes) -> None:
    """The words allow so many places: then the memory for them is asked for, which is refused here."""
    words = [
        "serve",
        "--port",
        "0",
        "--sessions",
        "1",
        "--workers",
        "1",
        "--trace",
        str(room),
        "--slots",
        "1",
    ]
    ran = subprocess.run(
        ["bash", "-c", 'ulimit -v 1000000; exec "$0" "$@"', program, *words],
        capture_output=True,
        timeout=SECONDS,
        check=False,
    )
    assert (ran.returncode, ran.stdout, ran.stderr) == (status, b"", b"hugetlbd: " + fault + b"\n")
