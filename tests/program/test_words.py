"""The words of the command line: those that reach the machine, wrong ones, help and the version."""
import os
from collections.abc import Iterator

import pytest
from built import PROGRAM, TOP, Run, Words, version_line

HELP = (TOP / "tests/help.txt").read_bytes()
VERSION = version_line(PROGRAM)
USAGE = b"Usage: hugetlbd [script] [OPTIONS] < FILE\n"
SERVE_USAGE = b"Usage: hugetlbd serve --port <P> --sessions <N> --workers <W> --trace <ROOM> [OPTIONS]\n"
# Words that `serve` takes.
SERVE = ["serve", "--port", "0", "--sessions", "1", "--workers", "1", "--trace", "0"]


def test_takes_its_words(run: Run) -> None:
    """Words reach the machine, one by one and in any order."""
    script, nodes = b"nr 9\nmeminfo\n", b"HugePages_Total:       3\n"
    status, output, faults = run(["script", "--frames", "1,2", "--page", "2048", "--slots", "2"], script)
    assert (
        (status, output[:5], faults) == (0, b"ok 3\n", b"")
        and nodes in output
        and b"Hugepagesize:          2 kB\n" in output
    )
    assert run(["script", "--slots", "2", "--page", "2048", "--frames", "1,2"], script)[1] == output
    assert run(["script", "--frames=1,2", "--page=2048", "--slots=2"], script)[1] == output
    assert run(["--slots", "1"], b"df 1\n") == (0, b"error 8 NoSuchSlot\n", b"")
    assert run(["--frames", "1"], b"nr 4\nconnect 1 0\nconnect 2 1\n") == (
        0,
        b"ok 1\nok\nerror 25 NoSuchNode\n",
        b"",
    )
    most = run(
        ["script", "--frames=65536,1,1,00000000000000000007", "--slots=64"],
        b"nr 99999\nconnect 1 3\nconnect 2 4\nmount 63 -\nmount 64 -\n",
    )
    assert most == (0, b"ok 65545\nok\nerror 25 NoSuchNode\nok\nerror 8 NoSuchSlot\n", b"")
    largest = run(["--page=2097152"], b"nr 1\nmeminfo\n")[1].splitlines()[-2:]
    assert largest == [b"Hugepagesize:       2048 kB", b"Hugetlb:            2048 kB"]


def bad_values() -> Iterator[tuple[list[str], str]]:
    """Words with a value that is refused, and the option that is named; of several the first."""
    for option, values in {
        "frames": ["4,4,4,4,4", "", "4,", "0", "65537", ",4", "4 4", "1,2,3,x"],
        "page": ["3", "1025", "512", "4194304", "0x400", "-1024", "000000000000000001024", ""],
        "slots": ["0", "65", "four", "18446744073709551617", "+4", ""],
    }.items():
        fronts: list[list[str]] = [[], ["script"], SERVE]
        yield from (([*front, f"--{option}={value}"], option) for value in values for front in fronts)
    for option, values in {
        "port": ["65536", "-1", "http", "", "000000000000000000000"],
        "sessions": ["0", "65536", "1.5", ""],
        "workers": ["0", "65", "+1", ""],
        "trace": ["16777217", "0x10", "none", ""],
    }.items():
        at = SERVE.index(f"--{option}")
        yield from (([*SERVE[:at], f"--{option}={value}", *SERVE[at + 2 :]], option) for value in values)
    yield from (([*SERVE, f"--idle={value}"], "idle") for value in ("4294967296", "-1", "1.5", "ten", ""))
    yield ["--slots", "0", "--page", "3", "--frames", "5,x"], "frames"
    yield ["--slots", "0", "--page", "3"], "page"
    yield ["--slots", "65", "--page", "1000"], "page"
    yield [
        "serve",
        "--trace",
        "x",
        "--workers",
        "x",
        "--sessions",
        "x",
        "--port",
        "x",
        "--slots",
        "x",
    ], "slots"
    yield ["serve", "--trace", "x", "--workers", "x", "--sessions", "x", "--port", "x"], "port"
    yield ["serve", "--trace", "x", "--workers", "x", "--sessions", "x", "--port", "1"], "sessions"
    yield ["serve", "--trace", "x", "--workers", "x", "--sessions", "1", "--port", "1"], "workers"
    yield [
        "serve",
        "--idle",
        "x",
        "--trace",
        "x",
        "--workers",
        "1",
        "--sessions",
        "1",
        "--port",
        "1",
    ], "trace"


def wrong_to_clap() -> Iterator[list[str]]:
    """Words that clap refuses; of `serve` one of the four options is left out, stands before the subcommand
    or is given twice, or there is a word more."""
    yield from (
        ["--size", "3"],
        ["scripts"],
        ["--port", "0"],
        ["--page"],
        ["--page", "1024", "--page", "1024"],
        ["script", "script"],
        ["script", "extra"],
        ["script", "--page"],
        ["script", "--port", "0"],
    )
    yield from (
        ["serve"],
        [*SERVE, "script"],
        [*SERVE, "extra"],
        [*SERVE, "--version"],
        [*SERVE, "--page"],
        SERVE[:-1],
        ["--port", "0", *SERVE],
    )
    for at in range(1, len(SERVE), 2):
        yield [*SERVE[:at], *SERVE[at + 2 :]]
        yield [*SERVE, *SERVE[at : at + 2]]


def test_names_wrong_words(run: Run) -> None:
    """Wrong words are named, with status 2, no output and nothing read; of several the first."""
    for words in (
        ["--slots", "4", "script"],
        ["--slots", "0", "script"],
        ["--slots", "4", *SERVE],
        ["--page", "3", *SERVE[:-1], "x"],
    ):
        assert run(words, b"nr 9\n") == (2, b"", b"hugetlbd: option before subcommand\n")
    for words, option in bad_values():
        assert run(words, b"nr 9\n") == (2, b"", f"hugetlbd: bad value for --{option}\n".encode())
    for words in wrong_to_clap():
        status, output, faults = run(words, b"nr 9\n")
        assert (status, output, faults[:7]) == (2, b"", b"error: "), words
    wrong: list[Words] = [[b"\xff\xfe"], [b"script", b"--page", b"\xff"], [b"--frames=\x80"]]
    for given in wrong:
        assert run(given, b"nr 9\n") == (2, b"", b"hugetlbd: word not UTF-8\n")
    for words in [
        ["examples/first.script"],
        ["--size", "3"],
        ["script", "extra"],
        ["--page", "1024", "--page", "1024"],
    ]:
        assert USAGE in run(words, b"nr 9\n")[2]
    assert SERVE_USAGE in run(["serve", "extra"], b"nr 9\n")[2]


@pytest.mark.parametrize(
    "words",
    [
        ["--help"],
        ["-h"],
        ["help"],
        ["script", "--help"],
        ["script", "-h"],
        ["--help", "x"],
        ["--help", "--version"],
        ["serve", "--help"],
        ["serve", "-h"],
        ["help", "serve"],
    ],
    ids=" ".join,
)
def test_helps(run: Run, words: list[str]) -> None:
    assert run(words, b"nr 1\n") == (0, HELP, b"")


def test_tells_its_version(run: Run) -> None:
    """The version, with nothing read; as with help, the words behind it don't count, and those before it
    do."""
    for words in [["--version"], ["-V"], ["--version", "x"], ["-V", "--help"], ["--slots", "0", "--version"]]:
        assert run(words, b"nr 1\n") == (0, VERSION, b"")
    folder = os.open("/", os.O_RDONLY)
    assert run(["--version"], folder) == (0, VERSION, b"")
    os.close(folder)
    with open("/dev/full", "wb") as full:
        assert run(["--version"], b"", full)[::2] == (1, b"hugetlbd: write failed\n")
    for words in [
        ["x", "--version"],
        ["--version=x"],
        ["--versions"],
        ["-v"],
        ["version"],
        ["script", "--version"],
        ["script", "-V"],
        ["--slots", "--version"],
    ]:
        status, output, faults = run(words, b"nr 1\n")
        assert (status, output, faults[:7]) == (2, b"", b"error: "), words
