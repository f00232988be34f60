"""Lines and their replies: whole and broken, at once and in turn, and as far as the limits go."""
from pathlib import Path

import pytest
from built import Case, Client, Run, cases, each_case, replies_in, text_of
from limits import each_limit

BAD_LINE = b"error 21 BadLine\n"


def test_answers_each_front(run: Run) -> None:
    """A front of a script is answered as far as its lines go, and BadLine where it ends within one."""
    stored = next(case for case in cases() if case.name == "stored_run")
    script, replies = b"", b""
    for line, reply in stored.lines():
        for byte in line:
            script += bytes([byte])
            assert run([], script) == (0, replies + (reply if byte == b"\n"[0] else BAD_LINE), b"")
        replies += reply
    assert run([]) == (0, b"", b"")


@pytest.mark.parametrize(
    "line",
    [
        b"",
        b"connect 1",
        b"connect 1 0 ",
        b" connect 1 0",
        b"connect  1 0",
        b"connect 1 0\r",
        b"connect 18446744073709551616 0",
        b"connect 000000000000000000001 0",
        b"connect -1 0",
        b"connect 0x1 0",
        b"store 1 0 1 0 0 f",
        b"store 1 0 1 0 0 fg",
        b"map 1 0 a 0 3 shared reserve",
        b"fork 1",
        b"no such command",
        b"\x00\x80\xff",
        pytest.param(1024 * b"a", id="1,024 bytes"),
    ],
)
def test_goes_on_after_broken_lines(run: Run, line: bytes) -> None:
    assert run([], line + b"\nnr 3\n") == (0, BAD_LINE + b"ok 3\n", b"")


@pytest.mark.parametrize("length", [1025, 300_000])
def test_goes_on_after_long_lines(run: Run, length: int) -> None:
    assert run([], b"nr 4\n" + length * b"a" + b"\nconnect 1 0\n") == (
        0,
        b"ok 4\nerror 22 LineTooLong\nok\n",
        b"",
    )


@each_case
def test_answers_while_a_client_waits(program: Path, case: Case) -> None:
    """A client that sends a line only once it has the reply to the one before."""
    client = Client(program, ["script", *case.words])
    for line, expected in case.lines():
        if line.endswith(b"\n"):
            assert client.ask(line) == expected, line
        else:
            client.input.write(line)
    rest = b"" if case.script.endswith(b"\n") else case.lines()[-1][1]
    assert client.close() == (0, rest, b"")


@each_limit
def test_answers_at_the_limits(run: Run, words: list[str], lines: list[str], refused: list[str]) -> None:
    """With ample memory nothing is given up at a size that the limits allow."""
    status, output, faults = run(words, text_of(lines))
    replies = replies_in(output)
    assert (status, len(replies), faults) == (0, len(lines), b"")
    assert [each.decode().strip() for each in replies if each.startswith(b"error")] == refused


def test_undoes_a_refused_fork(run: Run) -> None:
    """A fork that is refused on its second slot leaves no map of the child on the first, and no child."""
    maps = 2049
    before = ["nr 4", "connect 1 0", "create 0 a", "map 1 0 a 0 1 shared", "anon 1 1 private"]
    before += ["store 1 0 2 0 0 61", "mount 1 -", "create 1 b", *maps * ["map 1 1 b 0 1 shared noreserve"]]
    answers = {
        "fork 1 2": ["error 20 TooMany"],
        "attach 2; stat 0 a; stat 1 b": ["error 6 NoSuchTask", "ok 1 0 1 1", "ok 1 0 0 2049"],
        "unmap 1 1 1 0 1; fork 1 2; attach 2; load 2 0 2 0 0 1": ["ok", "ok", "ok 0", "ok 61"],
        "stat 0 a; stat 1 b; exit 2; stat 0 a": ["ok 1 0 1 2", "ok 1 0 0 4096", "ok", "ok 1 0 1 1"],
    }
    after = [line for lines in answers for line in lines.split("; ")]
    replies = text_of(reply for them in answers.values() for reply in them)
    status, output, faults = run([], text_of([*before, *after]))
    assert (status, output[-len(replies) :], faults) == (0, replies, b"")


def test_unmaps_each_second_page(run: Run) -> None:
    """No unmap of a page among 65,536 wants memory."""
    script = b"nr 65536\nconnect 1 0\nanon 1 65536 private\n" + b"".join(
        b"unmap 1 0 1 %d %d\n" % (at, at + 1) for at in range(0, 65536, 2)
    )
    replies = b"ok 65536\nok\nok 1\n" + 32768 * b"ok\n" + b"ok\n"
    assert run(["--frames", "65536"], script + b"exit 1\n") == (0, replies, b"")
