"""Scripts, words of the command line, and what is said where something is wrong."""
import io
import os
import shutil
import socket
import subprocess
import sys
from collections.abc import Sequence

import built
import pytest
from pathlib import Path
from common import PROGRAM, TOOL, TOP, must_hold, run

from hugetlb import lines, refusals, talk
from hugetlb_session import Line, Reply, Session


def name_of(script: Path) -> str:
    return script.stem


def test_takes_scripts() -> None:
    """Comments, empty lines, ranges, ends of DOS, lines that are not sent, options beside the script, and
    none at all."""
    status, output, faults = run(
        [],
        "# a comment\n\nnr 4   # and one here\nconnect 1 0\nanon 1 4 private\n"
        "fault 1 0 1 0..3 write\nload 1 0 1 2..3 0 1\n",
    )
    assert (status, faults) == (0, "")
    must_hold(
        output,
        "# a comment\n",
        "\nnr 4  ",
        "fault 1 0 1 0..3 write                       4 x ok                    4      0      0      0\n",
        "2 x ok",
    )
    must_hold(run([], b"nr 4\r\n")[1], "nr 4\\r", "carriage return")
    must_hold(
        run([], b"nr \xff\xfe\n" + 1025 * b"a" + b"\nnr 4\n")[1],
        "no visible ASCII",
        "not sent: a line has at most 1,024 bytes",
        "ok 4",
    )
    must_hold(
        run([], "fault 1 0 1 3..1 read\nfault 1 0..1 1 0..1 read\n")[1],
        "a range goes up",
        "a line may have one range",
    )
    must_hold(run([], "create 0 1..3\nls 0\n")[1], "\n    1..3\n")
    assert run([], "") == (0, "", "")
    must_hold(
        run(["--frames", "3", "--page", "2048", "--slots=1"], "nr 9\nmeminfo\nmount 1 -\n")[1],
        "ok 3",
        "2 kB",
        "error 8 NoSuchSlot",
    )


def test_options_given_keep_those_beside_the_script(tmp_path: Path) -> None:
    script = tmp_path / "some.script"
    script.write_text("nr 99\nmeminfo\nmount 5 -\n")
    script.with_suffix(".words").write_text("--frames 5,6 --page=4096 --slots 6\n")
    must_hold(run([script])[1], "ok 11", "4 kB", "mount 5 -                                    ok")
    must_hold(
        run([script, "--frames", "2"])[1], "ok 2", "4 kB", "mount 5 -                                    ok"
    )


def test_odd_words_end_in_no_traceback(tmp_path: Path) -> None:
    """A range of 4,300 digits, a comment and a file name that are not UTF-8, a port that is none."""
    status, output, faults = run(
        [], f"fault 1 0 1 0..{'9' * 900} write\nnr 0..{'1' * 4300}\n".encode() + b"# \xff\xfe\n"
    )
    assert (status, faults) == (0, "")
    must_hold(output, "error 21 BadLine", "not sent: a line has at most")
    odd = os.path.join(os.fsencode(tmp_path), b"odd-\xff.script")
    with open(odd, "wb") as file:
        file.write(b"nr 4\n")
    picture = tmp_path / "odd.svg"
    ran = subprocess.run(
        [sys.executable, TOOL, "--svg", picture, odd],
        capture_output=True,
        env={"PATH": os.environ["PATH"], "HUGETLBD": str(PROGRAM)},
    )
    assert (ran.returncode, ran.stderr) == (0, b"") and "odd-\\udcff" in picture.read_text()
    ran = subprocess.run(
        [sys.executable, TOOL, odd + b"x"],
        capture_output=True,
        env={"PATH": os.environ["PATH"], "HUGETLBD": str(PROGRAM)},
    )
    assert ran.returncode == 1 and b"No such file" in ran.stderr and b"Traceback" not in ran.stderr
    for word in ("99999", "-1", "http", "65536", "9" * 5000):
        for option in ("--port", "--watch", "--end"):
            status, _, faults = run([f"{option}={word}"], "nr 4\n")
            assert status == 2 and "a port is a number from 0 to 65535" in faults


def test_tells_of_what_is_wrong() -> None:
    """No program, wrong words, a program that ends, a server that is not there, a reader that left."""
    status, _, faults = run([], "nr 4\n", {"HUGETLBD": "/nowhere/hugetlbd"})
    assert (status, faults) == (1, "hugetlbctl: /nowhere/hugetlbd: No such file or directory\n")
    assert run(["--slots", "0"], "nr 4\n")[::2] == (
        1,
        "hugetlbctl: the program ended with status 2: hugetlbd: bad value for --slots\n",
    )
    for words in (
        ["--nothing"],
        ["--port", "1", "--page", "1024"],
        ["--listen", "0"],
        ["--prometheus", "--listen", "0"],
        ["--pid", "1"],
    ):
        assert run(words)[0] == 2
    with socket.create_server(("127.0.0.1", 0)) as server:
        free = server.getsockname()[1]
    status, _, faults = run(["--port", free], "nr 4\n")
    assert (status, faults) == (
        1,
        f"hugetlbctl: no server listens at port {free} of this machine: the connection was refused\n",
    )
    reads_one = subprocess.run(
        f"yes meminfo | head -20000 | {TOOL} | head -1",
        shell=True,
        capture_output=True,
        timeout=built.SECONDS,
        env={"PATH": os.environ["PATH"], "HUGETLBD": str(PROGRAM)},
    )
    assert reads_one.stderr == b""


def test_one_reply_that_does_not_come() -> None:
    with socket.create_server(("127.0.0.1", 0)) as server, Session.over_socket(
        server.getsockname()[1], seconds=0.1
    ) as session:
        try:
            session.reply("nr 4")
        except TimeoutError as error:
            assert str(error) == "1 reply did not come in 0.1 seconds"
        else:
            raise AssertionError("no TimeoutError")


def test_many_lines_are_sent_at_once() -> None:
    """Of 50,000 lines many are under way at a time: the tool waits for replies a few times, and not once a
    line."""
    calls = list[int]()

    class Counted(Session):
        def replies(self, lines: Sequence[Line], are_last: bool = False) -> list[Reply]:
            calls.append(len(lines))
            return super().replies(lines, are_last)

    lines = [
        "connect 1 0",
        "nr 8",
        "anon 1 8 private",
        *(f"fault 1 0 1 {at % 8} write" for at in range(50_000)),
    ]
    with Counted.over_pipe([PROGRAM, "script"]) as session:
        said = talk.Talk(session, refusals.Machine("4,4", True), talk.Script(io.StringIO()))
        said.take_all(enumerate(lines, 1))
    assert len(said.rows) == len(lines) and len(calls) < 10 and not any(row.is_refused() for row in said.rows)


def test_version() -> None:
    from hugetlb.program import version

    told = subprocess.run([PROGRAM, "--version"], capture_output=True, text=True).stdout.split()[1]
    assert run(["--version"]) == (0, f"hugetlbctl {version()}\n", "")
    assert version() == told


def test_takes_what_run_would(tmp_path: Path) -> None:
    """In the repository the tool takes the program that ./run would, and says its word about proof; a proved
    one stands before."""
    top = tmp_path / "repository"
    for folder in (".ci", "crates/a/src", "crates/a/specs", "crates/a/proofs", "out/quick"):
        (top / folder).mkdir(parents=True)
    (top / "crates.txt").write_text("a\n")
    shutil.copytree(TOP / "tools", top / "tools")
    for name in ("choose", "programs"):
        shutil.copy(TOP / ".ci" / name, top / ".ci")
    quick, proved = top / "out/quick/hugetlbd", top / "out/hugetlbd"

    def answers() -> tuple[int, bool, str]:
        ran = subprocess.run(
            [sys.executable, top / "tools/hugetlbctl"],
            input="nr 4\n",
            capture_output=True,
            text=True,
            env={"PATH": os.environ["PATH"]},
        )
        return ran.returncode, "ok 4" in ran.stdout, ran.stderr

    def begun(program: Path) -> None:
        """The program is noted as one that was built of the sources that are there."""
        words = (
            f'top={top}; . "$top/.ci/programs"; begins "{program}"; mv "{program}.begun" "{program}.built"'
        )
        subprocess.run(["bash", "-euc", words], check=True)

    shutil.copy(PROGRAM, quick)
    begun(quick)
    quick.with_name("hugetlbd.minutes").write_text("some 18 minutes\n")
    assert answers() == (
        0,
        True,
        "hugetlbctl: this build is not proved on this machine; ./prove proves it, in some 18 minutes\n",
    )
    shutil.copy(PROGRAM, proved)
    begun(proved)
    assert answers() == (0, True, "")


@pytest.mark.parametrize(
    "script", sorted([*TOP.glob("examples/*.script"), *TOP.glob("tests/rows/*.script")]), ids=name_of
)
def test_script_is_plain(script: Path) -> None:
    """A file named .script is for ./run as it is: it has no comments and no ranges, which are the tool's own
    and stand in files named .annotated."""
    for line in script.read_bytes().decode("latin-1").split("\n"):
        assert lines.expand(lines.without_comment(line)) == [line]
