"""The scripts that ran on a real Linux kernel: each answer is the kernel's, or stands in differences.tsv.

The answers side by side in docs/KERNEL.md must be these too.
"""
import re
from collections.abc import Iterator
from pathlib import Path

import cases
import pytest
from built import PROGRAM, TOP

DOCUMENT = TOP / "docs/KERNEL.md"
BLOCK = re.compile(r"(<!-- answers: ([\w-]+) (\d+) -->\n```text\n).*?(```\n)", re.DOTALL)
SCRIPTS, KNOWN = cases.scripts(), cases.differences()


def answers_of(program: Path, script: cases.Script) -> list[str]:
    ran = cases.run(program, script)
    assert (ran.returncode, ran.stderr) == (0, ""), script.name
    return script.answers(ran.stdout)


def faults_of(script: cases.Script, answers: list[str]) -> Iterator[str]:
    """What is wrong with a script's answers, in words."""
    stored = cases.stored(script.name)
    for number, (line, of_kernel, answer) in enumerate(zip(script.lines, stored, answers), 1):
        where, known = f"line {number}, {line}", KNOWN.get((script.name, number))
        agrees = cases.agrees(of_kernel, answer)
        if known is None:
            if not agrees:
                yield f"{where}: the kernel `{of_kernel}`, the program `{answer}`"
        elif known.kernel != of_kernel:
            yield f"{where}: differences.tsv has `{known.kernel}` for the kernel, stored is `{of_kernel}`"
        elif answer != known.program:
            yield f"{where}: {known.name} says `{known.program}`, the program `{answer}`"
        elif agrees:
            yield f"{where}: {known.name} is no difference any more"


def side_by_side(script: cases.Script, answers: list[str], count: int) -> str:
    """The first lines of a script with the answers of both, and a mark where they differ."""
    rows = [("", "Linux 6.18", "hugetlbd", "")]
    for number, row in enumerate(zip(script.lines[:count], cases.stored(script.name), answers), 1):
        line, of_kernel, answer = row
        mark = "<" if (script.name, number) in KNOWN else ""
        rows.append((line, in_columns(of_kernel), in_columns(answer), mark))
    width, left, right = (max(len(row[at]) for row in rows) for at in range(3))
    return "".join(f"{a:{width}}  {b:{left}}  {c:{right}}  {d}".rstrip() + "\n" for a, b, c, d in rows)


def in_columns(answer: str) -> str:
    reply, _, counts = answer.removeprefix("refused # ").partition("\t")
    return f"{reply:20} {counts}".rstrip()


def document(program: Path) -> str:
    """The document with its blocks made anew."""

    def block(found: re.Match[str]) -> str:
        named = cases.scripts([found[2]])
        assert named, f"docs/KERNEL.md: no script {found[2]}"
        return found[1] + side_by_side(named[0], answers_of(program, named[0]), int(found[3])) + found[4]

    return BLOCK.sub(block, DOCUMENT.read_text())


def write() -> None:
    DOCUMENT.write_text(document(PROGRAM))


def name_of(script: cases.Script) -> str:
    return script.name


@pytest.mark.parametrize("script", SCRIPTS, ids=name_of)
def test_answers_as_the_kernel(program: Path, script: cases.Script) -> None:
    answers = answers_of(program, script)
    assert len(cases.stored(script.name)) == len(answers) == len(script.lines)
    assert list(faults_of(script, answers)) == []


def test_differences_are_of_scripts() -> None:
    assert {name for name, _ in KNOWN} - {it.name for it in SCRIPTS} == set()


def test_document_shows_the_answers(program: Path) -> None:
    """What docs/KERNEL.md shows is what is answered: else .ci/tests --write."""
    assert document(program) == DOCUMENT.read_text()


def test_document_tells_of_all() -> None:
    """docs/KERNEL.md has the numbers of answers, and tells of each difference."""
    assert SCRIPTS
    alike, text = sum(len(it.lines) for it in SCRIPTS) - len(KNOWN), DOCUMENT.read_text()
    told = f"Of the answers to {len(SCRIPTS)} scripts {alike:,} are the kernel's. {len(KNOWN)} are not"
    assert told in text
    assert set(re.findall(r"\b(\d+) scripts\b", text)) == {str(len(SCRIPTS))}
    assert sorted({it.name for it in KNOWN.values()} - set(re.findall(r"### `(.*)`", text))) == []
