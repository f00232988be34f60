"""Slips and refusals: what was wrong in a line, and what was short."""
import random
import re
from collections.abc import Iterable

import pytest
from pathlib import Path
from common import PROGRAM, TOP, TRANSCRIPTS, answer_of, must_hold, run

from built import cases, replies_in
from hugetlb import faults, lines, refusals, talk
from hugetlb.command import MACHINE
from hugetlb_session import FORMS, BadLine, Session

BAD_LINE = b"error 21 BadLine\n"


def name_of(script: Path) -> str:
    return script.stem


@pytest.mark.parametrize("script", sorted(TRANSCRIPTS.glob("*.annotated")), ids=name_of)
def test_transcript(script: Path) -> None:
    """The stored transcripts of slips and refusals: what was wrong in each line, how it is written, and what
    was short."""
    assert run([script]) == (0, script.with_suffix(".transcript").read_text(), "")


def test_finds_a_fault_where_there_is_one() -> None:
    """Broken in many ways, a line that the program answers BadLine has a fault that is told, and one that it
    reads has none."""
    chance = random.Random(41)
    tried = [
        line.decode()
        for case in cases()
        for line in case.script.splitlines()
        if len(line) < 60 and not line.startswith(b"a" * 30)
    ]
    tried += [f"{command} " + " ".join("1" for _ in form.places) for command, form in FORMS.items()]
    for _ in range(6000):
        line = chance.choice(tried)
        words = line.split(" ")
        at, place = chance.randrange(len(words)), chance.randrange(len(line) + 1)
        line = chance.choice(
            [
                line[:place] + chance.choice(" \t\r;é-.kK0xfF1,\"'_/") + line[place:],
                line[:place] + line[place + 1 :],
                " ".join(words[:at] + words[at + 1 :]),
                " ".join(words[:at] + [words[chance.randrange(len(words))]] + words[at:]),
                line.upper(),
                line.replace("shared", "private"),
                line + " ",
                line + "9" * 20,
            ]
        )
        if line and "\n" not in line:
            tried.append(line)
    replies = replies_in(answer_of("".join(line + "\n" for line in tried).encode()))
    for line, reply in zip(tried, replies, strict=True):
        found = faults.bad_line(line)[0]
        assert (reply == BAD_LINE) == (found != faults.NO_FAULT), line


class Heard:
    """What a talk says, kept."""

    def __init__(self) -> None:
        self.rows: list[tuple[talk.Row, list[str]]] = []

    def row(self, row: talk.Row, why: Iterable[str]) -> None:
        self.rows.append((row, [*why]))

    def comment(self, _line: str) -> None:
        pass

    def unsent(self, _line: str, _fault: BadLine) -> None:
        pass


def heard(options: dict[str, str], lines_: list[str]) -> list[tuple[talk.Row, list[str]]]:
    """Each row of a script with its explanation, as the tool says them."""
    machine = MACHINE | options
    with Session.over_pipe(
        [PROGRAM, "script", *(word for name, value in machine.items() for word in (f"--{name}", value))]
    ) as session:
        said = Heard()
        talk.Talk(session, refusals.Machine(machine["frames"], True), said).take_all(enumerate(lines_, 1))
    return said.rows


def is_granted(options: dict[str, str], before: list[str], line: str) -> bool:
    words = [word for name, value in (MACHINE | options).items() for word in (f"--{name}", value)]
    asked = [one for it in [*before, line] for one in lines.expand(lines.without_comment(it)) if one]
    with Session.over_pipe([PROGRAM, "script", *words]) as session:
        replies = session.replies(asked)
    return all(reply[0] != "error 2 NoPages" for reply in replies[-len(lines.expand(line)) :])


RANGES = [
    ["nr 4", "connect 1 0", "create 0 f", "map 1 0 f 0 8 shared noreserve", "fault 1 0 1 0..7 write"],
    ["nr 6", "connect 1 0", "anon 1 1..4 private"],
    [
        "nr 5",
        "mount 1 size=6K,min_size=2K",
        "create 1 f",
        "connect 1 0",
        "connect 2 0",
        "anon 2 2 private",
        "map 1 1 f 0 6 shared noreserve",
        "fault 1 1 1 0..5 write",
    ],
    [
        "nr 3",
        "connect 1 0",
        "anon 1 3 private",
        "fault 1 0 1 0..2 write",
        "fork 1 2",
        "fault 2 0 1 0..2 write",
    ],
    ["nr 4", "mount 1..3 min_size=2K"],
]


def test_gives_numbers_that_do() -> None:
    """Where it names an nr or an overcommit that would do, each does, and one less does not: for lines, and
    for all that a range stands for."""
    tried, of_ranges = 0, 0
    scripts = [(case.words, case.script.decode("latin-1").splitlines()) for case in cases()]
    scripts.append(([], (TRANSCRIPTS / "refusals.annotated").read_text().splitlines()))
    scripts += [(list[str](), lines_) for lines_ in RANGES]
    for words, script in scripts:
        options = dict(zip((word.removeprefix("--") for word in words[::2]), words[1::2]))
        script = [line for line in map(lines.without_comment, script) if line and len(line) <= 1024]
        for row, why in heard(options, script):
            found = re.search(r"`nr (\d+)` or `overcommit (\d+)` would do", "\n".join(why))
            for command, number in zip(("nr", "overcommit"), map(int, found.groups() if found else ())):
                tried += 1
                of_ranges += ".." in row.line
                for pages, does in ((number, True), (number - 1, False)):
                    assert (
                        is_granted(options, [*script[: row.number - 1], f"{command} {pages}"], row.line)
                        == does
                    ), (row.line, command, pages)
    assert tried > 20 and of_ranges >= 8


def test_a_range_tells_what_all_of_it_lacks() -> None:
    *_, (row, why) = heard({}, RANGES[0])
    assert row.reply == "4 x ok; 4 x error 2 NoPages"
    assert why == [
        "4 pages short of nr and overcommit: 4 pages more would be committed, "
        "beside 4 in use or reserved, and nr 4 with overcommit 0 allows 4",
        "`nr 8` or `overcommit 4` would do",
    ]
    *_, (row, why) = heard(
        {},
        [
            "nr 1",
            "connect 1 0",
            "mount 1 size=2K",
            "create 1 f",
            "map 1 1 f 0 5 shared noreserve",
            "fault 1 1 1 0..4 write",
        ],
    )
    assert (
        row.reply == "1 x ok; 1 x error 2 NoPages; 3 x error 3 MountFull"
        or "MountFull" in row.reply
        or "NoPages" in row.reply
    )
    assert why


def test_knows_the_lines_of_the_document() -> None:
    """Its forms, and what it says of each, are those of docs/PROTOCOL.md."""
    told = (TOP / "docs/PROTOCOL.md").read_text().split("\n## Lines\n")[1].split("\n## ")[0]
    rows = [
        [cell.strip() for cell in re.split(r"(?<!\\)\|", row)[1:3]]
        for row in told.splitlines()
        if row.startswith("| `")
    ]
    forms = {cells[0].strip("`").replace("\\|", "|"): cells[1] for cells in rows}
    assert sorted(forms) == sorted(lines.form_of(command) for command in FORMS)
    for command in FORMS:
        must_hold(FORMS[command].what, forms[lines.form_of(command)])
