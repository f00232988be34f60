"""What the documents show of the tools is what they print."""
import io
import re

import pytest
from pathlib import Path
from built import Block, blocks_of
from common import EXAMPLES, PROGRAM, TOP, answer_of, run

from hugetlb import command, refusals, talk
from hugetlb_session import Session

TUTORIAL = TOP / "docs/TUTORIAL.md"
DOCUMENTS = [TOP / "README.md", TUTORIAL]
PAGES = sorted(
    it
    for pattern in ("*.md", "docs/**/*.md", "bench/*.md", "crates/*/README.md", "tests/**/*.md")
    for it in TOP.glob(pattern)
    if "```" in it.read_text()
)
TRANSCRIPT = re.compile(r"(<!-- transcript: (\w+) (\d+) (\d+) -->\n```text\n).*?(```\n)", re.DOTALL)
PLAN = re.compile(r"(<!-- plan: (\S+) -->\n```text\n\$ [^\n]*\n).*?(```\n)", re.DOTALL)
FILE = re.compile(r"(<!-- file: (\S+) -->\n```toml\n).*?(```\n)", re.DOTALL)


def transcript(name: str, first: int, last: int) -> str:
    """What the tool prints for some lines of an example, which it has run from the start."""
    script = EXAMPLES / f"{name}.script"
    machine = command.machine_words(command.words_of(command.parse([str(script)])))
    words = [word for option, value in machine.items() for word in (f"--{option}", value)]
    out = io.StringIO()
    with Session.over_pipe([PROGRAM, "script", *words]) as session:
        says = talk.Script(io.StringIO())
        said = talk.Talk(session, refusals.Machine(machine["frames"], True), says)
        for number, line in enumerate(command.lines_of(script), 1):
            if number == first:
                says.out = out
                says.head()
            if number == last + 1:
                says.out = io.StringIO()
            said.take(number, line)
    return out.getvalue()


def made(text: str) -> str:
    """A document with its blocks made anew."""
    text = TRANSCRIPT.sub(
        lambda found: found[1] + transcript(found[2], int(found[3]), int(found[4])) + found[5], text
    )
    text = PLAN.sub(lambda found: found[1] + run(["plan", found[2]], cwd=TOP)[1] + found[3], text)
    return FILE.sub(lambda found: found[1] + (TOP / found[2]).read_text() + found[3], text)


@pytest.mark.parametrize("document", DOCUMENTS, ids=[it.name for it in DOCUMENTS])
def test_blocks_are_what_is_printed(document: Path) -> None:
    assert made(document.read_text()) == document.read_text()


def test_there_are_blocks() -> None:
    texts = [document.read_text() for document in DOCUMENTS]
    assert len(PLAN.findall(texts[0])) == 1
    assert (len(PLAN.findall(texts[1])), len(TRANSCRIPT.findall(texts[1])), len(FILE.findall(texts[1]))) == (
        1,
        3,
        1,
    )


def is_run(text: str, block: Block) -> bool:
    """Whether a test runs this block of a page: by its fence, or by what stands before it."""
    lines = text.splitlines()
    at = int(block.place.rpartition(":")[2])
    before = next((line for line in reversed(lines[: at - 1]) if line), "")
    is_marked = re.fullmatch(r"<!-- (file|plan|transcript|answers): .* -->", before) is not None
    is_shown = before == "It prints:" or block.lines[0].startswith("$ out/hugetlbd serve ")
    kinds = {"script": True, "replies": True, "python": True, "sh": True, "toml": is_marked}
    return kinds.get(block.head[0] if block.head else "", is_marked or is_shown)


@pytest.mark.parametrize("document", PAGES, ids=[str(it.relative_to(TOP)) for it in PAGES])
def test_each_block_is_run(document: Path) -> None:
    """No page has a block that no test looks at."""
    text = document.read_text()
    assert [it.place for it in blocks_of(document) if not is_run(text, it)] == []


def test_pictures_are_there() -> None:
    for document in DOCUMENTS:
        for picture in re.findall(r"\]\(([\w./-]+\.svg)\)", document.read_text()):
            assert (document.parent / picture).exists(), picture


@pytest.mark.parametrize(
    "line",
    re.findall(
        r"^    tools/hugetlbctl (plan .+|observe.*|who|examples.+)$", TUTORIAL.read_text(), re.MULTILINE
    ),
)
def test_commands(line: str, tmp_path: Path) -> None:
    """The commands of the tutorial run, one after another as they stand."""
    (tmp_path / "host.toml").write_text((EXAMPLES / "plan.toml").read_text())
    given = line.split(" > ")[0].split()
    words = [TOP / word if word.startswith("examples/") else word for word in given]
    status, _, faults = run(words, cwd=tmp_path)
    # (a node of the example can't hold its guests and all else)
    assert (status, faults) == (1 if "--worst" in words else 0, "")


def test_what_a_snapshot_costs() -> None:
    """A store has written six of its eight pages, rewrites them, and its child reads all: 16 pages are
    whole, and 15 lose."""
    lines = [
        "connect 1 0",
        "anon 1 8 private",
        *(f"store 1 0 1 {at} 0 61" for at in range(6)),
        "fork 1 2",
        *(f"load 2 0 1 {at} 0 1" for at in range(8)),
        *(f"store 1 0 1 {at} 0 62" for at in range(6)),
        *(f"load 2 0 1 {at} 0 1" for at in range(8)),
    ]
    for pages, refused in ((16, []), (15, ["error 5 TakenByOwner"]), (14, 2 * ["error 5 TakenByOwner"])):
        replies = (
            answer_of("".join(f"{line}\n" for line in [f"nr {pages}", *lines]).encode(), ["--frames", "16"])
            .decode()
            .splitlines()
        )
        assert [reply for reply in replies if reply.startswith("error ")] == refused


def write() -> None:
    for document in DOCUMENTS:
        document.write_text(made(document.read_text()))
