"""The programs that were built, how tests run them, and scripts with the replies that they must get."""
import os
import re
import selectors
import subprocess
import sys
from collections.abc import Callable, Iterable, Iterator, Mapping, Sequence
from dataclasses import dataclass
from pathlib import Path
from typing import IO, Protocol

import pytest

TOP = Path(__file__).resolve().parent.parent
sys.dont_write_bytecode = True
sys.path.insert(0, str(TOP / "tools"))
# The one program that is tested, or the proved one; with this also the build that Rattle's own compiler makes
# of it, where it stands beside.
NAMED = os.environ.get("HUGETLBD_TESTED")
PROGRAM = Path(NAMED or TOP / "crates/hugetlbd/out/hugetlbd").resolve()
PROGRAMS = [PROGRAM] if NAMED else [PROGRAM, *PROGRAM.parent.glob("hugetlbd.by-rattle")]
QUICK = TOP / "out/quick/hugetlbd"
# A run that has not answered by then has hung, also on a slow machine.
SECONDS = 60
OUT_OF_MEMORY = b"hugetlbd: out of memory\n"

# The words of a program, and how a run of it ended: its status, its output and its standard error.
Words = Sequence[str | bytes]
Ran = tuple[int, bytes, bytes]


class Run(Protocol):
    """Runs the program on a script, or on an open file, and answers status, output and standard error."""

    def __call__(
        self,
        words: Words,
        script: bytes | int | IO[bytes] = b"",
        output: int | IO[bytes] = subprocess.PIPE,
        environment: Mapping[str, str] | None = None,
        faults: int | IO[bytes] = subprocess.PIPE,
        seconds: float = SECONDS,
    ) -> Ran:
        ...


def version() -> str:
    """The version that the program's sources have: it stands there alone."""
    config = (TOP / "crates/hp_words/src/config.rt").read_text()
    found = re.search(r'"hugetlbd ([^"\\]+)\\n"', config)
    assert found, "config.rt has no version"
    return found[1]


def version_line(program: Path) -> bytes:
    """What a program prints for --version: one that .ci/quick built says that it has no proofs."""
    has_word = b"(built without proofs)\n" in program.read_bytes()
    return f"hugetlbd {version()}{' (built without proofs)' if has_word else ''}\n".encode()


def name_of(program: Path) -> str:
    return "quick" if program == QUICK else program.name


def each_of(programs: Sequence[Path]) -> Callable[[pytest.FixtureRequest], Path]:
    """A fixture that gives a test each of these programs, one after another."""

    @pytest.fixture(scope="module", params=programs, ids=name_of)
    def program(request: pytest.FixtureRequest) -> Path:
        chosen: Path = request.param
        return chosen

    return program


def text_of(lines: Iterable[str]) -> bytes:
    """A script of these lines."""
    return "".join(f"{line}\n" for line in lines).encode()


@dataclass(frozen=True)
class Case:
    """A script, the words of its machine, and its replies: those to each line, as one text."""

    name: str
    words: list[str]
    script: bytes
    expected: bytes

    @classmethod
    def read(cls, script: Path) -> "Case":
        """The case of a script, whose words and replies stand beside it."""
        words = script.with_suffix(".words")
        given = words.read_text().split() if words.exists() else []
        return cls(script.stem, given, script.read_bytes(), script.with_suffix(".replies").read_bytes())

    def lines(self) -> list[tuple[bytes, bytes]]:
        """Each line with its end, and the reply to it."""
        replies = replies_in(self.expected)
        return list(zip(self.script.splitlines(keepends=True), replies, strict=True))


def replies_in(text: bytes) -> list[bytes]:
    """Cuts a text into replies, of which one that begins `text N` has N more lines."""
    lines = text.splitlines(keepends=True)
    replies: list[bytes] = []
    at = 0
    while at < len(lines):
        end = at + 1 + (int(lines[at].split()[1]) if lines[at].startswith(b"text ") else 0)
        replies.append(b"".join(lines[at:end]))
        at = end
    return replies


def cases() -> list[Case]:
    """The scripts with replies: the worked rows and the examples."""
    found = [*(TOP / "tests/rows").glob("*.script"), *(TOP / "examples").glob("*.script")]
    assert found, "no script was found"
    return [Case.read(script) for script in sorted(found)]


def name_of_case(case: Case) -> str:
    return case.name


each_case = pytest.mark.parametrize("case", cases(), ids=name_of_case)


@dataclass
class Block:
    """A block of a document: its place, the words behind its fence, and its lines."""

    place: str
    head: list[str]
    lines: list[str]


@dataclass
class Shown:
    """A run that a document shows: its place, its words, its script and its replies."""

    place: str
    words: list[str]
    script: bytes
    replies: bytes


def blocks_of(document: Path) -> list[Block]:
    found: list[Block] = []
    opened: Block | None = None
    for at, line in enumerate(document.read_text().splitlines(), 1):
        if line.startswith("```"):
            if opened:
                found.append(opened)
            opened = None if opened else Block(f"{document.relative_to(TOP)}:{at}", line[3:].split(), [])
        elif opened:
            opened.lines.append(line)
    return found


def runs_of_shell(lines: list[str]) -> Iterator[tuple[list[str], str | Path]]:
    """The runs of a block for a shell, with words and script: a file, or the lines up to END."""
    for at, line in enumerate(lines):
        words, _, rest = line.partition(" <")
        if not line.startswith("./run") or not rest:
            continue
        if rest == "<'END'":
            yield words.split()[1:], "".join(f"{it}\n" for it in lines[at + 1 : lines.index("END", at)])
        else:
            yield words.split()[1:], TOP / rest.strip()


def runs_of(block: Block) -> list[tuple[list[str], str | Path]]:
    """The runs that a block shows, with their words and scripts."""
    if block.head[:1] == ["script"]:
        return [(block.head[1:], "".join(f"{it}\n" for it in block.lines))]
    return list(runs_of_shell(block.lines)) if block.head == ["sh"] else []


def pasted() -> Iterator[Shown]:
    """What the documents show of runs. The replies stand behind the block, or beside the file."""
    for document in sorted([TOP / "README.md", *TOP.glob("docs/**/*.md"), *TOP.glob("crates/*/README.md")]):
        blocks = blocks_of(document)
        for at, block in enumerate(blocks):
            for words, script in runs_of(block):
                if isinstance(script, Path):
                    replies = script.with_suffix(".replies").read_bytes()
                    yield Shown(block.place, words, script.read_bytes(), replies)
                    continue
                behind = blocks[at + 1] if at + 1 < len(blocks) else None
                assert behind and behind.head == [
                    "replies"
                ], f"{block.place}: no replies stand behind this block"
                yield Shown(block.place, words, script.encode(), text_of(behind.lines))


@dataclass(frozen=True)
class Memory:
    """The preloaded counter of a program's calls for memory, which can refuse one of them."""

    library: Path
    report: Path

    def environment(self, refused: int = 0, above: int = 0) -> dict[str, str]:
        """What a program is started with so that its call of this number gets no memory, or each for more
        bytes than these; 0: each does."""
        return {
            "LD_PRELOAD": str(self.library),
            "REFUSE_AT": str(refused),
            "REFUSE_ABOVE": str(above),
            "REFUSE_REPORT": str(self.report),
        }

    def told(self) -> tuple[int, int, int]:
        """After the run: the calls made, the blocks still held, and the most bytes held at one time; none
        after an abort."""
        if not self.report.exists():
            return 0, 0, 0
        calls, held, most = (int(number) for number in self.report.read_text().split())
        self.report.unlink()
        return calls, held, most


class Client:
    """A client that gives the program one line at a time, and waits for its reply."""

    def __init__(self, program: Path, words: Words, environment: Mapping[str, str] | None = None) -> None:
        pipe = subprocess.PIPE
        self.program = subprocess.Popen(
            [program, *words], bufsize=0, env=environment or {}, stdin=pipe, stdout=pipe, stderr=pipe
        )
        assert self.program.stdin and self.program.stdout
        self.input, self.output = self.program.stdin, self.program.stdout
        self.selector = selectors.DefaultSelector()
        self.selector.register(self.output, selectors.EVENT_READ)
        self.left = b""

    def line(self) -> bytes:
        """The next line of the output, or what there is at its end."""
        while b"\n" not in self.left:
            if not self.selector.select(SECONDS):
                self.program.kill()
                raise AssertionError("no reply came to a line while the client waited for it")
            more = os.read(self.output.fileno(), 65536)
            if not more:
                break
            self.left += more
        line, end, self.left = self.left.partition(b"\n")
        return line + end

    def ask(self, line: bytes) -> bytes:
        """Writes the line and answers the reply; nothing where the program has ended."""
        try:
            self.input.write(line)
        except BrokenPipeError:
            return b""
        reply = self.line()
        count = int(reply.split()[1]) if reply.startswith(b"text ") else 0
        return reply + b"".join(self.line() for _ in range(count))

    def close(self) -> Ran:
        """Ends the input, and answers the status, what was still written, and the words on standard error."""
        try:
            output, faults = self.program.communicate(timeout=SECONDS)
        except subprocess.TimeoutExpired:
            self.program.kill()
            raise AssertionError("the program did not end at its input's end") from None
        self.selector.close()
        return self.program.returncode, self.left + output, faults
