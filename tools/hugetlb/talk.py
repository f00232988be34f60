"""Lines with their replies and counts: a script as a table, and what is said at the prompt."""
from collections.abc import Callable, Iterable, Sequence
from dataclasses import dataclass
from typing import Protocol, TextIO

from hugetlb_session import FORMS, LINE_BYTES, BadLine, Line, Meminfo, Reply, Session, sendable, value_of

from .lines import LETTERS, expand, form_of, printable, without_comment
from .refusals import Answers, Machine, questions

# how many lines go out before their replies are read
AT_ONCE = 20_000

# Total, Free, Rsvd and Surp
Counts = tuple[int, int, int, int]


@dataclass(frozen=True, slots=True)
class Row:
    """A line of a script, its reply and the counts after it."""

    number: int
    line: str
    reply: str
    more: Sequence[str]
    counts: Counts

    def is_refused(self) -> bool:
        return "error " in self.reply


class Says(Protocol):
    """What is said of lines."""

    def comment(self, line: str, /) -> None:
        """A line that asks nothing."""

    def unsent(self, line: str, fault: BadLine, /) -> None:
        """A line that was not sent."""

    def row(self, row: Row, why: Iterable[str], /) -> None:
        """A line that was answered, and why it was refused."""


def as_one(replies: list[str]) -> str:
    """The replies to the lines of a range, as one."""
    if len(replies) == 1:
        return replies[0]
    kinds: dict[str, int] = {}
    for reply in replies:
        kind = reply if reply.startswith("error ") else reply.split(" ")[0]
        kinds[kind] = kinds.get(kind, 0) + 1
    return "; ".join(f"{count:,} x {kind}" for kind, count in kinds.items())


class Asked:
    """A line that is asked: what it stands for, and the questions behind it."""

    __slots__ = ("number", "line", "lines", "questions")

    def __init__(self, number: int, line: str) -> None:
        self.number, self.line = number, line
        self.lines = expand(line)
        asked = [question for one in self.lines for question in questions(one)]
        self.questions = asked if len(asked) < 2 else list(dict.fromkeys(asked))

    def outgoing(self) -> list[Line]:
        """All lines that go out for it, each of them short enough."""
        made: list[Line] = []
        for one in self.lines:
            line = one.encode(errors="surrogateescape")
            if len(line) > LINE_BYTES:
                sendable(line)
            made.append(line)
        return [*made, "meminfo", *(question.encode(errors="surrogateescape") for question in self.questions)]


class Talk:
    """Lines asked of a session one after another, each with its reply, counts and explanation."""

    def __init__(self, session: Session, machine: Machine, say: Says) -> None:
        self.session, self.machine, self.say = session, machine, say
        self.rows: list[Row] = []
        self.known: dict[tuple[str, ...], Meminfo] = {}

    def take(self, number: int, line: str) -> None:
        self.take_all([(number, line)])

    def take_all(self, numbered: Iterable[tuple[int, str]]) -> None:
        """Asks lines, many at once, and says what came; nothing is asked for comments and empty lines."""
        waiting: list[Callable[[list[Reply]], None]] = []
        out: list[Line] = []
        for number, line in numbered:
            waiting.append(self.prepare(number, line, out))
            if len(out) > AT_ONCE:
                self.say_all(waiting, out)
                waiting, out = [], []
        self.say_all(waiting, out)

    def prepare(self, number: int, line: str, out: list[Line]) -> Callable[[list[Reply]], None]:
        """Adds what goes out for a line, and answers what is said of it once all replies are there."""
        asked = without_comment(line)
        if not asked.strip():
            return lambda _: self.say.comment(line)
        try:
            one = Asked(number, asked)
            sent = one.outgoing()
        except BadLine as error:
            fault = error
            return lambda _: self.say.unsent(asked, fault)
        at, end = len(out), len(out) + len(sent)
        out += sent
        return lambda replies: self.say_answer(one, replies[at:end])

    def say_all(self, waiting: list[Callable[[list[Reply]], None]], out: list[Line]) -> None:
        replies = self.session.replies(out) if out else []
        for says in waiting:
            says(replies)

    def say_answer(self, asked: Asked, replies: list[Reply]) -> None:
        count = len(asked.lines)
        if count == 1 and replies[0][0][:6] != "error ":
            if asked.line.startswith("overcommit "):
                self.machine.note(asked.line, replies[0][0])
            counts = self.counts_of(replies[1])[:4]
            row = Row(asked.number, asked.line, replies[0][0], replies[0][1:], counts)
            self.rows.append(row)
            self.say.row(row, ())
            return
        if asked.line.startswith("overcommit "):
            for line, reply in zip(asked.lines, replies):
                self.machine.note(line, reply[0])
        refused = [(line, reply[0]) for line, reply in zip(asked.lines, replies) if reply[0][:6] == "error "]
        more = replies[0][1:] if count == 1 else []
        all_counts = self.counts_of(replies[count])
        said = as_one([reply[0] for reply in replies[:count]])
        row = Row(asked.number, asked.line, said, more, all_counts[:4])
        self.rows.append(row)
        why: list[str] = []
        if refused:
            answers = Answers(dict(zip(asked.questions, replies[count + 1 :])))
            why = self.machine.why(asked.line, refused, all_counts, answers)
        self.say.row(row, why)

    def counts_of(self, reply: Reply) -> Meminfo:
        key = tuple(reply)
        if key not in self.known:
            self.known = {key: value_of("meminfo", reply)}
        return self.known[key]


class Script:
    """Says lines as a table: the line, its reply, and the counts."""

    def __init__(self, out: TextIO) -> None:
        self.out = out

    def comment(self, line: str) -> None:
        print(printable(line.rstrip()).replace("\\t", "\t"), file=self.out)

    def head(self) -> None:
        print(f"{'':44} {'':20} {'Total':>6} {'Free':>6} {'Rsvd':>6} {'Surp':>6}", file=self.out)

    def unsent(self, line: str, fault: BadLine) -> None:
        print(f"{printable(line):44} not sent: {fault}", file=self.out)

    def row(self, row: Row, why: Iterable[str]) -> None:
        total, free, rsvd, surp = row.counts
        self.out.write(f"{printable(row.line):44} {row.reply:20} {total:6} {free:6} {rsvd:6} {surp:6}\n")
        for line in (*row.more, *why):
            self.out.write(f"    {line}\n")


class Prompt(Script):
    """Says the reply to a line that was typed."""

    def comment(self, line: str) -> None:
        pass

    def head(self) -> None:
        print(f"hugetlbd: {len(FORMS)} commands, `help` lists them, Ctrl-D ends", file=self.out)

    def unsent(self, line: str, fault: BadLine) -> None:
        print(f"not sent: {fault}", file=self.out)

    def row(self, row: Row, why: Iterable[str]) -> None:
        names = ("Total", "Free", "Rsvd", "Surp")
        counts = "  ".join(f"{name} {count}" for name, count in zip(names, row.counts))
        print(f"{row.reply:24} {counts}", file=self.out)
        for line in [*row.more, *why]:
            print(f"    {line}", file=self.out)


def helps(words: list[str], out: TextIO) -> None:
    """Lists the forms of lines, or tells of one."""
    known = [word for word in words if word in FORMS]
    for command in known or FORMS:
        print(f"{form_of(command):48} {FORMS[command].what}", file=out)
    places = {place.strip("[]") for command in known for place in FORMS[command].places}
    for letter in sorted(places & LETTERS.keys()):
        print(f"    {letter:8} {LETTERS[letter]}", file=out)
    if not known:
        print(
            "A `#` begins a comment. One number may be a range: fault 1 0 1 0..8191 write. `help COMMAND` "
            "tells of one, `quit` ends.",
            file=out,
        )
