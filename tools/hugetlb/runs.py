"""Runs of the program on one question: the smallest number of pages, and what each gets at a number."""
import subprocess
from collections.abc import Callable
from dataclasses import dataclass, replace
from typing import TypeVar

from hugetlb_session import Session

from .lines import expand
from .machine import MOST_FRAMES, Lines, Phase, Question, Scale, Script
from .model import Consumer, State
from .program import NoProgram

SECONDS = 120
OUT_OF_MEMORY = "hugetlbd: out of memory"
LEAST_FRAMES = 4_096
Found = TypeVar("Found")


class MachineRefused(Exception):
    """The machine could not be had at this scale."""


@dataclass
class Outcome:
    """What one program or mount gets, in pages of the host; where it was refused, the line and its reply."""

    name: str
    kind: str
    asked: int
    got: int
    mount: str | None = None
    state: State = State.WHOLE
    what: str = ""
    line: str | None = None
    reply: str | None = None
    order: int = -1


def outcome_of(one: Consumer) -> Outcome:
    return Outcome(
        one.name, one.kind, one.pages, one.pages, one.mount.name if one.mount else None, order=one.order
    )


class Runs:
    """A question at a scale that this machine has room for. All numbers are pages of the host."""

    def __init__(self, question: Question, program: str):
        self.question, self.program, self.most_frames, self.count = question, program, MOST_FRAMES, 0
        self.rescale()

    def rescale(self) -> None:
        self.scale = Scale(self.question, self.most_frames)
        self.script = Script(self.question, self.scale)
        self.body = "".join(f"{one}\n" for line in self.script.phases() for one in expand(line)).encode()

    def with_room(self, asks: Callable[[], Found]) -> Found:
        """Asks at a scale that can be had: of fewer and larger pages where memory is short here."""
        while True:
            try:
                return asks()
            except MachineRefused:
                self.most_frames //= 2
                if self.most_frames < LEAST_FRAMES:
                    raise NoProgram(
                        "this machine has too little memory for a run with 4,096 pages of 1 KiB: free some"
                    ) from None
                self.rescale()

    # ---- the smallest number

    def is_whole(self, nr: int, overcommit: int) -> bool:
        """Whether nothing is refused, and no snapshot loses a page, with so many pages of the machine."""
        self.count += 1
        head = f"nr {nr}\novercommit {overcommit}\n".encode()
        ran = subprocess.run(
            [self.program, "script", *self.script.words()],
            input=head + self.body,
            capture_output=True,
            timeout=SECONDS,
        )
        if ran.returncode:
            said = ran.stderr.decode(errors="replace").strip()
            if said == OUT_OF_MEMORY:
                raise MachineRefused
            raise NoProgram(f"the program ended with status {ran.returncode}: {said}")
        return b"error " not in ran.stdout

    def smallest(self, overcommit: int = 0) -> int | None:
        """The smallest nr with which all is whole; none where no number will do."""

        def asks() -> int | None:
            found = self.bisect(self.scale.down(overcommit))
            return None if found is None else found * self.scale.unit

        return self.with_room(asks)

    def bisect(self, overcommit: int) -> int | None:
        """The sum of what is asked is tried first: it is often the answer."""
        low, high = -1, self.scale.frames
        guess = max(self.scale.frames - overcommit, 0)
        if self.is_whole(guess, overcommit):
            high = guess
            if guess and not self.is_whole(guess - 1, overcommit):
                low = guess - 1
        elif self.is_whole(high, overcommit):
            low = guess
        else:
            return None
        while high - low > 1:
            middle = (low + high) // 2
            if self.is_whole(middle, overcommit):
                high = middle
            else:
                low = middle
        return high

    def is_whole_with(self, pages: int, overcommit: int) -> bool:
        """Whether all is whole with so many pages of the host."""

        def asks() -> bool:
            nr = min(self.scale.down(pages), self.scale.frames)
            return self.is_whole(nr, min(self.scale.down(overcommit), self.scale.frames - nr))

        return self.with_room(asks)

    # ---- who gets what

    def outcomes(self, pages: int, overcommit: int = 0) -> list[Outcome]:
        """What each gets, in the order of starting. Who is refused gives back what it had."""
        return self.with_room(lambda: self.outcomes_at(self.scale.down(pages), self.scale.down(overcommit)))

    def outcomes_at(self, nr: int, overcommit: int) -> list[Outcome]:
        found: dict[int, Outcome] = {}
        nr = min(nr, self.scale.frames)
        with Session.over_pipe([self.program, "script", *self.script.words()], seconds=SECONDS) as session:
            session.nr(nr)
            session.overcommit(min(overcommit, self.scale.frames - nr))
            rows, refused = self.make_mounts(session)
            for program in self.script.programs:
                found[program.task] = self.starts(session, program, refused)
            running = [
                program for program in self.script.programs if found[program.task].state is State.WHOLE
            ]
            for program in running:
                self.uses(session, program, found[program.task])
            forked = [
                program for program in running if program.forks and found[program.task].state is State.WHOLE
            ]
            for phase in (Phase.FORKS, Phase.REWRITES):
                for program in forked:
                    session.replies([one for line in program.of_phase[phase] for one in expand(line)])
            for program in forked:
                self.reads(session, program, found[program.task])
        return rows + [found[program.task] for program in self.script.programs]

    def make_mounts(self, session: Session) -> tuple[list[Outcome], dict[int, str]]:
        """Makes the mounts.

        Answers a row for each that the plan names with a minimum, and the lines of those that were refused.
        """
        rows: list[Outcome] = []
        refused: dict[int, str] = {}
        size = minimum = 0
        has_slot = False
        for promise in self.script.promises:
            mount = promise.mount
            if promise.is_first:
                size, minimum, has_slot = 0, 0, False
            line = replace(promise, is_first=not has_slot).line(self.scale, size, minimum)
            reply = session.reply(line)[0]
            if reply == "ok":
                size, minimum, has_slot = (
                    size + self.scale.up(mount.size or 0),
                    minimum + self.scale.up(mount.minimum),
                    True,
                )
            else:
                refused[id(mount)] = line
            if not mount.is_own and mount.minimum:
                row = Outcome(f"mount {mount.name}", "mount", mount.minimum, mount.minimum, mount.name)
                if reply != "ok":
                    row.state, row.got, row.what, row.line, row.reply = (
                        State.REFUSED,
                        0,
                        "its minimum can't be promised",
                        line,
                        reply,
                    )
                rows.append(row)
        if self.script.spare:
            session.replies(self.script.spare)
        return rows, refused

    def starts(self, session: Session, program: Lines, refused: dict[int, str]) -> Outcome:
        one = program.one
        row = outcome_of(one)
        if one.mount and id(one.mount) in refused:
            row.state, row.got, row.what = State.REFUSED, 0, "its mount's minimum can't be promised"
            row.line, row.reply = refused[id(one.mount)], "error 2 NoPages"
            return row
        lines = [*program.start, *(it for line in program.touches for it in expand(line))]
        replies = session.replies(lines)
        wrong = next((at for at, reply in enumerate(replies) if reply[0].startswith("error ")), None)
        if wrong is not None:
            row.line, row.reply = lines[wrong], replies[wrong][0]
            row.state, row.got = (State.SMALL if one.goes_on else State.REFUSED), 0
            full = f"mount {one.mount.name} is full" if one.mount else "its mount is full"
            why = full if row.reply == "error 3 MountFull" else "too few pages can be promised"
            row.what = f"goes on with small pages: {why}" if one.goes_on else f"does not start: {why}"
            if wrong >= len(program.start):
                page = (wrong - len(program.start)) * self.scale.unit
                row.what = f"does not start: its touch of page {page:,} finds none"
            session.replies(program.gives_back)
        return row

    def uses(self, session: Session, program: Lines, row: Outcome) -> None:
        if not program.of_phase[Phase.USES]:
            return
        lines = [it for line in program.of_phase[Phase.USES] for it in expand(line)]
        wrong = next(
            (
                (at, reply[0])
                for at, reply in enumerate(session.replies(lines))
                if reply[0].startswith("error ")
            ),
            None,
        )
        if wrong is None:
            return
        at, reply = wrong
        row.state, row.got, row.line, row.reply = State.KILLED, at * self.scale.unit, lines[at], reply
        row.what = f"is killed (SIGBUS): its touch of page {row.got:,} finds none, and nothing was reserved"
        session.replies(program.gives_back)

    def reads(self, session: Session, program: Lines, row: Outcome) -> None:
        """Looks through the child: a page that the owner took back is refused there, and nowhere else."""
        lines = [it for line in program.of_phase[Phase.READS] for it in expand(line)]
        wrong = [
            (line, reply[0])
            for line, reply in zip(lines, session.replies(lines))
            if reply[0].startswith("error ")
        ]
        if wrong:
            lost, unit = len(wrong) * self.scale.unit, self.scale.unit
            row.state, (row.line, row.reply) = State.LOST, wrong[0]
            of = f"{lost:,} of {len(lines) * unit:,} pages {'was' if lost == 1 else 'were'}"
            row.what = f"loses its snapshot: {of} taken back from the child"
