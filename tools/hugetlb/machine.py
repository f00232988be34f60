"""Programs of a plan as lines of the protocol, at a scale.

A page of the machine stands for a unit of so many pages of the host.
"""
from collections.abc import Iterator, Sequence
from dataclasses import dataclass, field
from enum import Enum
from math import gcd

from .model import Consumer, Mount

MOST_FRAMES, FRAMES_OF_NODE = 262_144, 65_536
MOST_OF_MAP, MOST_FILES, MOST_SLOTS = 65_536, 1_000, 63
CHILDREN = 10_000


@dataclass(frozen=True)
class Question:
    """What a machine of its own is asked.

    Programs in the order of starting, and the mounts that are made before.
    """

    consumers: Sequence[Consumer]
    mounts: Sequence[Mount]


def divisors_from(whole: int, least: int) -> Iterator[int]:
    """The divisors of a number, from some size on, the smallest first."""
    small = [it for it in range(1, int(whole**0.5) + 1) if whole % it == 0]
    return (it for it in sorted({*small, *(whole // it for it in small)}) if it >= least)


@dataclass
class Scale:
    """How many pages of the host one page of the machine stands for.

    Sizes that it does not divide are rounded up.
    """

    question: Question
    most_frames: int = MOST_FRAMES
    unit: int = 1
    is_exact: bool = True
    frames: int = 1

    def __post_init__(self) -> None:
        consumers, mounts = self.question.consumers, self.question.mounts
        sizes = [size for one in consumers for size in (one.pages, one.used, one.rewritten)]
        sizes += [size for mount in mounts for size in (mount.size, mount.minimum)]
        # (a guest's own minimum is its memory)
        asked = [size for one in consumers for size in (one.pages, one.rewritten or 0)] + [
            it.minimum for it in mounts if not it.is_own
        ]
        least = max(1, -(-sum(asked) // self.most_frames))
        whole = gcd(*(size for size in sizes if size))
        self.unit = next((unit for unit in divisors_from(whole, least)), least)
        self.is_exact = whole % self.unit == 0
        while sum(map(self.up, asked)) > self.most_frames:
            # (rounded up, many small sizes ask for more)
            self.unit += 1 + self.unit // 64
            self.is_exact = whole % self.unit == 0
        self.frames = max(sum(map(self.up, asked)), 1)

    def up(self, pages: int) -> int:
        return -(-pages // self.unit)

    def down(self, pages: int) -> int:
        return pages // self.unit


@dataclass
class Piece:
    """A map of a program: its number, and the indices of its file that it has."""

    number: int
    first: int
    end: int


class Phase(Enum):
    """What is done once all has started, in this order, with what a script says of it."""

    USES = "what is used without a reservation"
    FORKS = "snapshots, all at once"
    REWRITES = "the owners write"
    READS = "the children read what stood there at the fork"


@dataclass
class Lines:
    """What one program says, by phase: each line may have a range of indices."""

    one: Consumer
    task: int
    slot: int
    start: list[str] = field(default_factory=list)
    touches: list[str] = field(default_factory=list)
    of_phase: dict[Phase, list[str]] = field(default_factory=lambda: {phase: [] for phase in Phase})
    gives_back: list[str] = field(default_factory=list)
    pieces: list[Piece] = field(default_factory=list)

    @property
    def child(self) -> int:
        return CHILDREN + self.task

    @property
    def forks(self) -> bool:
        """Whether it has a snapshot."""
        return bool(self.of_phase[Phase.FORKS])

    def accesses(self, head: str, pages: int, tail: str) -> list[str]:
        """Lines for the first so many pages, a range a piece."""
        made, left = [], pages
        for piece in self.pieces:
            count = min(piece.end - piece.first, left)
            if count > 0:
                index = f"{piece.first}..{piece.first + count - 1}" if count > 1 else str(piece.first)
                made.append(f"{head} {self.slot} {piece.number} {index} {tail}")
            left -= count
        return made


def lines_of(scale: Scale, one: Consumer, task: int, slot: int, node: int) -> Lines:
    """The lines of one program."""
    said = Lines(one, task, slot)
    pages, is_file, name = scale.up(one.pages), one.is_file or slot > 0, f"ram-{task}"
    kind = f"{'shared' if one.is_shared else 'private'}{'' if one.has_reserve else ' noreserve'}"
    firsts = range(0, pages, MOST_OF_MAP)
    pieces = [Piece(number, first, min(first + MOST_OF_MAP, pages)) for number, first in enumerate(firsts, 1)]
    said.pieces = pieces if is_file else [Piece(it.number, 0, it.end - it.first) for it in pieces]
    maps = [
        f"map {task} {slot} {name} {it.first} {it.end - it.first} {kind}"
        if is_file
        else f"anon {task} {it.end - it.first} {kind}"
        for it in said.pieces
    ]
    unlink = [f"unlink {slot} {name}"] if is_file else []
    said.start = [f"connect {task} {node}", *([f"create {slot} {name}"] if is_file else []), *maps, *unlink]
    # what gives all back, where one of the lines before was refused
    said.gives_back = [f"exit {task}", *unlink]
    if one.is_touched:
        said.touches = said.accesses(f"fault {task}", pages, "write")
    elif not one.has_reserve:
        said.of_phase[Phase.USES] = said.accesses(f"fault {task}", scale.up(one.used), "write")
    if one.rewritten is not None:
        rewritten = scale.up(one.rewritten)
        said.of_phase[Phase.FORKS] = [f"fork {task} {said.child}"]
        said.of_phase[Phase.REWRITES] = said.accesses(f"fault {task}", rewritten, "write")
        said.of_phase[Phase.READS] = said.accesses(f"load {said.child}", rewritten, "0 1")
    return said


@dataclass
class Promise:
    """A mount's minimum, promised before anything starts.

    Of guests' own mounts one slot may have many: each adds to what the slot has.
    """

    mount: Mount
    slot: int
    is_first: bool

    def line(self, scale: Scale, size: int, minimum: int) -> str:
        """The line, where the slot has so much of those before it."""
        if self.mount.size is None:
            options = []
        else:
            options = [f"size={size + scale.up(self.mount.size)}K"]
        if minimum + self.mount.minimum:
            options.append(f"min_size={minimum + scale.up(self.mount.minimum)}K")
        return f"{'mount' if self.is_first else 'remount'} {self.slot} {','.join(options) or '-'}"


def promises_of(mounts: Sequence[Mount]) -> list[Promise]:
    """A slot for each mount. Where there are more than slots, guests' own mounts share some."""
    if len(mounts) <= MOST_SLOTS:
        return [Promise(mount, slot, True) for slot, mount in enumerate(mounts, 1)]
    made: list[Promise] = []
    slot = in_slot = 0
    for mount in mounts:
        is_first = not (mount.is_own and made and made[-1].mount.is_own and in_slot < MOST_FILES)
        slot, in_slot = (slot + 1, 1) if is_first else (slot, in_slot + 1)
        made.append(Promise(mount, slot, is_first))
    return made


class Script:
    """A question at a scale.

    The words of its machine, its mounts, and its programs in the order of starting.
    """

    def __init__(self, question: Question, scale: Scale):
        self.question, self.scale = question, scale
        nodes = -(-scale.frames // FRAMES_OF_NODE)
        self.frames = [scale.frames // nodes + (at < scale.frames % nodes) for at in range(nodes)]
        self.promises = promises_of(question.mounts)
        slots = {id(it.mount): it.slot for it in self.promises}
        last = max(slots.values(), default=0)
        self.programs: list[Lines] = []
        without, spare = 0, list[int]()
        for task, one in enumerate(question.consumers, 1):
            slot = slots[id(one.mount)] if one.mount else 0
            if not one.mount:
                # a mount has a limited number of files:
                # more of them have a mount without limits, which counts nothing
                without += -(-scale.up(one.pages) // MOST_OF_MAP)
                if without > MOST_FILES * (1 + len(spare)) and last + len(spare) < MOST_SLOTS:
                    spare.append(last + len(spare) + 1)
                slot = spare[-1] if spare else 0
            self.programs.append(lines_of(scale, one, task, slot, min(one.home or 0, nodes - 1)))
        self.spare = [f"mount {slot} -" for slot in spare]
        self.slots = last + len(spare) + 1

    def words(self) -> list[str]:
        return ["--frames", ",".join(map(str, self.frames)), "--page", "1024", "--slots", str(self.slots)]

    def mounts(self) -> list[str]:
        """The lines that make the mounts, where each is granted."""
        made, size, minimum = [], 0, 0
        for promise in self.promises:
            size, minimum = (0, 0) if promise.is_first else (size, minimum)
            made.append(promise.line(self.scale, size, minimum))
            size, minimum = size + self.scale.up(promise.mount.size or 0), minimum + self.scale.up(
                promise.mount.minimum
            )
        return [*made, *self.spare]

    def phases(self) -> list[str]:
        """All lines, in the order of a day.

        Mounts, starts, what is used without a reservation, and all snapshots at once.
        """
        lines = self.mounts()
        for program in self.programs:
            lines += [*program.start, *program.touches]
        for phase in Phase:
            lines += [line for program in self.programs for line in program.of_phase[phase]]
        return lines + [f"exit {program.child}" for program in self.programs if program.forks]
