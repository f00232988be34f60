"""Small machines, and random lines that get in each other's way."""
from collections.abc import Callable, Iterator, Sequence
from dataclasses import dataclass
from random import Random
from typing import TypeVar

Kind = TypeVar("Kind")


@dataclass(frozen=True)
class Shape:
    """The frames of each node, the size of a page, and how many slots."""

    frames: tuple[int, ...]
    page: int
    slots: int


# (1 and 16385, and 2 and 16386, differ by 16,384: their homes are noted in one place)
TASKS = (1, 2, 3, 16385, 16386)
NAMES = ("a", "b")
INDICES, NUMBERS = 4, 4


def shape(dice: Random) -> Shape:
    frames = dice.choice([(3,), (2, 2), (5, 1), (4, 4), (1, 1, 3)])
    return Shape(frames, dice.choice([1024, 65536, 2097152]), dice.choice([2, 2, 3]))


def options(dice: Random, page: int) -> str:
    return dice.choice(
        [
            "-",
            "-",
            f"size={2 * page}",
            f"size={3 * page},min_size={page}",
            f"min_size={2 * page}",
            "nr_inodes=1",
            "size=50%",
        ]
    )


def some(dice: Random, *kinds: tuple[Kind, float]) -> Kind:
    """One of the kinds, each as likely as its number says."""
    return dice.choices([kind for kind, _ in kinds], [weight for _, weight in kinds])[0]


class Writer:
    """Writes lines of one round. `mood` says which ones it writes most."""

    def __init__(self, dice: Random, of: Shape) -> None:
        self.dice, self.shape = dice, of
        self.tasks = dice.sample(TASKS, some(dice, (2, 2), (3, 1)))
        self.slots: Sequence[int] = range(of.slots)
        self.names = NAMES[: some(dice, (1, 2), (2, 1))]
        self.meeting = dice.choice(self.slots)
        self.index = dice.randrange(2)
        self.mood = dice.choice([*self.moods(), self.of_any])

    def moods(self) -> list[Callable[[], str]]:
        return [
            self.of_pages,
            self.of_accesses,
            self.of_runs,
            self.of_tasks,
            self.of_leaving,
            self.of_mounts,
            self.of_pool,
            self.of_files,
        ]

    def task(self) -> int:
        return self.dice.choice(self.tasks)

    def slot(self) -> int:
        """A slot, most often the one at which all meet."""
        return self.meeting if self.dice.random() < 0.6 else self.dice.choice(self.slots)

    def file(self) -> str:
        return f"{self.slot()} {self.dice.choice(self.names)}"

    def at(self) -> int:
        """An index, most often the one at which all meet."""
        return self.index if self.dice.random() < 0.6 else self.dice.randrange(INDICES)

    def map(self) -> str:
        return f"{self.task()} {self.slot()} {some(self.dice, (1, 5), (2, 1))}"

    def range(self) -> str:
        first = self.at()
        return f"{first} {first + self.dice.randint(1, 2)}"

    def new_map(self) -> str:
        sharing = self.dice.choice(["shared", "private"])
        reserving = some(self.dice, ("", 4), (" noreserve", 1))
        pages = self.dice.randint(1, 3)
        if self.dice.random() < 0.3:
            return f"anon {self.task()} {pages} {sharing}{reserving}"
        return f"map {self.task()} {self.file()} {self.dice.randrange(2)} {pages} {sharing}{reserving}"

    def access(self) -> str:
        return some(
            self.dice,
            (f"fault {self.map()} {self.at()} {self.dice.choice(['read', 'write'])}", 3),
            (f"load {self.map()} {self.at()} 0 2", 2),
            (f"store {self.map()} {self.at()} 0 {self.dice.randbytes(2).hex()}", 4),
        )

    def giving(self) -> str:
        """A line that gives pages back, or has them all at once."""
        return some(
            self.dice,
            (f"punch {self.file()} {self.range()}", 3),
            (f"truncate {self.file()} {self.dice.randrange(3)}", 2),
            (f"unmap {self.map()} {self.range()}", 3),
            (f"preallocate {self.file()} {self.range()}", 2),
            (f"unlink {self.file()}", 1),
        )

    def of_pages(self) -> str:
        return some(
            self.dice,
            (self.access(), 6),
            (self.giving(), 4),
            (self.new_map(), 1),
            (f"read {self.file()} {self.at()} 0 2", 1),
        )

    def of_accesses(self) -> str:
        """Loads and stores at one slot, which a server may take together; and what they find gone or new."""
        where = f"{self.task()} {self.meeting} 1 {self.at()} 0"
        return some(
            self.dice,
            (f"load {where} 2", 8),
            (f"store {where} {self.dice.randbytes(2).hex()}", 8),
            (f"exit {self.task()}", 1),
            (f"connect {self.task()} {self.node()}", 1),
            (f"fork {self.task()} {self.task()}", 1),
            (self.giving(), 2),
            (self.new_map(), 1),
        )

    def of_runs(self) -> str:
        """What comes between faults that follow each other: it takes their task, home or pages away."""
        return some(
            self.dice,
            ("nodes", 2),
            ("meminfo", 1),
            (f"exit {self.task()}", 2),
            (f"connect {self.task()} {self.node()}", 3),
            (f"punch {self.file()} 0 4", 2),
            (f"nr {self.dice.randint(0, sum(self.shape.frames))}", 2),
            (self.new_map(), 1),
            (self.access(), 2),
        )

    def run(self) -> list[str]:
        """Faults at indices that follow each other, which a server may take at once."""
        where = f"{self.task()} {self.meeting} 1"
        intent, first = self.dice.choice(["read", "write"]), self.dice.randrange(2)
        return [f"fault {where} {at} {intent}" for at in range(first, first + self.dice.randint(2, 3))]

    def of_tasks(self) -> str:
        task, child = self.task(), self.task()
        return some(
            self.dice,
            (f"exit {task}", 3),
            (f"connect {task} {self.node()}", 3),
            (f"fork {task} {child}", 3),
            (f"attach {task}", 2),
            (self.new_map(), 3),
            (self.access(), 2),
            (f"stat {self.file()}", 2),
        )

    def of_leaving(self) -> str:
        """A fork or an exit, or a line that tells how far one has come."""
        task, child = self.task(), self.task()
        return some(
            self.dice,
            (f"exit {task}", 3),
            (f"fork {task} {child}", 3),
            (f"connect {task} 0", 1),
            (f"attach {task}", 5),
            (f"stat {self.dice.choice(self.slots)} {self.names[0]}", 5),
            (self.new_map(), 1),
        )

    def of_mounts(self) -> str:
        slot = self.slot()
        wanted = options(self.dice, self.shape.page)
        return some(
            self.dice,
            (f"umount {slot}", 3),
            (f"mount {slot} {wanted}", 3),
            (f"remount {slot} {wanted}", 1),
            (f"df {slot}", 1),
            (f"create {self.file()}", 2),
            (self.new_map(), 3),
            (f"unmap {self.map()} 0 4", 2),
            (f"exit {self.task()}", 1),
        )

    def of_pool(self) -> str:
        most = sum(self.shape.frames)
        return some(
            self.dice,
            (f"nr {self.dice.randint(0, most)}", 4),
            (f"overcommit {self.dice.randrange(3)}", 2),
            ("meminfo", 2),
            ("nodes", 2),
            (self.new_map(), 2),
            (self.access(), 4),
            (self.giving(), 2),
        )

    def of_files(self) -> str:
        return some(
            self.dice,
            (f"create {self.file()}", 3),
            (f"unlink {self.file()}", 3),
            (f"stat {self.file()}", 1),
            (f"ls {self.slot()}", 1),
            (self.giving(), 3),
            (self.new_map(), 2),
            (self.access(), 2),
        )

    def of_any(self) -> str:
        return self.dice.choice(self.moods())()

    def node(self) -> int:
        return self.dice.randrange(len(self.shape.frames))

    def setup(self) -> Iterator[str]:
        """The lines that bring the machine into the state from which the race starts."""
        yield f"nr {sum(self.shape.frames) - self.dice.randrange(3)}"
        yield f"overcommit {some(self.dice, (0, 3), (1, 1), (2, 1))}"
        for slot in self.slots[1:]:
            if self.dice.random() < 0.9:
                yield f"mount {slot} {options(self.dice, self.shape.page)}"
        for task in self.tasks:
            if self.dice.random() < 0.9:
                yield f"connect {task} {self.node()}"
        for slot in self.slots:
            for name in self.names:
                yield f"create {slot} {name}"
        for _ in range(self.dice.randint(2, 6)):
            yield self.new_map()
        for _ in range(self.dice.randint(0, 6)):
            yield self.access()
        if self.mood == self.of_runs:
            yield from [
                f"map {task} {self.meeting} {self.dice.choice(self.names)} 0 4 shared" for task in self.tasks
            ]
        if self.mood == self.of_leaving or self.dice.random() < 0.2:
            # (many maps make forks and exits long)
            task = self.task()
            yield from [
                f"map {task} {self.dice.choice(self.slots)} {self.names[0]} 0 1 shared noreserve"
                for _ in range(150)
            ]
        if self.dice.random() < 0.3:
            yield f"fork {self.task()} {self.task()}"

    def race(self) -> list[list[str]]:
        """The lines of each session."""
        sessions = self.dice.randint(2, 4)
        if self.mood == self.of_runs:
            return [
                [*([self.mood()] if self.dice.random() < 0.5 else []), *self.run(), self.mood()]
                for _ in range(sessions)
            ]
        most = 9 - sessions if self.mood in (self.of_leaving, self.of_accesses) else 7 - sessions
        return [[self.mood() for _ in range(self.dice.randint(2, most))] for _ in range(sessions)]

    def closing(self) -> Iterator[str]:
        """The lines that read the state which is reached, give all back, and read what is left."""
        pool = ["meminfo", "nodes"]
        files = [f"{slot} {name}" for slot in self.slots for name in self.names]
        maps = [
            f"{task} {slot} {number}"
            for task in self.tasks
            for slot in self.slots
            for number in range(1, NUMBERS + 1)
        ]
        yield from [*pool, *(f"attach {task}" for task in self.tasks)]
        yield from [line for slot in self.slots for line in (f"df {slot}", f"ls {slot}")]
        yield from [
            line
            for file in files
            for line in (f"stat {file}", *(f"read {file} {index} 0 2" for index in range(INDICES)))
        ]
        yield from [f"connect {task} 0" for task in self.tasks]
        yield from [f"load {one} {index} 0 2" for one in maps for index in range(INDICES)]
        yield from pool
        yield from [line for task in self.tasks for line in (f"exit {task}", *pool)]
        yield from [line for slot in self.slots for line in (f"df {slot}", f"umount {slot}", *pool)]
