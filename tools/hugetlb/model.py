"""What a plan is: the host, its mounts, and the programs in the order of starting."""
from collections.abc import Sequence
from dataclasses import dataclass, field, replace
from enum import Enum

from .bound import Nodes

MIB, GIB = 1 << 20, 1 << 30


class State(Enum):
    """What a program or a mount gets."""

    WHOLE = "whole"
    LOST = "lost"  # its snapshot
    KILLED = "killed"  # at a touch
    REFUSED = "refused"
    SMALL = "small"  # pages in place of huge ones


# The worse of two states is the later one here.
WORSE = (State.WHOLE, State.LOST, State.SMALL, State.KILLED, State.REFUSED)


@dataclass(eq=False)
class Mount:
    """A mount that the plan names, or one that a guest has for itself: then `is_own`."""

    name: str
    page_bytes: int
    size: int | None
    minimum: int
    is_own: bool = False


@dataclass(eq=False)
class Consumer:
    """One program of the plan: its maps, and what it does with them."""

    kind: str
    name: str
    page_bytes: int
    pages: int
    order: int = 0
    is_file: bool = False
    is_shared: bool = True
    has_reserve: bool = True
    is_touched: bool = False
    used: int = 0
    rewritten: int | None = None
    mount: Mount | None = None
    goes_on: bool = False
    home: int | None = None
    # the pages that must stand on each node; none where it is not bound
    bound: dict[int, int] = field(default_factory=dict)
    # the nodes on which all of its pages must stand, some here and some there; none where it is not so bound
    among: Nodes = ()

    def part(self, node: int) -> "Consumer":
        """What of it is bound to a node, as a program of its own."""
        pages = self.bound[node]
        rewritten = None if self.rewritten is None else min(self.rewritten, pages)
        return replace(
            self,
            pages=pages,
            used=min(self.used, pages),
            rewritten=rewritten,
            mount=None,
            is_file=False,
            bound={},
        )

    def is_free(self) -> bool:
        """Whether its pages may stand on any node."""
        return not self.bound and not self.among

    def is_late(self) -> bool:
        """Whether it touches pages after its start."""
        return not self.is_touched or bool(self.rewritten)


@dataclass
class Host:
    """The memory of each node in bytes, and what is kept of it for all that takes no huge pages."""

    node_bytes: list[int]
    keep: list[int]
    page_bytes: int
    is_default_keep: bool = True
    nr: list[int] | None = None
    present: list[int] | None = None

    def room(self, node: int) -> int:
        """The bytes of a node that huge pages may take."""
        return max(self.node_bytes[node] - self.keep[node], 0)

    def capacity(self) -> list[int]:
        """The pages of the default size that each node may have, where there are no others."""
        return [self.room(node) // self.page_bytes for node in range(len(self.node_bytes))]


def default_keep(total: int) -> int:
    """What a host keeps without huge pages where nothing is said.

    A 32nd and 1 GiB at least, but no more than a quarter.

    The kernel's own table of pages takes a 64th of the memory; a server with its services runs in 1 GiB.
    """
    return min(max(total // 32, GIB), total // 4)


def least_left(total: int) -> int:
    """With less than this besides huge pages a kernel does not live: its table of pages, and 256 MiB.

    Of a small host an eighth.
    """
    return min(total // 64 + 256 * MIB, total // 8)


def shared_out(keep: int, node_bytes: Sequence[int]) -> list[int]:
    """What is kept, from each node by its size."""
    total = max(sum(node_bytes), 1)
    return [-(-keep * size // total) for size in node_bytes]


@dataclass
class Pool:
    """The programs and mounts of one size of page."""

    page_bytes: int
    consumers: list[Consumer]
    mounts: list[Mount]
    overcommit: int | None = None
    nr: list[int] | None = None
    present: list[int] | None = None


@dataclass
class Plan:
    """What was read."""

    file: str
    host: Host
    mounts: list[Mount]
    consumers: list[Consumer]
    overcommit: int | None = None
    remarks: list[str] = field(default_factory=list)

    def pools(self) -> list[Pool]:
        """One for each size of page that is asked for, the largest first."""
        sizes = {one.page_bytes for one in self.consumers} | {one.page_bytes for one in self.mounts}
        made = []
        for size in sorted(sizes, reverse=True):
            pool = Pool(
                size,
                [it for it in self.consumers if it.page_bytes == size],
                [it for it in self.mounts if it.page_bytes == size],
            )
            if size == self.host.page_bytes:
                pool.overcommit, pool.nr, pool.present = self.overcommit, self.host.nr, self.host.present
            made.append(pool)
        return made
