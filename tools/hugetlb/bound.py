"""Where pages stand that are bound to nodes: to one, or to several that hold them together."""
from collections.abc import Iterator, Sequence
from dataclasses import dataclass, field

# The numbers of nodes, rising: pages that are bound to them stand on any of them.
Nodes = tuple[int, ...]


def spread(pages: int, room: Sequence[int], homes: dict[int, int] | None = None) -> list[int]:
    """So many pages over nodes with so much room.

    First on the nodes that are preferred, the rest evenly, as Linux does it.
    """
    made = [0] * len(room)
    for node, wanted in (homes or {}).items():
        made[node] = min(wanted, room[node], pages)
        pages -= made[node]
    while pages > 0:
        able = [node for node, most in enumerate(room) if made[node] < most]
        if not able:
            break
        step = max(min(pages // len(able), min(room[node] - made[node] for node in able)), 1)
        for node in able:
            taken = min(step, pages)
            made[node], pages = made[node] + taken, pages - taken
    return made


@dataclass
class Bound:
    """The pages of a pool that are bound to each node alone, and those that are bound to several together."""

    alone: list[int]
    together: dict[Nodes, int] = field(default_factory=dict)

    def total(self) -> int:
        return sum(self.alone) + sum(self.together.values())


@dataclass
class Placement:
    """Places the pages of sets of nodes where there is room.

    All find room wherever it can be had: pages of one set make way for those of another. So a page is left
    over only where no placement would do.
    """

    together: dict[Nodes, int]
    room: list[int]
    on: dict[Nodes, dict[int, int]] = field(default_factory=dict)

    def __post_init__(self) -> None:
        self.left = list(self.room)
        self.on = {nodes: dict.fromkeys(nodes, 0) for nodes in self.together}
        for nodes, pages in sorted(self.together.items(), key=lambda it: (len(it[0]), it[0])):
            evenly = spread(pages, [self.left[node] for node in nodes])
            for node, placed in zip(nodes, evenly):
                self.put(nodes, node, placed)
            missing = pages - sum(evenly)
            while missing and (path := self.path(nodes)):
                missing -= self.move(path, missing)

    def put(self, nodes: Nodes, node: int, pages: int) -> None:
        self.on[nodes][node] += pages
        self.left[node] -= pages

    def places(self, nodes: Nodes) -> int:
        """How many pages of a set have a place."""
        return sum(self.on[nodes].values())

    def share(self, node: int) -> int:
        """How many pages of all sets stand on a node."""
        return self.room[node] - self.left[node]

    def path(self, nodes: Nodes) -> list[tuple[Nodes, int]]:
        """The shortest way to a node that has room.

        Each step is a set, and the node on which it puts pages. On each node but the last the next set makes
        way.
        """
        seen: set[int] = set()
        ways: list[list[tuple[Nodes, int]]] = [[(nodes, node)] for node in nodes]
        for way in ways:
            node = way[-1][1]
            if node in seen:
                continue
            seen.add(node)
            if self.left[node]:
                return way
            ways += [[*way, (other, there)] for other, there in self.ways_from(node)]
        return []

    def ways_from(self, node: int) -> Iterator[tuple[Nodes, int]]:
        """The sets that have pages on a node, each with the other nodes that it may use."""
        for other, pages in self.on.items():
            if pages.get(node):
                yield from ((other, there) for there in other if there != node)

    def move(self, path: list[tuple[Nodes, int]], most: int) -> int:
        """Moves as many pages as may go along a way, and answers how many."""
        steps = list(zip(path, path[1:]))
        makes_way = [self.on[later][node] for (_, node), (later, _) in steps]
        count = min([most, self.left[path[-1][1]], *makes_way])
        for (_, node), (later, _) in steps:
            self.on[later][node] -= count
        for nodes, node in path:
            self.on[nodes][node] += count
        self.left[path[-1][1]] -= count
        return count
