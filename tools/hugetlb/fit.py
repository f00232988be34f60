"""Answers a plan: each number is what the program itself answers, run again and again.

Each size of page is a pool of its own, the largest first. In a pool each node is a machine of its own for
what is bound to it; what is not bound takes what is left. All numbers are pages of the pool.
"""
from collections.abc import Sequence
from dataclasses import dataclass, field, replace

from .bound import Bound, Nodes, Placement, spread
from .machine import Question
from .model import WORSE, Consumer, Plan, Pool, State
from .program import program
from .runs import Outcome, Runs


@dataclass
class Hazard:
    """What programs that are not bound here may take here before those that are bound come."""

    short: int
    takers: list[Consumer]
    bound: list[Consumer]


@dataclass
class Node:
    """A node of a pool.

    The pages that it has room for, those that must stand on it, and those that are set.
    """

    number: int
    memory: int
    room: int
    asked: int = 0
    nr: int = 0
    worst: int | None = None
    hazard: Hazard | None = None

    def fits(self) -> bool:
        return self.asked <= self.nr


@dataclass
class NodeSet:
    """Nodes that hold together what is bound to them: what is asked of them, and how much finds its place."""

    nodes: Nodes
    asked: int
    placed: int = 0
    room: int = 0
    nr: int = 0
    worst: int | None = None
    hazard: Hazard | None = None

    def fits(self) -> bool:
        return self.asked <= self.placed and (self.worst is None or self.worst <= self.room)

    @property
    def name(self) -> str:
        """As `nodes 0, 1 and 3`."""
        *first, last = map(str, self.nodes)
        return f"nodes {', '.join(first)} and {last}"


@dataclass
class PoolAnswer:
    """Whether a pool's programs fit, the smallest numbers of pages, and what each gets."""

    pool: Pool
    runs: Runs
    nodes: list[Node]
    bound: Bound
    sets: list[NodeSet] = field(default_factory=list)
    smallest: int | None = None
    smallest_with: int | None = None
    fits: bool = False
    # what is set, and what the rows below are told at
    nr: int = 0
    overcommit: int = 0
    at: int = 0
    at_overcommit: int = 0
    outcomes: list[Outcome] = field(default_factory=list)
    one_less: list[Outcome] = field(default_factory=list)

    @property
    def capacity(self) -> int:
        return sum(it.room for it in self.nodes)

    @property
    def allowed(self) -> int | None:
        """The surplus pages that the plan allows, where it allows any, and that the memory has room for."""
        return None if self.pool.overcommit is None else min(self.pool.overcommit, self.capacity)

    @property
    def binds(self) -> bool:
        """Whether anything is bound to nodes."""
        return self.bound.total() > 0


def freely(one: Consumer) -> Consumer:
    """A program without its mount: a promise of a mount takes no page of a node."""
    return replace(one, mount=None, is_file=False, bound={}, among=())


def parts_of(consumers: Sequence[Consumer], nodes: Nodes) -> list[Consumer]:
    """What is bound to these nodes, or to some of them: it has no other room."""
    made: list[Consumer] = []
    for one in consumers:
        made += [one.part(node) for node in nodes if node in one.bound]
        made += [freely(one)] if one.among and set(one.among) <= set(nodes) else []
    return made


def takers_of(consumers: Sequence[Consumer], nodes: Nodes) -> list[Consumer]:
    """What may take pages of these nodes, and has room elsewhere."""
    return [
        one
        for one in consumers
        if one.is_free() or set(one.among) & set(nodes) and not set(one.among) <= set(nodes)
    ]


@dataclass
class Answer:
    """The answers of all pools. With `worst` the numbers are those with which no order of touching hurts."""

    plan: Plan
    worst: bool
    pools: list[PoolAnswer]

    @property
    def fits(self) -> bool:
        return all(it.fits for it in self.pools)


def answer_of(plan: Plan, named: str | None = None, worst: bool = False) -> Answer:
    """The answer of a plan, by runs of the program that is named, or of the usual one."""
    return Fit(plan, program(named), worst).answer()


class Fit:
    """Runs the program for the pools of a plan, one after another."""

    def __init__(self, plan: Plan, program: str, worst: bool):
        self.plan, self.program, self.worst = plan, program, worst
        self.left = [plan.host.room(node) for node in range(len(plan.host.node_bytes))]

    def answer(self) -> Answer:
        pools = self.plan.pools()
        asked = [self.bound_of(pool) for pool in pools]
        made = Answer(self.plan, self.worst, [])
        for at, pool in enumerate(pools):
            made.pools.append(self.pool_answer(pool, asked[at], list(zip(pools[at + 1 :], asked[at + 1 :]))))
        return made

    def runs(self, consumers: Sequence[Consumer], pool: Pool | None = None) -> Runs:
        return Runs(Question(consumers, pool.mounts if pool else ()), self.program)

    def bound_of(self, pool: Pool) -> Bound:
        """How many pages must stand on each node, and on several together, by a machine with these alone."""
        nodes = range(len(self.plan.host.node_bytes))
        bound = [[one.part(node) for one in pool.consumers if node in one.bound] for node in nodes]
        sets = sorted({one.among for one in pool.consumers if one.among})
        return Bound(
            [self.number(parts) if parts else 0 for parts in bound],
            {it: self.number([freely(one) for one in pool.consumers if one.among == it]) for it in sets},
        )

    def number(self, consumers: Sequence[Consumer]) -> int:
        """The smallest number of pages for programs without mounts."""
        found = self.runs(consumers).smallest()
        assert found is not None, "programs without mounts fit into some number of pages"
        return found

    # ---- a pool

    def pool_answer(self, pool: Pool, asked: Bound, later: list[tuple[Pool, Bound]]) -> PoolAnswer:
        made = PoolAnswer(pool, self.runs(pool.consumers, pool), self.nodes(pool, asked.alone, later), asked)
        made.sets = [
            NodeSet(it, pages, room=sum(made.nodes[node].room for node in it))
            for it, pages in asked.together.items()
        ]
        made.smallest = made.runs.smallest()
        if made.smallest is not None:
            made.smallest = max(made.smallest, asked.total())
            if made.allowed is not None:
                found = made.runs.smallest(made.allowed)
                made.smallest_with = None if found is None else max(found, asked.total())
        if self.worst and made.binds:
            self.find_worst(made)
        self.choose(made)
        self.tell(made)
        if made.binds and made.fits:
            self.find_hazards(made)
        for node in made.nodes:
            self.left[node.number] -= node.nr * pool.page_bytes
        return made

    def wanted_later(self, pool: Pool, bound: Bound) -> list[int]:
        """How many bytes of each node what is bound of smaller pages wants."""
        page = pool.page_bytes
        room = [max(left // page - alone, 0) for left, alone in zip(self.left, bound.alone)]
        placement = Placement(bound.together, room)
        return [page * (alone + placement.share(node)) for node, alone in enumerate(bound.alone)]

    def nodes(self, pool: Pool, asked: list[int], later: list[tuple[Pool, Bound]]) -> list[Node]:
        """Nodes with the room that larger pages leave, and what is bound of smaller ones where both fit."""
        made = []
        wanted = [self.wanted_later(other, bound) for other, bound in later]
        for number, left in enumerate(self.left):
            of_later = sum(it[number] for it in wanted)
            room = max(left - of_later, 0) // pool.page_bytes
            if room < asked[number]:
                room = max(left, 0) // pool.page_bytes
            made.append(Node(number, self.plan.host.node_bytes[number], room, asked[number]))
        return made

    def choose(self, made: PoolAnswer) -> None:
        """Whether it fits, and what is set on each node."""
        pool, nodes = made.pool, made.nodes
        if pool.nr is not None:
            set_on = (
                pool.nr if len(pool.nr) == len(nodes) else spread(sum(pool.nr), [it.room for it in nodes])
            )
            for node, pages in zip(nodes, set_on):
                node.nr = min(pages, node.room)
            made.at = made.nr = sum(it.nr for it in nodes)
            made.overcommit = made.at_overcommit = min(pool.overcommit or 0, max(made.capacity - made.nr, 0))
            self.place(made, [max(it.nr - it.asked, 0) for it in nodes])
            made.fits = (
                made.smallest is not None
                and made.runs.is_whole_with(made.at, made.at_overcommit)
                and all(it.fits() for it in nodes)
                and all(it.fits() for it in made.sets)
            )
            return
        wanted = made.smallest
        if (
            wanted is not None
            and made.smallest_with is not None
            and made.smallest_with < wanted
            and not self.worst
        ):
            wanted, made.overcommit = made.smallest_with, min(
                pool.overcommit or 0, made.capacity - made.smallest_with
            )
        floor = [it.asked if it.worst is None else it.worst for it in nodes]
        shares = self.place(made, [max(it.room - pages, 0) for it, pages in zip(nodes, floor)])
        floor = [pages + share for pages, share in zip(floor, shares)]
        if self.worst:
            self.raise_for_sets(made, floor)
        made.fits = (
            made.smallest is not None
            and made.smallest <= made.capacity
            and all(pages <= it.room for pages, it in zip(floor, nodes))
            and all(it.fits() for it in made.sets)
        )
        if not made.fits or wanted is None:
            made.overcommit = 0
            for node in nodes:
                node.nr = node.room
            made.at = made.nr = made.capacity
            return
        rest = spread(
            max(wanted - sum(floor), 0),
            [it.room - pages for it, pages in zip(nodes, floor)],
            self.homes(pool),
        )
        for node, pages, more in zip(nodes, floor, rest):
            node.nr = pages + more
        made.nr = sum(it.nr for it in nodes)
        made.at = made.smallest or 0

    @staticmethod
    def place(made: PoolAnswer, room: list[int]) -> list[int]:
        """Finds places for what is bound to several nodes, and answers how much of it each node has."""
        placement = Placement(made.bound.together, room)
        for it in made.sets:
            it.placed = placement.places(it.nodes)
        return [placement.share(node) for node in range(len(room))]

    @staticmethod
    def raise_for_sets(made: PoolAnswer, floor: list[int]) -> None:
        """Sets more on nodes that hold pages together, until no order of touching hurts there."""
        for it in sorted(made.sets, key=lambda it: len(it.nodes)):
            missing = max((it.worst or 0) - sum(floor[node] for node in it.nodes), 0)
            room = [max(made.nodes[node].room - floor[node], 0) for node in it.nodes]
            for node, more in zip(it.nodes, spread(missing, room)):
                floor[node] += more
            it.placed = it.asked if missing <= sum(room) else it.placed
            if missing > sum(room):
                it.room = sum(floor[node] for node in it.nodes)

    @staticmethod
    def homes(pool: Pool) -> dict[int, int]:
        """The pages that programs would rather have on a node, and are not bound to it."""
        made: dict[int, int] = {}
        for one in pool.consumers:
            if one.home is not None and one.is_free():
                made[one.home] = made.get(one.home, 0) + one.pages
        return made

    def tell(self, made: PoolAnswer) -> None:
        """What each gets: of the whole pool, and on its node."""
        made.outcomes = made.runs.outcomes(made.at, made.at_overcommit)
        of_order = {it.order: it for it in made.outcomes if it.order >= 0}
        for it in made.sets:
            it.nr = sum(made.nodes[node].nr for node in it.nodes)
        for node in made.nodes:
            if not node.fits():
                parts = [one.part(node.number) for one in made.pool.consumers if node.number in one.bound]
                self.tell_part(parts, node.nr, f"node {node.number} has", of_order)
        for it in made.sets:
            if it.asked > it.placed:
                parts = [freely(one) for one in made.pool.consumers if one.among == it.nodes]
                self.tell_part(parts, it.placed, f"{it.name} have", of_order)
        if made.smallest:
            less = max(made.smallest - made.runs.scale.unit, 0)
            made.one_less = [it for it in made.runs.outcomes(less) if it.state is not State.WHOLE]

    def tell_part(self, parts: list[Consumer], pages: int, who: str, of_order: dict[int, Outcome]) -> None:
        """Who finds no page on nodes that have too few.

        Linux promises of the whole pool: it is the touch that fails.
        """
        for part, found in zip(parts, self.runs(parts).outcomes(pages)):
            row = of_order[part.order]
            if found.state is State.WHOLE or WORSE.index(row.state) >= WORSE.index(State.KILLED):
                continue
            row.line, row.reply, row.got = found.line, found.reply, min(found.got, row.got)
            on_node = f"{who} too few pages for what is bound to {'it' if who.endswith('has') else 'them'}"
            if found.state is State.LOST:
                row.state, row.what = State.LOST, f"{found.what}: {on_node}"
            elif part.is_touched:
                row.state, row.what = State.REFUSED, f"does not start: {on_node}"
            else:
                row.state, row.what = State.KILLED, f"is killed (SIGBUS) at a touch: {on_node}"

    # ---- the order of touching

    def find_worst(self, made: PoolAnswer) -> None:
        """The pages of nodes with which what is bound is whole, though all that is not came first."""
        consumers = made.pool.consumers
        for node in made.nodes:
            if node.asked:
                node.worst = self.number_here(consumers, (node.number,))
        for it in made.sets:
            it.worst = self.number_here(consumers, it.nodes)

    def number_here(self, consumers: Sequence[Consumer], nodes: Nodes) -> int:
        """The pages with which these nodes hold all that may come there."""
        return self.number([*map(freely, takers_of(consumers, nodes)), *parts_of(consumers, nodes)])

    def find_hazards(self, made: PoolAnswer) -> None:
        """On each node, or on several together, what programs with room elsewhere may take before."""
        for node in made.nodes:
            if node.asked and node.fits():
                node.hazard = self.hazard(made.pool.consumers, (node.number,), node.nr)
        for it in made.sets:
            it.hazard = self.hazard(made.pool.consumers, it.nodes, it.nr)

    def hazard(self, consumers: Sequence[Consumer], nodes: Nodes, nr: int) -> Hazard | None:
        bound = [
            it
            for it in consumers
            if any(node in it.bound for node in nodes) or it.among and set(it.among) <= set(nodes)
        ]
        is_late, last = any(it.is_late() for it in bound), max(it.order for it in bound)
        takers = [it for it in takers_of(consumers, nodes) if is_late or it.order < last]
        if not takers:
            return None
        wanted = self.number([*map(freely, takers), *parts_of(consumers, nodes)])
        return Hazard(wanted - nr, takers, bound) if wanted > nr else None
