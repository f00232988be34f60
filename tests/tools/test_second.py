"""A second computation of a plan, by formulae alone, beside the answers of the program: plans by chance.

The formulae know no line of the protocol. A plan's pages are what its programs reserve or use, what its
snapshots write, and what minimums keep beyond that.
HUGETLB_PLANS tells how many plans are tried (60).
"""
import json
import os
import random
import re
from dataclasses import dataclass, field
from typing import Any

import pytest
from common import PROGRAM

from hugetlb.fit import Answer, answer_of
from hugetlb.plan_file import plan_of
from hugetlb.report import Report
from hugetlb.settings import Settings

PLANS = int(os.environ.get("HUGETLB_PLANS", "60"))
AT_ONCE = 20
MIB, PAGE = 1 << 20, 2 << 20


@dataclass
class Thing:
    """One program: what it may have in use at most, where it must be, and on which mount."""

    pages: int
    node: int | None = None
    mount: str | None = None


@dataclass
class Second:
    """A plan by chance, as text, and what the formulae say of it."""

    chance: random.Random
    sizes: list[int] = field(default_factory=list)
    keep: int = 0
    things: list[Thing] = field(default_factory=list)
    mounts: dict[str, tuple[int | None, int]] = field(default_factory=dict)
    nr: int | None = None
    overcommit: int | None = None
    text: str = ""

    def __post_init__(self) -> None:
        chance = self.chance
        is_large = chance.random() < 0.25
        most = 200_000 if is_large else 700
        nodes = chance.choice([1, 1, 2, 2, 3, 5])
        self.sizes = [
            chance.randrange(2, 4 * most * 2 // nodes + 3) * MIB + chance.choice([0, 0, MIB // 2])
            for _ in range(nodes)
        ]
        self.keep = chance.choice([0, 0, chance.randrange(0, sum(self.sizes) // 3)]) // 4096 * 4096
        self.programs(most)
        if chance.random() < 0.35 and sum(self.rooms()) > 0:
            self.nr = chance.randrange(0, sum(self.rooms()) + 1)
        if chance.random() < 0.5:
            self.overcommit = chance.choice([0, 1, chance.randrange(0, most), 3 * sum(self.rooms())])
        listed = ", ".join(f'"{size // 1024}KiB"' for size in self.sizes)
        head = f'[host]\nnodes = [{listed}]\nkeep = "{self.keep}B"\n' + (
            "" if self.nr is None else f"nr = {self.nr}\n"
        )
        head += "" if self.overcommit is None else f'[overcommit]\nat_most = "{self.overcommit} pages"\n'
        self.text = head + self.text

    def programs(self, most: int) -> None:
        chance, nodes = self.chance, len(self.sizes)
        for number in range(chance.choice([0, 0, 1, 2])):
            minimum = chance.choice([0, chance.randrange(0, most)])
            size = chance.choice([None, minimum + chance.randrange(0, most)])
            self.mounts[f"m{number}"] = (size, minimum)
            self.text += f'[[mount]]\nname = "m{number}"\nminimum = "{minimum} pages"\n' + (
                "" if size is None else f'size = "{size} pages"\n'
            )
        for number in range(chance.randrange(1, 7)):
            kind, count, pages = (
                chance.choice(["guest", "redis", "map", "dpdk", "java", "mysql"]),
                chance.choice([1, 1, 2, 3]),
                chance.randrange(1, most),
            )
            thing, extra = Thing(pages), ""
            if nodes > 1 and chance.random() < 0.4 and kind != "dpdk":
                thing.node = chance.randrange(nodes)
                extra += f"node = {thing.node}\nbind = true\n"
            if kind == "redis" and chance.random() < 0.6:
                rewritten = chance.randrange(0, pages + 1)
                extra += f'snapshot = true\nrewritten = "{rewritten} pages"\n'
                thing.pages += rewritten
            if kind in ("guest", "map") and chance.random() < 0.3:
                thing.pages = chance.randrange(0, pages + 1)
                extra += f'reserve = false\nused = "{thing.pages} pages"\n'
            if kind in ("guest", "map", "dpdk") and self.mounts and chance.random() < 0.6:
                thing.mount = chance.choice([*self.mounts])
                extra += f'mount = "{thing.mount}"\n'
            elif kind == "guest" and "reserve" not in extra and chance.random() < 0.5:
                extra += "minimum = true\n"
            if kind == "guest" and chance.random() < 0.5:
                extra += "share = false\n"
            self.things += [Thing(thing.pages, thing.node, thing.mount) for _ in range(count)]
            self.text += f'[[{kind}]]\nname = "p{number}"\npages = {pages}\ncount = {count}\n{extra}'

    # ---- the formulae

    def rooms(self) -> list[int]:
        total = max(sum(self.sizes), 1)
        kept = -(-self.keep // PAGE) * PAGE
        return [max(size - -(-kept * size // total), 0) // PAGE for size in self.sizes]

    def on(self, mount: str | None) -> int:
        return sum(it.pages for it in self.things if it.mount == mount)

    def total(self) -> int | None:
        """All pages; none where a mount is too small for its programs."""
        if any(size is not None and self.on(name) > size for name, (size, _) in self.mounts.items()):
            return None
        return self.on(None) + sum(max(self.on(name), minimum) for name, (_, minimum) in self.mounts.items())

    def bound(self) -> list[int]:
        return [sum(it.pages for it in self.things if it.node == node) for node in range(len(self.sizes))]


def even(pages: int, rooms: list[int]) -> list[int]:
    """Linux' own way: a page on each node in turn, on those that have room."""
    made = [0] * len(rooms)
    level = 0
    while pages > 0 and any(have < room for have, room in zip(made, rooms)):
        able = [at for at, room in enumerate(rooms) if made[at] < room]
        level = max(1, min(pages // len(able), *(rooms[at] - made[at] for at in able)))
        for at in able:
            taken = min(level, pages)
            made[at], pages = made[at] + taken, pages - taken
    return made


def check(seed: int) -> None:
    second = Second(random.Random(seed))
    if sum(second.rooms()) == 0:
        return
    answer = answer_of(plan_of("x", second.text), str(PROGRAM))
    report = Report(answer)
    told = json.loads(report.as_json())
    total, bound, rooms = second.total(), second.bound(), second.rooms()
    slack = 0 if told["is_exact"] else 2 * told["unit_pages"] * (len(second.things) + len(second.mounts))
    capacity = sum(rooms)
    assert told["host_pages"] == capacity
    assert (told["nr"] is None) == (total is None)
    if total is None:
        assert not told["fits"]
        return
    assert total <= told["nr"] <= total + slack, (told["nr"], total)
    if told["nodes"] and len(rooms) > 1:
        # (each node has a scale of its own)
        assert all(low <= it["bound"] <= low + slack for low, it in zip(bound, told["nodes"]))
    if second.overcommit is not None:
        allowed = min(second.overcommit, capacity)
        least = max(total - allowed, sum(bound) if len(rooms) > 1 else 0, 0)
        assert (
            least
            <= told["nr_with_overcommit"]
            <= least + slack + (0 if told["is_exact"] else told["unit_pages"]) + (told["unit_pages"] - 1)
        ), (told, least)
    check_fit(second, told, total, bound, rooms, slack)
    check_settings(second, answer, report)


def check_fit(
    second: Second, told: dict[str, Any], total: int, bound: list[int], rooms: list[int], slack: int
) -> None:
    """Whether it fits; at a scale that is not exact a plan that all but fills the host may be refused."""
    nodes_matter = len(rooms) > 1
    if second.nr is None:
        fits = total <= sum(rooms) and (
            not nodes_matter or all(low <= room for low, room in zip(bound, rooms))
        )
        loose = total + slack <= sum(rooms) and (
            not nodes_matter or all(low + slack <= room for low, room in zip(bound, rooms))
        )
    else:
        set_on = even(min(second.nr, sum(rooms)), rooms)
        with_surplus = sum(set_on) + min(second.overcommit or 0, sum(rooms) - sum(set_on))
        fits = total <= with_surplus and (
            not nodes_matter or all(low <= nr for low, nr in zip(bound, set_on))
        )
        loose = total + 2 * slack + 2 * told["unit_pages"] <= with_surplus and all(
            low + slack <= nr for low, nr in zip(bound, set_on)
        )
    if told["is_exact"] and told["unit_pages"] == 1:
        assert told["fits"] == fits, (second.text, total, bound, rooms)
    else:
        assert told["fits"] <= fits and (told["fits"] or not loose), (second.text, total, bound, rooms)


def check_settings(second: Second, answer: Answer, report: Report) -> None:
    """What is written is read back: at most the host, and the numbers of the answer."""
    settings, pool = Settings(report), answer.pools[0]
    texts = [settings.sysctl(), settings.cmdline(), settings.fstab()]
    if not answer.fits:
        assert all(line.startswith("#") for text in texts for line in text.splitlines())
        return
    numbers = [
        int(it)
        for it in re.findall(
            r"(?:^vm.nr_hugepages = |echo )(\d+)(?=$| > \S+/nr_hugepages)", texts[0], re.MULTILINE
        )
    ]
    surplus = int(
        re.findall(
            r"(?:nr_overcommit_hugepages = |echo )(\d+)(?:$| > \S+/nr_overcommit_hugepages)",
            texts[0],
            re.MULTILINE,
        )[0]
    )
    assert (
        sum(numbers) == pool.nr
        and surplus == pool.overcommit
        and sum(numbers) + surplus <= sum(second.rooms())
    )
    words = texts[1].split("hugepages=")[1].strip()
    assert sum(int(it.rpartition(":")[2]) for it in words.split(",")) == pool.nr
    for name, (size, minimum) in second.mounts.items():
        line = next(it for it in texts[2].splitlines() if f"/mnt/huge/{name} " in it)
        sizes = {
            key: int(number) << {"G": 30, "M": 20, "K": 10, "": 0}[unit]
            for key, number, unit in re.findall(r"\b((?:min_)?size)=(\d+)([GMK]?)", line)
        }
        assert sizes == {
            **({} if size is None else {"size": size * PAGE}),
            **({"min_size": minimum * PAGE} if minimum else {}),
        }, line
    # with these numbers it is whole, and with one unit less in all and the same surplus it is not
    unit = pool.runs.scale.unit
    if second.nr is None and pool.nr and not pool.binds:
        assert pool.runs.is_whole_with(pool.nr, pool.overcommit)
        assert not pool.runs.is_whole_with(pool.nr - unit, pool.runs.scale.down(pool.overcommit) * unit)


@pytest.mark.parametrize("first", range(0, PLANS, AT_ONCE))
def test_plans_by_chance(first: int) -> None:
    for seed in range(first, min(first + AT_ONCE, PLANS)):
        check(seed)
