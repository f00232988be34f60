"""What a line costs beside N, 2N and 4N of what must not matter to it, or of what it takes a step for each.

valgrind counts instructions: the same number in each run, whatever else the machine does. Each row of "What
each command costs" in docs/dev/SPEED.md has its generator here.
"""
import re
import subprocess
from collections.abc import Callable
from concurrent.futures import ThreadPoolExecutor
from dataclasses import dataclass
from shutil import which

import pytest
from built import PROGRAM, text_of

SECONDS = 120
Lines = list[str]
# A line may cost so many times more beside 4N than beside N, and so many instructions: a step of a search
# more, or a list that is copied further.
FACTOR, STEPS = 1.25, 400


@dataclass(frozen=True)
class Row:
    """Lines before, of which there are so many as N says, and lines that are counted, so often."""

    before: Callable[[int], Lines]
    counted: Callable[[int], Lines]
    size: int
    turns: int = 20
    # whether the counted lines take a step for each of N; else N must not matter to them
    is_linear: bool = False
    words: tuple[str, ...] = ()


def start(task: int = 1) -> Lines:
    return ["nr 64", f"connect {task} 0"]


def a_file() -> Lines:
    return [*start(), "create 0 a", "map 1 0 a 0 4 shared"]


def tasks(count: int) -> Lines:
    return [f"connect {100 + at} 0" for at in range(count)]


def files(count: int) -> Lines:
    return [f"create 0 f{at}" for at in range(count)]


def maps(count: int, task: int = 1, name: str = "a") -> Lines:
    return count * [f"map {task} 0 {name} 0 1 shared noreserve"]


def of_others(count: int) -> Lines:
    """Each of so many other tasks has a map of the file."""
    return [
        line
        for at in range(count)
        for line in (f"connect {100 + at} 0", f"map {100 + at} 0 a 0 1 shared noreserve")
    ]


def pages(count: int) -> Lines:
    return ["nr 65536", "create 0 p", f"preallocate 0 p 0 {count}"]


ACCESSES = ["store 1 0 1 0 0 5a", "load 1 0 1 0 0 1", "fault 1 0 1 0 write"]
WIDE = ("--frames", "65536")
LEAST = ["unmap 1 0 {0} 0 1", "map 1 0 a 0 1 shared noreserve"]


def of_map(number: int) -> Lines:
    """A task whose one map of the file has this number."""
    return [*start(), "create 0 a", *maps(number), *(f"unmap 1 0 {at} 0 1" for at in range(1, number))]


ROWS = {
    "accesses beside tasks": Row(lambda n: [*a_file(), *tasks(n)], lambda n: ACCESSES, 256),
    "accesses beside maps": Row(lambda n: [*a_file(), *maps(n)], lambda n: ACCESSES, 256),
    "accesses beside maps of others": Row(lambda n: [*a_file(), *of_others(n)], lambda n: ACCESSES, 128),
    "accesses beside files": Row(lambda n: [*a_file(), *files(n)], lambda n: ACCESSES, 128),
    "accesses beside pages": Row(lambda n: [*a_file(), *pages(n)], lambda n: ACCESSES, 256, words=WIDE),
    "a task beside tasks": Row(
        lambda n: [*start(), *tasks(n)], lambda n: ["connect 7 0", "attach 7", "exit 7"], 256
    ),
    "a file beside files": Row(
        lambda n: [*start(), *files(n)],
        lambda n: ["create 0 g", "stat 0 g", "truncate 0 g 3", "unlink 0 g"],
        128,
    ),
    "a map beside files": Row(
        lambda n: [*a_file(), *files(n)], lambda n: ["map 1 0 a 0 1 shared", "unmap 1 0 2 0 1"], 128
    ),
    "an unnamed file beside files": Row(
        lambda n: [*start(), *files(n)], lambda n: ["anon 1 1 private", "unmap 1 0 1 0 1"], 128
    ),
    "pages beside pages": Row(
        lambda n: [*start(), *pages(n), "create 0 g"],
        lambda n: ["preallocate 0 g 0 4", "punch 0 g 0 4"],
        256,
        words=WIDE,
    ),
    "counts beside pages": Row(
        lambda n: [*start(), *pages(n)], lambda n: ["meminfo", "nodes", "df 0", "stat 0 p"], 256, words=WIDE
    ),
    "a mount beside pages": Row(
        lambda n: [*start(), *pages(n)],
        lambda n: ["mount 1 size=4K,min_size=2K", "remount 1 -", "umount 1"],
        256,
        words=WIDE,
    ),
    "refused lines beside files": Row(
        lambda n: [*start(), *files(n)],
        lambda n: ["stat 0 none", "create 0 f0", "load 1 0 9 0 0 1", "fork 1 1"],
        128,
    ),
    "a range that is whole, by words": Row(
        lambda n: [*pages(4 * 256), *start()], lambda n: ["preallocate 0 p 0 256"], 64, words=WIDE
    ),
    "pages that go with a file": Row(
        lambda n: ["nr 65536"],
        lambda n: ["create 0 g", f"preallocate 0 g 0 {n}", "unlink 0 g"],
        256,
        is_linear=True,
        words=WIDE,
    ),
    "pages that are punched": Row(
        lambda n: ["nr 65536", "create 0 g"],
        lambda n: [f"preallocate 0 g 0 {n}", f"punch 0 g 0 {n}"],
        256,
        is_linear=True,
        words=WIDE,
    ),
    "faults that make pages": Row(
        lambda n: ["nr 65536", "connect 1 0", "anon 1 1 private"],
        lambda n: [
            f"anon 1 {n} private",
            *(f"fault 1 0 2 {at} write" for at in range(n)),
            f"unmap 1 0 2 0 {n}",
        ],
        512,
        turns=2,
        is_linear=True,
        words=WIDE,
    ),
    "faults at holes": Row(
        lambda n: ["nr 65536", "connect 1 0", "create 0 h"],
        lambda n: [
            f"map 1 0 h 0 {n} shared noreserve",
            *(f"fault 1 0 1 {at} write" for at in range(n)),
            f"unmap 1 0 1 0 {n}",
            "truncate 0 h 0",
        ],
        512,
        turns=2,
        is_linear=True,
        words=WIDE,
    ),
    "a fork of a map of a great number": Row(of_map, lambda n: ["fork 1 7", "exit 7"], 256),
    "a fork beside files": Row(lambda n: [*a_file(), *files(n)], lambda n: ["fork 1 7", "exit 7"], 128),
    "a fork beside maps of others": Row(
        lambda n: [*a_file(), *of_others(n)], lambda n: ["fork 1 9999", "exit 9999"], 128
    ),
    "an exit of maps beside files": Row(
        lambda n: [*a_file(), *maps(8), *files(n)], lambda n: ["fork 1 7", "exit 7"], 250
    ),
    "an exit of maps beside maps of others": Row(
        lambda n: [*a_file(), *maps(20), *of_others(n)], lambda n: ["fork 1 9999", "exit 9999"], 512
    ),
    "a fork and an exit of maps": Row(
        lambda n: [*a_file(), *maps(n)], lambda n: ["fork 1 7", "exit 7"], 128, turns=4, is_linear=True
    ),
    "a refused map beside maps": Row(
        lambda n: [*a_file(), *maps(n)], lambda n: ["map 1 0 a 0 70 private"], 128
    ),
    "an exit of maps": Row(
        lambda n: a_file(), lambda n: [*maps(n), "exit 1", "connect 1 0"], 1024, turns=1, is_linear=True
    ),
    "a list of names": Row(lambda n: files(n), lambda n: ["ls 0"], 128, is_linear=True),
}

# Rows that grow and should not, or by more than a step for each.
GROW = {
    "a fork of a lesser number beside tasks": Row(
        lambda n: [*a_file(), *of_others(n)], lambda n: ["fork 1 7", "exit 7"], 128
    )
}


# Lines before, others before, what is counted behind each, and how many times the second may cost the first.
PAIRS = {
    "a fork beside 1,000 files": (a_file(), [*a_file(), *files(1000)], ["fork 1 7", "exit 7"], 1.1),
    "a fork beside 2,000 maps of others": (
        a_file(),
        [*a_file(), *of_others(2000)],
        ["fork 1 9999", "exit 9999"],
        1.4,
    ),
    "a fork of a map numbered 4,095": (of_map(1), of_map(4095), ["fork 1 7", "exit 7"], 1.1),
    "a refused map beside 4,095 maps": (
        [*a_file(), *maps(0)],
        [*a_file(), *maps(4094)],
        ["map 1 0 a 0 70 private"],
        1.3,
    ),
}


def instructions(lines: Lines, words: tuple[str, ...]) -> int:
    counted = ["valgrind", "--tool=callgrind", "--callgrind-out-file=/dev/null", str(PROGRAM), *words]
    ran = subprocess.run(counted, input=text_of(lines), capture_output=True, timeout=SECONDS, check=True)
    found = re.search(rb"Collected : (\d+)", ran.stderr)
    assert found, ran.stderr
    return int(found[1])


def cost_behind(before: Lines, counted: Lines, turns: int, words: tuple[str, ...]) -> float:
    """Of one turn of the counted lines."""
    once = [*before, *counted]
    more = instructions([*once, *(turns * counted)], words)
    return (more - instructions(once, words)) / turns


def cost(row: Row, size: int) -> float:
    return cost_behind(row.before(size), row.counted(size), row.turns, row.words)


def grows(row: Row) -> tuple[bool, list[float]]:
    sizes = [row.size, 2 * row.size, 4 * row.size]
    with ThreadPoolExecutor(3) as pool:
        costs = list(pool.map(lambda size: cost(row, size), sizes))
    steps = [size // row.size if row.is_linear else 1 for size in sizes]
    return any(it > costs[0] * step * FACTOR + STEPS for it, step in zip(costs, steps, strict=True)), costs


needs_valgrind = pytest.mark.skipif(
    not which("valgrind"), reason="valgrind is not installed: instructions can't be counted"
)


@needs_valgrind
@pytest.mark.parametrize("row", ROWS.values(), ids=ROWS)
def test_a_line_costs_no_more_beside_more(row: Row) -> None:
    does, costs = grows(row)
    assert not does, f"instructions of a turn at N, 2N and 4N: {costs}"


@needs_valgrind
@pytest.mark.parametrize(("near", "far", "counted", "most"), PAIRS.values(), ids=PAIRS)
def test_a_line_costs_as_much(near: Lines, far: Lines, counted: Lines, most: float) -> None:
    with ThreadPoolExecutor(2) as pool:
        costs = list(pool.map(lambda before: cost_behind(before, counted, 20, ()), (near, far)))
    assert costs[1] <= most * costs[0], f"instructions of a turn: {costs}"


@needs_valgrind
@pytest.mark.xfail(strict=True, reason="known: it takes a step for each")
@pytest.mark.parametrize("row", GROW.values(), ids=GROW)
def test_what_still_grows(row: Row) -> None:
    does, costs = grows(row)
    assert not does, f"instructions of a turn at N, 2N and 4N: {costs}"
