"""The memory that the program asks for and holds: no more than what is there needs."""
import resource
import subprocess
from collections.abc import Callable, Iterable
from dataclasses import dataclass
from pathlib import Path
from typing import Protocol

import pytest
from built import SECONDS, Memory, Run, Words, text_of

# A line with its reply.
Pair = tuple[str, str]


@dataclass(frozen=True)
class Usage:
    """The most bytes that lines held at one time, their calls for memory, and the replies."""

    most: int
    calls: int
    replies: list[str]

    def refused(self) -> list[str]:
        return [it for it in self.replies if it.startswith("error")]


class Held(Protocol):
    """Runs lines, and tells what memory they took; at the end nothing is held."""

    def __call__(self, lines: Iterable[str], words: Words = ()) -> Usage:
        ...


class Grown(Protocol):
    """By how many bytes the most that is held grows from few turns to many.

    A turn has lines with their replies, and a number of its own.
    """

    def __call__(
        self,
        start: list[Pair],
        turn: Callable[[int], list[Pair]],
        few: int,
        many: int,
        words: Words = (),
        first: int = 0,
    ) -> int:
        ...


@pytest.fixture
def held(run: Run, memory: Memory) -> Held:
    def held(lines: Iterable[str], words: Words = ()) -> Usage:
        status, output, faults = run(words, text_of(lines), environment=memory.environment())
        assert (status, faults) == (0, b"")
        calls, left, most = memory.told()
        assert left == 0, "blocks held at the end"
        *replies, end = output.decode().split("\n")
        assert end == ""
        return Usage(most, calls, replies)

    return held


@pytest.fixture
def grown(held: Held) -> Grown:
    def grown(
        start: list[Pair],
        turn: Callable[[int], list[Pair]],
        few: int,
        many: int,
        words: Words = (),
        first: int = 0,
    ) -> int:
        most = []
        for turns in (few, many):
            pairs = [*start, *(pair for number in range(first, first + turns) for pair in turn(number))]
            usage = held([line for line, _ in pairs], words)
            assert usage.replies == [reply for _, reply in pairs]
            most.append(usage.most)
        return most[1] - most[0]

    return grown


def test_asks_no_memory_for_lines(held: Held) -> None:
    """The calls for memory don't grow with lines that make nothing new, whatever they carry."""
    start = ["nr 4", "connect 1 0", "create 0 a", "map 1 0 a 0 2 shared", "store 1 0 1 0 0 00"]
    lines = [
        "meminfo",
        "df 0",
        "load 1 0 1 0 0 8",
        "load 1 0 1 9 0 8",
        "nr 4",
        "",
        "no such line",
        "store 1 0 1 0 0 " + 256 * "5a",
        "read 0 a 0 0 8",
        "stat 0 " + 64 * "b",
        "stat 0 " + 900 * "c",
        "create 0 a",
        "truncate 0 a 2",
        "mount 1 " + 900 * "d",
        "mount 0 size=4K,nr_inodes=7",
    ]
    assert held(start + 10 * lines).calls == held(start + 1000 * lines).calls


def test_holds_what_it_needs(grown: Grown) -> None:
    """Mounts, files and maps that come and go are given back: no more is held after many turns."""
    turn = [("mount 1 min_size=2K", "ok"), ("create 1 a", "ok"), ("umount 1", "ok")]
    assert grown([("nr 4", "ok 4")], lambda _: turn, 10, 1000) == 0


def test_holds_nothing_of_tasks_that_went(grown: Grown) -> None:
    """Tasks that fork, map, store and exit leave nothing: no more is held after many."""

    def turn(number: int) -> list[Pair]:
        task, child = 2 * number, 2 * number + 1
        return [
            (f"connect {task} 0", "ok"),
            (f"map {task} 0 a 0 1 shared", "ok 1"),
            (f"anon {task} 2 private", "ok 2"),
            (f"store {task} 0 2 0 0 61", "ok"),
            (f"fork {task} {child}", "ok"),
            (f"store {child} 0 2 0 0 62", "ok"),
            (f"load {task} 0 2 0 0 1", "ok 61"),
            (f"exit {task}", "ok"),
            (f"load {child} 0 2 0 0 1", "ok 62"),
            (f"unmap {child} 0 2 0 2", "ok"),
            (f"exit {child}", "ok"),
        ]

    assert grown([("nr 8", "ok 8"), ("create 0 a", "ok")], turn, 10, 1000) == 0


def test_holds_nothing_of_files_that_went(grown: Grown) -> None:
    """Files with names of their own, their maps, and lines that are refused leave nothing."""

    def turn(number: int) -> list[Pair]:
        a, b = f"a{number}", f"b{number}"
        return [
            (f"create 0 {a}", "ok"),
            (f"unlink 0 {a}", "ok"),
            (f"create 0 {b}", "ok"),
            (f"create 0 {b}", "error 13 FileExists"),
            (f"map 1 0 {b} 0 2 shared", "ok 1"),
            (f"map 1 0 {b} 0 2 private", "ok 2"),
            (f"map 1 0 {b} 0 60 private", "error 2 NoPages"),
            ("store 1 0 1 0 0 61", "ok"),
            ("store 1 0 2 1 0 62", "ok"),
            (f"punch 0 {b} 0 1", "ok"),
            (f"truncate 0 {b} 0", "ok"),
            ("unmap 1 0 1 0 2", "ok"),
            (f"unlink 0 {b}", "ok"),
            ("unmap 1 0 2 0 2", "ok"),
        ]

    assert grown([("nr 8", "ok 8"), ("connect 1 0", "ok")], turn, 10, 1000, first=1000) == 0


def test_holds_nothing_of_refused_maps(grown: Grown) -> None:
    """Maps that are refused, of tasks with numbers of their own, leave nothing."""

    def turn(task: int) -> list[Pair]:
        return [
            (f"connect {task} 0", "ok"),
            (f"anon {task} 60 private", "error 2 NoPages"),
            (f"map {task} 0 a 0 60 private", "error 2 NoPages"),
            (f"map {task} 0 a 0 60 shared", "error 2 NoPages"),
            (f"exit {task}", "ok"),
        ]

    assert grown([("nr 8", "ok 8"), ("create 0 a", "ok")], turn, 10, 3000) == 0


@pytest.mark.parametrize("index, kilobytes", [(1048575, 23), (16777215, 24)])
def test_holds_little_of_far_entries(grown: Grown, index: int, kilobytes: int) -> None:
    """A file's entry at a far index takes the tables of its block, and 4 bytes for each block below."""

    def turn(number: int) -> list[Pair]:
        return [
            (f"create 0 f{number}", "ok"),
            (f"map 1 0 f{number} {index} 1 shared", f"ok {number + 1}"),
            (f"store 1 0 {number + 1} {index} 0 61", "ok"),
        ]

    assert (
        grown([("nr 128", "ok 128"), ("connect 1 0", "ok")], turn, 1, 101, ["--frames", "64,64"])
        < 100 * kilobytes * 1024
    )


def test_holds_little_of_files_cut_to_nothing(grown: Grown) -> None:
    """A file that had an entry at the last index takes less than 1 KB once it is cut to length 0."""

    def turn(number: int) -> list[Pair]:
        return [
            (f"create 0 f{number}", "ok"),
            (f"map 1 0 f{number} 16777215 1 shared", "ok 1"),
            ("store 1 0 1 16777215 0 61", "ok"),
            (f"truncate 0 f{number} 0", "ok"),
            ("unmap 1 0 1 16777215 16777216", "ok"),
        ]

    assert grown([("nr 8", "ok 8"), ("connect 1 0", "ok")], turn, 1, 100) < 100 * 1024


def test_holds_little_of_pages_that_went(held: Held) -> None:
    """A page that comes and goes all over a file leaves the tables of one block at most."""
    start = ["nr 1", "create 0 a"]
    places = range(0, 16_777_216, 256)
    turns = [f"{what} 0 a {at} {at + 1}" for at in places for what in ("preallocate", "punch")]
    usage = held([*start, *turns, "stat 0 a"])
    assert usage.replies[-1] == "ok 16776961 0 0 0"
    assert usage.most - held(start).most < 1 << 20
    mapped = [*start, "connect 1 0", "map 1 0 a 70000 1 shared noreserve"]
    turn = ["fault 1 0 1 70000 write", "punch 0 a 70000 70001"]
    few, many = (held([*mapped, *count * turn]).calls for count in (10, 1000))
    assert few == many, "calls for memory of a page that comes and goes in one place"


@pytest.mark.parametrize("line", ["map 1 0 a {} 65536 shared", "preallocate 0 a {} {}"])
def test_holds_little_of_ranges_that_were_refused(held: Held, line: str) -> None:
    """Maps and preallocations that are refused a page leave the tables of one block of their file at most."""
    start = ["nr 8", "connect 1 0", "create 0 a"]
    lines = [line.format(at, at + 65536) for at in range(0, 16_777_216, 65_536)]
    usage = held([*start, *lines])
    assert set(usage.replies[3:]) == {"error 2 NoPages"}
    assert usage.most - held([*start, lines[-1]]).most < 1 << 20


def test_gives_room_for_pages_back(held: Held) -> None:
    """The room of a refused map, and of the copies of children that went, is given back.

    So on one slot after another no more is held than on one.
    """
    refused = ["mount {0} -", "create {0} a", "map 1 {0} a 0 65536 private"]
    asked = [line.format(slot) for slot in range(1, 64) for line in refused]
    usage = held(["nr 8", "connect 1 0", *asked], ["--slots", "64"])
    assert usage.replies[4::3] == 63 * ["error 2 NoPages"]
    assert usage.most < 16 << 20
    lines = ["nr 1024"]
    for slot in range(1, 17):
        lines += [
            f"mount {slot} -",
            f"create {slot} a",
            f"connect {slot} 0",
            f"map {slot} {slot} a 0 256 private",
        ]
        lines += [f"store {slot} {slot} 1 {at} 0 61" for at in range(256)]
        lines += [what.format(slot, it) for what in ("fork {} {}", "exit {1}") for it in range(100, 164)]
        lines += [f"exit {slot}"]
    usage = held(lines, ["--slots", "64", "--frames", "2048"])
    assert usage.refused() == []
    assert usage.most < 16 << 20, "for 64 children at a time"


@pytest.mark.parametrize(
    "lines, kilobytes",
    [
        pytest.param(["map 1 {0} a 0 65536 private", "unmap 1 {0} 1 0 65536"], 4, id="unmapped"),
        pytest.param(
            ["map 1 {0} a 0 65536 shared", "unmap 1 {0} 1 0 65536", "truncate {0} a 0"], 4, id="cut"
        ),
        pytest.param(
            ["map 1 {0} a 0 65536 shared", "unmap 1 {0} 1 0 65536", "unlink {0} a"], 4, id="unlinked"
        ),
        pytest.param(["preallocate {0} a 0 65536", "unlink {0} a"], 4, id="filled and unlinked"),
        pytest.param(["preallocate {0} a 0 65536", "punch {0} a 0 65536"], 600, id="filled and punched"),
    ],
)
def test_gives_room_back_with_what_needed_it(held: Held, lines: list[str], kilobytes: int) -> None:
    """The room for pages that were reserved, or there, goes with them, and not with the mount.

    So on one slot after another no more is held than on one, but for the tables of one block that a file
    without pages keeps.
    """
    start, words = ["nr 65536", "connect 1 0"], ["--slots", "33", "--frames", "65536"]
    turn = ["mount {0} -", "create {0} a", *lines]
    few, many = (
        held([*start, *(line.format(slot) for slot in range(1, slots) for line in turn)], words)
        for slots in (2, 33)
    )
    assert many.refused() == []
    assert many.most - few.most < 31 * kilobytes * 1024


def test_asks_no_memory_for_a_few_pages_again(held: Held) -> None:
    """Pages of which a few come and go together take memory for their room once."""
    turn = [*(f"fault 1 0 1 {at} write" for at in range(64)), "punch 0 a 0 64"]
    start = ["nr 64", "connect 1 0", "create 0 a", "map 1 0 a 0 64 shared noreserve"]
    few, many = (held([*start, *turns * turn], ["--frames", "64"]).calls for turns in (10, 100))
    assert few == many


def test_has_room_for_no_more_pages_than_frames(held: Held) -> None:
    """Each child of a map that was touched may copy all of it, but no more pages than frames are ever in use.

    A child takes 8 bytes for each place of its map, and room for no page beyond the frames.
    """
    touched = [
        "nr 4096",
        "connect 1 0",
        "anon 1 4096 private",
        *(f"fault 1 0 1 {at} write" for at in range(4096)),
    ]
    few, many = (
        held([*touched, *(f"fork 1 {child}" for child in range(2, 2 + forks))], ["--frames", "4096"]).most
        for forks in (1, 65)
    )
    assert many - few < 64 * 4096 * 9
    refused = ["nr 8", "connect 1 0", *(f"anon 1 {pages} private" for pages in (1024, 65536))]
    few, many = (held(lines, ["--frames", "8"]).most for lines in (refused[:-1], refused))
    assert many - few < 65536 * 9, "of a map that is refused, its places alone"
    few, many = (
        held(["nr 8", "create 0 a", f"preallocate 0 a 0 {pages}"], ["--frames", "8"]).most
        for pages in (1024, 65536)
    )
    assert many - few < 65536 * 16, "of a preallocation that is refused, the tables of its block alone"


def test_forks_a_wide_map_in_little_address_space(program: Path) -> None:
    """500 children of a map of 65,536 touched pages fit into 400,000 kB; their places take 256,000."""
    lines = [
        "nr 65536",
        "connect 1 0",
        "anon 1 65536 private",
        *(f"fault 1 0 1 {at} write" for at in range(65536)),
        *(f"fork 1 {child}" for child in range(2, 502)),
    ]
    limited = ["sh", "-c", 'ulimit -v 400000; exec "$0" "$@"', str(program), "--frames", "65536"]
    ran = subprocess.run(limited, input=text_of(lines), capture_output=True, timeout=SECONDS)
    assert (ran.returncode, ran.stderr) == (0, b"")
    assert [it for it in ran.stdout.decode().split("\n") if it.startswith("error")] == []


@pytest.mark.parametrize(
    "line", ["map 1 {0} a 0 65536 private", "map 1 {0} a 0 65536 shared", "preallocate {0} a 0 65536"]
)
def test_keeps_no_room_of_what_is_refused(held: Held, line: str) -> None:
    """On 63 slots of a machine with many frames no room for 65,536 pages stays: a slot keeps its tables of
    maps, and those of one block of a file."""
    words, start = ["--slots", "64", "--frames", "65536"], ["nr 65535", "connect 1 0"]
    most = []
    for slots in (1, 16, 32, 63):
        lines = [
            one.format(slot) for slot in range(1, slots + 1) for one in ("mount {0} -", "create {0} a", line)
        ]
        usage = held([*start, *lines], words)
        assert usage.replies[-1] == "error 2 NoPages"
        most.append(usage.most)
    assert (most[-1] - most[0]) / 62 < 1_000_000, most


def faults_of(run: Run, lines: list[str]) -> int:
    """How many pages of its memory the program touched for the first time."""
    begun = resource.getrusage(resource.RUSAGE_CHILDREN).ru_minflt
    status, _, faults = run(["--frames", "65536"], text_of(lines))
    assert (status, faults) == (0, b"")
    return resource.getrusage(resource.RUSAGE_CHILDREN).ru_minflt - begun


def test_moves_no_room_that_nothing_was_written_to(run: Run) -> None:
    """Few pages are in use, and room for many comes and goes: only the few move, and no other part of the
    room is touched."""
    few = ["nr 65536", "connect 1 0", "anon 1 8 private", *(f"fault 1 0 1 {at} write" for at in range(8))]
    rooms = (300, 4000, 9000, 20000, 30000)
    turn = [
        *(f"anon 1 {pages} private" for pages in rooms),
        *(f"unmap 1 0 {map} 0 {pages}" for map, pages in enumerate(rooms, 2)),
    ]
    assert faults_of(run, [*few, *(10 * turn)]) - faults_of(run, few) < 150


@dataclass(frozen=True)
class Growing:
    """Lines before, and a line or more for each of N.

    Each of N makes so many calls for memory of its own, and all of them together may leave tables of so many
    bytes.
    """

    start: list[str]
    each: Callable[[int], list[str]]
    size: int
    own: int = 0
    tables: int = 1024

    def lines(self, count: int) -> list[str]:
        return [*self.start, *(line for at in range(count) for line in self.each(at))]


def of_a_map(made: str) -> Growing:
    start = ["nr 65536", "connect 1 0", "create 0 h", made]
    return Growing(start, lambda at: [f"fault 1 0 1 {at} write"], 16_384)


ONE_BY_ONE = {
    "pages of holes": of_a_map("map 1 0 h 0 65536 shared noreserve"),
    "copies of holes": of_a_map("map 1 0 h 0 65536 private noreserve"),
    "pages of a reserved map": of_a_map("map 1 0 h 0 65536 shared"),
    "pages that are preallocated": Growing(
        ["nr 65536", "create 0 h"], lambda at: [f"preallocate 0 h {at} {at + 1}"], 16_384, 1
    ),
    "maps of a file": Growing(
        ["connect 1 0", "create 0 h"], lambda at: ["map 1 0 h 0 1 shared noreserve"], 1024, 1
    ),
    "maps of tasks": Growing(
        ["create 0 h"], lambda at: [f"connect {at} 0", f"map {at} 0 h 0 1 shared noreserve"], 1024, 2
    ),
    "files": Growing([], lambda at: [f"create 0 f{at}"], 256),
    "files without a name": Growing(["connect 1 0"], lambda at: ["anon 1 1 shared noreserve"], 256, 2),
    "tasks": Growing([], lambda at: [f"connect {at} 0"], 1024),
}


# Some ten lists may be moved as twice as much comes.
FEW_CALLS = 16


@pytest.mark.parametrize("row", ONE_BY_ONE.values(), ids=ONE_BY_ONE)
def test_asks_seldom_for_room_of_what_comes_one_by_one(held: Held, row: Growing) -> None:
    """Room grows by a part of what there is: N more, and 2N more, ask for memory a few times."""
    calls = []
    for count in (row.size, 2 * row.size, 4 * row.size):
        usage = held(row.lines(count), ["--frames", "65536"])
        assert usage.refused() == []
        calls.append(usage.calls - row.own * count)
    assert calls[1] - calls[0] <= FEW_CALLS and calls[2] - calls[1] <= FEW_CALLS, calls


REFUSED = {
    "pages of holes": Growing(
        ["nr 0", "connect 1 0", "create 0 h", "map 1 0 h 0 65536 shared noreserve"],
        lambda at: [f"fault 1 0 1 {64 * (at % 256)} write"],
        256,
    ),
    "copies of holes": Growing(
        ["nr 0", "connect 1 0", "anon 1 65536 private noreserve"],
        lambda at: [f"store 1 0 1 {64 * at} 0 5a"],
        256,
    ),
    "pages of far holes": Growing(
        ["nr 0", "connect 1 0", "create 0 h", "truncate 0 h 16777216"],
        lambda at: [f"map 1 0 h {65536 * at} 1 shared", f"preallocate 0 h {65536 * at} {65536 * at + 1}"],
        64,
        tables=1 << 16,
    ),
    "files without a name": Growing(
        ["nr 0", "connect 1 0"], lambda at: [f"anon 1 {65536 - at} {('private', 'shared')[at % 2]}"], 64
    ),
    "mounts": Growing(["nr 0"], lambda at: [f"mount {1 + at % 3} min_size=1K"], 64),
    "forks": Growing(
        ["connect 1 0", "create 0 h", *(2049 * ["map 1 0 h 0 1 shared noreserve"])],
        lambda at: [f"fork 1 {2 + at}"],
        64,
    ),
    "tasks' maps": Growing(
        ["nr 0", "create 0 h"], lambda at: [f"connect {at} 0", f"map {at} 0 h 0 9 private", f"exit {at}"], 64
    ),
}


@pytest.mark.parametrize("row", REFUSED.values(), ids=REFUSED)
def test_keeps_no_more_beside_more_that_is_refused(held: Held, row: Growing) -> None:
    """N, 2N and 4N lines that are refused leave as much as one, but for small tables of a file's blocks."""
    most = []
    for count in (row.size, 2 * row.size, 4 * row.size):
        usage = held(row.lines(count), ["--frames", "65536"])
        assert len(usage.refused()) >= count
        most.append(usage.most)
    assert max(most) - min(most) < row.tables, most
