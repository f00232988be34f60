"""Scripts whose lines go as far as the limits allow, which must be answered wherever memory is ample."""
from collections.abc import Iterator
from dataclasses import dataclass, field

import pytest

START = ["nr 8", "connect 1 0"]
TASKS = range(4096)
# The frames of the largest machine. (indices of a file stand in blocks of 65,536)
ALL_FRAMES = ["--frames", "65536,65536,65536,65536"]
WIDE = [
    "preallocate 0 a 0 16385",
    "preallocate 0 b 0 32769",
    "preallocate 0 c 30000 95536",
    "preallocate 0 d 16711680 16777216",
]
OPTIONS = ",".join(100 * ["size=4K"])


@dataclass(frozen=True)
class Limit:
    """A command at the size that its limits allow: lines, words of the machine, and what is refused."""

    what: str
    lines: list[str]
    words: list[str] = field(default_factory=list)
    refused: list[str] = field(default_factory=list)


def of_files() -> Iterator[Limit]:
    names = [f"create 0 f{at}" for at in range(1024)]
    yield Limit("1,024 files", [*START, *names, "ls 0", "create 0 g"], refused=["error 20 TooMany"])
    far = ["create 0 a", "map 1 0 a 16777215 1 shared", "store 1 0 1 16777215 0 61"]
    far += ["map 1 0 a 16777215 1 private", "store 1 0 2 16777215 0 62", "truncate 0 a 16777216"]
    far += ["map 1 0 a 16777214 2 shared noreserve", "fault 1 0 3 16777214 write"]
    far += [
        "map 1 0 a 16711680 65536 shared noreserve",
        "unmap 1 0 4 16711680 16777215",
        "punch 0 a 0 16777216",
    ]
    yield Limit("the last index", [*START, *far])


def of_tasks() -> Iterator[Limit]:
    maps = [
        "create 0 a",
        *2048 * ["map 1 0 a 0 1 shared"],
        "fork 1 2",
        "unmap 1 0 1 0 1",
        "map 1 0 a 0 1 shared",
    ]
    yield Limit("a fork of 2,048 maps", [*START, *maps, "exit 1", "exit 2"])
    both = [
        line.format(at)
        for at in range(1024)
        for line in ("create 0 f{}", "map 1 0 f{} 0 1 shared noreserve", "map 1 0 f{} 0 1 private noreserve")
    ]
    yield Limit("a fork over 1,024 files", [*START, *both, "fork 1 2", "exit 1", "exit 2"])
    tasks = [*(f"connect {task} 0" for task in TASKS), "connect 4096 0", "create 0 a"]
    tasks += [f"map {task} 0 a 0 1 shared noreserve" for task in TASKS]
    tasks += [f"exit {task}" for task in TASKS]
    yield Limit("4,096 tasks", ["nr 8", *tasks], refused=["error 20 TooMany"])


def of_pages() -> Iterator[Limit]:
    touched = [f"fault 1 0 1 {at} write" for at in range(65536)]
    copies = ["nr 65536", "connect 1 0", "anon 1 65536 private", *touched, "fork 1 2", "store 1 0 1 0 0 61"]
    yield Limit("65,536 copies and a fork", copies, ["--frames", "65536,16"])
    twice = [f"fault 1 0 {map} {at} write" for at in range(65536) for map in (1, 2)]
    pages = [
        "nr 131072",
        "connect 1 0",
        "anon 1 65536 private",
        "anon 1 65536 private noreserve",
        *twice,
        "exit 1",
    ]
    yield Limit("131,072 pages", pages, ["--frames", "65536,65536"])
    holes = ["create 0 h", "map 1 0 h 0 32 shared noreserve", "map 1 0 h 0 32 private noreserve"]
    holes += [f"fault 1 0 {map} {at} write" for at in range(16) for map in (9, 10)]
    reserved = ["nr 64", "connect 1 0", *8 * ["anon 1 4 shared"]]
    yield Limit("holes beside 32 reservations", [*reserved, *holes], ["--frames", "64"])


def of_preallocations() -> Iterator[Limit]:
    wide = ["nr 262144", *(f"create 0 {name}" for name in "abcd"), *WIDE, "stat 0 c"]
    wide += [*(f"punch 0 {name} 0 16777216" for name in "abcd"), *WIDE, "preallocate 0 d 0 65537"]
    yield Limit("wide preallocations", wide, ALL_FRAMES, ["error 20 TooMany"])
    full = [line for name in "abcd" for line in (f"create 0 {name}", f"preallocate 0 {name} 1 65537")]
    all_pages = ["nr 262145", *full, "preallocate 0 d 0 1", "meminfo", "nodes"]
    yield Limit("262,144 pages", all_pages, ALL_FRAMES, ["error 2 NoPages"])


def of_mounts() -> Iterator[Limit]:
    mounts = [*(f"mount {slot} -" for slot in range(1, 64)), *(f"create {slot} a" for slot in range(64))]
    yield Limit("64 mounts", mounts, ["--slots", "64"])
    options = ["nr 8", f"mount 1 {OPTIONS}", "df 1", f"remount 1 {OPTIONS},min_size=2K", "df 1"]
    yield Limit(
        "long options", [*options, f"mount 2 {OPTIONS},min_size=9K"], refused=["error 10 MinOverSize"]
    )


def at_the_limits() -> list[Limit]:
    return [*of_files(), *of_tasks(), *of_pages(), *of_preallocations(), *of_mounts()]


each_limit = pytest.mark.parametrize(
    "words, lines, refused",
    [pytest.param(it.words, it.lines, it.refused, id=it.what) for it in at_the_limits()],
)
