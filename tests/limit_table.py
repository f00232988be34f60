"""Every limit of the profile, with lines one below it, at it and one above, and their last reply; and those
of the program's words.

The lint compares them with the definitions, the code, the help and PROTOCOL.md.
"""
from collections.abc import Iterator
from dataclasses import dataclass, field

TOO_MANY, OUT_OF_RANGE = "error 20 TooMany", "error 17 OutOfRange"


@dataclass(frozen=True)
class Size:
    """Lines at one size, and the replies to the last of them. The words are the machine's."""

    lines: list[str]
    replies: list[str]
    words: list[str] = field(default_factory=list)


@dataclass(frozen=True)
class Limit:
    """A limit by its name in the definitions' profile: sizes within it, the limit itself among them, and the
    first that is not."""

    name: str
    value: int
    within: list[Size]
    above: list[Size]


def refused(lines: list[str], refusal: str, words: list[str] | None = None) -> Size:
    return Size(lines, [refusal], words or [])


def task_and_file() -> list[str]:
    return ["connect 1 0", "create 0 a"]


def files(count: int) -> list[str]:
    return [f"create 0 f{at}" for at in range(count)]


def maps(count: int) -> list[str]:
    return [*task_and_file(), *(count * ["map 1 0 a 0 1 shared noreserve"])]


def tasks(count: int) -> list[str]:
    return [f"connect {task} 0" for task in range(count)]


def of_files() -> Limit:
    last = ["stat 0 f0", "unlink 0 f0", "create 0 g", "create 0 h"]
    replies = ["ok 0 0 0 0", "ok", "ok", TOO_MANY]
    anon = ["connect 1 0", *files(1024), "anon 1 1 shared noreserve"]
    return Limit(
        "most_files",
        1024,
        [Size(files(1023), ["ok"]), Size([*files(1024), *last], replies)],
        [refused(files(1025), TOO_MANY), refused(anon, TOO_MANY)],
    )


def of_maps() -> Limit:
    fork = [
        *maps(2048),
        "fork 1 2",
        "unmap 2 0 2048 0 1",
        "map 2 0 a 0 1 private",
        "exit 1",
        "exit 2",
        "stat 0 a",
    ]
    forked = ["ok", "ok", "ok 2048", "ok", "ok", "ok 1 0 0 0"]
    whole = [*maps(4096), "fault 1 0 4096 0 read", "unmap 1 0 77 0 1", "map 1 0 a 0 1 private noreserve"]
    return Limit(
        "most_maps",
        4096,
        [
            Size(maps(4095), ["ok 4095"]),
            Size(["nr 1", *whole], ["ok", "ok", "ok 77"]),
            Size(["nr 1", *fork], forked),
        ],
        [
            refused(maps(4097), TOO_MANY),
            refused([*maps(4096), "anon 1 1 shared noreserve"], TOO_MANY),
            refused([*maps(2049), "fork 1 2"], TOO_MANY),
        ],
    )


def of_tasks() -> Limit:
    each = [f"map {task} 0 a 0 1 shared noreserve" for task in range(4096)]
    exits = [f"exit {task}" for task in range(4096)]
    whole = [*tasks(4096), "create 0 a", *each, "stat 0 a", *exits, "stat 0 a", "connect 9999 0"]
    mixed = [*tasks(4095), "fork 0 4095", "exit 4095", "connect 4095 1", "attach 4095"]
    return Limit(
        "most_tasks",
        4096,
        [
            Size(tasks(4095), ["ok"]),
            Size(whole, ["ok 1 0 0 0", "ok"]),
            Size(mixed, ["ok", "ok", "ok", "ok 1"]),
        ],
        [refused(tasks(4097), TOO_MANY), refused([*tasks(4096), "fork 0 4096"], TOO_MANY)],
    )


def of_file_pages() -> Limit:
    most = 16_777_216
    lines = [
        *task_and_file(),
        f"truncate 0 a {most}",
        "stat 0 a",
        f"map 1 0 a {most - 1} 1 shared noreserve",
        f"fault 1 0 1 {most - 1} write",
        f"read 0 a {most - 1} 1023 1",
        f"map 1 0 a {most - 65_536} 65536 private noreserve",
        f"preallocate 0 a {most - 2} {most}",
        f"unmap 1 0 2 {most - 65_536} {most - 1}",
        f"punch 0 a 0 {most}",
        f"truncate 0 a {most - 1}",
    ]
    replies = [f"ok {most} 0 0 0", "ok 1", "ok", "ok 00", "ok 2", "ok", "ok", "ok", "ok"]
    above = [
        f"truncate 0 a {most + 1}",
        f"map 1 0 a {most} 1 shared noreserve",
        f"map 1 0 a {most - 1} 2 shared noreserve",
        f"preallocate 0 a {most} {most + 1}",
        f"punch 0 a 0 {most + 1}",
    ]
    return Limit(
        "most_file_pages",
        most,
        [Size(["nr 4", *lines], replies)],
        [refused([*task_and_file(), line], OUT_OF_RANGE) for line in above],
    )


def of_map_pages() -> Limit:
    words = ["--frames", "65536,16"]
    within = [
        Size(["nr 65536", *task_and_file(), *lines, "meminfo"], replies, words)
        for lines, replies in (
            ([f"map 1 0 a 0 {pages} {kind}", f"unmap 1 0 1 0 {pages}"], list[str]())
            for pages in (65_535, 65_536)
            for kind in ("shared", "private")
        )
    ]
    within = [Size(it.lines[:-1], [*it.replies, "ok 1", "ok"], it.words) for it in within]
    for pages in (65_535, 65_536):
        touch = [f"fault 1 0 1 {at} write" for at in (0, pages - 1)]
        within.append(
            Size(
                [
                    "nr 65536",
                    "connect 1 0",
                    f"anon 1 {pages} private",
                    *touch,
                    "fork 1 2",
                    "exit 1",
                    "exit 2",
                ],
                ["ok", "ok", "ok", "ok", "ok"],
                words,
            )
        )
        within.append(
            Size(
                ["nr 65536", "create 0 a", f"preallocate 0 a 0 {pages}", "stat 0 a"],
                ["ok", f"ok {pages} {pages} {pages} 0"],
                words,
            )
        )
    above = [
        "map 1 0 a 0 65537 shared",
        "map 1 0 a 0 65537 private noreserve",
        "anon 1 65537 shared",
        "anon 1 65537 private noreserve",
        "preallocate 0 a 0 65537",
    ]
    return Limit(
        "most_map_pages",
        65_536,
        within,
        [refused([*task_and_file(), line], TOO_MANY, words) for line in above],
    )


def of_bytes() -> Limit:
    start = ["nr 4", *task_and_file(), "map 1 0 a 0 1 shared"]
    within = [
        Size(
            [*start, f"store 1 0 1 0 7 {count * '5a'}", f"load 1 0 1 0 7 {count}", f"read 0 a 0 7 {count}"],
            ["ok", f"ok {count * '5a'}", f"ok {count * '5a'}"],
        )
        for count in (1, 255, 256)
    ]
    above = [f"store 1 0 1 0 7 {257 * '5a'}", "load 1 0 1 0 7 257", "read 0 a 0 7 257"]
    return Limit("most_bytes", 256, within, [refused([*start, line], TOO_MANY) for line in above])


def of_overcommit() -> Limit:
    most = 4_294_967_295
    return Limit(
        "most_overcommit",
        most,
        [Size([f"overcommit {most - 1}", f"overcommit {most}"], ["ok", "ok"])],
        [refused([f"overcommit {most + 1}"], OUT_OF_RANGE)],
    )


def of_names() -> Limit:
    within = [
        Size(
            [f"create 0 {count * 'n'}", "ls 0", f"unlink 0 {count * 'n'}"],
            ["ok", f"text 1\n{count * 'n'}", "ok"],
        )
        for count in (1, 63, 64)
    ]
    return Limit(
        "most_name_bytes",
        64,
        within,
        [
            refused([f"create 0 {65 * 'n'}"], "error 15 BadName"),
            refused([f"stat 0 {65 * 'n'}"], "error 12 NoSuchFile"),
        ],
    )


def of_lines() -> Limit:
    within = [Size([count * "x"], ["error 21 BadLine"]) for count in (1023, 1024)]
    options = "mount 1 size=" + (1024 - len("mount 1 size=") - 1) * "0" + "4"
    return Limit(
        "most_line_bytes",
        1024,
        [*within, Size(["nr 4", options], ["error 11 BadOption"])],
        [
            refused([1025 * "x"], "error 22 LineTooLong"),
            Size([1025 * "x", "nr 3"], ["error 22 LineTooLong", "ok 3"]),
        ],
    )


def of_slots() -> Limit:
    """A task's maps on all slots are found by a fork, by its child and by both exits."""
    words, slots = ["--slots", "64", "--frames", "256"], range(64)
    mounts = [
        "nr 200",
        "connect 1 0",
        *(f"mount {slot} -" for slot in slots[1:]),
        *(f"create {slot} a" for slot in slots),
    ]
    pages = [
        line for slot in slots for line in (f"map 1 {slot} a 0 1 private", f"store 1 {slot} 1 0 0 {slot:02x}")
    ]
    after = [
        "fork 1 2",
        *(f"stat {slot} a" for slot in slots),
        "exit 1",
        *(f"load 2 {slot} 1 0 0 1" for slot in slots),
        "exit 2",
        *(f"stat {slot} a" for slot in slots),
        *(f"umount {slot}" for slot in slots[1:]),
    ]
    replies = [
        "ok",
        *(64 * ["ok 1 0 0 2"]),
        "ok",
        *(f"ok {slot:02x}" for slot in slots),
        "ok",
        *(64 * ["ok 1 0 0 0"]),
        *(63 * ["ok"]),
    ]
    return Limit(
        "most_slots",
        64,
        [
            Size([*mounts, *pages, *after], replies, words),
            Size(["mount 62 -", "mount 63 -"], ["error 8 NoSuchSlot"], ["--slots", "63"]),
        ],
        [refused(["mount 64 -"], "error 8 NoSuchSlot", words)],
    )


def of_frames() -> Limit:
    within = [
        Size(
            ["nr 99999999", "nodes"],
            [f"ok {frames}", f"text 1\n0 {frames} {frames} 0"],
            ["--frames", str(frames)],
        )
        for frames in (1, 65_535, 65_536)
    ]
    return Limit("most_frames", 65_536, within, [])


def of_nodes() -> Limit:
    rows = "\n".join(f"{node} 65536 65536 0" for node in range(4))
    whole = Size(
        ["nr 262145", "nodes", "connect 1 3"],
        ["ok 262144", f"text 4\n{rows}", "ok"],
        ["--frames", "65536,65536,65536,65536"],
    )
    return Limit(
        "most_nodes", 4, [whole], [refused(["connect 1 4"], "error 25 NoSuchNode", ["--frames", "1,1,1,1"])]
    )


def of_pages() -> Iterator[Limit]:
    for name, size in (("least_page_bytes", 1024), ("most_page_bytes", 2_097_152)):
        last = size - 1
        lines = [
            "nr 1",
            *task_and_file(),
            "map 1 0 a 0 1 shared",
            f"store 1 0 1 0 {last} 7e",
            f"load 1 0 1 0 {last} 1",
            f"load 1 0 1 0 {last} 2",
            f"load 1 0 1 0 {size} 1",
        ]
        yield Limit(
            name,
            size,
            [
                Size(
                    lines,
                    ["ok", "ok 7e", "error 18 CrossesPage", "error 18 CrossesPage"],
                    ["--page", str(size)],
                )
            ],
            [],
        )


# What only the words of the program or a whole input tell has tests of its own, in tests/program.
ELSEWHERE = {"most_input_bytes": 1_073_741_824, "most_places": 16_777_216, "most_frames_in_all": 262_144}
LIMITS = [
    of_files(),
    of_maps(),
    of_tasks(),
    of_file_pages(),
    of_map_pages(),
    of_bytes(),
    of_overcommit(),
    of_names(),
    of_lines(),
    of_slots(),
    of_frames(),
    of_nodes(),
    *of_pages(),
]
# The limits of words alone.
OF_WORDS = {"most_port": 65_535, "most_sessions": 65_535, "most_workers": 64, "most_idle": 4_294_967_295}
# What the help says of an option's values, by the names of limits.
TOLD = {
    "frames": "1 to {most_frames}, of 1 to {most_nodes} nodes",
    "page": "a power of two, {least_page_bytes} to {most_page_bytes}",
    "slots": "1 to {most_slots}",
    "port": "0 to {most_port}",
    "sessions": "1 to {most_sessions}",
    "workers": "1 to {most_workers}",
    "trace": "0 to {most_places}",
    "idle": "0 to {most_idle}",
}


def profile() -> dict[str, int]:
    """Each limit of the definitions by its name."""
    return {it.name: it.value for it in LIMITS} | ELSEWHERE


def sizes() -> Iterator[tuple[str, Size]]:
    """Each size of each limit, with what it is called in a test."""
    for limit in LIMITS:
        yield from ((f"{limit.name}, within {at}", it) for at, it in enumerate(limit.within))
        yield from ((f"{limit.name}, above {at}", it) for at, it in enumerate(limit.above))
