"""Tells who holds the huge pages of a host.

Processes, files, segments and mounts, beside what the kernel counts. It reads, and changes nothing.

    hugetlbctl who
    hugetlbctl who --json
"""
import argparse
import json
import os
import re
import sys
from collections.abc import Iterator
from dataclasses import asdict, dataclass, field
from enum import Enum
from pathlib import Path
from typing import Any

from .host import HugeMount, LinuxHost, Range, mounts_in
from .lines import printable
from .observe import a_page, owners_of
from .sizes import in_words
from .subcommand import Subcommands, subparser

SMALL = 4096
REASONS = (
    "processes of others, where root did not ask",
    "a memfd or a file that is open and mapped by nobody",
    "mounts of containers that can't be seen from here",
    "pages that a device or the kernel keeps, or that are broken",
)


class Kind(Enum):
    """What holds pages."""

    FILE = "file"
    MEMFD = "memfd"
    SEGMENT = "SysV segment"
    ANONYMOUS = "anonymous"
    MINIMUM = "minimum of a mount"


def kind_of(path: str) -> tuple[Kind, str]:
    """The kind of a mapped path, and what names it."""
    path = path.removesuffix(" (deleted)")
    if path.startswith("/anon_hugepage") or not path:
        return Kind.ANONYMOUS, ""
    if path.startswith("/memfd:"):
        return Kind.MEMFD, path.removeprefix("/memfd:")
    if found := re.fullmatch(r"/SYSV([0-9a-f]{8})", path):
        return Kind.SEGMENT, f"key 0x{found[1]}"
    return Kind.FILE, path


@dataclass
class Holder:
    """A row: who holds how many pages, in use and reserved."""

    who: str
    kind: Kind
    what: str
    in_use: int
    reserved: int
    by_node: dict[int, int] = field(default_factory=dict)
    others: list[int] = field(default_factory=list)

    def as_value(self) -> dict[str, Any]:
        return {**asdict(self), "kind": self.kind.value}


def nodes_of(ranges: list[Range]) -> dict[int, int]:
    """The pages on each node; of a file that several have mapped the most that one of them sees."""
    made: dict[int, int] = {}
    for one in ranges:
        for node, count in one.by_node.items():
            made[node] = max(made.get(node, 0), count)
    return made


def of_processes(host: LinuxHost) -> Iterator[tuple[Holder, tuple[str, int] | None]]:
    """What processes have mapped; a file once, with the first process that has it.

    With the file that it is.
    """
    for owner in owners_of(host):
        first = owner.first
        kind, what = kind_of(first.path)
        if first.is_shared:
            in_use = file_pages(host, first) or owner.present
            reserved = max(owner.pages - in_use, 0) if any(it.has_reserve for it in owner.ranges) else 0
            yield Holder(
                first.process.label(), kind, what, in_use, reserved, nodes_of(owner.ranges), owner.others()
            ), first.file
            continue
        # (of a private range each process counts its own copies, and the oldest one what they share)
        in_use = first.present + sum(it.own for it in owner.ranges if it is not first)
        reserved = max(first.pages - first.present, 0) if first.has_reserve else 0
        yield Holder(
            first.process.label(), kind, what, in_use, reserved, dict(first.by_node), owner.others()
        ), None


def file_pages(host: LinuxHost, one: Range) -> int:
    """The pages that a file has, where it can be reached: more than any process has touched."""
    if kind_of(one.path)[0] is not Kind.FILE or one.path.endswith(" (deleted)"):
        return 0
    try:
        found = os.stat(host.root / one.path.lstrip("/"))
    except OSError:
        return 0
    return found.st_blocks * 512 // host.page if name_of(found) == one.file else 0


def name_of(found: os.stat_result) -> tuple[str, int]:
    """A file as the maps of a process name it: its device and its number."""
    return f"{os.major(found.st_dev):02x}:{os.minor(found.st_dev):02x}", found.st_ino


def files_below(folder: Path) -> Iterator[Path]:
    for where, _, names in os.walk(folder):
        yield from (Path(where) / name for name in names)


def of_files(
    host: LinuxHost, mounts: list[HugeMount], root: Path, seen: set[tuple[str, int]], where: str
) -> Iterator[Holder]:
    """Files of hugetlbfs that no process has mapped."""
    for mount in mounts:
        for path in files_below(root / mount.folder.lstrip("/")):
            try:
                found = path.stat()
            except OSError:
                continue
            if name_of(found) in seen:
                continue
            seen.add(name_of(found))
            if pages := found.st_blocks * 512 // host.page:
                inside = f"{mount.folder.rstrip('/')}/{path.relative_to(root / mount.folder.lstrip('/'))}"
                yield Holder(f"no process{where}", Kind.FILE, inside, pages, 0)


def of_other_mounts(host: LinuxHost, seen: set[tuple[str, int]]) -> Iterator[Holder]:
    """Files below the mounts that other processes see."""
    own = host.namespace("self")
    known = {own}
    for number in sorted(host.processes):
        name = host.namespace(number)
        if name is None or name in known:
            continue
        known.add(name)
        folder = host.root / f"proc/{number}"
        try:
            text = (folder / "mounts").read_text(errors="replace")
        except OSError:
            continue
        mounts = [it for it in mounts_in(text, host.page) if it.page_bytes == host.page]
        yield from of_files(host, mounts, folder / "root", seen, f", in the mounts of process {number}")


def of_segments(host: LinuxHost) -> Iterator[Holder]:
    """Segments that no process has attached, and whose memory comes in whole huge pages."""
    try:
        lines = (host.root / "proc/sysvipc/shm").read_text().splitlines()
    except OSError:
        return
    names = lines[0].split() if lines else []
    for line in lines[1:]:
        values = dict(zip(names, line.split()))
        size, resident, number = (
            int(values.get("size", 0)),
            int(values.get("rss", 0)),
            int(values.get("shmid", 0)),
        )
        is_whole = resident % host.page == 0 and (resident > 0 or size % host.page == 0) and size > 0
        if values.get("nattch") == "0" and is_whole:
            pages, there = -(-size // host.page), resident // host.page
            if there > pages:
                # (Linux 6.18 tells each huge page as often as it has small ones)
                there = there * SMALL // host.page
            key = int(values.get("key", "0")) & 0xFFFFFFFF
            yield Holder(
                "nobody attached",
                Kind.SEGMENT,
                f"key 0x{key:08x}, shmid {number}",
                there,
                max(pages - there, 0),
            )


def of_minimums(host: LinuxHost, holders: list[Holder]) -> Iterator[Holder]:
    """What a mount's minimum keeps beside what its files have."""
    for mount in host.mounts:
        inside = [
            it
            for it in holders
            if it.kind is Kind.FILE and (found := host.mount_of(it.what)) and found.folder == mount.folder
        ]
        left = (mount.minimum or 0) - sum(it.in_use + it.reserved for it in inside)
        if left > 0:
            yield Holder("the mount", Kind.MINIMUM, mount.folder, 0, left)


@dataclass
class Table:
    """All holders, and what the kernel counts."""

    host: LinuxHost
    holders: list[Holder]

    @property
    def in_use(self) -> int:
        return sum(it.in_use for it in self.holders)

    @property
    def reserved(self) -> int:
        return sum(it.reserved for it in self.holders)

    def unseen(self) -> tuple[int, int]:
        """What is held by nobody that can be seen: in use, and reserved."""
        pages = self.host.pages
        return max(pages.total - pages.free - self.in_use, 0), max(pages.reserved - self.reserved, 0)

    def by_node(self) -> dict[int, int]:
        made: dict[int, int] = {}
        for one in self.holders:
            for node, count in one.by_node.items():
                made[node] = made.get(node, 0) + count
        return dict(sorted(made.items()))

    def row_of(self, one: Holder) -> tuple[str, ...]:
        others = (
            f", and {', '.join(map(str, one.others[:4]))}{' and others' if len(one.others) > 4 else ''}"
            if one.others
            else ""
        )
        nodes = " ".join(f"N{node}={count}" for node, count in sorted(one.by_node.items()) if count)
        return (
            f"{one.who}{others}",
            one.kind.value,
            printable(one.what),
            f"{one.in_use:,}",
            f"{one.reserved:,}",
            nodes,
        )

    def text(self) -> str:
        pages, page = self.host.pages, self.host.page
        head = (
            f"Pages of {in_words(page)}: Total {pages.total:,}, Free {pages.free:,}, Rsvd "
            f"{pages.reserved:,}, Surp {pages.surplus:,}; "
            f"{pages.total - pages.free:,} in use ({in_words((pages.total - pages.free) * page)})"
        )
        in_use, reserved = self.unseen()
        rows = [("who", "kind", "what", "in use", "reserved", "by node"), *map(self.row_of, self.holders)]
        nodes = " ".join(f"N{node}={count}" for node, count in self.by_node().items())
        rows.append(("together", "", "", f"{self.in_use:,}", f"{self.reserved:,}", nodes))
        rows.append(("held by nobody that can be seen", "", "", f"{in_use:,}", f"{reserved:,}", ""))
        widths = [max(len(row[at]) for row in rows) for at in range(6)]
        lines = [head, ""]
        for row in rows:
            left = "  ".join(f"{row[at]:{widths[at]}}" for at in range(3))
            lines.append(f"{left}  {row[3]:>{widths[3]}}  {row[4]:>{widths[4]}}  {row[5]}".rstrip())
        if self.host.unread:
            lines += [
                "",
                f"{self.host.unread} process{'' if self.host.unread == 1 else 'es'} could not be read: root "
                "reads those of others.",
            ]
        if in_use or reserved:
            lines += ["", "What can't be seen is most often:", *(f"  - {it}" for it in REASONS)]
        return "\n".join(lines) + "\n"

    def as_json(self) -> str:
        in_use, reserved = self.unseen()
        return (
            json.dumps(
                {
                    "page_bytes": self.host.page,
                    "pool": asdict(self.host.pages),
                    "holders": [it.as_value() for it in self.holders],
                    "in_use": self.in_use,
                    "reserved": self.reserved,
                    "by_node": self.by_node(),
                    "unseen": {"in_use": in_use, "reserved": reserved},
                    "unread_processes": self.host.unread,
                },
                indent=2,
            )
            + "\n"
        )


def table_of(host: LinuxHost) -> Table:
    """Who holds the pages of a host, the greatest first."""
    found = list(of_processes(host))
    seen = {file for _, file in found if file is not None}
    holders = [it for it, _ in found]
    holders += of_files(host, host.mounts, host.root, seen, "")
    holders += of_other_mounts(host, seen)
    holders += of_segments(host)
    holders += of_minimums(host, holders)
    return Table(
        host,
        sorted((it for it in holders if it.in_use or it.reserved), key=lambda it: -(it.in_use + it.reserved)),
    )


def add_to(tool: Subcommands) -> None:
    made = subparser(tool, "who", __doc__, run)
    made.add_argument(
        "--page",
        type=a_page,
        metavar="SIZE",
        help="the size of page to look at, as 1GiB (the default size of this kernel)",
    )
    made.add_argument(
        "--root",
        type=Path,
        default=Path("/"),
        metavar="FOLDER",
        help="the host's /proc, /sys and mounts stand below this folder",
    )
    made.add_argument("--json", action="store_true", help="prints the table as JSON")


def run(words: argparse.Namespace) -> int:
    try:
        table = table_of(LinuxHost(words.root, words.page))
    except FileNotFoundError as error:
        print(f"hugetlbctl: {error.filename}: {error.strerror}: it is read on Linux alone", file=sys.stderr)
        return 1
    print(table.as_json() if words.json else table.text(), end="")
    return 0
