"""Writes a plan from the Linux host that it runs on.

It reads, and changes nothing; without root it leaves out processes of others, and says so.

    hugetlbctl observe > host.toml && hugetlbctl plan host.toml
"""
import argparse
import re
import sys
from bisect import bisect_right
from dataclasses import dataclass, field
from pathlib import Path

from .host import HugeMount, LinuxHost, Range, host_table
from .lines import printable
from .sizes import NoSize, size_in_bytes
from .subcommand import Subcommands, subparser
from .toml import Written, text, truth


@dataclass
class Owner:
    """What a plan has once: a private range with its oldest process, or all ranges of a file."""

    first: Range
    ranges: list[Range] = field(default_factory=list)

    def indices(self) -> list[tuple[int, int]]:
        """The indices of a file that its ranges have, each once."""
        made: list[tuple[int, int]] = []
        for one in sorted(self.ranges, key=lambda it: it.first):
            if made and one.first <= made[-1][1]:
                made[-1] = (made[-1][0], max(made[-1][1], one.first + one.pages))
            else:
                made.append((one.first, one.first + one.pages))
        return made

    @property
    def pages(self) -> int:
        return sum(end - first for first, end in self.indices()) if self.first.is_shared else self.first.pages

    @property
    def present(self) -> int:
        """The pages that are there at least: those of ranges that share no index add up."""
        ends, most = [0], [0]
        for one in sorted(self.ranges, key=lambda it: it.first + it.pages):
            before = most[bisect_right(ends, one.first) - 1]
            ends.append(one.first + one.pages)
            most.append(max(most[-1], before + one.present))
        return most[-1]

    def others(self) -> list[int]:
        return sorted({it.process.number for it in self.ranges} - {self.first.process.number})


def owners_of(host: LinuxHost) -> list[Owner]:
    """A shared file once, a private range with its oldest process."""
    made: dict[object, Owner] = {}
    for one in host.ranges():
        first = one if one.is_shared else host.owner_of(one) or one
        key: object = ("file", one.file) if one.is_shared else (first.process.number, first.key())
        made.setdefault(key, Owner(first)).ranges.append(one)
    return list(made.values())


def names_of(mounts: list[HugeMount]) -> dict[str, str]:
    """A name for each mount, by its folder."""
    made: dict[str, str] = {}
    for mount in mounts:
        name = re.sub("[^A-Za-z0-9_.-]+", "-", mount.folder).strip("-")[:60] or "root"
        made[mount.folder] = name if name not in made.values() else f"{name}-{len(made)}"
    return made


def table_of(host: LinuxHost, owner: Owner, names: dict[str, str], nodes: int) -> Written:
    """A range or a file as a table of a plan."""
    first, others = owner.first, owner.others()
    made = Written(
        "map", {"name": text(first.process.title())}, notes={"name": printable(first.path) or "anonymous"}
    )
    if others:
        told = f"{', '.join(map(str, others[:8]))}{' and others' if len(others) > 8 else ''}"
        made.remarks.append(f"{'mapped too by' if first.is_shared else 'forked to'} process {told}")
    made.values |= {"pages": str(owner.pages), "shared": truth(first.is_shared)}
    if not first.has_reserve:
        made.values |= {"reserve": "false", "used": f'"{owner.present} pages"'}
    elif owner.present == owner.pages:
        made.values["prealloc"] = "true"
        made.notes["prealloc"] = "it has all its pages"
    if first.bound and max(first.bound) < nodes and nodes > 1:
        listed = ", ".join(map(str, first.bound))
        made.values |= {"node": listed if len(first.bound) == 1 else f"[{listed}]", "bind": "true"}
    if mount := host.mount_of(first.path):
        made.values["mount"] = text(names[mount.folder])
    return made


def mount_table(mount: HugeMount, name: str) -> Written:
    made = Written("mount", {"name": text(name)}, notes={"name": printable(mount.folder)})
    made.values |= {"size": f'"{mount.size} pages"'} if mount.size is not None else {}
    made.values |= {"minimum": f'"{mount.minimum} pages"'} if mount.minimum else {}
    return made


def plan_of(host: LinuxHost) -> str:
    """The plan as text."""
    pages = host.pages
    lines = [
        f"# As hugetlbctl observe read it: Total {pages.total}, Free {pages.free}, Rsvd {pages.reserved}, "
        f"Surp {pages.surplus}."
    ]
    if host.unread:
        lines.append(
            f"# {host.unread} process{'' if host.unread == 1 else 'es'} could not be read: root reads those "
            "of others."
        )
    table, names = host_table(host.root, host.page), names_of(host.mounts)
    lines += table.lines()[1:]
    if pages.overcommit and host.page < 1 << 30:
        lines += Written("overcommit", {"at_most": f'"{pages.overcommit} pages"'}).lines()
    for mount in host.mounts:
        lines += mount_table(mount, names[mount.folder]).lines()
    owners = owners_of(host)
    for owner in owners:
        lines += table_of(host, owner, names, table.values["nodes"].count(",") + 1).lines()
    if not owners:
        lines += [
            "",
            "# No process that could be read maps huge pages. Add what is to run, as:",
            "# [[postgresql]]",
            '# shared_buffers = "8GiB"',
        ]
    return "".join(line + "\n" for line in lines)


def add_to(tool: Subcommands) -> None:
    made = subparser(tool, "observe", __doc__, run)
    made.add_argument(
        "--page",
        type=a_page,
        metavar="SIZE",
        help="the size of page to look at, as 1GiB (the default size of this kernel)",
    )
    made.add_argument(
        "--root",
        type=Path,
        default=Path("/"),
        metavar="FOLDER",
        help="the host's /proc and /sys stand below this folder",
    )


def a_page(text: str) -> int:
    """The size of page that was given."""
    try:
        return size_in_bytes(text)
    except NoSize as error:
        raise argparse.ArgumentTypeError(str(error)) from None


def run(words: argparse.Namespace) -> int:
    try:
        print(plan_of(LinuxHost(words.root, words.page)), end="")
    except FileNotFoundError as error:
        print(f"hugetlbctl: {error.filename}: {error.strerror}: it is read on Linux alone", file=sys.stderr)
        return 1
    return 0
