"""A program of DPDK: its command line."""
import re
import shlex
from dataclasses import dataclass, field
from pathlib import PurePosixPath

from .toml import Written, size, text

MEGABYTE = 1 << 20
# options that take no value
ALONE = (
    "--legacy-mem",
    "--no-huge",
    "--in-memory",
    "--huge-unlink",
    "--single-file-segments",
    "--no-pci",
    "--no-hpet",
    "--no-shconf",
    "--create-uio-dev",
    "--match-allocations",
    "--no-telemetry",
    "--telemetry",
    "-h",
    "--help",
    "-v",
)


class NoCommand(ValueError):
    """A text that is no command line of DPDK."""


@dataclass
class Command:
    """The options of the environment layer, those before a `--`."""

    program: str
    options: dict[str, str] = field(default_factory=dict)

    def sizes(self, name: str) -> list[int] | None:
        """Megabytes, one for each socket."""
        if name not in self.options:
            return None
        if not re.fullmatch(r"[0-9]{1,9}(,[0-9]{1,9})*", self.options[name]):
            raise NoCommand(f"{name} {self.options[name]} is no list of megabytes")
        return [int(it) * MEGABYTE for it in self.options[name].split(",")]


WRAPPERS = ("sudo", "exec", "env", "nohup", "taskset", "numactl", "chrt", "nice")


def without_wrappers(words: list[str]) -> list[str]:
    """The words from the program on.

    Without those that start it, their options, and settings of the environment.
    """
    while words:
        first = words[0].removeprefix("ExecStart=")
        if re.fullmatch(r"[A-Za-z_]\w*=.*", first):
            words = words[1:]
        elif first in WRAPPERS:
            words = words[1:]
            while words and re.fullmatch(r"-.*|0x[0-9a-fA-F]+|[0-9][0-9,-]*", words[0]):
                words = words[1:]
        else:
            return [first, *words[1:]]
    return []


def command(written: str) -> Command:
    """The first command line of a text; comments and ends of lines behind a backslash are left out."""
    try:
        words = shlex.split(written.replace("\\\n", " "), comments=True)
    except ValueError as error:
        raise NoCommand(f"it is no command line: {error}") from None
    words = without_wrappers(words)
    if not words:
        raise NoCommand("it is empty")
    made, at = Command(PurePosixPath(words[0]).name), 1
    while at < len(words) and words[at] != "--":
        word, at = words[at], at + 1
        if not word.startswith("-"):
            continue
        name, has_value, value = (
            word.partition("=") if word.startswith("--") else (word[:2], bool(word[2:]), word[2:])
        )
        if not has_value and name not in ALONE and at < len(words) and not words[at].startswith("-"):
            value, at = words[at], at + 1
        made.options[name] = value
    return made


def packets(written: str, pages: dict[str, int]) -> Written:
    """The table of a command line. Of the folders of hugetlbfs mounts the sizes of page are known."""
    found = command(written)
    name = found.options.get("--file-prefix") or found.program
    if "--no-huge" in found.options:
        return Written("", remarks=[f"{name}: with --no-huge it takes none"])
    made = Written("dpdk", {"name": text(name)})
    sockets, limit = found.sizes("--socket-mem"), found.sizes("--socket-limit")
    whole = found.sizes("-m") if sockets is None else None
    if sockets is None and whole is None and limit is not None:
        sockets = limit
        made.remarks.append(
            f"{name}: it takes memory as it runs, at most its --socket-limit, which is counted"
        )
    elif "--legacy-mem" not in found.options and limit is None:
        made.remarks.append(
            f"{name}: beyond this it takes more as it runs: --socket-limit or --legacy-mem bounds it"
        )
    if sockets is not None and sum(sockets) > 0:
        made.values["socket_memory"] = "[" + ", ".join(size(it) if it else '"0"' for it in sockets) + "]"
    elif whole is not None and sum(whole) > 0:
        made.values["memory"] = size(sum(whole))
    else:
        raise NoCommand(f"{name}: neither --socket-mem nor -m tells how much it takes")
    folder = found.options.get("--huge-dir", "").rstrip("/")
    page = pages.get(folder)
    if page is None and (read := re.search(r"(1G|2M)", folder)):
        page = {"1G": 1 << 30, "2M": 2 << 20}[read[1]]
    if page:
        made.values["page"] = size(page)
    return made
