"""What a Linux host tells of its huge pages, below a folder that is its root."""
import os
import re
from collections.abc import Iterator
from dataclasses import dataclass, field
from pathlib import Path

from .lines import printable
from .model import default_keep
from .toml import Written, size

HEAD = re.compile(r"([0-9a-f]+)-([0-9a-f]+) (....) ([0-9a-f]+) (\S+) (\d+) *(.*)")
KIB = 1024


def fields_of(path: Path) -> dict[str, int]:
    """Names and numbers, as meminfo has them."""
    try:
        text = path.read_text()
    except OSError:
        return {}
    found = re.findall(r"^(?:Node \d+ )?(\w+)(?:\((\w+)\))?: +(\d+)", text, re.MULTILINE)
    return {f"{name}({of})" if of else name: int(number) for name, of, number in found}


def number_in(path: Path) -> int:
    """The number that a file of /sys holds; 0 where it is not there."""
    try:
        return int(path.read_text())
    except (OSError, ValueError):
        return 0


@dataclass
class NodeMemory:
    """A node: its memory in bytes, what of it could become huge pages, and its pages of each size."""

    number: int
    total: int
    free: int
    pages: dict[int, int] = field(default_factory=dict)

    def huge(self) -> int:
        return sum(page * count for page, count in self.pages.items())


def node_of(number: int, memory: dict[str, int], folder: Path) -> NodeMemory:
    """A node by its meminfo: free is what is not in use, and what files have cached."""
    total = memory.get("MemTotal", 0) * KIB
    made = NodeMemory(number, total, 0)
    for pool in sorted(folder.glob("hugepages-*kB")):
        page = int(pool.name.removeprefix("hugepages-").removesuffix("kB")) * KIB
        made.pages[page] = number_in(pool / "nr_hugepages") - number_in(pool / "surplus_hugepages")
    if "MemFree" in memory:
        cached = sum(memory.get(it, 0) for it in ("Active(file)", "Inactive(file)", "SReclaimable"))
        made.free = (memory["MemFree"] + cached) * KIB
    else:
        made.free = max(total - made.huge() - default_keep(total), 0)
    return made


def nodes_of(root: Path) -> list[NodeMemory]:
    """Each node by its number; those between that are not there have no memory.

    Of a kernel without nodes the whole is one.
    """
    folders = [
        it for it in (root / "sys/devices/system/node").glob("node[0-9]*") if (it / "meminfo").exists()
    ]
    found = {
        int(it.name[4:]): node_of(int(it.name[4:]), fields_of(it / "meminfo"), it / "hugepages")
        for it in folders
    }
    if not any(it.total for it in found.values()):
        memory = fields_of(root / "proc/meminfo")
        if "MemTotal" not in memory:
            raise FileNotFoundError(2, "this host tells no memory", str(root / "proc/meminfo"))
        return [node_of(0, memory, root / "sys/kernel/mm/hugepages")]
    return [found.get(number, NodeMemory(number, 0, 0)) for number in range(max(found) + 1)]


def default_page(root: Path) -> int:
    """The default size of page."""
    return fields_of(root / "proc/meminfo").get("Hugepagesize", 2048) * KIB


def memory_to_keep(node: NodeMemory, page: int) -> int:
    """What of a node is in use beside its pages of this size, and a 32nd of it, so that the host goes on."""
    own = node.pages.get(page, 0) * page
    wanted = node.total - own - node.free + node.total // 32
    return min(max(wanted, 0), max(node.total - own, 0))


def sizes_of(counts: list[int]) -> str:
    """Bytes of each node as a list of texts."""
    return "[" + ", ".join(size(it) if it else '"0"' for it in counts) + "]"


def host_table(root: Path, page: int | None = None) -> Written:
    """The host as a plan has it: its nodes, what is kept of them, and the pages that are set now."""
    page = page or default_page(root)
    nodes = nodes_of(root)
    made = Written("host")
    made.values["nodes"] = sizes_of([it.total for it in nodes])
    made.values["page"] = size(page)
    made.values["keep"] = sizes_of([memory_to_keep(it, page) // KIB * KIB for it in nodes])
    made.notes["keep"] = "what is in use now, and a 32nd"
    made.values["present"] = f"[{', '.join(str(it.pages.get(page, 0)) for it in nodes)}]"
    made.notes["present"] = "the pages that are set now"
    return made


@dataclass(frozen=True)
class HugeMount:
    """A mount of hugetlbfs: its folder, its size of page, and its limits in pages."""

    folder: str
    page_bytes: int
    size: int | None
    minimum: int | None


def option_bytes(text: str) -> int:
    """A size as mount options have it."""
    found = re.fullmatch(r"([0-9]+)([KMGkmg]?)", text)
    return int(found[1]) << {"": 0, "k": 10, "m": 20, "g": 30}[found[2].lower()] if found else 0


def mounts_in(text: str, default: int) -> Iterator[HugeMount]:
    """The mounts of hugetlbfs in a text like /proc/mounts."""
    for line in text.splitlines():
        words = line.split(" ")
        if len(words) < 4 or words[2] != "hugetlbfs":
            continue
        values = dict(it.partition("=")[::2] for it in words[3].split(","))
        page = option_bytes(values.get("pagesize", "")) or default
        folder = re.sub(r"\\([0-7]{3})", lambda it: chr(int(it[1], 8)), words[1])
        sizes = [option_bytes(values[it]) // page if it in values else None for it in ("size", "min_size")]
        yield HugeMount(folder, page, sizes[0], sizes[1])


def mounts_of(root: Path) -> list[HugeMount]:
    """The mounts of hugetlbfs that this process sees; of several at one folder the last one counts."""
    try:
        text = (root / "proc/mounts").read_text(errors="replace")
    except OSError:
        return []
    return list({it.folder: it for it in mounts_in(text, default_page(root))}.values())


@dataclass
class Range:
    """A range of a process that has huge pages. Offsets and counts are in pages."""

    process: "Process"
    start: int
    end: int
    is_shared: bool
    device: str
    inode: int
    first: int
    pages: int
    path: str
    has_reserve: bool = True
    own: int = 0
    shared: int = 0
    bound: tuple[int, ...] = ()
    by_node: dict[int, int] = field(default_factory=dict)

    @property
    def present(self) -> int:
        return self.own + self.shared

    @property
    def file(self) -> tuple[str, int]:
        return self.device, self.inode

    def key(self) -> tuple[int, int, str, int]:
        return self.start, self.end, self.device, self.inode


@dataclass
class Process:
    """A process with its ranges of huge pages of one size."""

    number: int
    name: str
    parent: int
    ranges: list[Range] = field(default_factory=list)

    def title(self) -> str:
        return f"{re.sub('[^A-Za-z0-9_.-]', '-', self.name) or 'process'}-{self.number}"

    def label(self) -> str:
        return f"{printable(self.name)} ({self.number})"


def process_of(folder: Path) -> Process:
    found = re.search(r"^PPid:\s*(\d+)", (folder / "status").read_text(errors="replace"), re.MULTILINE)
    return Process(
        int(folder.name), (folder / "comm").read_text(errors="replace").strip(), int(found[1]) if found else 0
    )


def numbers_of(written: str) -> tuple[int, ...]:
    """The numbers of a list like `0-1,4`."""
    found: set[int] = set()
    for part in written.split(","):
        first, _, last = part.partition("-")
        found |= set(range(int(first), int(last or first) + 1))
    return tuple(sorted(found))


# The nodes to which a range is bound, and its pages on each node.
Placing = tuple[tuple[int, ...], dict[int, int]]


def policies_of(folder: Path) -> dict[int, Placing]:
    """By the start of a range: the nodes to which it is bound, and its pages on each node."""
    try:
        text = (folder / "numa_maps").read_text(errors="replace")
    except OSError:
        return {}
    made = {}
    for line in text.splitlines():
        words = line.split(" ")
        if "huge" not in words or not re.fullmatch(r"[0-9a-f]+", words[0]):
            continue
        bound = re.fullmatch(r"bind(?:[=_a-z]*):([0-9]+(?:[-,][0-9]+)*)", words[1])
        counts = {
            int(it[1]): int(it[2]) for word in words if (it := re.fullmatch(r"N([0-9]+)=([0-9]+)", word))
        }
        made[int(words[0], 16)] = (numbers_of(bound[1]) if bound else (), counts)
    return made


def ranges_of(process: Process, folder: Path, page: int) -> Iterator[Range]:
    """The ranges of a process that have huge pages of this size."""
    head, fields = "", dict[str, list[str]]()
    policies: dict[int, Placing] | None = None
    for line in [*(folder / "smaps").read_text(errors="replace").splitlines(), "0-0 ---- 0 0:0 0"]:
        if not HEAD.fullmatch(line) and not line.startswith("0-0 "):
            name, _, value = line.partition(":")
            fields[name] = value.split()
            continue
        flags = fields.get("VmFlags", [])
        if (
            "ht" in flags
            and fields.get("KernelPageSize", ["0"])[0] == str(page // KIB)
            and (found := HEAD.fullmatch(head))
        ):
            start, end = int(found[1], 16), int(found[2], 16)
            if policies is None:
                policies = policies_of(folder)
            bound, counts = policies.get(start, ((), {}))
            own, shared = (
                int(fields.get(it, ["0"])[0]) * KIB // page for it in ("Private_Hugetlb", "Shared_Hugetlb")
            )
            yield Range(
                process,
                start,
                end,
                found[3][3] == "s",
                found[5],
                int(found[6]),
                int(found[4], 16) // page,
                (end - start) // page,
                found[7],
                "nr" not in flags,
                own,
                shared,
                bound,
                counts,
            )
        head, fields = line, {}


@dataclass
class Pages:
    """The counts of the pool of one size."""

    total: int
    free: int
    reserved: int
    surplus: int
    overcommit: int


class LinuxHost:
    """A host with the processes that could be read."""

    def __init__(self, root: Path = Path("/"), page: int | None = None):
        self.root, self.unread = root, 0
        self.page = page or default_page(root)
        self.pool = root / f"sys/kernel/mm/hugepages/hugepages-{self.page // KIB}kB"
        if not self.pool.is_dir():
            raise FileNotFoundError(2, "this kernel has no huge pages of this size", str(self.pool))
        names = ("nr", "free", "resv", "surplus", "nr_overcommit")
        self.pages = Pages(*(number_in(self.pool / f"{it}_hugepages") for it in names))
        self.mounts = [it for it in mounts_of(root) if it.page_bytes == self.page]
        self.processes: dict[int, Process] = {}
        folders = [it for it in (root / "proc").iterdir() if it.name.isdigit()]
        for folder in sorted(folders, key=lambda it: int(it.name)):
            self.read(folder)

    def read(self, folder: Path) -> None:
        """Takes a process with its ranges; one that ends meanwhile has none."""
        try:
            process = process_of(folder)
            process.ranges = list(ranges_of(process, folder, self.page))
        except PermissionError:
            self.unread += 1
        except (OSError, ValueError):
            return
        else:
            self.processes[process.number] = process

    def ranges(self) -> list[Range]:
        return [one for process in self.processes.values() for one in process.ranges]

    def ancestors(self, process: Process) -> Iterator[int]:
        seen: set[int] = set()
        while process.parent in self.processes and process.number not in seen:
            seen.add(process.number)
            process = self.processes[process.parent]
            yield process.number

    def owner_of(self, one: Range) -> Range | None:
        """Of a private range that came by forks the oldest process' one that is the same."""
        found = None
        for number in self.ancestors(one.process):
            same = next(
                (it for it in self.processes[number].ranges if it.key() == one.key() and not it.is_shared),
                None,
            )
            found = same or found
        return found

    def mount_of(self, path: str) -> HugeMount | None:
        """The mount below which a path stands: the innermost one."""
        below = [it for it in self.mounts if path.startswith(it.folder.rstrip("/") + "/")]
        return (
            max(below, key=lambda it: len(it.folder))
            if below and not path.startswith("/anon_hugepage")
            else None
        )

    def namespace(self, number: int | str) -> str | None:
        """Which mounts a process sees."""
        try:
            return os.readlink(self.root / f"proc/{number}/ns/mnt")
        except OSError:
            return None
