"""A folder that looks like the root of a Linux host: its /proc, /sys and mounts of hugetlbfs."""
import os
from dataclasses import dataclass, field
from pathlib import Path

PAGE_KB = 2048


@dataclass
class Map:
    """A range of huge pages that a process has mapped. Counts are in pages."""

    path: str
    inode: int
    pages: int = 3
    own: int = 1
    common: int = 0
    is_shared: bool = False
    flags: str = "ht"
    first: int = 0
    start: int = 0x7F0000000000
    page_kb: int = PAGE_KB
    policy: str = "default"
    nodes: dict[int, int] = field(default_factory=dict)
    device: str = "00:11"

    def smaps(self) -> str:
        end, size = self.start + self.pages * self.page_kb * 1024, self.page_kb
        shared = "s" if self.is_shared else "p"
        return (
            f"{self.start:x}-{end:x} rw-{shared} {self.first * size * 1024:08x} {self.device} "
            f"{self.inode}     {self.path}\n"
            f"Size: {self.pages * size} kB\nKernelPageSize: {size} kB\n"
            f"Shared_Hugetlb: {self.common * size} kB\n"
            f"Private_Hugetlb: {self.own * size} kB\nVmFlags: rd wr mr mw me {self.flags}\n"
        )

    def numa_maps(self) -> str:
        counts = "".join(f" N{node}={count}" for node, count in self.nodes.items())
        dirty = self.own + self.common
        return (
            f"{self.start:x} {self.policy} file={self.path} huge dirty={dirty}{counts} "
            f"kernelpagesize_kB={self.page_kb}\n"
        )


@dataclass
class FakeHost:
    """The host of a folder. Memory is in MiB, for each node by its number."""

    root: Path
    memory: dict[int, int] = field(default_factory=lambda: {0: 8192, 1: 8192})
    free: dict[int, int] = field(default_factory=dict)
    pages: dict[int, int] = field(default_factory=dict)
    surplus: dict[int, int] = field(default_factory=dict)
    counts: dict[str, int] = field(default_factory=dict)
    mounts: list[str] = field(default_factory=lambda: ["/dev/hugepages rw,relatime,pagesize=2M"])

    def __post_init__(self) -> None:
        total = sum(self.memory.values())
        self.write("proc/meminfo", f"MemTotal: {total * 1024:>12} kB\nHugepagesize:       {PAGE_KB} kB\n")
        self.write(
            "proc/mounts",
            "".join(f"none {it.split(' ')[0]} hugetlbfs {it.split(' ')[1]} 0 0\n" for it in self.mounts)
            + "proc /proc proc rw 0 0\n",
        )
        for name in ("nr", "free", "resv", "surplus", "nr_overcommit"):
            self.write(
                f"sys/kernel/mm/hugepages/hugepages-{PAGE_KB}kB/{name}_hugepages",
                f"{self.counts.get(name, 0)}\n",
            )
        for node, size in self.memory.items():
            folder = f"sys/devices/system/node/node{node}"
            free = (
                f"Node {node} MemFree: {self.free[node] * 1024} kB\nNode {node} Active(file): 0 kB\n"
                if node in self.free
                else ""
            )
            self.write(f"{folder}/meminfo", f"Node {node} MemTotal: {size * 1024} kB\n{free}")
            for name, count in (
                ("nr", self.pages.get(node, 0)),
                ("free", self.pages.get(node, 0)),
                ("surplus", self.surplus.get(node, 0)),
            ):
                self.write(f"{folder}/hugepages/hugepages-{PAGE_KB}kB/{name}_hugepages", f"{count}\n")

    def write(self, path: str, text: str) -> Path:
        file = self.root / path
        file.parent.mkdir(parents=True, exist_ok=True)
        file.write_text(text)
        return file

    def process(self, number: int, parent: int, name: str, *maps: Map, namespace: str = "mnt:[1]") -> None:
        folder = f"proc/{number}"
        self.write(f"{folder}/comm", f"{name}\n")
        self.write(f"{folder}/status", f"Name:\t{name}\nPPid:\t{parent}\n")
        self.write(f"{folder}/smaps", "".join(it.smaps() for it in maps))
        self.write(f"{folder}/numa_maps", "".join(it.numa_maps() for it in maps))
        (self.root / folder / "ns").mkdir()
        os.symlink(namespace, self.root / folder / "ns/mnt")

    def file(self, path: str, pages: int) -> os.stat_result:
        """A file of so many pages, which take room on the disk as those of hugetlbfs do in the pool."""
        file = self.write(path.lstrip("/"), "")
        with file.open("wb") as out:
            os.posix_fallocate(out.fileno(), 0, pages * PAGE_KB * 1024) if pages else None
        return file.stat()


def device_of(found: os.stat_result) -> str:
    """A device as the maps of a process have it."""
    return f"{os.major(found.st_dev):02x}:{os.minor(found.st_dev):02x}"
