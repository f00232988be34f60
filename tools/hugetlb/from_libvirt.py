"""Guests of libvirt: the domain's XML, as `virsh dumpxml` writes it."""
import re
import xml.etree.ElementTree as ElementTree
from collections.abc import Iterator
from dataclasses import dataclass, field

from .toml import Written, size, text, truth

UNITS = {
    "b": 1,
    "bytes": 1,
    "kb": 10**3,
    "k": 1 << 10,
    "kib": 1 << 10,
    "mb": 10**6,
    "m": 1 << 20,
    "mib": 1 << 20,
    "gb": 10**9,
    "g": 1 << 30,
    "gib": 1 << 30,
    "tb": 10**12,
    "t": 1 << 40,
    "tib": 1 << 40,
}
BINDS = ("strict", "restrictive")


class NoGuest(ValueError):
    """A text that is no domain of libvirt."""


def bytes_of(number: str, unit: str | None) -> int:
    """A size of libvirt, which is in KiB where it has no unit."""
    scale = UNITS.get((unit or "KiB").lower())
    if scale is None or not re.fullmatch(r"\s*[0-9]{1,18}\s*", number):
        raise NoGuest(f"{number!r} {unit or ''} is no size")
    return int(number) * scale


def set_of(written: str) -> set[int]:
    """The numbers of a set like `0-3,^2,8`."""
    found: set[int] = set()
    for part in filter(None, (it.strip() for it in written.split(","))):
        read = re.fullmatch(r"(\^?)([0-9]{1,4})(?:-([0-9]{1,4}))?", part)
        if not read:
            raise NoGuest(f"{written!r} is no set of nodes")
        numbers = set(range(int(read[2]), int(read[3] or read[2]) + 1))
        found = found - numbers if read[1] else found | numbers
    return found


@dataclass
class Cell:
    """A node that the guest sees, or all of its memory."""

    number: int
    memory: int
    page: int = 0
    nodes: set[int] = field(default_factory=set)
    binds: bool = False

    def is_bound(self) -> bool:
        """Whether it stands on one node of the host."""
        return self.binds and len(self.nodes) == 1

    def among(self) -> tuple[int, ...]:
        """The nodes of the host on which it stands together; none where it is not so bound."""
        return tuple(sorted(self.nodes)) if self.binds and len(self.nodes) > 1 else ()


@dataclass
class Domain:
    """What of a domain's XML tells of its huge pages."""

    root: ElementTree.Element

    def find(self, path: str) -> ElementTree.Element | None:
        return self.root.find(path)

    @property
    def name(self) -> str:
        return (self.root.findtext("name") or "guest").strip()

    def cells(self) -> list[Cell]:
        cells = [
            Cell(int(it.get("id", at)), bytes_of(it.get("memory", ""), it.get("unit")))
            for at, it in enumerate(self.root.findall("cpu/numa/cell"))
        ]
        if not cells:
            memory = self.find("memory")
            if memory is None or not memory.text:
                raise NoGuest("the guest has no <memory>: add it, with a unit")
            cells = [Cell(0, bytes_of(memory.text, memory.get("unit")))]
        for cell in cells:
            cell.page = self.page_of(cell.number)
            self.place(cell)
        return cells + list(self.devices())

    def devices(self) -> Iterator[Cell]:
        """Memory modules that are there from the start, and tell their own page."""
        for at, module in enumerate(self.root.findall("devices/memory[@model='dimm']")):
            target, page = module.find("target/size"), module.find("source/pagesize")
            if target is None or not target.text:
                continue
            node = int((module.findtext("target/node") or "0").strip() or 0)
            cell = Cell(1000 + at, bytes_of(target.text, target.get("unit")), self.page_of(node))
            if page is not None and page.text:
                cell.page = bytes_of(page.text, page.get("unit"))
            self.place(cell)
            if mask := module.findtext("source/nodemask"):
                cell.nodes, cell.binds = set_of(mask), True
            yield cell

    def page_of(self, cell: int) -> int:
        """The size of page of a guest's node: its own, else that of all.

        -1 for the host's default size, 0 for small pages.
        """
        pages = self.root.findall("memoryBacking/hugepages/page")
        if self.find("memoryBacking/hugepages") is None:
            return 0
        if not pages:
            return -1
        own = [it for it in pages if it.get("nodeset") is not None and cell in set_of(it.get("nodeset", ""))]
        rest = [it for it in pages if it.get("nodeset") is None]
        found = own or rest
        page = bytes_of(found[0].get("size", ""), found[0].get("unit")) if found else 0
        return page if page > 4096 else 0

    def place(self, cell: Cell) -> None:
        """On which nodes of the host a guest's node stands."""
        memory = self.find("numatune/memory")
        if memory is not None and memory.get("nodeset"):
            cell.nodes, cell.binds = set_of(memory.get("nodeset", "")), memory.get("mode", "strict") in BINDS
        for node in self.root.findall("numatune/memnode"):
            if node.get("cellid") == str(cell.number):
                cell.nodes, cell.binds = set_of(node.get("nodeset", "")), node.get("mode", "strict") in BINDS


@dataclass(frozen=True, order=True)
class Part:
    """What tells the parts of a guest.

    The size of page, whether each cell has its one node, or nodes that hold it together.
    """

    page: int
    is_bound: bool
    among: tuple[int, ...]

    def suffix(self, parts: list["Part"]) -> str:
        """What its name has that those of its others have not."""
        of_page = f"-{self.page >> 20}M" if len({it.page for it in parts}) > 1 and self.page > 0 else ""
        if sum(it.page == self.page for it in parts) == 1:
            return of_page
        on = "-on-" + "-".join(map(str, self.among)) if self.among else "-bound" if self.is_bound else ""
        return of_page + on


def part_of(cell: Cell) -> Part:
    return Part(cell.page, cell.is_bound(), cell.among())


def of_page(domain: Domain, page: int, cells: list[Cell], suffix: str) -> Written:
    """The table of a guest's memory in pages of one size: what is bound of it, or what is not."""
    made = Written("guest", {"name": text(domain.name + suffix)})
    total = sum(it.memory for it in cells)
    is_bound = all(it.is_bound() for it in cells)
    nodes = sorted({node for it in cells for node in it.nodes})
    if is_bound and len(nodes) > 1:
        by_node = [sum(it.memory for it in cells if node in it.nodes) for node in range(max(nodes) + 1)]
        made.values[
            "node_memory"
        ] = f"[{', '.join(size(it) if it else chr(34) + '0' + chr(34) for it in by_node)}]"
    else:
        made.values["memory"] = size(total)
        if is_bound:
            made.values["node"] = str(nodes[0])
        elif len(nodes) == 1 and not any(it.binds for it in cells):
            made.values |= {"node": str(nodes[0]), "bind": "false"}
        elif cells[0].among():
            made.values["node"] = f"[{', '.join(map(str, nodes))}]"
        elif nodes:
            made.remarks.append(
                f"{domain.name}: its memory may stand on nodes {', '.join(map(str, nodes))}: it is counted "
                "as bound to none"
            )
    if page > 0:
        made.values["page"] = size(page)
    access = domain.find("memoryBacking/access")
    source = domain.find("memoryBacking/source")
    is_shared = (
        access is not None
        and access.get("mode") == "shared"
        or source is not None
        and source.get("type") == "memfd"
    )
    if not is_shared:
        made.values["share"] = "false"
    # (libvirt preallocates huge pages)
    made.values["prealloc"] = truth(True)
    return made


def domains(written: str) -> list[Written]:
    """The guests of a text: one domain, or several below one element."""
    try:
        root = ElementTree.fromstring(written)
    except ElementTree.ParseError as error:
        raise NoGuest(f"it is no XML: {error}") from None
    found = [root] if root.tag == "domain" else root.findall(".//domain")
    if not found:
        raise NoGuest("it has no <domain>")
    made: list[Written] = []
    for domain in map(Domain, found):
        cells = domain.cells()
        if not any(it.page for it in cells):
            made.append(Written("", remarks=[f"{domain.name}: it has no <hugepages>, and takes none"]))
        # the largest pages first, and of these what is bound
        there = sorted(
            {part_of(it) for it in cells if it.page},
            key=lambda it: (-it.page, not it.is_bound, not it.among, it.among),
        )
        for part in there:
            own = [it for it in cells if part_of(it) == part]
            made.append(of_page(domain, part.page, own, part.suffix(there)))
    return made
