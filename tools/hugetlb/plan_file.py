"""Reads a plan: TOML, with all faults told at once, each by its line and key."""
import re
import sys
from collections.abc import Callable
from dataclasses import dataclass, field, fields, replace
from pathlib import Path

from . import java, mysql, postgresql
from .bound import Nodes
from .model import MIB, Consumer, Host, Mount, Plan, default_keep, shared_out
from .sizes import in_pages, size_in_bytes
from .tables import Faults, PlanFault, Table, tables_of

KINDS = ("postgresql", "guest", "redis", "java", "dpdk", "oracle", "mysql", "map")
OF_ALL = ("name", "count", "node", "bind", "page", "pages")
# What goes with server = "mariadb" alone.
OF_MARIADB = tuple(it.name for it in fields(mysql.Buffers))
KEYS: dict[str, tuple[str, ...]] = {
    "host": ("memory", "nodes", "page", "keep", "nr", "present"),
    "overcommit": ("at_most",),
    "mount": ("name", "size", "minimum", "page"),
    "postgresql": (
        *OF_ALL,
        "shared_memory",
        *(it for it in postgresql.SIZES),
        *postgresql.NUMBERS,
        "data_directory",
        "huge_pages",
    ),
    "guest": (*OF_ALL, "memory", "node_memory", "minimum", "share", "reserve", "prealloc", "used", "mount"),
    "redis": (*OF_ALL, "memory", "snapshot", "rewritten"),
    "java": (*OF_ALL, "heap", "memory", "gc", "code_cache", "prealloc"),
    "dpdk": (*OF_ALL, "memory", "socket_memory", "mount"),
    "oracle": (*OF_ALL, "sga", "prealloc"),
    "mysql": (*OF_ALL, "buffer_pool", "memory", "server", *OF_MARIADB),
    "map": (*OF_ALL, "memory", "shared", "reserve", "prealloc", "used", "mount"),
}
# by which key each kind tells its size, beside `pages`
SIZES = {
    "postgresql": ("shared_memory", "shared_buffers"),
    "guest": ("memory", "node_memory"),
    "redis": ("memory",),
    "java": ("heap", "memory"),
    "dpdk": ("memory", "socket_memory"),
    "oracle": ("sga",),
    "mysql": ("buffer_pool", "memory"),
    "map": ("memory",),
}
BY_NODE = ("node_memory", "socket_memory")
MOST_CONSUMERS = 4_096
MOST_MOUNTS = 63


def nodes_of(table: Table, nodes: int) -> Nodes:
    """The nodes that a table names: one, or a list of some; none where it names none."""
    value = table.values.get("node")
    if not isinstance(value, list):
        return (table.number("node", 0, 0, nodes - 1),) if table.has("node") else ()
    wrong = [it for it in value if isinstance(it, bool) or not isinstance(it, int) or not 0 <= it < nodes]
    if wrong or not value:
        what = f"{wrong[0]!r} is no node of this host" if wrong else "the list names no node"
        table.fault("node", f"{what}: its nodes are 0 to {nodes - 1}")
        return ()
    return tuple(sorted(set(value)))


def server_of(table: Table) -> mysql.Server:
    """Whose server a table of [[mysql]] is."""
    return mysql.Server(table.text("server", "mysql", [it.value for it in mysql.Server]))


def page_of(table: Table, default: int) -> int:
    """The size of page that a table names."""
    size = table.bytes("page", default)
    if size < 4096 or size & (size - 1):
        table.fault(
            "page",
            f"{table.values['page']!r} is no size of a page: it is a power of two, as \"2MiB\" or \"1GiB\"",
        )
        return default
    return size


@dataclass
class Reader:
    """Reads the tables one after another."""

    file: str
    text: str
    faults: Faults = field(init=False)
    plan: Plan = field(init=False)

    def __post_init__(self) -> None:
        self.faults = Faults(self.file)

    def read(self) -> Plan:
        tables = tables_of(self.faults, self.text, KEYS, {"mount", *KINDS})
        self.plan = Plan(self.file, self.host(tables), [], [])
        for table in tables:
            if table.name == "overcommit":
                self.take_overcommit(table)
            if table.name == "mount":
                self.take_mount(table)
        for table in tables:
            if table.name in KINDS:
                self.take_consumers(table)
        if not any(table.name in KINDS for table in tables):
            kinds = ", ".join(f"[[{it}]]" for it in KINDS[:-1])
            self.faults.add(0, "", f"it has no program to start: add {kinds} or [[{KINDS[-1]}]]")
        asked = sum(1 + (it.rewritten is not None) for it in self.plan.consumers)
        if asked > MOST_CONSUMERS:
            self.faults.add(
                0,
                "",
                f"{asked:,} programs and snapshots are too many for one plan: at most {MOST_CONSUMERS:,}",
            )
        named = sum(not it.is_own for it in self.plan.mounts)
        if named > MOST_MOUNTS - 5:
            self.faults.add(0, "", f"{named} mounts are too many for one plan: at most {MOST_MOUNTS - 5}")
        self.faults.end()
        return self.plan

    # ---- the host

    def host(self, tables: list[Table]) -> Host:
        found = next((it for it in tables if it.name == "host"), None)
        if found is None:
            self.faults.add(0, "", 'it has no [host]: add it, with memory = "256GiB"')
            return Host([1 << 50], [0], 2 * MIB)
        table = found
        table.knows(KEYS["host"])
        page = page_of(table, 2 * MIB)
        if table.has("memory") == table.has("nodes"):
            table.fault(
                None, 'it has either memory or nodes: memory = "256GiB", or nodes = ["128GiB", "128GiB"]'
            )
            return Host([1 << 50], [0], page)
        sizes = table.sizes("nodes") if table.has("nodes") else [table.bytes("memory", 1 << 50)]
        if table.has("nodes") and not 1 <= len(sizes) <= 1024:
            if isinstance(table.values["nodes"], list) and len(table.values["nodes"]) == len(sizes):
                table.fault("nodes", f"{len(sizes)} nodes are not from 1 to 1,024")
            return Host(
                [1 << 50] * (len(table.values["nodes"]) if isinstance(table.values["nodes"], list) else 1024),
                [0] * 1024,
                page,
            )
        host = Host(sizes, self.keep(table, sizes, page), page, not table.has("keep"))
        if sum(host.capacity()) <= 0:
            table.fault(
                "keep" if table.has("keep") else None, f"no page of {page:,} bytes is left of its memory"
            )
        host.nr, host.present = table.counts("nr", len(sizes)), table.counts("present", len(sizes))
        capacity = host.capacity()
        if host.nr and (
            sum(host.nr) > sum(capacity) or len(host.nr) > 1 and any(map(int.__gt__, host.nr, capacity))
        ):
            most = f"{capacity} on its nodes" if len(host.nr) > 1 else f"{sum(capacity):,}"
            table.fault(
                "nr",
                f"it is more pages than the host can have: {most}, with {sum(host.keep) / MIB:,.0f} MiB "
                "kept for what takes no huge pages",
            )
        return host

    @staticmethod
    def keep(table: Table, sizes: list[int], page: int) -> list[int]:
        if not table.has("keep"):
            return shared_out(default_keep(sum(sizes)), sizes)
        if isinstance(table.values["keep"], list):
            kept = table.sizes("keep", page)
            if len(kept) != len(sizes):
                table.fault("keep", f"it has {len(kept)} sizes, and there are {len(sizes)} nodes")
                return [0] * len(sizes)
            return kept
        return shared_out(table.pages("keep", 0, page) * page, sizes)

    def take_overcommit(self, table: Table) -> None:
        table.knows(KEYS["overcommit"])
        page = self.plan.host.page_bytes
        if not table.has("at_most"):
            table.fault(None, 'it tells how much memory surplus pages may take: at_most = "8GiB"')
        elif page >= 1 << 30:
            table.fault("at_most", "Linux makes no surplus pages of 1 GiB and more: leave [overcommit] out")
        else:
            # (at most: half a page is none)
            size = table.attempt("at_most", 0, lambda: size_in_bytes(table.values["at_most"], page))
            self.plan.overcommit = size // page
            most = sum(self.plan.host.capacity())
            if self.plan.overcommit > most:
                self.plan.remarks.append(
                    f"the overcommit of {self.plan.overcommit:,} pages is more than the host can have: "
                    f"{most:,} are counted"
                )
                self.plan.overcommit = most

    def take_mount(self, table: Table) -> None:
        table.knows(KEYS["mount"])
        name, page = table.text("name", ""), page_of(table, self.plan.host.page_bytes)
        if not re.fullmatch(r"[A-Za-z0-9_.-]{1,64}", name) or set(name) == {"."}:
            table.fault(
                "name", 'it is no name of a mount: write letters, digits, dots and dashes, as name = "guests"'
            )
        if any(it.name == name for it in self.plan.mounts):
            table.fault("name", f"two mounts have the name {name!r}: rename one")
        size = table.pages("size", 0, page) if table.has("size") else None
        minimum = table.pages("minimum", 0, page)
        if size is not None and minimum > size:
            table.fault("minimum", "the minimum is more than the size: make it smaller, or the size larger")
        self.plan.mounts.append(Mount(name, page, size, minimum))

    # ---- the programs

    def take_consumers(self, table: Table) -> None:
        kind, nodes = table.name, len(self.plan.host.node_bytes)
        table.knows(KEYS[kind])
        page = page_of(table, self.plan.host.page_bytes)
        mount = self.mount_of(table)
        if mount and not table.has("page"):
            page = mount.page_bytes
        first = Consumer(kind, "", page, 1, mount=mount)
        given = self.sizes_of(table, first)
        self.bind(table, first, given, nodes_of(table, nodes))
        first.used = first.pages
        if mount and mount.page_bytes != page:
            table.fault("page", f"its mount {mount.name!r} has pages of {mount.page_bytes:,} bytes")
        self.takes()[kind](table, first)
        count, name = table.number("count", 1, 1, MOST_CONSUMERS), table.text("name", kind)
        has_minimum = kind == "guest" and table.truth("minimum", False)
        for number in range(1, count + 1):
            numbered = f"{name} {number}" if count > 1 else name
            one = replace(first, name=numbered, order=len(self.plan.consumers))
            if has_minimum and mount is None:
                one.mount = Mount(one.name, page, one.pages, one.pages, True)
                self.plan.mounts.append(one.mount)
            self.plan.consumers.append(one)

    def mount_of(self, table: Table) -> Mount | None:
        if not table.has("mount"):
            return None
        name = table.text("mount", "")
        found = next((it for it in self.plan.mounts if it.name == name and not it.is_own), None)
        if found is None:
            table.fault("mount", f"the plan has no mount {name!r}: add [[mount]] with name = {name!r}")
        return found

    def sizes_of(self, table: Table, one: Consumer) -> str | None:
        """Reads how much it asks for, and answers by which key."""
        keys = (*SIZES[table.name], "pages")
        given = [key for key in keys if table.has(key)]
        if len(given) != 1:
            wanted = " or ".join(keys)
            several = f"it has several sizes, {' and '.join(given)}: leave all but one out"
            table.fault(None, several if given else f"it has no size: write {wanted}")
            return None
        key, page = given[0], one.page_bytes
        if key == "pages":
            one.pages = table.number("pages", 1, 1, 1 << 40)
        elif key in BY_NODE:
            self.take_sizes_by_node(table, key, one)
        elif key == "shared_buffers":
            one.pages = self.pages_of_postgresql(table, page)
        elif key == "heap":
            collector = java.Collector(table.text("gc", "g1", [it.value for it in java.Collector]))
            one.pages = java.pages_of(
                table.bytes("heap", page), collector, table.bytes("code_cache", java.CODE_CACHE), page
            )
        elif key == "buffer_pool":
            one.pages = self.pages_of_mysql(table, page)
        else:
            one.pages = table.pages(key, 1, page)
        if one.pages < 1 or key in ("heap", "buffer_pool", "shared_buffers") and table.values[key] == 0:
            table.fault(key, "it asks for no page: write a size above 0")
            one.pages = 1
        return key

    def take_sizes_by_node(self, table: Table, key: str, one: Consumer) -> None:
        nodes = len(self.plan.host.node_bytes)
        sizes = [in_pages(it, one.page_bytes) for it in table.sizes(key, one.page_bytes)]
        if len(sizes) > nodes and any(sizes[nodes:]):
            table.fault(
                key,
                f"it has {len(sizes)} sizes, and there {'is 1 node' if nodes == 1 else f'are {nodes} nodes'}",
            )
            sizes = []
        one.pages = sum(sizes)
        one.bound = {node: pages for node, pages in enumerate(sizes) if pages}

    def pages_of_postgresql(self, table: Table, page: int) -> int:
        values = {key: table.bytes(key) for key in postgresql.SIZES if table.has(key)}
        values |= {key: table.number(key, 1, 0, 1 << 24) for key in postgresql.NUMBERS if table.has(key)}
        settings = postgresql.Settings(**values)
        where = table.text("data_directory", "") if table.has("data_directory") else None
        name = table.text("name", "postgresql")
        pages = postgresql.by_itself(settings, page, where) if not self.faults.found else None
        if pages is not None:
            self.plan.remarks.append(
                f"{name}: the pages are what the PostgreSQL that is installed here answers"
            )
            return pages
        self.plan.remarks.append(
            f"{name}: the pages are a formula's, a little above what PostgreSQL 15 asks for; "
            "`postgres -C shared_memory_size_in_huge_pages` tells yours"
        )
        return in_pages(postgresql.by_formula(settings), page)

    def pages_of_mysql(self, table: Table, page: int) -> int:
        """The pages of a pool of buffers, with a remark that tells what is counted beside it."""
        pool, name = table.bytes("buffer_pool", page), table.text("name", "mysql")
        if server_of(table) is mysql.Server.MYSQL:
            self.plan.remarks.append(
                f"{name}: 4 MiB are counted beside each chunk of 128 MiB, 512 bytes for a page of 16 KiB. "
                "This was not checked against MySQL, which Debian does not have"
            )
            return mysql.pages_of_mysql(pool, page)
        buffers = mysql.Buffers(**{key: table.bytes(key, page) for key in OF_MARIADB if table.has(key)})
        self.plan.remarks.append(
            f"{name}: the pool, the key buffer and the Aria buffer are counted, and the log buffer twice: a "
            "little more than MariaDB 10.11 asks for"
        )
        return mysql.pages_of_mariadb(pool, buffers, page)

    def bind(self, table: Table, one: Consumer, given: str | None, nodes: Nodes) -> None:
        """Whether its pages must stand on the nodes that it names."""
        binds = table.truth("bind", table.name == "guest" and table.has("node"))
        one.home = nodes[0] if len(nodes) == 1 else None
        if given in BY_NODE:
            if table.has("node") or table.has("bind"):
                table.fault(
                    "node" if table.has("node") else "bind",
                    f"{given} names the nodes already: leave this out",
                )
        elif binds and not table.has("node"):
            table.fault("bind", "bind = true wants a node: add node = 0")
        elif binds and one.home is not None:
            one.bound = {one.home: one.pages}
        elif binds:
            one.among = nodes
        elif len(nodes) > 1 and not table.has("bind"):
            table.fault("node", "several nodes go with bind = true: its pages stand on them together")
        if all(
            node in (*one.bound, *one.among) for node, size in enumerate(self.plan.host.node_bytes) if size
        ):
            # (all nodes are the whole; sizes for each node are not)
            one.among = ()
            one.bound = one.bound if given in BY_NODE else {}
        if len(self.plan.host.node_bytes) == 1:
            one.bound = {}

    # ---- what each kind does

    def takes(self) -> dict[str, Callable[[Table, Consumer], None]]:
        """For each kind what reads its own keys."""
        return {
            "postgresql": self.take_postgresql,
            "guest": self.take_guest,
            "redis": self.take_redis,
            "java": self.take_java,
            "dpdk": self.take_dpdk,
            "oracle": self.take_oracle,
            "mysql": self.take_mysql,
            "map": self.take_map,
        }

    @staticmethod
    def take_used(table: Table, one: Consumer) -> None:
        if table.has("used") and one.has_reserve:
            table.fault(
                "used",
                "what is reserved counts whole, whatever is used of it: add reserve = false, or leave "
                "`used` out",
            )
        elif table.has("used"):
            one.used = table.pages("used", one.pages, one.page_bytes, one.pages)
            if len(one.bound) > 1:
                table.fault("used", "it can't stand beside node_memory: write a table for each node")

    def take_postgresql(self, table: Table, one: Consumer) -> None:
        one.goes_on = table.text("huge_pages", "try", ("on", "try")) == "try"
        if not table.has("shared_buffers"):
            for key in (*postgresql.SIZES[1:], *postgresql.NUMBERS, "data_directory"):
                if table.has(key):
                    table.fault(key, "it goes with shared_buffers: add it, or leave this out")

    def take_guest(self, table: Table, one: Consumer) -> None:
        one.is_file, one.is_shared = True, table.truth("share", True)
        one.has_reserve, one.is_touched = table.truth("reserve", True), table.truth("prealloc", False)
        self.take_used(table, one)
        if one.mount and table.truth("minimum", False):
            table.fault("minimum", f"its mount {one.mount.name!r} has a minimum of its own, or none")

    def take_redis(self, table: Table, one: Consumer) -> None:
        one.is_shared, one.is_touched, one.goes_on = False, True, True
        if table.has("rewritten") and not table.truth("snapshot", False):
            table.fault("rewritten", "it belongs to a snapshot, and the plan has none: add snapshot = true")
        elif table.truth("snapshot", False):
            one.rewritten = table.pages("rewritten", one.pages, one.page_bytes, one.pages)

    def take_java(self, table: Table, one: Consumer) -> None:
        one.is_shared, one.goes_on, one.is_touched = False, True, table.truth("prealloc", False)
        if not table.has("heap"):
            for key in ("gc", "code_cache"):
                if table.has(key):
                    table.fault(key, "it goes with heap: add it, or leave this out")

    def take_dpdk(self, _: Table, one: Consumer) -> None:
        one.is_file, one.is_touched = True, True

    def take_oracle(self, table: Table, one: Consumer) -> None:
        one.goes_on, one.is_touched = False, table.truth("prealloc", True)

    def take_mysql(self, table: Table, one: Consumer) -> None:
        one.goes_on = True
        is_mariadb = server_of(table) is mysql.Server.MARIADB
        # (MariaDB maps its memory for itself, and touches it at once)
        one.is_shared, one.is_touched = not is_mariadb, is_mariadb
        for key in (*OF_MARIADB, "server"):
            if table.has(key) and not table.has("buffer_pool"):
                table.fault(key, "it goes with buffer_pool: add it, or leave this out")
            elif table.has(key) and key in OF_MARIADB and not is_mariadb:
                table.fault(key, 'it goes with server = "mariadb": add that, or leave this out')

    def take_map(self, table: Table, one: Consumer) -> None:
        one.is_file, one.is_shared, one.has_reserve = (
            one.mount is not None,
            table.truth("shared", True),
            table.truth("reserve", True),
        )
        one.is_touched = table.truth("prealloc", False)
        self.take_used(table, one)


def plan_of(file: str, text: str) -> Plan:
    """The plan that a text tells."""
    return Reader(file, text).read()


def text_of(path: Path) -> tuple[str, str]:
    """The name and the text of a file; `-` is standard input."""
    name = "standard input" if str(path) == "-" else str(path)
    try:
        data = sys.stdin.buffer.read() if str(path) == "-" else path.read_bytes()
    except OSError as error:
        raise PlanFault(f"{name}: {error.strerror}") from None
    try:
        return name, data.decode()
    except UnicodeDecodeError as error:
        raise PlanFault(f"{name}:{data[:error.start].count(10) + 1}: it is not UTF-8") from None


def read_plan(path: Path) -> Plan:
    """The plan in a file."""
    return plan_of(*text_of(path))
