"""A plan from a running host: from a folder that looks like one, and from this kernel with a program that
maps huge pages."""
import subprocess
import sys
import tomllib
from pathlib import Path
from typing import Any

import pytest
from common import run
from fake_host import FakeHost, Map
from pool import empty_pool, fill

from hugetlb import plan_file
from hugetlb.host import LinuxHost
from hugetlb.observe import plan_of

MAPS = """
import mmap, os, sys, time
page, reserve, huge = 2 << 20, 0x4000, 0x40000
private = mmap.mmap(-1, 3 * page, flags=mmap.MAP_PRIVATE | mmap.MAP_ANONYMOUS | huge)
shared = mmap.mmap(-1, 2 * page, flags=mmap.MAP_SHARED | mmap.MAP_ANONYMOUS | huge)
without = mmap.mmap(-1, page, flags=mmap.MAP_PRIVATE | mmap.MAP_ANONYMOUS | huge | reserve)
private[0] = shared[0] = without[0] = 1
if os.fork():
    print("mapped", flush=True)
sys.stdin.read()
"""
ANONYMOUS = "/anon_hugepage (deleted)"
GIB = 1024


def told(host: FakeHost) -> dict[str, Any]:
    return tomllib.loads(plan_of(LinuxHost(host.root)))


def maps_of(host: FakeHost) -> list[dict[str, Any]]:
    listed: list[dict[str, Any]] = told(host).get("map", [])
    return listed


def test_a_host_in_a_folder(tmp_path: Path) -> None:
    """Nodes, pages, mounts, and each map once: shared ones by their file, private ones with the process that
    made them."""
    mounts = [
        "/dev/hugepages rw,pagesize=2M",
        "/mnt/a\\040guest rw,pagesize=2M,size=16777216,min_size=8388608",
        "/mnt/large rw,pagesize=1024M",
    ]
    host = FakeHost(
        tmp_path,
        counts={"nr": 40, "free": 30, "resv": 5, "surplus": 4, "nr_overcommit": 10},
        pages={0: 20, 1: 20},
        surplus={0: 2, 1: 2},
        mounts=mounts,
    )
    host.process(10, 1, "redis server", Map(ANONYMOUS, 7), Map("/lib/libc.so", 9, flags="", page_kb=4))
    host.process(11, 10, "redis server", Map(ANONYMOUS, 7))
    host.process(12, 1, "qemu", Map("/mnt/a guest/ram", 8, is_shared=True))
    host.process(13, 1, "vhost", Map("/mnt/a guest/ram", 8, is_shared=True))
    host.process(14, 1, "trial", Map(ANONYMOUS, 17, flags="nr ht"))
    host.process(15, 1, "large", Map(ANONYMOUS, 18, page_kb=1048576))
    (tmp_path / "proc/16").mkdir()
    text = plan_of(LinuxHost(tmp_path))
    values = tomllib.loads(text)
    assert {name: values["host"][name] for name in ("nodes", "page", "present")} == {
        "nodes": ["8GiB", "8GiB"],
        "page": "2MiB",
        "present": [18, 18],
    }
    assert values["overcommit"] == {"at_most": "10 pages"}
    assert values["mount"] == [
        {"name": "dev-hugepages"},
        {"name": "mnt-a-guest", "size": "8 pages", "minimum": "4 pages"},
    ]
    assert values["map"] == [
        {"name": "redis-server-10", "pages": 3, "shared": False},
        {"name": "qemu-12", "pages": 3, "shared": True, "mount": "mnt-a-guest"},
        {"name": "trial-14", "pages": 3, "shared": False, "reserve": False, "used": "1 pages"},
    ]
    assert "# forked to process 11" in text and "# mapped too by process 13" in text
    assert len(plan_file.plan_of("x", text).consumers) == 3


def test_observe_add_one_and_plan(tmp_path: Path) -> None:
    """What runs, and one program more: it fits, and nr is told, beside what it is now. Memory that others
    use is none that pages can have."""
    host = FakeHost(
        tmp_path, counts={"nr": 512, "free": 256}, pages={0: 256, 1: 256}, free={0: 6 * GIB, 1: 3 * GIB}
    )
    host.process(
        10,
        1,
        "qemu",
        Map("/dev/hugepages/ram", 8, pages=256, own=256, is_shared=True, policy="bind:1", nodes={1: 256}),
    )
    status, text, faults = run(["observe", "--root", tmp_path])
    assert (status, faults) == (0, "")
    values = tomllib.loads(text)
    # (of 8 GiB with half a GiB of pages: 1.5 GiB and 4.5 GiB in use, and a 32nd)
    assert (
        values["host"]["keep"] == ["1792MiB", "4864MiB"]
        and values["map"][0]["node"] == 1
        and values["map"][0]["prealloc"] is True
    )
    status, output, _ = run(["plan", "-"], text + '[[postgresql]]\nshared_memory = "2GiB"\n')
    assert status == 0 and "It fits: set nr to 1,280 (it is 512 now)." in output
    status, output, _ = run(["plan", "-"], text)
    assert status == 0 and "set nr to 256 (it is 512 now)" in output
    status, output, _ = run(["plan", "-"], text + '[[guest]]\nmemory = "3GiB"\nnode = 1\n')
    assert status == 1 and "node 1 is asked for 3.5 GiB of 8 GiB, of which 3.25 GiB can be had" in output


def test_nodes_by_their_numbers(tmp_path: Path) -> None:
    """Node 10 comes behind node 2, and those that are not there have no memory."""
    host = FakeHost(tmp_path, memory={0: 1024, 2: 2048, 10: 4096}, pages={0: 1, 2: 2, 10: 3})
    values = told(host)["host"]
    assert values["nodes"] == ["1GiB", "0", "2GiB", *7 * ["0"], "4GiB"] and values["present"] == [
        1,
        0,
        2,
        *7 * [0],
        3,
    ]
    text = plan_of(LinuxHost(tmp_path)) + '[[guest]]\nmemory = "1GiB"\nnode = 10\n'
    assert "/node10/hugepages/hugepages-2048kB/nr_hugepages" in run(["plan", "-", "--sysctl"], text)[1]
    answer = run(["plan", "-"], text)[1]
    assert "node 10" in answer and "node 5 " not in answer


@pytest.mark.parametrize(
    "ranges, pages",
    [([(0, 3), (2, 4), (10, 2)], 8), ([(0, 10), (2, 3), (4, 1)], 10), ([(10, 2), (2, 4), (0, 3)], 8)],
    ids=["they meet and leave a hole", "one has the others", "the last is first"],
)
def test_ranges_of_one_file(tmp_path: Path, ranges: list[tuple[int, int]], pages: int) -> None:
    """A file counts each index once, of one process' ranges and of another's."""
    host = FakeHost(tmp_path)
    maps = [
        Map(
            "/dev/hugepages/f",
            5,
            pages=count,
            first=first,
            start=0x7F0000000000 + at * (1 << 32),
            is_shared=True,
        )
        for at, (first, count) in enumerate(ranges)
    ]
    host.process(10, 1, "one", *maps[:2])
    host.process(11, 1, "two", maps[2])
    assert [it["pages"] for it in maps_of(host)] == [pages]


def test_pages_that_ranges_of_a_file_have(tmp_path: Path) -> None:
    """Those of ranges that share no index add up, in one process or in several; of others the most count."""
    host = FakeHost(tmp_path)
    for number, (first, pages, own) in enumerate([(0, 3, 2), (1, 4, 3), (3, 2, 2), (7, 1, 1)], 10):
        one = Map("/dev/hugepages/f", 5, pages=pages, first=first, own=own, is_shared=True, flags="nr ht")
        host.process(number, 1, "p", one)
    for number, own in ((20, 1), (21, 3)):
        host.process(number, number - 1, "p", Map(ANONYMOUS, 7, own=own, flags="nr ht"))
    assert [(it["pages"], it["used"]) for it in maps_of(host)] == [(6, "5 pages"), (3, "3 pages")]


def test_a_file_whose_ranges_have_all_their_pages(tmp_path: Path) -> None:
    host = FakeHost(tmp_path)
    for number, first in ((10, 0), (11, 3)):
        one = Map("/dev/hugepages/f", 5, first=first, own=1, common=2, is_shared=True)
        host.process(number, 1, "p", one)
    assert [(it["pages"], it.get("prealloc")) for it in maps_of(host)] == [(6, True)]


def test_grandchildren(tmp_path: Path) -> None:
    """What came by two forks is the first process'; another's range at the same place is its own."""
    host = FakeHost(tmp_path)
    for number, parent in ((10, 1), (11, 10), (12, 11), (13, 1)):
        host.process(number, parent, "store", Map(ANONYMOUS, 7))
    assert [it["name"] for it in maps_of(host)] == ["store-10", "store-13"]
    assert "# forked to process 11, 12" in plan_of(LinuxHost(tmp_path))


def test_nested_mounts(tmp_path: Path) -> None:
    """A file is on the innermost mount above it; /mnt/ab is not below /mnt/a."""
    host = FakeHost(tmp_path, mounts=[f"{it} rw,pagesize=2M" for it in ("/mnt/a", "/mnt/a/b", "/mnt/ab")])
    for number, path in ((10, "/mnt/a/f"), (11, "/mnt/a/b/f"), (12, "/mnt/ab/f"), (13, "/mnt/abc/f")):
        host.process(number, 1, "p", Map(path, number, is_shared=True))
    assert [it.get("mount") for it in maps_of(host)] == ["mnt-a", "mnt-a-b", "mnt-ab", None]


def test_what_has_no_file_is_on_no_mount(tmp_path: Path) -> None:
    """Also where a mount stands at the root, below which each path would be."""
    host = FakeHost(tmp_path, mounts=["/ rw,pagesize=2M"])
    host.process(10, 1, "p", Map(ANONYMOUS, 7))
    host.process(11, 1, "p", Map("/f", 8, is_shared=True))
    assert [it.get("mount") for it in maps_of(host)] == [None, "root"]


def test_a_host_without_maps(tmp_path: Path) -> None:
    host = FakeHost(tmp_path)
    text = plan_of(LinuxHost(tmp_path))
    assert "No process that could be read maps huge pages" in text and "map" not in told(host)
    with pytest.raises(FileNotFoundError):
        LinuxHost(tmp_path, 1 << 30)


def test_without_root(tmp_path: Path, monkeypatch: pytest.MonkeyPatch) -> None:
    """What may not be read is left out, and said."""
    FakeHost(tmp_path).process(10, 1, "other", Map(ANONYMOUS, 7))
    reads = Path.read_text

    def closed(self: Path, *words: Any, **more: Any) -> str:
        if self.name == "smaps":
            raise PermissionError(13, "Permission denied", str(self))
        return reads(self, *words, **more)

    monkeypatch.setattr(Path, "read_text", closed)
    host = LinuxHost(tmp_path)
    assert (host.unread, host.ranges()) == (1, [])
    assert "# 1 process could not be read: root reads those of others." in plan_of(host)


def test_this_kernel(tmp_path: Path) -> None:
    """A program that maps huge pages on this machine's own kernel is observed, and its plan is answered."""
    with empty_pool():
        fill(12)
        program = subprocess.Popen(
            [sys.executable, "-c", MAPS], stdin=subprocess.PIPE, stdout=subprocess.PIPE, text=True
        )
        assert program.stdout and program.stdout.readline() == "mapped\n"
        status, output, faults = run(["observe"])
        program.communicate("")
        assert (status, faults) == (0, "")
        values = tomllib.loads(output)
        found = sorted(
            (it["pages"], it["shared"], it.get("reserve", True), it.get("used"))
            for it in values["map"]
            if it["name"].endswith(f"-{program.pid}")
        )
        assert found == [(1, False, False, "1 pages"), (2, True, True, None), (3, False, True, None)]
        assert sum(values["host"]["present"]) == 12
        (tmp_path / "host.toml").write_text(output)
        status, output, _ = run(["plan", tmp_path / "host.toml"])
        assert status == 0 and "It fits: set nr to 6 (it is 12 now)." in output and "nr 6 " in output


def test_what_is_bound_to_several_nodes(tmp_path: Path) -> None:
    """A range that is bound to two of three nodes has both in the plan, where they decide."""
    host = FakeHost(tmp_path, memory={0: 8192, 1: 8192, 2: 65536}, free={0: 4096, 1: 4096, 2: 60000})
    for number, policy in ((10, "bind:0-1"), (11, "bind=static:0,2"), (12, "bind:0-2"), (13, "prefer:1")):
        host.process(number, 1, "p", Map("/dev/hugepages/f", number, pages=8, is_shared=True, policy=policy))
    assert [it.get("node") for it in maps_of(host)] == [[0, 1], [0, 2], [0, 1, 2], None]
    text = plan_of(LinuxHost(tmp_path))
    assert run(["plan", "-"], text)[0] == 0
    status, output, _ = run(["plan", "-"], text.replace("pages = 8", "pages = 6000", 1))
    assert status == 1 and "nodes 0 and 1 are asked for" in output


@pytest.mark.parametrize("policy", ["bind:2", "bind:0,2"])
def test_what_is_bound_to_a_node_that_is_not_there(tmp_path: Path, policy: str) -> None:
    """A node of no memory that the host tells is none of the plan, which is answered."""
    host = FakeHost(tmp_path)
    host.process(10, 1, "p", Map("/dev/hugepages/f", 5, is_shared=True, policy=policy))
    assert [it.get("node") for it in maps_of(host)] == [None]
    assert run(["plan", "-"], plan_of(LinuxHost(tmp_path)))[0] == 0


def test_one_node_binds_nothing(tmp_path: Path) -> None:
    host = FakeHost(tmp_path, memory={0: 8192})
    host.process(10, 1, "p", Map("/dev/hugepages/f", 5, is_shared=True, policy="bind:0"))
    assert [(it.get("node"), it.get("bind")) for it in maps_of(host)] == [(None, None)]
