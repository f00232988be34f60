"""Who holds the huge pages: of a folder that looks like a host, and of this kernel."""
import json
import os
import subprocess
import sys
from pathlib import Path
from typing import Any

from common import run
from fake_host import FakeHost, Map, device_of
from pool import empty_pool, fill

ANONYMOUS = "/anon_hugepage (deleted)"
HOLDS = """
import ctypes, mmap, os, sys
page, huge = 2 << 20, 0x40000
private = mmap.mmap(-1, 3 * page, flags=mmap.MAP_PRIVATE | mmap.MAP_ANONYMOUS | huge)
private[0] = 1
libc = ctypes.CDLL(None, use_errno=True)
memory = os.memfd_create("pool", 4)
os.ftruncate(memory, 2 * page)
named = mmap.mmap(memory, 2 * page, mmap.MAP_SHARED)
named[0] = named[page] = 1
segment = libc.shmget(0x5eed, ctypes.c_size_t(2 * page), 0o4600 | 0o1000)
assert segment >= 0, os.strerror(ctypes.get_errno())
libc.shmat.restype = ctypes.c_void_p
address = libc.shmat(segment, None, 0)
ctypes.memset(address, 1, 1)
print(segment, flush=True)
for line in sys.stdin:
    libc.shmdt(ctypes.c_void_p(address))
    print("detached", flush=True)
libc.shmctl(segment, 0, None)
"""


def who(root: Path, *words: str) -> dict[str, Any]:
    status, output, faults = run(["who", "--root", root, "--json", *words])
    assert (status, faults) == (0, "")
    answer: dict[str, Any] = json.loads(output)
    return answer


def rows(answer: dict[str, Any]) -> list[tuple[str, str, str, int, int]]:
    return [(it["who"], it["kind"], it["what"], it["in_use"], it["reserved"]) for it in answer["holders"]]


def full_host(root: Path) -> FakeHost:
    host = FakeHost(
        root,
        counts={"nr": 60, "free": 31, "resv": 21},
        mounts=["/dev/hugepages rw,pagesize=2M", "/mnt/kept rw,pagesize=2M,min_size=8388608"],
    )
    left = host.file("/dev/hugepages/left behind", 2)
    ram = host.file("/dev/hugepages/ram", 4)
    assert left.st_ino != ram.st_ino
    host.process(10, 1, "redis", Map(ANONYMOUS, 7, pages=8, own=1, common=3, nodes={0: 4}))
    host.process(11, 10, "redis", Map(ANONYMOUS, 7, pages=8, own=2, common=3, nodes={0: 3, 1: 2}))
    host.process(
        12,
        1,
        "qemu",
        Map(
            "/dev/hugepages/ram",
            ram.st_ino,
            pages=6,
            own=3,
            is_shared=True,
            nodes={1: 3},
            device=device_of(ram),
        ),
    )
    host.process(
        13,
        1,
        "vhost",
        Map(
            "/dev/hugepages/ram",
            ram.st_ino,
            pages=6,
            own=4,
            is_shared=True,
            nodes={1: 4},
            device=device_of(ram),
        ),
    )
    host.process(14, 1, "dpdk", Map("/memfd:pool (deleted)", 30, pages=3, own=3, is_shared=True))
    host.process(15, 1, "oracle", Map("/SYSV00005eed (deleted)", 31, pages=5, own=2, is_shared=True))
    host.process(16, 1, "trial\x1b[31m", Map(ANONYMOUS, 40, pages=9, own=1, flags="nr ht"))
    head = "key shmid perms size cpid lpid nattch uid gid cuid cgid atime dtime ctime rss swap"
    rows = [
        (24301, 31, 5 << 21, 1, 2 << 21),
        (24302, 32, 3 << 21, 0, 1 << 21),
        (24303, 33, 3 << 12, 0, 1 << 12),
    ]
    lines = [
        f"{key:10} {number:10}   600 {size:21}  15  15 {attached:6} 0 0 0 0 0 0 0 {held:21} 0"
        for key, number, size, attached, held in rows
    ]
    host.write("proc/sysvipc/shm", "".join(f"{it}\n" for it in [head, *lines]))
    return host


def test_who_holds_them(tmp_path: Path) -> None:
    """Each kind once: processes with their files, memfds, segments and anonymous memory; files and segments
    of nobody; a mount's minimum."""
    full_host(tmp_path)
    answer = who(tmp_path)
    assert sorted(rows(answer)) == sorted(
        [
            ("redis (10)", "anonymous", "", 6, 4),
            ("qemu (12)", "file", "/dev/hugepages/ram", 4, 2),
            ("dpdk (14)", "memfd", "pool", 3, 0),
            ("oracle (15)", "SysV segment", "key 0x00005eed", 2, 3),
            ("trial\\x1b[31m (16)", "anonymous", "", 1, 0),
            ("no process", "file", "/dev/hugepages/left behind", 2, 0),
            ("nobody attached", "SysV segment", "key 0x00005eee, shmid 32", 1, 2),
            ("the mount", "minimum of a mount", "/mnt/kept", 0, 4),
        ]
    )
    assert (answer["in_use"], answer["reserved"]) == (19, 15)
    assert answer["unseen"] == {"in_use": 60 - 31 - 19, "reserved": 21 - 15}
    holders = {it["who"]: it for it in answer["holders"]}
    assert holders["redis (10)"]["others"] == [11] and holders["qemu (12)"]["others"] == [13]
    assert holders["qemu (12)"]["by_node"] == {"1": 4} and answer["by_node"] == {"0": 4, "1": 4}


def test_as_a_table(tmp_path: Path) -> None:
    full_host(tmp_path)
    status, output, faults = run(["who", "--root", tmp_path])
    assert (status, faults) == (0, "")
    assert output.startswith("Pages of 2 MiB: Total 60, Free 31, Rsvd 21, Surp 0; 29 in use (58 MiB)\n")
    lines = {line.split("  ")[0]: line.split()[-2:] for line in output.splitlines()}
    assert (
        lines["held by nobody that can be seen"] == ["10", "6"]
        and "What can't be seen is most often:" in output
    )
    assert "redis (10), and 11" in output and "\x1b" not in output


def test_all_is_seen(tmp_path: Path) -> None:
    """Where the sums are the kernel's nothing is said to be hidden."""
    host = FakeHost(tmp_path, counts={"nr": 10, "free": 9, "resv": 2})
    host.process(10, 1, "java", Map(ANONYMOUS, 7))
    assert who(tmp_path)["unseen"] == {"in_use": 0, "reserved": 0}
    assert "most often" not in run(["who", "--root", tmp_path])[1]


def test_mounts_of_others(tmp_path: Path) -> None:
    """Files below the mounts that a container sees are found through one of its processes."""
    host = FakeHost(tmp_path, counts={"nr": 10, "free": 7})
    host.process(1, 0, "init")
    os.symlink("1", tmp_path / "proc/self")
    host.process(20, 1, "shell", namespace="mnt:[2]")
    host.write("proc/20/mounts", "none /hugepages hugetlbfs rw,pagesize=2M 0 0\n")
    host.file("proc/20/root/hugepages/data", 3)
    assert rows(who(tmp_path)) == [
        ("no process, in the mounts of process 20", "file", "/hugepages/data", 3, 0)
    ]


def test_this_kernel() -> None:
    """On this machine's own kernel: a private map, a memfd and a segment of one process, then the segment
    that nobody has attached."""
    with empty_pool():
        fill(12)
        program = subprocess.Popen(
            [sys.executable, "-c", HOLDS], stdin=subprocess.PIPE, stdout=subprocess.PIPE, text=True
        )
        assert program.stdin and program.stdout
        segment = int(program.stdout.readline())
        name = f"{Path(sys.executable).resolve().name} ({program.pid})"
        answer = who(Path("/"))
        assert sorted(it[1:] for it in rows(answer) if str(program.pid) in it[0]) == [
            ("SysV segment", "key 0x00005eed", 1, 1),
            ("anonymous", "", 1, 2),
            ("memfd", "pool", 2, 0),
        ], (name, answer)
        assert answer["unseen"] == {"in_use": 0, "reserved": 0} and sum(answer["by_node"].values()) == 4
        program.stdin.write("\n")
        program.stdin.flush()
        assert program.stdout.readline() == "detached\n"
        answer = who(Path("/"))
        assert ("nobody attached", "SysV segment", f"key 0x00005eed, shmid {segment}", 1, 1) in rows(answer)
        program.communicate("")
