"""As a new user would try it: a host of two nodes in a folder, forty guests of libvirt and a database, and
the settings that come out."""
import re
import tomllib
from pathlib import Path

from common import run
from fake_host import FakeHost, Map

GUEST = """<domain type='kvm'>
  <name>guest-{number:02}</name>
  <memory unit='GiB'>{memory}</memory>
  <memoryBacking><hugepages><page size='2' unit='MiB'/></hugepages></memoryBacking>
  <numatune><memory mode='strict' nodeset='{node}'/></numatune>
  <vcpu>4</vcpu>
  <os><type arch='x86_64'>hvm</type></os>
</domain>
"""
DATABASE = "max_connections = 500\nshared_buffers = 64GB\nhuge_pages = on\n"
GIB = 1 << 10


def test_forty_guests_and_a_database(tmp_path: Path) -> None:
    """In: 40 domains bound over two nodes, and a postgresql.conf. Out: the answer, settings for each node,
    and an fstab."""
    host = FakeHost(
        tmp_path / "root",
        memory={0: 128 * GIB, 1: 128 * GIB},
        free={0: 122 * GIB, 1: 120 * GIB},
        counts={"nr": 1024, "free": 1024},
        pages={0: 512, 1: 512},
    )
    files = []
    for number in range(40):
        files.append(tmp_path / f"guest-{number:02}.xml")
        files[-1].write_text(GUEST.format(number=number, memory=2, node=number % 2))
    files.append(tmp_path / "postgresql.conf")
    files[-1].write_text(DATABASE)
    status, made, faults = run(["plan", "--root", host.root, "--from", *files])
    assert (status, faults) == (0, "") and len(tomllib.loads(made)["guest"]) == 40
    plan = tmp_path / "host.toml"
    plan.write_text(made)
    status, answer, faults = run(["plan", plan])
    # (the database by its formula)
    pages = 40 * 1024 + 33529
    assert (status, faults) == (0, "") and f"It fits: set nr to {pages:,} (it is 1,024 now)." in answer
    assert "node 0  128 GiB       20,480" in answer and "node 1  128 GiB       20,480" in answer
    # the guests come first, and libvirt preallocates them: the database can't take their pages
    assert "too many there" not in answer
    unit = run(["plan", plan, "--sysctl"])[1]
    written = [int(it) for it in re.findall(r"echo (\d+) > \S+/node\d/", unit)]
    assert sum(written) == pages and all(it >= 20480 for it in written)
    assert (
        run(["plan", plan, "--cmdline"])[1]
        == f"default_hugepagesz=2M hugepagesz=2M hugepages=0:{written[0]},1:{written[1]}\n"
    )
    assert (
        "/dev/hugepages hugetlbfs pagesize=2M,nofail,x-systemd.after=hugetlb-pages.service"
        in run(["plan", plan, "--fstab"])[1]
    )
    # one guest too many on a node
    plan.write_text(made + '\n[[guest]]\nname = "one more"\nmemory = "92GiB"\nnode = 1\n')
    status, answer, _ = run(["plan", plan])
    assert status == 1 and re.search(
        r"It does not fit: node 1 is asked for 132 GiB of 128 GiB, of which \S+ GiB can be had", answer
    ), answer


def test_observe_then_add(tmp_path: Path) -> None:
    """A host that runs guests already: what is observed, a guest more, and who holds the pages."""
    host = FakeHost(
        tmp_path,
        memory={0: 64 * GIB, 1: 64 * GIB},
        free={0: 40 * GIB, 1: 20 * GIB},
        counts={"nr": 16384, "free": 0},
        pages={0: 8192, 1: 8192},
    )
    for number, node in ((100, 0), (101, 1)):
        host.process(
            number,
            1,
            "qemu-system-x86",
            Map(
                f"/dev/hugepages/libvirt/{number}",
                number,
                pages=8192,
                own=8192,
                is_shared=True,
                policy=f"bind:{node}",
                nodes={node: 8192},
            ),
        )
    text = run(["observe", "--root", tmp_path])[1]
    status, answer, _ = run(["plan", "-"], text + '[[guest]]\nname = "new"\nmemory = "16GiB"\nnode = 0\n')
    assert status == 0 and "It fits: set nr to 24,576 (it is 16,384 now)." in answer
    status, answer, _ = run(["plan", "-"], text + '[[guest]]\nname = "new"\nmemory = "24GiB"\nnode = 1\n')
    assert status == 1 and "node 1 is asked for 40 GiB of 64 GiB" in answer
    table = run(["who", "--root", tmp_path])[1]
    assert (
        "qemu-system-x86 (100)" in table
        and "N0=8192 N1=8192" in table
        and re.search(r"held by nobody that can be seen +0 +0", table)
    )
