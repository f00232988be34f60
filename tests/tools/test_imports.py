"""Plans made of what others have written: ten files of each kind, and a plan that goes on with them."""
import sys
import tomllib
from pathlib import Path
from typing import Any, cast

import pytest
from common import TOP, run
from fake_host import FakeHost

from hugetlb import from_dpdk, from_kubernetes, from_libvirt, from_postgresql, imports
from hugetlb.tables import PlanFault

FOLDER = TOP / "tests/tools/imports"
NOWHERE = Path("/nonexistent")
PRIVATE: dict[str, Any] = {"share": False, "prealloc": True}


def guest(name: str, **values: Any) -> tuple[str, dict[str, Any]]:
    return "guest", {"name": name, "share": False, "prealloc": True, **values}


def database(name: str, **values: Any) -> tuple[str, dict[str, Any]]:
    return "postgresql", {"name": name, **values}


def pod(name: str, **values: Any) -> tuple[str, dict[str, Any]]:
    return "map", {"name": name, "page": "2MiB", **values}


def packets(name: str, **values: Any) -> tuple[str, dict[str, Any]]:
    return "dpdk", {"name": name, **values}


# each file with its tables
WANTED: dict[str, list[tuple[str, dict[str, Any]]]] = {
    "libvirt/plain.xml": [guest("web-1", memory="8GiB")],
    "libvirt/strict.xml": [guest("db", memory="32GiB", node=1, page="2MiB")],
    "libvirt/gigantic.xml": [
        ("guest", {"name": "nfv", "memory": "16GiB", "node": 0, "page": "1GiB", "prealloc": True})
    ],
    "libvirt/cells.xml": [guest("large", node_memory=["16GiB", "32GiB"])],
    "libvirt/two-sizes.xml": [
        guest("mixed-1024M", memory="8GiB", page="1GiB"),
        guest("mixed-2M", memory="4GiB", page="2MiB"),
    ],
    "libvirt/preferred.xml": [
        ("guest", {"name": "cache", "memory": "4GiB", "node": 1, "bind": False, "prealloc": True})
    ],
    "libvirt/several-nodes.xml": [guest("wide", memory="15625000KiB", page="2MiB")],
    "libvirt/dimm.xml": [
        guest("plugged-bound", memory="2GiB", node=0, page="2MiB"),
        guest("plugged", memory="4GiB", page="2MiB"),
    ],
    "libvirt/small-pages.xml": [],
    "libvirt/fleet.xml": [
        guest("fleet 1", memory="2GiB", node=0),
        guest("fleet 2", memory="2GiB", page="64KiB"),
    ],
    "postgresql/stock.conf": [database("stock", shared_buffers="128MiB", max_connections=100)],
    "postgresql/large.conf": [
        database(
            "large",
            shared_buffers="64GiB",
            wal_buffers="64MiB",
            max_connections=500,
            max_worker_processes=32,
            huge_pages="on",
        )
    ],
    "postgresql/blocks.conf": [
        database("blocks", shared_buffers="8GiB", wal_buffers="16MiB", max_connections=250)
    ],
    "postgresql/off.conf": [],
    "postgresql/gigantic.conf": [
        database("gigantic", shared_buffers="48GiB", max_connections=300, page="1GiB", huge_pages="on")
    ],
    "postgresql/last-wins.conf": [
        database("last-wins", shared_buffers="16GiB", max_connections=400, max_prepared_transactions=400)
    ],
    "postgresql/replica.conf": [
        database(
            "replica",
            shared_buffers="4GiB",
            max_connections=200,
            max_locks_per_transaction=256,
            max_pred_locks_per_transaction=128,
            max_wal_senders=20,
        )
    ],
    "postgresql/includes.conf": [database("includes", shared_buffers="2GiB", max_connections=50)],
    "postgresql/parallel.conf": [
        database(
            "parallel", shared_buffers="10752MiB", min_dynamic_shared_memory="2GiB", autovacuum_max_workers=10
        )
    ],
    "postgresql/empty.conf": [database("empty", shared_buffers="128MiB")],
    "kubernetes/pod.yaml": [pod("huge-pages-example", memory="100MiB")],
    "kubernetes/two-sizes.yaml": [
        pod("both-1024M", memory="2GiB", page="1GiB"),
        pod("both-2M", memory="100MiB"),
    ],
    "kubernetes/deployment.yaml": [pod("packet-router", count=4, memory="4GiB", page="1GiB")],
    "kubernetes/statefulset.yaml": [pod("postgres", count=3, memory="9GiB")],
    "kubernetes/daemonset.yaml": [pod("vswitch", memory="2GiB", page="1GiB")],
    "kubernetes/init.yaml": [pod("with-init", memory="512MiB")],
    "kubernetes/several.yaml": [pod("first", memory="20MiB")],
    "kubernetes/list.json": [pod("a", memory="1GiB"), pod("b", count=2, memory="64MiB")],
    "kubernetes/job.yaml": [pod("train", count=2, memory="6GiB")],
    "kubernetes/cronjob.yaml": [pod("nightly", memory="512MiB")],
    "dpdk/testpmd.sh": [packets("pmd0", socket_memory=["1GiB", "1GiB"])],
    "dpdk/l3fwd.txt": [packets("l3fwd", memory="2GiB")],
    "dpdk/one-socket.txt": [packets("dpdk-l2fwd", socket_memory=["0", "4GiB"], page="1GiB")],
    "dpdk/continued.sh": [packets("vhost", socket_memory=["2GiB"])],
    "dpdk/limit.txt": [packets("dpdk-pktgen", socket_memory=["512MiB", "512MiB"])],
    "dpdk/no-huge.txt": [],
    "dpdk/attached.txt": [packets("dpdk-proc-info", memory="1GiB")],
    "dpdk/unit.txt": [packets("ovs", socket_memory=["1GiB", "0"], page="2MiB")],
    "dpdk/spdk.txt": [packets("spdk_tgt", socket_memory=["512MiB"])],
    "dpdk/odd-sizes.txt": [packets("dpdk-l3fwd-power", socket_memory=["1MiB", "2MiB", "3MiB"])],
}


def test_each_file_is_told() -> None:
    found = {str(it.relative_to(FOLDER)) for it in FOLDER.glob("*/*")}
    assert found == WANTED.keys() and all(
        sum(it.startswith(kind) for it in found) == 10
        for kind in ("libvirt", "postgresql", "kubernetes", "dpdk")
    )


@pytest.mark.parametrize("name", WANTED)
def test_file(name: str) -> None:
    """The tables of a file are the ones that a person would write; a file that asks for no huge pages says
    so."""
    if name.startswith("kubernetes"):
        pytest.importorskip("yaml", reason="python3-yaml is not here")
    written = imports.tables_of(FOLDER / name, NOWHERE)
    tables = [(it.kind, tomllib.loads("\n".join(it.lines()))[it.kind][0]) for it in written if it.kind]
    assert tables == WANTED[name]
    assert tables or any("none" in remark or "no " in remark for it in written for remark in it.remarks)


DOMAIN = """<domain><name>wide</name><memory unit='GiB'>{memory}</memory>
  <memoryBacking><hugepages/></memoryBacking>
  <numatune><memory mode='{mode}' nodeset='{nodes}'/>{cell}</numatune>{numa}</domain>"""
CELLS = """<cpu><numa><cell id='0' cpus='0' memory='4' unit='GiB'/>
  <cell id='1' cpus='1' memory='5' unit='GiB'/></numa></cpu>"""


def guests_of(text: str) -> list[dict[str, Any]]:
    return [tomllib.loads("\n".join(it.lines()))["guest"][0] for it in from_libvirt.domains(text)]


@pytest.mark.parametrize(
    ("mode", "node"), [("strict", [0, 1]), ("restrictive", [0, 1]), ("preferred", None), ("interleave", None)]
)
def test_a_set_of_nodes_binds(mode: str, node: list[int] | None) -> None:
    """A guest that is bound to several nodes has them in a list; a policy that does not bind leaves a
    remark."""
    text = DOMAIN.format(memory=8, mode=mode, nodes="0-1", cell="", numa="")
    assert [it.get("node") for it in guests_of(text)] == [node]
    assert bool(from_libvirt.domains(text)[0].remarks) == (node is None)


def test_cells_of_a_guest_have_sets_of_their_own() -> None:
    """Each set of nodes has a table: cell 0 stands on node 2, and cell 1 on the nodes of all."""
    memnode = "<memnode cellid='0' mode='strict' nodeset='2'/>"
    found = guests_of(DOMAIN.format(memory=9, mode="strict", nodes="0,2", cell=memnode, numa=CELLS))
    assert [(it["name"], it["memory"], it["node"]) for it in found] == [
        ("wide-bound", "4GiB", 2),
        ("wide-on-0-2", "5GiB", [0, 2]),
    ]


def test_a_set_of_nodes_decides(tmp_path: Path) -> None:
    """A guest that two of three nodes can't hold does not fit, though the host could."""
    FakeHost(tmp_path / "root", memory={0: 8 << 10, 1: 8 << 10, 2: 64 << 10})
    (tmp_path / "wide.xml").write_text(DOMAIN.format(memory=20, mode="strict", nodes="0-1", cell="", numa=""))
    made = run(["plan", "--root", tmp_path / "root", "--from", tmp_path / "wide.xml"])[1]
    status, output, faults = run(["plan", "-"], made)
    assert (status, faults) == (1, "") and "nodes 0 and 1 are asked for 20 GiB together" in output
    (tmp_path / "wide.xml").write_text(DOMAIN.format(memory=20, mode="strict", nodes="0-2", cell="", numa=""))
    made = run(["plan", "--root", tmp_path / "root", "--from", tmp_path / "wide.xml"])[1]
    assert run(["plan", "-"], made)[0] == 0


def test_a_plan_is_made(tmp_path: Path) -> None:
    """The plan has the host, a comment for each file, and is one that is answered."""
    FakeHost(tmp_path, memory={0: 96 << 10, 1: 96 << 10}, free={0: 90 << 10, 1: 90 << 10})
    names = [
        "libvirt/strict.xml",
        "libvirt/cells.xml",
        "postgresql/replica.conf",
        "dpdk/testpmd.sh",
        "kubernetes/statefulset.yaml",
    ]
    status, text, faults = run(["plan", "--root", tmp_path, "--from", *(FOLDER / it for it in names)])
    assert (status, faults) == (0, "")
    plan = tomllib.loads(text)
    assert plan["host"]["nodes"] == ["96GiB", "96GiB"] and [it["name"] for it in plan["guest"]] == [
        "db",
        "large",
    ]
    assert all(f"# from {FOLDER / it}\n" in text for it in names)
    status, output, faults = run(["plan", "-"], text)
    assert (status, faults) == (0, "") and "It fits: set nr to" in output and "node 1" in output


def test_a_plan_goes_on(tmp_path: Path) -> None:
    """Behind a plan that is named the programs are added to it."""
    (tmp_path / "host.toml").write_text('[host]\nmemory = "64GiB"\n[[java]]\nheap = "1GiB"\n')
    status, text, faults = run(["plan", tmp_path / "host.toml", "--from", FOLDER / "libvirt/plain.xml"])
    assert (
        (status, faults) == (0, "")
        and text.startswith('[host]\nmemory = "64GiB"\n')
        and 'name = "web-1"' in text
    )
    assert run(["plan", "-"], text)[0] == 0


@pytest.mark.parametrize(
    ("name", "text", "said"),
    [
        ("a.xml", "<domain><name>x</name>", "it is no XML"),
        ("a.xml", "<network/>", "it has no <domain>"),
        (
            "a.xml",
            "<domain><name>x</name><memoryBacking><hugepages/></memoryBacking></domain>",
            "the guest has no <memory>: add it",
        ),
        ("a.xml", "<domain><memory unit='apples'>3</memory></domain>", "is no size"),
        ("a.conf", "shared_buffers = lots", "shared_buffers = 'lots' is no size"),
        ("a.conf", "max_connections = many", "is no number"),
        ("a.yaml", "kind: [", "it is no YAML"),
        ("a.yaml", "kind: Service\nmetadata: {name: x}\n", "it has no pods"),
        (
            "a.yaml",
            "kind: Pod\nspec: {containers: [{resources: {limits: {hugepages-2Mi: lots}}}]}\n",
            "'lots' is no quantity",
        ),
        (
            "a.yaml",
            "kind: Pod\nspec: {containers: [{resources: {limits: {hugepages-2Mi: 2Mi}, "
            "requests: {hugepages-2Mi: 4Mi}}}]}\n",
            "request and limit are equal",
        ),
        ("a.txt", "testpmd --socket-mem 1,x -- -i", "is no list of megabytes"),
        ("a.txt", "testpmd -l 0-3 -n 4 -- -i", "neither --socket-mem nor -m"),
        ("a.txt", "testpmd --socket-mem 'x", "it is no command line"),
        (
            "a.txt",
            "hello",
            "it is none of libvirt's XML, postgresql.conf, a manifest of Kubernetes, a command line of DPDK",
        ),
    ],
)
def test_what_can_not_be_read(name: str, text: str, said: str, tmp_path: Path) -> None:
    if name.endswith("yaml"):
        pytest.importorskip("yaml", reason="python3-yaml is not here")
    (tmp_path / name).write_text(text)
    status, output, faults = run(["plan", "--from", tmp_path / name])
    assert (status, output) == (2, "") and said in faults and name in faults and "Traceback" not in faults


def test_all_files_that_are_wrong_are_told(tmp_path: Path) -> None:
    for name in ("a.xml", "b.xml"):
        (tmp_path / name).write_text("<network/>")
    status, output, faults = run(
        ["plan", "--from", tmp_path / "a.xml", tmp_path / "b.xml", tmp_path / "none.xml"]
    )
    assert (status, output, len(faults.splitlines())) == (2, "", 3)


def test_without_the_library(monkeypatch: pytest.MonkeyPatch) -> None:
    """Where there is no PyYAML the message says what to install."""
    monkeypatch.setitem(cast("dict[str, Any]", sys.modules), "yaml", None)
    with pytest.raises(PlanFault, match="apt-get install python3-yaml"):
        imports.tables_of(FOLDER / "kubernetes/pod.yaml", NOWHERE)


def test_names_of_huge_mounts(tmp_path: Path) -> None:
    """The folder that DPDK names tells the size of page, by the host's mounts."""
    FakeHost(tmp_path, mounts=["/mnt/any rw,pagesize=1024M"])
    file = tmp_path / "line.txt"
    file.write_text("testpmd --socket-mem 1024 --huge-dir /mnt/any -- -i")
    assert imports.tables_of(file, tmp_path)[0].values["page"] == '"1GiB"'


def test_sizes_of_each_kind() -> None:
    assert (
        from_libvirt.bytes_of("4", "GiB") == 4 << 30
        and from_libvirt.bytes_of("4", "GB") == 4 * 10**9
        and from_libvirt.bytes_of("4", None) == 4096
    )
    assert from_libvirt.set_of("0-3,^1,8") == {0, 2, 3, 8}
    assert (
        from_postgresql.bytes_of("shared_buffers", "16384") == 128 << 20
        and from_postgresql.bytes_of("shared_buffers", "1.5GB") == 3 << 29
    )
    assert (
        from_kubernetes.bytes_of("1.5Gi") == 3 << 29
        and from_kubernetes.bytes_of("1G") == 10**9
        and from_kubernetes.bytes_of("2e3") == 2000
    )
    assert from_dpdk.command("FOO=1 sudo numactl -N 0 app -m 5 -- -m 6").options == {"-m": "5"}
