"""What is written for a host: it never exceeds the host, agrees with the table, and is read by the tools
that it is for."""
import random
import re
import subprocess
from pathlib import Path
from shutil import which
from typing import Any

import pytest
from common import EXAMPLES, run
from plans import answered, by_node, told

HOST = '[host]\nmemory = "64GiB"\n'
GENERATOR = Path("/usr/lib/systemd/system-generators/systemd-fstab-generator")
NODE_FILE = re.compile(
    r"echo (\d+) > /sys/devices/system/node/node(\d+)/hugepages/hugepages-(\d+)kB/nr_hugepages"
)


def printed(folder: Path, text: str, kind: str) -> str:
    return answered(folder, text, f"--{kind}")[1]


def checked(words: list[Any], environment: dict[str, str] | None = None) -> subprocess.CompletedProcess[str]:
    return subprocess.run(
        [str(it) for it in words], capture_output=True, text=True, timeout=60, env=environment
    )


BOUND = EXAMPLES / "plan.toml"
MIXED = """[host]
nodes = ["64GiB", "64GiB"]
[[guest]]
name = "big"
count = 2
memory = "8GiB"
page = "1GiB"
node = 1
[[postgresql]]
shared_memory = "8GiB"
"""


def test_pages_of_each_node(tmp_path: Path) -> None:
    """Where a plan binds, the numbers are per node, in a unit and on the command line, and they are those of
    the table."""
    text = BOUND.read_text()
    unit, nodes = printed(tmp_path, text, "sysctl"), told(tmp_path, text)
    assert [int(it[1]) for it in NODE_FILE.finditer(unit)] == by_node(nodes, "nr") == [56701, 56700]
    assert (
        "vm.nr_hugepages" not in unit
        and "echo 4096 > /sys/kernel/mm/hugepages/hugepages-2048kB/nr_overcommit_hugepages" in unit
    )
    assert (
        printed(tmp_path, text, "cmdline")
        == "default_hugepagesz=2M hugepagesz=2M hugepages=0:56701,1:56700\n"
    )
    assert (
        printed(tmp_path, HOST + '[[java]]\nmemory = "2GiB"\n', "cmdline")
        == "default_hugepagesz=2M hugepagesz=2M hugepages=1024\n"
    )


def test_pages_of_two_sizes(tmp_path: Path) -> None:
    """Pages of 1 GiB are taken at the start; the unit looks whether they are there."""
    unit = printed(tmp_path, MIXED, "sysctl")
    assert [(it[2], it[3], it[1]) for it in NODE_FILE.finditer(unit)] == []
    assert "echo 4096 > /sys/kernel/mm/hugepages/hugepages-2048kB/nr_hugepages" in unit
    assert (
        "/bin/grep -qx 16 /sys/devices/system/node/node1/hugepages/hugepages-1048576kB/nr_hugepages" in unit
    )
    assert (
        printed(tmp_path, MIXED, "cmdline")
        == "default_hugepagesz=2M hugepagesz=1G hugepages=1:16 hugepagesz=2M hugepages=4096\n"
    )
    assert "pagesize=1G" in printed(tmp_path, MIXED, "fstab") and "/dev/hugepages-1G" in printed(
        tmp_path, MIXED, "fstab"
    )


@pytest.mark.skipif(not which("systemd-analyze"), reason="systemd-analyze is not here")
@pytest.mark.parametrize("text", [BOUND.read_text(), MIXED], ids=["bound", "two sizes"])
def test_systemd_reads_the_unit(text: str, tmp_path: Path) -> None:
    """The unit, and the mounts that systemd makes of the fstab, are verified together: no order is a
    cycle."""
    (tmp_path / "fstab").write_text(printed(tmp_path, text, "fstab"))
    unit = tmp_path / "hugetlb-pages.service"
    unit.write_text(printed(tmp_path, text, "sysctl"))
    units = [unit]
    if GENERATOR.exists():
        folder = tmp_path / "generated"
        folder.mkdir()
        assert (
            checked(
                [GENERATOR, folder, folder, folder], {"SYSTEMD_FSTAB": str(tmp_path / "fstab")}
            ).returncode
            == 0
        )
        mounts = sorted(folder.glob("*.mount"))
        assert mounts and all("After=hugetlb-pages.service" in it.read_text() for it in mounts)
        # (with nofail a mount is wanted, and nothing waits for it)
        assert all("Before=local-fs.target" not in it.read_text() for it in mounts)
        units += mounts
    ran = checked(["systemd-analyze", "verify", "--man=no", *units])
    said = [
        line for line in ran.stderr.splitlines() if "hugetlb" in line or "mnt-huge" in line or "cycle" in line
    ]
    assert (ran.returncode, said) == (0, [])


@pytest.mark.skipif(not which("findmnt"), reason="findmnt is not here")
def test_findmnt_reads_the_fstab(tmp_path: Path) -> None:
    """With the folders that X-mount.mkdir would make there is nothing to mend."""
    for text in (BOUND.read_text(), MIXED):
        fstab = re.sub(r"(?<= )/(mnt|dev)/", f"{tmp_path}/", printed(tmp_path, text, "fstab"))
        folders = [line.split(" ")[1] for line in fstab.splitlines() if not line.startswith("#")]
        assert folders
        for folder in folders:
            Path(folder).mkdir(parents=True, exist_ok=True)
        (tmp_path / "fstab").write_text(fstab)
        ran = checked(["findmnt", "--verify", "--tab-file", tmp_path / "fstab"])
        assert ran.returncode == 0, ran.stdout


@pytest.mark.skipif(not which("sysctl"), reason="sysctl is not here")
def test_sysctl_reads_the_file(tmp_path: Path) -> None:
    file = tmp_path / "60-hugetlb.conf"
    file.write_text(
        printed(tmp_path, HOST + '[[java]]\nmemory = "2GiB"\n[overcommit]\nat_most = "10 pages"\n', "sysctl")
    )
    ran = checked(["sysctl", "--dry-run", "-p", file])
    if "unrecognized" in ran.stderr or "invalid option" in ran.stderr:
        pytest.skip("this sysctl has no dry run")
    assert (ran.returncode, ran.stdout) == (0, "vm.nr_hugepages = 1014\nvm.nr_overcommit_hugepages = 10\n")


def test_never_more_than_the_host(tmp_path: Path) -> None:
    """An nr beyond the host is a fault of the plan; an overcommit beyond it is cut, and said."""
    file = tmp_path / "host.toml"
    file.write_text(HOST + 'nr = 100000\n[[java]]\nmemory = "2GiB"\n')
    assert run(["plan", file, "--sysctl"])[:2] == (2, "")
    text = (
        '[host]\nmemory = "32GiB"\nkeep = 0\n[[java]]\nmemory = "16GiB"\n[overcommit]\nat_most = "200GiB"\n'
    )
    assert "vm.nr_hugepages = 0\nvm.nr_overcommit_hugepages = 16384\n" in printed(tmp_path, text, "sysctl")
    assert (
        "the overcommit of 102,400 pages is more than the host can have: 16,384 are counted"
        in answered(tmp_path, text)[1]
    )
    text = '[host]\nmemory = "32GiB"\nkeep = 0\nnr = 16000\n[[java]]\nmemory = "16GiB"\n'
    text += '[overcommit]\nat_most = "20GiB"\n'
    assert "vm.nr_hugepages = 16000\nvm.nr_overcommit_hugepages = 384\n" in printed(tmp_path, text, "sysctl")


def test_nothing_is_written_for_what_does_not_fit(tmp_path: Path) -> None:
    text = (EXAMPLES / "refused.toml").read_text()
    for kind in ("sysctl", "fstab", "cmdline"):
        status, output = answered(tmp_path, text, f"--{kind}")
        assert (
            status == 1
            and all(line.startswith("#") for line in output.splitlines())
            and "It does not fit" in output
        )


def test_folders_of_mounts(tmp_path: Path) -> None:
    """No two mounts share a folder, and none leaves /mnt/huge."""
    names = ["web 1", "web-1", "../../etc", "..", "a/b", "a b", "ä", " ", "web\n1"]
    text = HOST + "".join(
        f'[[guest]]\nname = {name!r}\nmemory = "1GiB"\nminimum = true\n'.replace("'", '"') for name in names
    )
    lines = [
        line.split(" ") for line in printed(tmp_path, text, "fstab").splitlines() if not line.startswith("#")
    ]
    folders = [line[1] for line in lines]
    assert len(set(folders)) == len(names) and all(
        re.fullmatch(r"/mnt/huge/[A-Za-z0-9_][A-Za-z0-9_.-]*", it) for it in folders
    ), folders
    assert all(
        len(line) == 6 and "nofail" in line[3] and "x-systemd.after=systemd-sysctl.service" in line[3]
        for line in lines
    )


def test_keep(tmp_path: Path) -> None:
    """By default a host keeps a 32nd, 1 GiB at least and a quarter at most; with less than a kernel needs it
    warns."""
    for memory, kept in (("256GiB", 8 << 30), ("16GiB", 1 << 30), ("2GiB", 512 << 20), ("1TiB", 32 << 30)):
        answer = told(tmp_path, f'[host]\nmemory = "{memory}"\n[[java]]\nmemory = "64MiB"\n')
        assert answer["keep"] == kept and "`keep` in [host] sets another size" in " ".join(answer["remarks"])
        total = int(memory[:-3]) << {"GiB": 30, "TiB": 40}[memory[-3:]]
        assert answer["host_pages"] == (total - kept) >> 21
    tight = '[host]\nmemory = "64GiB"\nkeep = "{}"\n[[java]]\nmemory = "{}"\n'
    assert "too little is left" in answered(tmp_path, tight.format("512MiB", "63.5GiB"))[1]
    assert "too little is left" in answered(tmp_path, tight.format("0", "64GiB"))[1]
    assert "too little is left" not in answered(tmp_path, tight.format("2GiB", "62GiB"))[1]
    assert "too little is left" not in answered(tmp_path, HOST + '[[java]]\nmemory = "62GiB"\n')[1]


@pytest.mark.parametrize("seed", range(8))
def test_by_chance(seed: int, tmp_path: Path) -> None:
    """Plans by chance, with a given nr and an overcommit among them: what is written is at most what each
    node has room for, and agrees with the answer."""
    chance = random.Random(seed)
    nodes = [chance.randrange(3, 80) for _ in range(chance.randrange(1, 4))]
    text = f'[host]\nnodes = [{", ".join(f"{chr(34)}{it}GiB{chr(34)}" for it in nodes)}]\n'
    total = sum(nodes) * 512
    if chance.random() < 0.4:
        text += f"nr = {chance.randrange(0, total // 2)}\n"
    if chance.random() < 0.6:
        text += f'[overcommit]\nat_most = "{chance.randrange(0, 2 * total)} pages"\n'
    for _ in range(chance.randrange(1, 5)):
        text += f"[[guest]]\npages = {chance.randrange(1, total // 5)}\n" + (
            f"node = {chance.randrange(len(nodes))}\n" if chance.random() < 0.5 else ""
        )
    answer, output = told(tmp_path, text), printed(tmp_path, text, "sysctl")
    if not answer["fits"]:
        assert all(line.startswith("#") for line in output.splitlines())
        return
    room = by_node(answer, "room") or [answer["host_pages"]]
    if answer["nodes"]:
        written = [int(it[1]) for it in NODE_FILE.finditer(output)]
        assert written == by_node(answer, "nr") and all(nr <= most for nr, most in zip(written, room))
        overcommit = int((re.search(r"echo (\d+) > \S+/nr_overcommit_hugepages", output) or ["", "-1"])[1])
    else:
        found = re.search(
            r"^vm.nr_hugepages = (\d+)\nvm.nr_overcommit_hugepages = (\d+)$", output, re.MULTILINE
        )
        assert found
        written, overcommit = [int(found[1])], int(found[2])
    assert sum(written) == answer["set"]["nr"] and overcommit == answer["set"]["overcommit"]
    assert sum(written) + overcommit <= sum(room) <= total
    # what is written is tried: with it the plan fits, and without one of its pages it does not
    lines = [line for line in text.splitlines() if not line.startswith("nr = ")]
    if "nr = " not in text and "[overcommit]" not in text and any(written):
        for less, fits in ((0, True), (1, False)):
            tried = written if len(written) > 1 else written[0]
            if less and isinstance(tried, list):
                at = next(node for node, pages in enumerate(tried) if pages)
                tried = [pages - (node == at) for node, pages in enumerate(tried)]
            elif less:
                tried = written[0] - 1
            assert (
                told(tmp_path, "\n".join([*lines[:2], f"nr = {tried}", *lines[2:]]) + "\n")["fits"] == fits
            ), (text, tried)
