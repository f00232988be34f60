"""The answers of plans on this machine's own kernel, with its own huge pages."""
import json
import os
import signal
import subprocess
import tempfile
from collections.abc import Iterator
from pathlib import Path
from shutil import which

import pytest
from common import TOP, run
from pool import empty_pool, fill

from hugetlb import postgresql
from hugetlb.lines import expand, without_comment

PLANS = {
    "a snapshot": (
        """[host]\nmemory = "128MiB"
[[postgresql]]\nshared_memory = "20MiB"
[[guest]]\ncount = 2\nmemory = "8MiB"\nminimum = true
[[redis]]\nmemory = "16MiB"\nsnapshot = true\nrewritten = "25%"
[[guest]]\nname = "trial"\nmemory = "6MiB"\nreserve = false""",
        31,
        "SIGBUS",
    ),
    "maps": (
        """[host]\nmemory = "128MiB"
[[java]]\nmemory = "10MiB"
[[map]]\nmemory = "6MiB"\nshared = false\nreserve = false
[[dpdk]]\nmemory = "4MiB"
[[guest]]\nmemory = "8MiB"\nshare = false\nprealloc = true""",
        14,
        "SIGBUS",
    ),
    "reservations": (
        """[host]\nmemory = "128MiB"
[[guest]]\ncount = 3\nmemory = "8MiB"
[[postgresql]]\nshared_memory = "20MiB"
[[java]]\nmemory = "10MiB\"""",
        27,
        "ENOMEM",
    ),
}


@pytest.fixture(scope="module")
def replay(tmp_path_factory: pytest.TempPathFactory) -> Path:
    """The program that runs lines on the kernel."""
    built = tmp_path_factory.mktemp("replay") / "replay"
    if not which("cc"):
        pytest.skip("no C compiler is here")
    subprocess.run(["cc", "-O1", "-o", built, TOP / "tests/kernel/replay.c"], capture_output=True, check=True)
    return built


@pytest.mark.parametrize("name", PLANS)
def test_answer_holds_on_linux(name: str, replay: Path, tmp_path: Path) -> None:
    """With N pages the kernel refuses no line of the plan; with N - 1 it refuses one, as the plan says."""
    text, nr, refusal = PLANS[name]
    file = tmp_path / "host.toml"
    file.write_text(text)
    assert json.loads(run(["plan", file, "--json"])[1])["nr"] == nr
    lines = run(["plan", file, "--lines"])[1].splitlines()
    words = lines[0].split()[2:-1]
    lines = [one for line in map(without_comment, lines) if line for one in expand(line)]
    with empty_pool():
        fill(64)
        fill(0)
        for pages, refused in ((nr, None), (nr - 1, refusal)):
            script = "".join(f"nr {pages}\n" if line.startswith("nr ") else f"{line}\n" for line in lines)
            ran = subprocess.run([replay, *words], input=script, capture_output=True, text=True, timeout=60)
            assert (ran.returncode, ran.stderr) == (0, "")
            found = [reply for reply in ran.stdout.splitlines() if reply.startswith("refused")]
            assert [it.split()[-1] for it in found[:1]] == ([refused] if refused else []), found


@pytest.fixture
def cluster() -> Iterator[tuple[str, str]]:
    """A database that listens to nobody, of a user that is no superuser."""
    program = postgresql.find_postgres()
    initdb = Path(program).resolve().with_name("initdb") if program else None
    if not program or not initdb or not initdb.exists():
        pytest.skip("PostgreSQL is not here")
    with tempfile.TemporaryDirectory() as folder:
        os.chown(folder, 65534, -1)
        subprocess.run(
            [initdb, "--no-sync", "-A", "reject", "-D", f"{folder}/data"],
            capture_output=True,
            check=True,
            user="nobody",
            cwd="/",
        )
        yield program, f"{folder}/data"


def starts(program: str, data: str, words: list[str]) -> tuple[bool, str]:
    """Whether PostgreSQL starts with these settings, and what it says."""
    ran = subprocess.Popen(
        [program, "-D", data, "-c", "listen_addresses=", "-c", f"unix_socket_directories={data}", *words],
        stdout=subprocess.PIPE,
        stderr=subprocess.STDOUT,
        text=True,
        user="nobody",
        cwd="/",
    )
    said = ""
    assert ran.stdout
    for line in ran.stdout:
        said += line
        if "ready to accept connections" in line:
            ran.send_signal(signal.SIGINT)
    ran.wait(timeout=60)
    return "ready to accept connections" in said, said


@pytest.mark.skipif(os.geteuid() != 0, reason="root alone sets the pages")
def test_postgresql_starts_with_its_pages(cluster: tuple[str, str], tmp_path: Path) -> None:
    """With huge_pages = on PostgreSQL starts with the pages of the plan, and does not with one less."""
    program, data = cluster
    file = tmp_path / "host.toml"
    file.write_text(
        '[host]\nmemory = "4GiB"\n[[postgresql]]\nshared_buffers = "96MiB"\n'
        'max_connections = 50\nhuge_pages = "on"\n'
    )
    nr = json.loads(run(["plan", file, "--json"], environment={"HUGETLB_POSTGRES": program})[1])["nr"]
    words = [
        "-c",
        "shared_buffers=96MB",
        "-c",
        "max_connections=50",
        "-c",
        "huge_pages=on",
        "-c",
        "fsync=off",
    ]
    with empty_pool():
        for pages, does in ((nr, True), (nr - 1, False)):
            fill(pages)
            has_started, said = starts(program, data, words)
            assert has_started == does, said
            assert does or "Cannot allocate memory" in said or "could not map anonymous shared memory" in said


REAL = {
    "guests on a node": (
        """[host]\nnodes = ["1GiB"]\nkeep = 0
[[guest]]\ncount = 3\nmemory = "10MiB"\nnode = 0\nprealloc = true
[[redis]]\nmemory = "12MiB\"""",
        21,
    ),
    "a segment and a heap": (
        """[host]\nmemory = "1GiB"\n[[oracle]]\nsga = "14MiB"
[[java]]\nmemory = "9MiB"\n[[dpdk]]\nmemory = "6MiB\"""",
        15,
    ),
    "a snapshot among others": (
        """[host]\nmemory = "1GiB"\n[[mysql]]\nmemory = "8MiB"
[[redis]]\nmemory = "10MiB"\nsnapshot = true\nrewritten = "40%\"""",
        11,
    ),
}


@pytest.mark.parametrize("name", REAL)
def test_plan_starts_whole_on_linux(name: str, replay: Path, tmp_path: Path) -> None:
    """Three plans more: with N pages all of it starts whole on this kernel, and with N - 1 it does not."""
    text, nr = REAL[name]
    file = tmp_path / "host.toml"
    file.write_text(text)
    assert json.loads(run(["plan", file, "--json"])[1])["nr"] == nr
    lines = run(["plan", file, "--lines"])[1].splitlines()
    words = lines[0].split()[2:-1]
    lines = [one for line in map(without_comment, lines) if line for one in expand(line)]
    with empty_pool():
        fill(64)
        fill(0)
        for pages, is_whole in ((nr, True), (nr - 1, False)):
            script = "".join(f"nr {pages}\n" if line.startswith("nr ") else f"{line}\n" for line in lines)
            ran = subprocess.run([replay, *words], input=script, capture_output=True, text=True, timeout=60)
            assert (ran.returncode, ran.stderr) == (0, "")
            assert ("refused" not in ran.stdout) == is_whole, ran.stdout
