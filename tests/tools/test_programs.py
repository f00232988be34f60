"""What the plan counts of real programs, beside what they ask for themselves."""
import os
import re
import subprocess
from pathlib import Path
from shutil import which

import pytest
from common import run
from plans import told
from pool import empty_pool, fill

from hugetlb import java, mysql, postgresql
from hugetlb.java import Collector
from hugetlb.model import GIB, MIB
from hugetlb.sizes import in_pages

HOST = '[host]\nmemory = "1TiB"\n'
PAGE = 2 * MIB
# at 64 GB, as PostgreSQL 15 answers
KNOWN = {100: 33_502, 500: 33_512, 2_000: 33_546}
SETTINGS = [
    *(postgresql.Settings(shared_buffers=64 * GIB, max_connections=it) for it in KNOWN),
    postgresql.Settings(),
    postgresql.Settings(shared_buffers=GIB, max_connections=20),
    postgresql.Settings(shared_buffers=8 * GIB, max_connections=10_000),
    postgresql.Settings(shared_buffers=512 * GIB),
    postgresql.Settings(shared_buffers=8 * GIB, max_prepared_transactions=500, max_locks_per_transaction=256),
    postgresql.Settings(shared_buffers=8 * GIB, max_pred_locks_per_transaction=1024, wal_buffers=512 * MIB),
    postgresql.Settings(
        shared_buffers=8 * GIB, max_wal_senders=100, max_worker_processes=200, autovacuum_max_workers=100
    ),
    postgresql.Settings(shared_buffers=3 * GIB, min_dynamic_shared_memory=GIB, wal_buffers=MIB),
]
needs_postgres = pytest.mark.skipif(not postgresql.find_postgres(), reason="PostgreSQL is not here")


@pytest.mark.parametrize("connections", KNOWN)
def test_postgresql_by_formula(connections: int, tmp_path: Path) -> None:
    """The formula is above what PostgreSQL asks for, by a tenth of a percent at most: shared_buffers alone
    are 32,768."""
    text = HOST + f'[[postgresql]]\nshared_buffers = "64GB"\nmax_connections = {connections}\n'
    answer = told(tmp_path, text)
    assert KNOWN[connections] <= answer["nr"] <= KNOWN[connections] * 1.001
    assert "the pages are a formula's" in " ".join(answer["remarks"])


@needs_postgres
@pytest.mark.parametrize("settings", SETTINGS, ids=range(len(SETTINGS)))
def test_the_formula_beside_postgresql(settings: postgresql.Settings) -> None:
    """The formula is never below what the installed PostgreSQL answers, and not far above: for each
    connection it has some more locks."""
    asked = postgresql.by_itself(settings, PAGE)
    assert asked is not None
    formula = in_pages(postgresql.by_formula(settings), PAGE)
    backends = settings.max_connections + settings.max_prepared_transactions + 300
    assert asked <= formula <= asked * 1.001 + 4 + backends // 300, (asked, formula)


@needs_postgres
def test_postgresql_is_asked(tmp_path: Path) -> None:
    """Where it is installed its own answer is the plan's, for pages of 1 GiB too."""
    program = postgresql.find_postgres() or ""
    for text, pages in (
        ('shared_buffers = "64GB"\nmax_connections = 500\n', KNOWN[500]),
        ('shared_buffers = "64GB"\npage = "1GiB"\n', 66),
    ):
        file = tmp_path / "host.toml"
        file.write_text(HOST + "[[postgresql]]\n" + text)
        status, output, faults = run(["plan", file], environment={"HUGETLB_POSTGRES": program})
        assert (
            (status, faults) == (0, "")
            and f"nr {pages:,} " in output
            and "what the PostgreSQL that is installed here answers" in output
        )


def test_postgresql_that_can_not_be_asked(tmp_path: Path) -> None:
    """A program that is none, or that fails, is passed over for the formula."""
    file = tmp_path / "host.toml"
    file.write_text(HOST + '[[postgresql]]\nshared_buffers = "64GB"\n')
    for named in ("/nonexistent/postgres", "/bin/false"):
        status, output, faults = run(["plan", file], environment={"HUGETLB_POSTGRES": named})
        assert (status, faults) == (0, "") and "the pages are a formula's" in output


def test_java_at_eight_gibibytes(tmp_path: Path) -> None:
    """OpenJDK 17 with G1 and a heap of 8 GiB takes 4,368 pages, and not 4,096."""
    assert told(tmp_path, HOST + '[[java]]\nheap = "8GiB"\n')["nr"] == 4368
    assert told(tmp_path, HOST + '[[java]]\nmemory = "8GiB"\n')["nr"] == 4096
    assert (
        told(tmp_path, HOST + '[[java]]\nheap = "8GiB"\ngc = "serial"\ncode_cache = "48MiB"\n')["nr"]
        == 4096 + 24 + 2
    )


LOGGED = re.compile(
    r"\] (CodeHeap|Heap|Block Offset Table|Card Table|Card Counts Table|Prev Bitmap|Next Bitmap|Mark Bitmap)"
    r".*?page_size=2M.*? size=(\d+)([MG])"
)
FLAGS = {Collector.G1: "G1", Collector.PARALLEL: "Parallel", Collector.SERIAL: "Serial"}


@pytest.mark.skipif(not which("java"), reason="Java is not here")
@pytest.mark.parametrize("collector", FLAGS)
def test_java_beside_itself(collector: Collector) -> None:
    """What -Xlog:pagesize tells of pages of 2 MiB is what is counted, but for two pages of collectors that
    have more tables."""
    version = subprocess.run(["java", "-version"], capture_output=True, text=True).stderr
    if 'version "17.' not in version:
        pytest.skip("the tables are those of OpenJDK 17")
    wanted = java.pages_of(GIB, collector, java.CODE_CACHE, PAGE)
    with empty_pool():
        assert wanted - 2 <= logged_with(wanted, collector) <= wanted
        if collector is Collector.G1:
            assert logged_with(wanted - 1, collector) < wanted - 1


def logged_with(pages: int, collector: Collector) -> int:
    """The large pages that a JVM with a heap of 1 GiB tells of, in a pool of so many."""
    fill(pages)
    words = [
        "java",
        "-Xms64m",
        "-Xmx1g",
        "-XX:+UseLargePages",
        f"-XX:+Use{FLAGS[collector]}GC",
        "-Xlog:pagesize",
        "-version",
    ]
    ran = subprocess.run(words, capture_output=True, text=True, timeout=60)
    assert ran.returncode == 0, ran.stdout
    return sum(
        int(found[2]) * (512 if found[3] == "G" else 1) // (1 if found[3] == "G" else 2)
        for found in LOGGED.finditer(ran.stdout)
    )


def test_segments(tmp_path: Path) -> None:
    """Oracle's SGA and MySQL's pool of buffers are segments: shared maps without a name."""
    lines = run(
        ["plan", "-", "--lines"], HOST + '[[oracle]]\nsga = "4GiB"\n[[mysql]]\nbuffer_pool = "1GiB"\n'
    )[1]
    assert (
        "anon 1 2048 shared" in lines
        and f"anon 2 {512 + 8 * 2} shared" in lines
        and "fault 1 0 1 0..2047 write" in lines
    )


# what MariaDB 10.11 of Debian mapped with MAP_HUGETLB, by its settings in MiB: pool, key, Aria and log
# buffers
MARIADB = {
    (128, 128, 128, 16): 53 + 62 + 64 + 2 * 8,
    (256, 128, 128, 16): 53 + 62 + 128 + 2 * 8,
    (200, 256, 128, 16): 105 + 62 + 100 + 2 * 8,
    (200, 16, 128, 16): 7 + 62 + 100 + 2 * 8,
    (200, 128, 512, 16): 53 + 245 + 100 + 2 * 8,
    (201, 1, 128, 64): 62 + 104 + 2 * 32,
}


@pytest.mark.parametrize("settings", MARIADB)
def test_mariadb_by_what_it_maps(settings: tuple[int, int, int, int], tmp_path: Path) -> None:
    """The model is above what MariaDB maps, by what it takes less of its key and Aria buffers."""
    pool, key, aria, log = settings
    text = f'[[mysql]]\nserver = "mariadb"\nbuffer_pool = "{pool}MiB"\nkey_buffer = "{key}MiB"\n'
    answer = told(tmp_path, HOST + text + f'aria_buffer = "{aria}MiB"\nlog_buffer = "{log}MiB"\n')
    assert MARIADB[settings] <= answer["nr"] <= MARIADB[settings] + (key + aria) // 8
    assert "MariaDB 10.11" in " ".join(answer["remarks"])


HUGE_MAPS = """
#define _GNU_SOURCE
#include <stdio.h>
#include <sys/mman.h>
#include <sys/shm.h>
#include <sys/syscall.h>
#include <unistd.h>
/* Tells of each map that wants large pages, and makes it of small ones. */
void *mmap64(void *at, size_t size, int may, int how, int file, off_t first) {
    if (how & MAP_HUGETLB) {
        dprintf(2, "HUGE %zu\\n", size);
        how &= ~(MAP_HUGETLB | 63 << 26);
    }
    return (void *)syscall(SYS_mmap, at, size, may, how, file, first);
}
void *mmap(void *at, size_t size, int may, int how, int file, off_t first) {
    return mmap64(at, size, may, how, file, first);
}
"""


@pytest.mark.skipif(
    not which("mariadbd") or not which("cc"), reason="MariaDB's server or a C compiler is not here"
)
def test_mariadb_beside_itself(tmp_path: Path) -> None:
    """What the installed MariaDB maps with MAP_HUGETLB at its first settings is no more than what is
    counted."""
    (tmp_path / "maps.c").write_text(HUGE_MAPS)
    subprocess.run(["cc", "-shared", "-fPIC", "-o", tmp_path / "maps.so", tmp_path / "maps.c"], check=True)
    (tmp_path / "data").mkdir()
    words = [
        "mariadbd",
        "--no-defaults",
        "--user=root",
        f"--datadir={tmp_path}/data",
        "--bootstrap",
        "--large-pages=1",
    ]
    environment = os.environ | {"LD_PRELOAD": str(tmp_path / "maps.so")}
    ran = subprocess.run(
        words, input="select 1;\n", capture_output=True, text=True, timeout=120, env=environment
    )
    mapped = sum(in_pages(int(it), PAGE) for it in re.findall(r"^HUGE (\d+)$", ran.stderr, re.MULTILINE))
    counted = mysql.pages_of_mariadb(128 * MIB, mysql.Buffers(), PAGE)
    assert mapped <= counted <= mapped + 32, ran.stderr


def test_what_is_counted_of_mysql(tmp_path: Path) -> None:
    """The answer says what stands beside a pool of buffers, and what of it was not checked; wrong keys are
    told."""
    answer = told(tmp_path, HOST + '[[mysql]]\nbuffer_pool = "1GiB"\n')
    assert "4 MiB are counted beside each chunk of 128 MiB" in " ".join(answer["remarks"])
    assert "not checked against MySQL" in " ".join(answer["remarks"])
    for text, fault in (
        ('buffer_pool = "1GiB"\nkey_buffer = "8MiB"\n', 'mysql.key_buffer: it goes with server = "mariadb"'),
        ('memory = "1GiB"\nserver = "mariadb"\n', "mysql.server: it goes with buffer_pool"),
        ('buffer_pool = "1GiB"\nserver = "oracle"\n', "mysql.server: 'oracle' is not 'mysql' or 'mariadb'"),
    ):
        status, _, faults = run(["plan", "-"], HOST + "[[mysql]]\n" + text)
        assert status == 2 and fault in faults, faults


def test_what_is_counted_of_a_guest(tmp_path: Path) -> None:
    assert "of a guest its RAM is counted" in " ".join(
        told(tmp_path, HOST + '[[guest]]\nmemory = "4GiB"\n')["remarks"]
    )
