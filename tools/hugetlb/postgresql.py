"""How much shared memory PostgreSQL asks for.

Its own answer where it is installed, else a formula with a margin.
"""
import os
import re
import subprocess
import tempfile
from dataclasses import asdict, dataclass, fields
from pathlib import Path
from shutil import which

from .model import GIB, MIB

SECONDS = 30
BLOCK = 8192
# names it where it is not on the PATH; empty: none is asked
NAMED = "HUGETLB_POSTGRES"
# What the formula adds to its sum, so that it is never below what PostgreSQL asks for.
FIXED, MARGIN = 4 * MIB, 2048


@dataclass(frozen=True)
class Settings:
    """The settings that decide, as PostgreSQL has them from the start.

    Sizes are in bytes; wal_buffers of 0 is PostgreSQL's own choice.
    """

    shared_buffers: int = 128 * MIB
    max_connections: int = 100
    max_prepared_transactions: int = 0
    max_locks_per_transaction: int = 64
    max_pred_locks_per_transaction: int = 64
    max_worker_processes: int = 8
    max_wal_senders: int = 10
    autovacuum_max_workers: int = 3
    wal_buffers: int = 0
    min_dynamic_shared_memory: int = 0


SIZES = ("shared_buffers", "wal_buffers", "min_dynamic_shared_memory")
NUMBERS = tuple(it.name for it in fields(Settings) if it.name not in SIZES)


def by_formula(settings: Settings) -> int:
    """The bytes of its shared memory, a little more than PostgreSQL 15 asks for.

    For each buffer 8 KiB and what describes it, for each connection its locks.
    """
    buffers = settings.shared_buffers // BLOCK
    table = 1 << (buffers + 127).bit_length()
    of_buffers = buffers * (BLOCK + 140) + 8 * table + 24 * min(buffers, 10_000_000)
    wal = settings.wal_buffers or min(16 * MIB, max(settings.shared_buffers // 32, 64 << 10))
    backends = (
        settings.max_connections
        + settings.autovacuum_max_workers
        + 1
        + settings.max_worker_processes
        + settings.max_wal_senders
    )
    backends += settings.max_prepared_transactions
    locks = settings.max_locks_per_transaction * 460 + settings.max_pred_locks_per_transaction * 275
    total = of_buffers + wal + backends * (locks + 8192) + settings.min_dynamic_shared_memory + FIXED
    return total + total // MARGIN


def number_of(path: str) -> int:
    """The version in a path, as /usr/lib/postgresql/15/bin/postgres has it."""
    found = re.search(r"/([0-9]+)/", path)
    return int(found[1]) if found else 0


def find_postgres() -> str | None:
    """The program `postgres`: the one that is named, the one on the PATH, or Debian's newest."""
    if NAMED in os.environ:
        return os.environ[NAMED] or None
    if found := which("postgres"):
        return found
    programs = sorted((str(it) for it in Path("/usr/lib/postgresql").glob("*/bin/postgres")), key=number_of)
    return programs[-1] if programs else None


def as_words(settings: Settings, page_bytes: int) -> list[str]:
    """The settings as words of its command line."""
    values, words = asdict(settings), list[str]()
    for one in fields(Settings):
        value = values[one.name]
        if one.name == "wal_buffers" and not value:
            continue
        words += ["-c", f"{one.name}={-(-value // 1024)}kB" if one.name in SIZES else f"{one.name}={value}"]
    return [
        *words,
        "-c",
        f"huge_page_size={page_bytes // 1024}kB" if page_bytes in (2 * MIB, GIB) else "huge_page_size=0",
    ]


def by_itself(settings: Settings, page_bytes: int, data_directory: str | None = None) -> int | None:
    """The pages that the installed PostgreSQL answers; none where it can't be asked.

    It is asked by an empty cluster, in a folder that is taken away again.
    """
    program = find_postgres()
    if not program:
        return None
    # (it runs as no superuser)
    user = "nobody" if os.geteuid() == 0 else None
    try:
        with tempfile.TemporaryDirectory() as folder:
            where = data_directory or f"{folder}/data"
            if data_directory is None:
                if user:
                    os.chown(folder, 65534, -1)
                initdb = Path(program).resolve().with_name("initdb")
                subprocess.run(
                    [initdb, "--no-sync", "-A", "reject", "-D", where],
                    capture_output=True,
                    check=True,
                    timeout=SECONDS,
                    user=user,
                    cwd="/",
                )
            words = [
                program,
                "-C",
                "shared_memory_size_in_huge_pages",
                "-D",
                where,
                *as_words(settings, page_bytes),
            ]
            ran = subprocess.run(
                words,
                capture_output=True,
                text=True,
                timeout=SECONDS,
                user=user if data_directory is None else None,
                cwd="/",
            )
    except (OSError, subprocess.SubprocessError):
        return None
    found = re.fullmatch(r"\s*([0-9]{1,15})\s*", ran.stdout)
    return int(found[1]) if found and int(found[1]) > 0 else None
