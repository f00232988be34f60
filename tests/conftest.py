"""What all tests share: the programs, how one is run, and its memory that can be refused."""
import os
import subprocess
from collections.abc import Mapping
from pathlib import Path
from shutil import which
from typing import IO

import pytest

pytest.register_assert_rewrite("built")
import built

program = built.each_of(built.PROGRAMS)


@pytest.fixture
def run(program: Path) -> built.Run:
    """Runs the program on a script, or on an open file."""

    def run(
        words: built.Words,
        script: bytes | int | IO[bytes] = b"",
        output: int | IO[bytes] = subprocess.PIPE,
        environment: Mapping[str, str] | None = None,
        faults: int | IO[bytes] = subprocess.PIPE,
        seconds: float = built.SECONDS,
    ) -> built.Ran:
        text = script if isinstance(script, bytes) else None
        with subprocess.Popen(
            [program, *words],
            stdin=subprocess.PIPE if isinstance(script, bytes) else script,
            stdout=output,
            stderr=faults,
            env=environment or {},
        ) as process:
            try:
                said = process.communicate(text, timeout=seconds)
            except subprocess.TimeoutExpired:
                process.kill()
                raise
        return process.returncode, *said

    return run


def preloaded(source: Path, folder: Path) -> Path:
    """The library of a source in C."""
    library = folder / f"{source.stem}.so"
    compiler = next((it for it in (os.environ.get("CC"), "cc", "gcc", "clang") if it and which(it)), None)
    assert compiler, f"no C compiler was found for {source}: set CC"
    subprocess.run([compiler, "-O2", "-shared", "-fPIC", "-o", library, source], check=True)
    return library


@pytest.fixture(scope="session")
def refuse(tmp_path_factory: pytest.TempPathFactory) -> Path:
    """The library of tests/refuse.c."""
    return preloaded(built.TOP / "tests/refuse.c", tmp_path_factory.mktemp("refuse"))


@pytest.fixture(scope="session")
def on_disk(tmp_path_factory: pytest.TempPathFactory) -> list[str]:
    """The words before a program whose large blocks are to be on disk."""
    folder = tmp_path_factory.mktemp("on-disk")
    library = preloaded(built.TOP / "tests/server/on_disk.c", folder)
    return ["env", f"LD_PRELOAD={library}", f"ON_DISK={os.environ.get('HUGETLB_DISK', folder)}"]


@pytest.fixture
def memory(refuse: Path, tmp_path: Path) -> built.Memory:
    """The memory of a program, which can be refused."""
    return built.Memory(refuse, tmp_path / "report")
