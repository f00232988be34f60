"""This kernel's own pool of huge pages, for tests that want a few of them: one test at a time, and all given
back."""
import fcntl
import os
import time
from collections.abc import Iterator
from contextlib import contextmanager
from pathlib import Path

import pytest

POOL = Path("/sys/kernel/mm/hugepages/hugepages-2048kB")
COUNT = POOL / "nr_hugepages"


def can_have_pages() -> bool:
    return os.geteuid() == 0 and POOL.is_dir() and COUNT.read_text() == "0\n" and os.access(COUNT, os.W_OK)


@contextmanager
def empty_pool() -> Iterator[None]:
    """This kernel's pool, empty, for one test alone; skipped where it can't be had."""
    with open("/tmp/hugetlbd-pool.lock", "w") as lock:
        fcntl.flock(lock, fcntl.LOCK_EX)
        if not can_have_pages():
            pytest.skip("this kernel gives no huge pages to this user, or has some in use")
        try:
            yield
        finally:
            for _ in range(50):
                COUNT.write_text("0\n")
                if COUNT.read_text() == "0\n":
                    break
                time.sleep(0.1)


def fill(pages: int) -> None:
    """Sets the pool to so many pages; skipped where memory is too fragmented, or the kernel refuses."""
    try:
        COUNT.write_text(f"{pages}\n")
    except OSError as error:
        pytest.skip(f"this kernel sets no huge pages: {error.strerror}")
    if COUNT.read_text() != f"{pages}\n":
        pytest.skip(f"memory is too fragmented for {pages} huge pages")
