"""What a JVM with -XX:+UseLargePages takes beside its heap.

The code cache, and the tables of its collector.
"""
from enum import Enum

from .model import MIB
from .sizes import in_pages

CODE_CACHE = 240 * MIB


class Collector(Enum):
    """The collectors of OpenJDK."""

    G1 = "g1"
    PARALLEL = "parallel"
    SERIAL = "serial"
    SHENANDOAH = "shenandoah"
    Z = "z"


def table(size: int, page_bytes: int, least_pages: int = 1) -> int:
    """The pages of a table: one that is too small for large pages has small ones."""
    return in_pages(size, page_bytes) if size >= least_pages * page_bytes else 0


def of_collector(collector: Collector, heap: int, page_bytes: int) -> int:
    """The large pages of the collector's tables, as OpenJDK 17 has them (-Xlog:pagesize).

    Later ones have fewer.
    """
    if collector is Collector.G1:
        return 2 * table(heap // 64, page_bytes) + 3 * table(heap // 512, page_bytes)
    if collector is Collector.PARALLEL:
        return table(heap // 32, page_bytes, 10) + 2
    if collector is Collector.SHENANDOAH:
        return 2 * table(heap // 32, page_bytes) + 1
    return 2 if collector is Collector.SERIAL else 0


def pages_of(heap: int, collector: Collector, code_cache: int, page_bytes: int) -> int:
    """All the large pages of a JVM."""
    return (
        in_pages(heap, page_bytes)
        + in_pages(code_cache, page_bytes)
        + of_collector(collector, heap, page_bytes)
    )
