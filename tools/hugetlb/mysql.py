"""What MySQL and MariaDB take of large pages (--large-pages)."""
from dataclasses import dataclass
from enum import Enum

from .model import MIB
from .sizes import in_pages

# A pool of buffers of MySQL is made of chunks, each with what describes its pages: 512 bytes for 16 KiB.
CHUNK, OF_CHUNK = 128 * MIB, 4 * MIB
# MariaDB makes its pool of whole chunks, of some 64 or fewer.
LEAST_CHUNK, CHUNKS = 8 * MIB, 32


class Server(Enum):
    """Whose server it is."""

    MYSQL = "mysql"
    MARIADB = "mariadb"


@dataclass(frozen=True)
class Buffers:
    """What MariaDB has on large pages beside its pool, as it has them from the start. Sizes are in bytes."""

    key_buffer: int = 128 * MIB
    aria_buffer: int = 128 * MIB
    log_buffer: int = 16 * MIB


def pages_of_mysql(pool: int, page_bytes: int) -> int:
    """The pages of segments, one for each chunk of the pool."""
    return in_pages(pool, page_bytes) + -(-pool // CHUNK) * in_pages(OF_CHUNK, page_bytes)


def pages_of_mariadb(pool: int, buffers: Buffers, page_bytes: int) -> int:
    """The pages of its maps: one for the pool, one for each buffer, and two for the log.

    Of its key and Aria buffers MariaDB 10.11 has a little less on large pages.
    """
    chunk = max(LEAST_CHUNK, in_pages(pool // CHUNKS, page_bytes) * page_bytes)
    beside = (buffers.key_buffer, buffers.aria_buffer, buffers.log_buffer, buffers.log_buffer)
    return in_pages(-(-pool // chunk) * chunk, page_bytes) + sum(in_pages(it, page_bytes) for it in beside)
