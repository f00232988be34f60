"""Sizes as people write them, and as they are shown."""
import re
from fractions import Fraction

# As PostgreSQL, QEMU and the mount options have it, a unit is a power of 1,024 however it is spelled.
UNITS = {"": 0, "b": 0, "k": 10, "m": 20, "g": 30, "t": 40, "p": 50}
SIZE = re.compile(
    r"([0-9][0-9_,]{0,24}(?:\.[0-9]{1,9})?) ?(?:([kmgtp]?i?b|[kmgtp])|(pages?))?", re.IGNORECASE
)
PERCENTAGE = re.compile(r"([0-9]{1,3}(?:\.[0-9]{1,6})?) ?%")
MOST_BYTES = 1 << 60


class NoSize(ValueError):
    """A text that is no size."""


def size_in_bytes(value: object, page_bytes: int | None = None) -> int:
    """The bytes that a text like `12GiB`, `1.5 TB`, `512m` or `6144 pages` stands for.

    A number without a unit is none, but for 0.
    """
    if isinstance(value, bool) or not isinstance(value, int | str):
        raise NoSize(f'{value!r} is no size: write a number and a unit, as "12GiB" or "6144 pages"')
    text = str(value).strip()
    found = SIZE.fullmatch(text)
    if not found:
        raise NoSize(f'{value!r} is no size: write a number and a unit, as "12GiB" or "6144 pages"')
    number, unit, pages = Fraction(re.sub("[_,]", "", found[1])), found[2], found[3]
    if not unit and not pages and number != 0:
        raise NoSize(f'{value!r} has no unit: write it, as "{text}MiB" or "{text} pages"')
    if pages and page_bytes is None:
        raise NoSize(f'{value!r} can\'t be in pages here: write bytes, as "2MiB"')
    size = number * (page_bytes or 1) if pages else number * (1 << UNITS[(unit or "b")[0].lower()])
    if size.denominator != 1:
        raise NoSize(f"{value!r} is no whole number of bytes")
    if not 0 <= size <= MOST_BYTES:
        raise NoSize(f"{value!r} is out of bounds: sizes are from 0 to 1,024 PiB")
    return int(size)


def share_of(value: object, whole: int) -> int | None:
    """A percentage of a whole number of pages, rounded up; None where the value is none."""
    if not (isinstance(value, str) and (found := PERCENTAGE.fullmatch(value.strip()))):
        return None
    share = Fraction(found[1])
    if share > 100:
        raise NoSize(f"{value!r} is more than the whole: write 100% or less")
    return int(-(-share * whole // 100))


def in_pages(size: int, page_bytes: int) -> int:
    """How many pages hold so many bytes."""
    return -(-size // page_bytes)


def in_words(size: int) -> str:
    """Bytes in the largest unit that leaves at most two digits behind the point: `64 GiB`, `1.5 TiB`."""
    for shift, unit in ((50, "PiB"), (40, "TiB"), (30, "GiB"), (20, "MiB"), (10, "KiB")):
        if size >= 1 << shift:
            return f"{size / (1 << shift):,.2f}".rstrip("0").rstrip(".") + f" {unit}"
    return f"{size} bytes"


def exactly(size: int) -> str:
    """Bytes as a plan has them: in the largest unit that divides them."""
    for shift, unit in ((40, "TiB"), (30, "GiB"), (20, "MiB"), (10, "KiB")):
        if size and size % (1 << shift) == 0:
            return f"{size >> shift}{unit}"
    return f"{size}B" if size else "0"


def as_option(size: int) -> str:
    """Bytes as a mount option has them: in the largest unit that divides them."""
    for shift, unit in ((30, "G"), (20, "M"), (10, "K")):
        if size and size % (1 << shift) == 0:
            return f"{size >> shift}{unit}"
    return str(size)
