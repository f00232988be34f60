"""A database of PostgreSQL: its postgresql.conf."""
import re

from . import postgresql
from .toml import Written, size, text

LINE = re.compile(r"\s*([A-Za-z_][A-Za-z0-9_.]*)\s*(?:=\s*|\s+)('(?:[^']|'')*'|[^\s#]+)\s*(?:#.*)?")
VALUE = re.compile(r"(-?[0-9]{1,15}(?:\.[0-9]{1,6})?)\s*(B|kB|MB|GB|TB)?")
UNITS = {"B": 1, "kB": 1 << 10, "MB": 1 << 20, "GB": 1 << 30, "TB": 1 << 40}
# what a number without a unit counts
BARE = {
    "shared_buffers": 8192,
    "wal_buffers": 8192,
    "min_dynamic_shared_memory": 1 << 20,
    "huge_page_size": 1 << 10,
}


class NoSetting(ValueError):
    """A value that PostgreSQL would not take."""


def settings(written: str) -> dict[str, str]:
    """The settings of a file, the last one of each; names are in small letters."""
    found = {}
    for line in written.splitlines():
        if read := LINE.fullmatch(line):
            value = read[2]
            found[read[1].lower()] = value[1:-1].replace("''", "'") if value.startswith("'") else value
    return found


def bytes_of(name: str, value: str) -> int:
    """A size of PostgreSQL, where a number alone counts blocks, or what the setting's unit is."""
    read = VALUE.fullmatch(value.strip())
    if not read:
        raise NoSetting(f"{name} = {value!r} is no size")
    return int(float(read[1]) * (UNITS[read[2]] if read[2] else BARE[name]))


def database(written: str, name: str) -> Written:
    """The table of a database."""
    found = settings(written)
    made = Written("postgresql", {"name": text(name)})
    if found.get("huge_pages", "try").lower() in ("off", "false", "no", "0"):
        return Written("", remarks=[f"{name}: huge_pages is off, and it takes none"])
    if "include" in found or "include_dir" in found or "include_if_exists" in found:
        made.remarks.append(f"{name}: the files that it includes were not read")
    made.values["shared_buffers"] = size(bytes_of("shared_buffers", found.get("shared_buffers", "128MB")))
    for key in postgresql.SIZES[1:]:
        value = bytes_of(key, found[key]) if key in found else 0
        if value > 0:
            made.values[key] = size(value)
    for key in postgresql.NUMBERS:
        if key in found:
            if not re.fullmatch(r"[0-9]{1,9}", found[key]):
                raise NoSetting(f"{key} = {found[key]!r} is no number")
            made.values[key] = found[key]
    if (page := bytes_of("huge_page_size", found.get("huge_page_size", "0"))) > 0:
        made.values["page"] = size(page)
    if found.get("huge_pages", "try").lower() in ("on", "true", "yes", "1"):
        made.values["huge_pages"] = text("on")
    return made
