"""The tables of a plan's file: each value is read with its line, and all that is wrong is kept."""
import difflib
import re
import tomllib
from collections.abc import Callable, Sequence
from dataclasses import dataclass, field
from typing import Any, TypeVar

from .sizes import NoSize, in_pages, share_of, size_in_bytes

HEAD = re.compile(r"\s*\[(\[)?\s*([A-Za-z0-9_-]+)\s*\]\]?\s*(?:#.*)?")
KEY = re.compile(r"\s*[\"']?([A-Za-z0-9_-]+)[\"']?\s*=")
# a size without quotes, beside what may hold one: texts and comments
UNQUOTED = re.compile(
    r"\"[^\"]*\"|'[^']*'|#.*|(?<![\w.\"'])([0-9][0-9_.]* ?(?:[kKmMgGtTpP]i?[bB]?|[bB]|%|pages?))(?![\w\"'])"
)
MOST_FAULTS = 100
Value = TypeVar("Value")


class PlanFault(Exception):
    """Why a plan can't be read: each fault with the file, the line, the key, and what is wrong."""

    def __init__(self, *faults: str):
        super().__init__("\n".join(faults))
        self.faults = faults


@dataclass
class Faults:
    """What is wrong in a file, as it is found."""

    file: str
    found: list[tuple[int, str]] = field(default_factory=list)

    def add(self, line: int, where: str, what: str) -> None:
        place = f"{self.file}:{line}" if line else self.file
        text = f"{place}: {where}: {what}" if where else f"{place}: {what}"
        if (line, text) not in self.found:
            self.found.append((line, text))

    def end(self) -> None:
        """Raises what was found, in the order of lines."""
        if self.found:
            texts = [text for _, text in sorted(self.found, key=lambda it: it[0] or 1 << 30)]
            more = len(texts) - MOST_FAULTS
            raise PlanFault(
                *texts[:MOST_FAULTS], *([f"{self.file}: and {more:,} faults more"] if more > 0 else [])
            )


class Wrong(Exception):
    """A value that was found wrong and kept among the faults."""


@dataclass
class Table:
    """One table of the file, which knows the lines of its keys.

    A wrong value is kept among the faults, and the default stands for it.
    """

    faults: Faults
    name: str
    values: dict[str, Any]
    line: int
    lines: dict[str, int]

    def has(self, key: str) -> bool:
        return key in self.values

    def fault(self, key: str | None, what: str) -> None:
        self.faults.add(
            self.lines.get(key or "", self.line), f"{self.name}.{key}" if key else self.name, what
        )

    def knows(self, keys: Sequence[str]) -> None:
        for key in self.values:
            if key not in keys:
                near = difflib.get_close_matches(key, keys, 1, 0.6)
                self.fault(
                    key,
                    "there is no such key; "
                    f"{f'{near[0]} is meant?' if near else 'there are ' + ', '.join(keys)}",
                )

    def attempt(self, key: str, default: Value, read: Callable[[], Value]) -> Value:
        """What is read; the default where the key is not there, or its value is wrong."""
        if key not in self.values:
            return default
        try:
            return read()
        except NoSize as error:
            self.fault(key, str(error))
        except Wrong:
            pass
        return default

    def of_type(self, key: str, kind: type, what: str) -> Any:
        value = self.values[key]
        if not isinstance(value, kind) or isinstance(value, bool) and kind is not bool:
            self.fault(key, f"{value!r} is not {what}")
            raise Wrong
        return value

    def truth(self, key: str, default: bool) -> bool:
        return self.attempt(key, default, lambda: bool(self.of_type(key, bool, "true or false")))

    def number(self, key: str, default: int, least: int, most: int) -> int:
        def read() -> int:
            value = int(self.of_type(key, int, "a whole number"))
            if not least <= value <= most:
                self.fault(key, f"{value:,} is not from {least:,} to {most:,}")
                raise Wrong
            return value

        return self.attempt(key, default, read)

    def text(self, key: str, default: str, choices: Sequence[str] = ()) -> str:
        def read() -> str:
            value = str(self.of_type(key, str, "a text"))
            if choices and value not in choices:
                self.fault(key, f"{value!r} is not {' or '.join(repr(it) for it in choices)}")
                raise Wrong
            return value

        return self.attempt(key, default, read)

    def bytes(self, key: str, default: int = 0) -> int:
        return self.attempt(key, default, lambda: size_in_bytes(self.values[key]))

    def pages(self, key: str, default: int, page_bytes: int, whole: int | None = None) -> int:
        """A size in pages; where there is a whole, a percentage of it too."""

        def read() -> int:
            share = share_of(self.values[key], whole) if whole is not None else None
            pages = (
                in_pages(size_in_bytes(self.values[key], page_bytes), page_bytes) if share is None else share
            )
            if whole is not None and pages > whole:
                self.fault(key, f"{self.values[key]!r} is more than the program has: make it smaller")
                raise Wrong
            return pages

        return self.attempt(key, default, read)

    def sizes(self, key: str, page_bytes: int | None = None) -> list[int]:
        """A list of sizes in bytes; empty where it is wrong."""

        def read() -> list[int]:
            return [size_in_bytes(it, page_bytes) for it in self.of_type(key, list, "a list of sizes")]

        return self.attempt(key, [], read)

    def counts(self, key: str, nodes: int) -> list[int] | None:
        """A number of pages, or one for each node; none where it is wrong."""

        def read() -> list[int]:
            value = self.values[key]
            listed = value if isinstance(value, list) else [value]
            if (
                not all(
                    isinstance(it, int) and not isinstance(it, bool) and 0 <= it <= 1 << 40 for it in listed
                )
                or not listed
            ):
                self.fault(key, f"{value!r} is no number of pages, and no list of one for each node")
                raise Wrong
            if isinstance(value, list) and len(listed) != nodes:
                self.fault(key, f"it has {len(listed)} numbers, and there are {nodes} nodes")
                raise Wrong
            return listed

        return self.attempt(key, None, read)


def with_quotes(faults: Faults, at: int, line: str) -> str:
    """A line with quotes around each size that has none."""
    key, is_pair, value = line.partition("=")
    if not is_pair or not KEY.match(line):
        return line

    def mend(found: re.Match[str]) -> str:
        if found[1] is None:
            return found[0]
        faults.add(at, key.strip(), f'{found[1]} is a text: write it in quotes, "{found[1]}"')
        return f'"{found[1]}"'

    return f"{key}={UNQUOTED.sub(mend, value)}"


def values_of(faults: Faults, text: str) -> dict[str, Any]:
    """The values of a text in TOML.

    A size without quotes is told, and read as if it had them; of other faults the first one.
    """
    if text.startswith("\ufeff"):
        faults.add(1, "", "it begins with a byte order mark: save it as UTF-8 without one (a BOM)")
        text = text[1:]
    lines = text.split("\n")
    for at, line in enumerate(lines):
        lines[at] = with_quotes(faults, at + 1, line)
    try:
        return tomllib.loads("\n".join(lines))
    except tomllib.TOMLDecodeError as error:
        found = re.search(r" \(at line (\d+), column (\d+)\)", str(error))
        line_number = int(found[1]) if found else text.count("\n") + 1
        faults.add(line_number, "", str(error).replace(found[0], "") if found else str(error))
        faults.end()
        raise


def tables_of(faults: Faults, text: str, keys: dict[str, tuple[str, ...]], several: set[str]) -> list[Table]:
    """The tables in their order in the file, each with the lines of its keys."""
    values = values_of(faults, text)
    heads: list[tuple[str, int, dict[str, int]]] = []
    for at, line in enumerate(text.splitlines(), 1):
        if found := HEAD.fullmatch(line):
            heads.append((found[2], at, {}))
        elif heads and (found := KEY.match(line)):
            heads[-1][2].setdefault(found[1], at)
    listed, known = [], [*keys]
    for name, value in values.items():
        of_name = [head for head in heads if head[0] == name]
        line_of_value = next(
            (
                at
                for at, line in enumerate(text.splitlines(), 1)
                if (found := KEY.match(line)) and found[1] == name
            ),
            0,
        )
        line_number = of_name[0][1] if of_name else line_of_value
        if name not in known:
            near = difflib.get_close_matches(name, known, 1, 0.6)
            faults.add(
                line_number,
                name,
                "there is no such kind; "
                f"{f'{near[0]} is meant?' if near else 'there are ' + ', '.join(known)}",
            )
            continue
        ones = value if isinstance(value, list) and name in several else [value]
        if not all(isinstance(one, dict) for one in ones):
            wanted = (
                f"each is a table: write [[{name}]]" if name in several else f"it is a table: write [{name}]"
            )
            faults.add(line_number or 1, name, wanted)
            continue
        of_name += [(name, line_number, {})] * (len(ones) - len(of_name))
        listed += [Table(faults, name, one, at, lines) for one, (_, at, lines) in zip(ones, of_name)]
    return sorted(listed, key=lambda table: table.line)
