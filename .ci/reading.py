"""The definitions that a contract reaches: what must be read, and believed, to know what it says.

Run by itself it prints them for `run_script`, and then those that `program` adds, each behind those that it
rests on.
"""
import re
from collections import defaultdict
from collections.abc import Iterator
from dataclasses import dataclass
from functools import cache
from pathlib import Path

from pages import Fault

TOP = Path(__file__).resolve().parent.parent
CRATES, TRUST = TOP / "crates", TOP / "docs/dev/TRUST.md"
ROW = re.compile(r"\| \[[^\]]*\]\(([^)\s]+)\)")
USE = re.compile(r"(?m)^ *(?:(?:ghost|pub) )*use Rattle\.([\w.]+?)(?:\.\{([^}]*)\}| as (\w+))?;?$")
WORD = re.compile(r"[\w'◌]+")
HEAD = re.compile(r"(?:(?:pub|abbrev|unfoldable|record|data) )*([^\s:({]+)")
PART = re.compile(r"(?m)^ +(?:pub )?([^\s:]+) :")
DEFINED = re.compile(
    r"((?:abbrev |unfoldable |pub |record |data )*)(?!mod |use )([^\s:({]+)(?= :)"
    r"|((?:abbrev |unfoldable |pub |record |data )+)(?!mod |use )([^\s:({]+)"
)

# What each file of definitions rests on.
Below = dict[Path, set[Path]]
# A definition: its file, and its name there. An imported name may mean a whole file.
Definition = tuple[Path, str]


@dataclass(frozen=True)
class Contract:
    """A function, by whose contract something is known."""

    source: Path
    function: str

    def words(self) -> list[str]:
        text = self.source.read_text()
        contract = text[text.index(f"fn {self.function}") :]
        return WORD.findall(contract[: contract.index("\n{\n")])


# By the first of these a script's run is known, by the second the whole program.
SCRIPT = Contract(CRATES / "hp_system/src/script.rt", "run_script")
PROGRAM = Contract(CRATES / "hp_program/src/run.rt", "program")


@dataclass(frozen=True)
class Page:
    """A file of definitions.

    What its imported names mean, its definitions with their text, and to which of these a constructor or a
    field belongs.
    """

    names: dict[str, tuple[Path | None, str | None]]
    bodies: dict[str, str]
    owners: dict[str, str]


def file_of(path: str) -> Path | None:
    """The file of definitions that a path of imports names, if it is one of ours."""
    crate, *inner = path.split(".")
    if inner[:1] != ["specs"] or not (CRATES / crate).is_dir():
        return None
    found = (
        CRATES / crate / "specs" / ("/".join(inner[1:count]) + ".antt") for count in range(len(inner), 1, -1)
    )
    return next((it for it in found if it.exists()), None)


def imported(text: str) -> dict[str, tuple[Path | None, str | None]]:
    """What each imported name means: a file, and the name there."""
    found: dict[str, tuple[Path | None, str | None]] = {}
    for path, names, other in USE.findall(text):
        file = file_of(path)
        for name in (it.strip() for it in names.split(",") if it.strip()):
            there, _, here = name.partition(" as ")
            found[here or there] = (file, there)
        if not names:
            found[other or path.rpartition(".")[2]] = (file, None)
    return found


@cache
def read(file: Path) -> Page:
    text = file.read_text()
    bodies: dict[str, str] = defaultdict(str)
    owners: dict[str, str] = {}
    current = ""
    for line in text.splitlines():
        if not line or line.startswith(("use ", "pub use ", "pub mod ", "--")):
            continue
        if not line.startswith(" ") and (head := HEAD.match(line)):
            current = head[1]
        if current:
            bodies[current] += line + "\n"
    for name, body in bodies.items():
        for part in PART.findall(body):
            owners.setdefault(part, name)
    return Page(imported(text), bodies, owners)


def meant(file: Path, word: str) -> Definition | None:
    """The definition that a word of this file means, if there is one."""
    page = read(file)
    if word in page.bodies:
        return file, word
    if word in page.names:
        there, name = page.names[word]
        return meant(there, name) if there and name else None
    return (file, page.owners[word]) if word in page.owners else None


def reached(contract: Contract) -> Below:
    """The files that a contract reaches, each with the others whose words stand in what is reached of it."""
    names = imported(contract.source.read_text())
    named = (names[it] for it in contract.words() if it in names)
    work = [meant(file, name) for file, name in named if file and name]
    seen: set[Definition] = set()
    below: Below = defaultdict(set)
    while work:
        one = work.pop()
        if one is None or one in seen:
            continue
        seen.add(one)
        file, name = one
        below[file] |= set()
        for other in filter(None, (meant(file, it) for it in set(WORD.findall(read(file).bodies[name])))):
            work.append(other)
            if other[0] != file:
                below[file].add(other[0])
    return below


def in_order(below: Below) -> list[Path]:
    """The files, each behind those that it rests on."""
    left, order = dict(below), list[Path]()
    while left:
        ready = sorted(it for it in left if not left[it] & left.keys())
        order += ready
        left = {it: left[it] for it in left if it not in ready}
        if not ready:
            raise ValueError("definitions that rest on each other")
    return order


def defined(file: Path) -> Iterator[tuple[int, str]]:
    """The names that a file of specs defines, with their lines: no fields and no constructors."""
    inside = None
    for at, line in enumerate(file.read_text().splitlines(), 1):
        bare = line.lstrip()
        indent = len(line) - len(bare)
        if not bare or bare.startswith("--") or inside is not None and indent > inside:
            continue
        inside, found = None, DEFINED.match(bare)
        if found and indent <= 2:
            kind, name = found[1] or found[3] or "", found[2] or found[4]
            inside = indent if "record " in kind or "data " in kind else None
            yield at, name


def of_two_meanings() -> Iterator[tuple[Path, int, str]]:
    """Each name that a file of hp_model and another file of specs define: that file, its line, the name."""
    home, there = CRATES / "hp_model/specs", dict[str, Path]()
    for file in [
        *sorted(home.rglob("*.antt")),
        *sorted(it for it in CRATES.glob("*/specs/**/*.antt") if home not in it.parents),
    ]:
        for at, name in defined(file):
            if there.get(name, file) != file:
                yield file, at, name
            elif home in file.parents:
                there[name] = file


def names_have_one_meaning() -> Iterator[Fault]:
    """A name of a trusted page is defined in no other file of specs, except those in the glossary."""
    told = (TOP / "docs/dev/GLOSSARY.md").read_text()
    for file, at, name in of_two_meanings():
        if f"`{name}`" not in told:
            yield file, at, f"defines {name}, which a file of hp_model defines: give one of them another name"


def trust_is_whole() -> Iterator[Fault]:
    """TRUST.md leads through the definitions that the contracts reach, and names types and libraries.

    Each definition stands behind those that it rests on.
    """
    script, program = reached(SCRIPT), reached(PROGRAM)
    seen: set[Path] = set()
    for at, line in enumerate(TRUST.read_text().splitlines(), 1):
        if not (found := ROW.match(line)):
            continue
        file = (TRUST.parent / found[1]).resolve()
        if file not in program:
            yield TRUST, at, f"leads to {file.name}, which neither contract reaches: take it out"
        for other in sorted((script if file in script else program).get(file, set()) - seen):
            yield TRUST, at, f"leads to {file.name} before {other.name}, on which it rests: move it"
        seen.add(file)
    for file in sorted({*script, *program} - seen):
        yield TRUST, 1, f"does not lead to {file.relative_to(TOP)}, which a contract reaches: add a row"
    home = CRATES / "hp_model/specs"
    files = (it for it in home.rglob("*.antt") if it.parent.name not in ("threads", "beside"))
    for file in sorted(script.keys() ^ {it for it in files if "\npub mod " not in f"\n{it.read_text()}"}):
        yield file, 1, "run_script's contract reaches it, or not: its place is hp_model's specs, or beside/"
    text, used = TRUST.read_text(), "\n".join(it.read_text() for it in script)
    named = {f"{it}.rt" for it in re.findall(r"Rattle\.hp_model\.specs\.declared\.(\w+)\.", used)}
    for name in sorted(named | set(re.findall(r"Rattle\.(\w+)\.", used)) - {"hp_model"}):
        if f"`{name}`" not in text:
            yield TRUST, 1, f"does not name {name}, on which definitions rest: name it"


if __name__ == "__main__":
    believed = reached(SCRIPT)
    for one in [*in_order(believed), *(it for it in in_order(reached(PROGRAM)) if it not in believed)]:
        print(one.relative_to(CRATES))
