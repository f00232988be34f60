"""Limits: those of the definitions, the words, the help and PROTOCOL.md are those that are tested."""
import re
import sys
from collections.abc import Iterator
from pathlib import Path

TOP = Path(__file__).resolve().parent.parent
sys.path.append(str(TOP / "tests"))
import limit_table
from pages import Fault, numbered


def differing(file: str, form: str, named: dict[str, int]) -> Iterator[Fault]:
    """Each limit that a file has in this form, where it is not the table's, and each that it lacks."""
    found = {
        name.lower(): (at, int(value.replace("_", "")))
        for at, line in numbered(TOP / file)
        for name, value in re.findall(form, line)
    }
    for name, (at, value) in found.items():
        if named.get(name) != value:
            yield TOP / file, at, f"{name} is {value}: tests/limit_table.py has {named.get(name, 'none')}"
    for name in named.keys() - found.keys():
        yield TOP / file, 1, f"has no {name}: take it out of tests/limit_table.py"


def are_in_the_table() -> Iterator[Fault]:
    """Each limit of the definitions and of the program's words is tested, and the help and PROTOCOL.md tell
    it."""
    profile, words = limit_table.profile(), limit_table.OF_WORDS
    # (a product of two others)
    in_all = profile.pop("most_frames_in_all")
    if in_all != profile["most_nodes"] * profile["most_frames"]:
        yield TOP / "tests/limit_table.py", 1, "most_frames_in_all is not that of all nodes"
    yield from differing("crates/hp_model/specs/Profile.antt", r"^(\w+) = (\d+)$", profile)
    yield from differing("crates/hp_model/src/profile.rt", r"^pub const (\w+): \w+ = ([\d_]+);", profile)
    file = TOP / "crates/hp_words/src/config.rt"
    yield from differing(str(file.relative_to(TOP)), r"^const (MOST_\w+): \w+ = ([\d_]+);", words)
    helped = " ".join(file.read_text().split())
    for option, told in limit_table.TOLD.items():
        values = told.format(**profile, **words)
        if not re.search(rf"--{option} <(?:(?! --).)*\b{re.escape(values)}\b", helped):
            yield file, 1, f"the help of --{option} does not say {values}"
    page, known = TOP / "docs/PROTOCOL.md", {*profile.values(), *words.values()}
    for at, line in numbered(page):
        for number in re.findall(r"\d{1,3}(?:,\d{3})+", line):
            if int(number.replace(",", "")) not in known:
                yield page, at, f"tells of {number}, which is no limit of tests/limit_table.py"
