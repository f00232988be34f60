"""What of a crate others can cite: types, signatures with their clauses, ghost items, definitions, lemmas.

No proof above a crate reads anything else of it. A function's body and the answers to its goals are
the crate's own.
"""
import hashlib
import re
from collections.abc import Iterator
from pathlib import Path

# The folders of a crate that its check reads.
PARTS = ("src", "specs", "proofs")
# The files of proofs/ that answer the goals of one function.
ANSWERS = ("Answers.antt", "Invariants.antt", "Proof.antt")

COMMENT = re.compile(r"\s*//")
IMPORT = re.compile(r"(?:ghost )?use ")
# (what a constant function computes, a type may name)
FUNCTION = re.compile(r"( *)(?:pub(?:\(\w+\))? )?(?:unsafe )?fn \w")


def without_bodies(text: str) -> list[str]:
    """The lines of a source without its comments, its own imports and the bodies of its functions."""
    lines, kept, at = text.splitlines(), [], 0
    while at < len(lines):
        head = FUNCTION.match(lines[at])
        first, at = at, at + 1
        if not head:
            kept.append(lines[first])
            continue
        # the line that opens the body, or ends a function that has none: its clauses stand deeper
        opens = re.compile(head[1] + r"(?:\{|\{\}|\S.*[{};])$")
        while at <= len(lines) and not opens.match(lines[at - 1]):
            at += 1
        kept += lines[first:at]
        if at <= len(lines) and lines[at - 1].endswith("{") and head[1] + "}" in lines[at:]:
            at = lines.index(head[1] + "}", at) + 1
    return [it for it in kept if it.strip() and not COMMENT.match(it) and not IMPORT.match(it)]


def files_of(crate: Path) -> Iterator[Path]:
    """The files that the crate's check reads, in order."""
    for part in PARTS:
        yield from sorted(it for it in (crate / part).rglob("*") if it.is_file())


def cited_text(file: str, text: str) -> str | None:
    """What others can cite of this file of a crate; nothing where it is the crate's own alone."""
    if file.startswith("src/"):
        return "\n".join(without_bodies(text))
    return None if file.startswith("proofs/") and file.endswith(ANSWERS) else text


def cited(crate: Path) -> dict[str, str]:
    """What others can cite of a crate, by file."""
    found = {}
    for file in files_of(crate):
        name = str(file.relative_to(crate))
        text = cited_text(name, file.read_text())
        if text is not None:
            found[name] = text
    return found


def whole(crate: Path) -> dict[str, str]:
    """All that the crate's own check reads of it, by file."""
    return {str(file.relative_to(crate)): file.read_text() for file in files_of(crate)}


def sum_of(*parts: object) -> str:
    return hashlib.sha256(repr(parts).encode()).hexdigest()
