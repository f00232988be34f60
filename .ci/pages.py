"""What the repository's documents name: paths, links, crates and callers."""
import re
import subprocess
from collections.abc import Iterator
from pathlib import Path

TOP = Path(__file__).resolve().parent.parent
# What a document may name as a path: what begins in one of these folders.
PATH = re.compile(r"(?<![\w/.-])(?:crates|docs|bench|tests|examples|tools|\.ci)/[\w./*<>-]*[\w*]")
OF_CRATE = re.compile(r"`((?:src|specs|proofs|must-fail)/[\w./*-]+)`")
LINK = re.compile(r"\[[^\]]*\]\(([^)\s]+)\)")

NAME = re.compile(r"`([A-Za-z_]\w*(?:::\w+)*)[!`]")
# What the kernel and libraries of others name.
FOREIGN = {"HPAGE_RESV_OWNER", "HPAGE_RESV_UNMAPPED", "hugetlb_acct_memory", "hugetlb_lock", "min_hpages"}
FOREIGN |= {"pgoff", "used_hpages", "left_right"}

# What is wrong: a file, its line, and how to mend it.
Fault = tuple[Path, int, str]


def documents() -> list[Path]:
    return sorted(
        it
        for pattern in ("*.md", "docs/**/*.md", "bench/*.md", "crates/*/README.md", "tests/**/*.md")
        for it in TOP.glob(pattern)
    )


def crates() -> dict[str, list[str]]:
    """The crates of crates.txt, each with what it stands on."""
    lines = [line.split("#")[0].strip() for line in (TOP / "crates.txt").read_text().splitlines()]
    pairs = [line.partition(":") for line in lines if line]
    return {name.split()[0]: below.split() for name, _, below in pairs}


def numbered(file: Path) -> Iterator[tuple[int, str]]:
    return enumerate(file.read_text().splitlines(), 1)


def anchors(text: str) -> set[str]:
    """What a link into a document can name."""
    return {re.sub(r"[^\w -]", "", it.lower()).replace(" ", "-") for it in re.findall(r"(?m)^#+ (.*)$", text)}


def leads_somewhere(document: Path, named: str) -> bool:
    """Whether this path stands below the top or beside the document, or is one that is built there."""
    named = re.sub(r"<[^>]*>|NAME|CRATE", "*", named).rstrip(".")
    if any(next(it.glob(named), None) for it in (TOP, document.parent)):
        return True
    return (
        subprocess.run(
            ["git", "check-ignore", "--quiet", named], cwd=TOP, stderr=subprocess.DEVNULL
        ).returncode
        == 0
    )


def lead_somewhere() -> Iterator[Fault]:
    """Each path and link that a document names is there."""
    for document in documents():
        for at, line in numbered(document):
            for path, _, anchor in (
                it.partition("#") for it in LINK.findall(line) if not re.match(r"[a-z]+:", it)
            ):
                file = (document.parent / path).resolve() if path else document
                if not file.exists() or anchor and anchor not in anchors(file.read_text()):
                    yield document, at, f"links to {path}#{anchor}, which is not there: mend the link"
            for named in [*PATH.findall(LINK.sub("", line)), *OF_CRATE.findall(line)]:
                if not leads_somewhere(document, named):
                    yield document, at, f"names {named}, which is not there: name what stands there now"


def sources() -> Iterator[Path]:
    """The files in which a name of a page can stand."""
    parts = [f"crates/*/{part}/**/*" for part in ("src", "specs", "proofs")]
    for pattern in (*parts, "tests/**/*.py", "tools/**/*.py", "bench/**/*", ".ci/*", "crates.txt"):
        yield from (it for it in TOP.glob(pattern) if it.is_file())


def name_what_is_there() -> Iterator[Fault]:
    """Each name that a page for developers has in backticks stands in a source, as it is or as a test's."""
    there: set[str] = set()
    for file in sources():
        there.update(re.findall(r"\w+", file.read_text(errors="replace")), [file.stem])
    for document in [*sorted(TOP.glob("docs/dev/*.md")), *sorted(TOP.glob("crates/*/README.md"))]:
        for at, line in numbered(document):
            for name in {part for it in NAME.findall(line) for part in it.split("::")} - FOREIGN:
                if name not in there and f"test_{name}" not in there:
                    yield document, at, f"names {name}, which no source has: name what stands there now"


def tell_of_crates() -> Iterator[Fault]:
    """Each crate is named in ARCHITECTURE.md and has a README, whose callers stand on it."""
    page, wanted = TOP / "docs/dev/ARCHITECTURE.md", crates()
    for name in wanted:
        if not re.search(rf"\b{name}\b", page.read_text()):
            yield page, 1, f"does not name {name}: put it on its floor"
        readme = TOP / "crates" / name / "README.md"
        for at, line in numbered(readme):
            named = re.findall(r"\b(hp_\w+|hugetlbd)\b", line) if line.startswith("**Caller.**") else []
            for other in {it for it in named if it in wanted and it != name}:
                if name not in wanted[other] and not any(name in wanted.get(it, []) for it in wanted[other]):
                    yield readme, at, f"names a caller in {other}, which does not stand on it"


def words_stand_in_their_crates() -> Iterator[Fault]:
    """Where the glossary gives a word a crate, the crate's README has the word, in a form of its own."""
    page = TOP / "docs/dev/GLOSSARY.md"
    for at, line in numbered(page):
        found = re.match(r"- \*\*([^*]+)\*\*: .*\((hp_\w+)\)", line)
        readme = TOP / "crates" / found[2] / "README.md" if found else page
        if found and (not readme.is_file() or found[1] not in readme.read_text().lower()):
            yield page, at, f"gives {found[1]} to {found[2]}, whose README has no such word: name its crate"
