"""Which program is started.

One that was named, the one beside the tool, or in the repository the one that ./run would start.
"""
import os
import re
import subprocess
from pathlib import Path
from shutil import which


class NoProgram(Exception):
    """No program was found."""


def tool() -> Path:
    """The file that was started, or the folder of the package's folder."""
    here = Path(__file__).resolve()
    return next((it for it in here.parents if it.is_file()), here.parents[1])


def of_repository(top: Path) -> str:
    """The program that ./run would start, built where none stands.

    Its word about proof goes to standard error.
    """
    ran = subprocess.run(
        [top / ".ci/choose", "hugetlbctl"], stdin=subprocess.DEVNULL, stdout=subprocess.PIPE, text=True
    )
    if ran.returncode:
        raise NoProgram("the program could not be built: ./run tells why")
    return ran.stdout.strip()


def program(named: str | None = None) -> str:
    if named := named or os.environ.get("HUGETLBD"):
        return named
    here = tool()
    beside = here.parent / "hugetlbd"
    if beside.is_file():
        return str(beside)
    if here.is_dir() and (here.parent / ".ci/choose").exists():
        return of_repository(here.parent)
    if found := which("hugetlbd"):
        return found
    raise NoProgram("no program hugetlbd stands beside this tool or on the PATH: name one with --program")


def version() -> str:
    """The version: as it was when the tool was packed, else as the program's sources say."""
    try:
        from ._version import VERSION  # type: ignore[import]
    except ImportError:
        source = Path(__file__).resolve().parents[2] / "crates/hp_words/src/config.rt"
        found = re.search(r'"hugetlbd ([^"\\]+)\\n"', source.read_text()) if source.exists() else None
        return found[1] if found else "of no version"
    return str(VERSION)


def proof() -> str:
    """What a package says of its program: nothing where it is proved, or where no package was made."""
    try:
        from ._version import PROVED
    except ImportError:
        return ""
    return "" if PROVED else " (its hugetlbd was built with no proofs)"
