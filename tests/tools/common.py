"""What the tests of the tools share: how the tool and the program are run."""
import os
import subprocess
import sys
from collections.abc import Iterable, Mapping
from pathlib import Path

import built
from built import PROGRAM, TOP

__all__ = [
    "EXAMPLES",
    "PICTURES",
    "PLANS",
    "PROGRAM",
    "TOOL",
    "TOP",
    "TRANSCRIPTS",
    "answer_of",
    "must_hold",
    "run",
]

TOOL = TOP / "tools/hugetlbctl"
TRANSCRIPTS, PICTURES = TOP / "tests/hugetlbctl", TOP / "docs/pictures"
EXAMPLES, PLANS = TOP / "examples", TOP / "tests/plans"


def run(
    words: Iterable[object],
    script: str | bytes = "",
    environment: Mapping[str, str] | None = None,
    cwd: Path | str | None = None,
) -> tuple[int, str, str]:
    """The tool's status, output and standard error.

    No PostgreSQL is asked where the environment names none, so that answers are the same on each machine.
    """
    ran = subprocess.run(
        [sys.executable, TOOL, *map(str, words)],
        input=script if isinstance(script, bytes) else script.encode(),
        capture_output=True,
        timeout=3 * built.SECONDS,
        cwd=cwd,
        env={
            "PATH": os.environ["PATH"],
            "HUGETLBD": str(PROGRAM),
            "HUGETLB_POSTGRES": "",
            **(environment or {}),
        },
    )
    return ran.returncode, ran.stdout.decode(errors="replace"), ran.stderr.decode(errors="replace")


def must_hold(what: str, *texts: str) -> None:
    for text in texts:
        assert text in what


def answer_of(script: bytes, words: Iterable[str] = ()) -> bytes:
    ran = subprocess.run(
        [PROGRAM, "script", *words], input=script, capture_output=True, timeout=3 * built.SECONDS
    )
    return ran.stdout
