"""Inputs and outputs that fail, at once and in the middle."""
import os
from pathlib import Path

import pytest
from built import SECONDS, Client, Memory, Run, cases

STORED = next(case for case in cases() if case.name == "stored_run")


def test_tells_of_failed_ends(run: Run) -> None:
    """An output that takes nothing and an input that can't be read: status 1, and a line that says so."""
    with open("/dev/full", "wb") as full:
        assert run([], STORED.script, full)[::2] == (1, b"hugetlbd: write failed\n")
        assert run(["--help"], b"", full)[::2] == (1, b"hugetlbd: write failed\n")
    folder = os.open("/", os.O_RDONLY)
    assert run([], folder) == (1, b"", b"hugetlbd: read failed\n")
    os.close(folder)
    with open("/dev/zero", "rb") as zeros:
        assert run([], zeros, seconds=3 * SECONDS) == (1, b"", b"hugetlbd: input too long\n")
    with open("/dev/full", "wb") as full, open("/dev/full", "wb") as none:
        assert run([], STORED.script, full, faults=none)[0] == 1
        assert run(["--slots", "4", "script"], b"", full, faults=none)[0] == 2


@pytest.mark.parametrize("call", ["read", "write"])
def test_tells_of_ends_that_fail_later(program: Path, memory: Memory, call: str) -> None:
    """A read or a write that fails in the middle: the lines before it are answered, and status and words say
    what failed."""
    lines = STORED.lines()
    for at in range(1, len(lines) + 1):
        client = Client(program, [], {**memory.environment(), f"REFUSE_{call.upper()}_AT": str(at)})
        for line, reply in lines[: at - 1]:
            assert client.ask(line) == reply, f"{line!r} before {call} {at} fails"
        if call == "write":
            assert client.ask(lines[at - 1][0]) == b""
        assert client.close() == (1, b"", f"hugetlbd: {call} failed\n".encode()), at
