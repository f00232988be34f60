"""The first start of a fresh clone: what is said while the program is built, and an interrupt meanwhile."""
import os
import re
import shutil
import signal
import subprocess
import time
from pathlib import Path

import pytest
from common import TOP

BUILDER = """#!/bin/bash
echo $$ >> "{folder}/builders"
[ -e "{folder}/fails" ] && exit 1
mktemp > "{folder}/room"
sleep {seconds}
printf '#!/bin/sh\\necho built "$@"\\n' > "$1"
chmod +x "$1"
"""


@pytest.fixture
def clone(tmp_path: Path) -> Path:
    """A clone with sources, in which a build only waits."""
    (tmp_path / ".ci").mkdir()
    (tmp_path / "crates/one/src").mkdir(parents=True)
    (tmp_path / "crates.txt").touch()
    for name in ("run", ".ci/choose", ".ci/programs"):
        shutil.copy(TOP / name, tmp_path / name)
    for name, text in (("kit", "exit 0"), ("build", "echo some minutes")):
        (tmp_path / ".ci" / name).write_text(f"#!/bin/sh\n{text}\n")
    builds(tmp_path, 7)
    return tmp_path


def builds(clone: Path, seconds: float) -> None:
    (clone / ".ci/quick").write_text(BUILDER.format(folder=clone, seconds=seconds))
    for file in (clone / ".ci").iterdir():
        file.chmod(0o755)


def started(clone: Path) -> subprocess.Popen[str]:
    return subprocess.Popen(
        [clone / "run", "--version"],
        stdin=subprocess.DEVNULL,
        stdout=subprocess.PIPE,
        stderr=subprocess.PIPE,
        text=True,
        start_new_session=True,
        # (a shell that runs this test behind itself has it ignore interrupts)
        preexec_fn=lambda: signal.signal(signal.SIGINT, signal.default_int_handler),
    )


def test_says_what_it_does(clone: Path) -> None:
    """It says how long it is likely to take on this machine, and every few seconds how far it is; the next
    time it knows from the last."""
    output, faults = started(clone).communicate(timeout=60)
    assert output == "built --version\n"
    first = re.search(
        r"^run: no program stands .* in about (\d+) seconds on this machine$", faults, re.MULTILINE
    )
    assert (
        first
        and int(first[1]) >= 10
        and re.search(r"^run: building, 5 of about \d+ seconds$", faults, re.MULTILINE)
    ), faults
    assert started(clone).communicate(timeout=60) == (
        "built --version\n",
        "run: this build is not proved on this machine; ./prove proves it, in some minutes\n",
    )
    builds(clone, 11)
    time.sleep(0.01)
    (clone / "crates/one/src/new").touch()
    faults = started(clone).communicate(timeout=60)[1]
    took = re.search(r"in about (\d+) seconds on this machine", faults)
    assert took and 7 <= int(took[1]) < 60, faults
    assert int(took[1]) > 10 or "run: building, 10 seconds; others use this machine too" in faults, faults


def test_an_interrupt_ends_the_build(clone: Path) -> None:
    """Ctrl-C ends it quietly, with what it has begun and the room that it took."""
    builds(clone, 60)
    ran = started(clone)
    while not (clone / "room").exists() or not (clone / "room").read_text():
        time.sleep(0.05)
    os.killpg(ran.pid, signal.SIGINT)
    output, faults = ran.communicate(timeout=100)
    assert output == "" and ran.returncode != 0 and len(faults.splitlines()) == 1, faults
    builder = int((clone / "builders").read_text())
    status = Path(f"/proc/{builder}/status")
    assert not status.exists() or re.search(
        r"^State:\t[ZX]", status.read_text(), re.MULTILINE
    ), "the build goes on"
    assert not Path((clone / "room").read_text().strip()).exists()


def test_a_build_that_fails(clone: Path) -> None:
    (clone / "fails").touch()
    ran = started(clone)
    output, _ = ran.communicate(timeout=100)
    assert output == "" and ran.returncode != 0
