"""Which program counts as proved: `.ci/programs`, `prove` and the parts of the gate."""
import configparser
import importlib.machinery
import importlib.util
import os
import shutil
import subprocess
import sys
import time
from collections.abc import Callable
from dataclasses import dataclass, field
from pathlib import Path
from types import ModuleType
from typing import Any

import pytest
from built import TOP

STUB = "#!/bin/sh\n"
PROVED, QUICK = f"{STUB}echo proved\n", f"{STUB}echo quick\n"
# A build with no proofs, in place of .ci/quick.
BUILDS = f"""{STUB}cat >"$1" <<'END'
{QUICK}END
chmod +x "$1"
"""
# What a repository has of this one's.
COPIED = ("prove", "run", ".ci/programs", ".ci/choose", "packaging/is-proved")


def written(file: Path, text: str = "") -> Path:
    file.parent.mkdir(parents=True, exist_ok=True)
    file.write_text(text)
    return file


@pytest.fixture
def repository(tmp_path: Path) -> Path:
    """A repository of two crates, of which the commands that want the kit do nothing."""
    for name in ("src/main.rt", "specs/Lib.antt", "proofs/f/Answers.antt"):
        written(tmp_path / "crates/hugetlbd" / name, "a")
    written(tmp_path / "crates/hp_model/specs/machine/Step.antt", "a")
    written(tmp_path / "crates.txt", "hp_model:\nhugetlbd: hp_model\n")
    for name in COPIED:
        (tmp_path / name).parent.mkdir(parents=True, exist_ok=True)
        shutil.copy(TOP / name, tmp_path / name)
    for name, text in {"kit": STUB, "build": STUB, "quick": BUILDS}.items():
        written(tmp_path / ".ci" / name, text).chmod(0o755)
    written(tmp_path / "crates/hugetlbd/out/hugetlbd", PROVED).chmod(0o755)
    long_ago = time.time() - 1000
    for file in [*tmp_path.rglob("*"), tmp_path]:
        os.utime(file, (long_ago, long_ago))
    return tmp_path


def shell(top: Path, words: str) -> int:
    """The status of these words, with `.ci/programs` at hand."""
    return subprocess.run(
        ["bash", "-euc", f'top={top}; . "$top/.ci/programs"; {words}'], check=False
    ).returncode


def stands(top: Path) -> bool:
    return shell(top, 'stands "$proved"') == 0


def prove(top: Path) -> int:
    return subprocess.run([top / "prove"], capture_output=True, check=False).returncode


def test_a_proved_program_stands(repository: Path) -> None:
    assert not stands(repository)
    assert prove(repository) == 0
    assert stands(repository)


def of_long_ago(file: Path) -> None:
    """Another text, with the time of the one before it."""
    times = file.stat()
    written(file, "x")
    os.utime(file, (times.st_atime, times.st_mtime))


TOUCHED: dict[str, Callable[[Path], object]] = {
    "a source": lambda top: written(top / "crates/hugetlbd/src/main.rt", "x"),
    "a definition": lambda top: written(top / "crates/hugetlbd/specs/Lib.antt", "x"),
    "a proof": lambda top: written(top / "crates/hugetlbd/proofs/f/Answers.antt", "x"),
    "a definition of a crate below": lambda top: written(
        top / "crates/hp_model/specs/machine/Step.antt", "x"
    ),
    "a file of another name": lambda top: (top / "crates/hugetlbd/specs/Lib.antt").rename(
        top / "crates/hugetlbd/specs/More.antt"
    ),
    "a new file": lambda top: written(top / "crates/hugetlbd/src/more.rt"),
    "a file that went": lambda top: (top / "crates/hugetlbd/proofs/f/Answers.antt").unlink(),
    "the list of crates": lambda top: written(top / "crates.txt", "hugetlbd: hp_model hp_order\n"),
    "a source of long ago": lambda top: of_long_ago(top / "crates/hugetlbd/src/main.rt"),
    "the note of its build": lambda top: (top / "out/hugetlbd.built").unlink(),
    "the program": lambda top: (top / "out/hugetlbd").unlink(),
}


@pytest.mark.parametrize("touch", TOUCHED.values(), ids=TOUCHED)
def test_a_program_of_other_sources_does_not_stand(repository: Path, touch: Callable[[Path], object]) -> None:
    assert prove(repository) == 0
    time.sleep(0.05)
    touch(repository)
    assert not stands(repository)


def test_a_program_stands_where_nothing_but_times_differs(repository: Path) -> None:
    assert prove(repository) == 0
    (repository / "crates/hugetlbd/src/main.rt").touch()
    assert stands(repository)


def run(top: Path, *words: str) -> tuple[int, str, str]:
    """What ./run starts: its status, its output and its words."""
    ran = subprocess.run(
        [top / "run", *words], stdin=subprocess.DEVNULL, capture_output=True, text=True, check=False
    )
    return ran.returncode, ran.stdout, ran.stderr


def test_the_version_tells_of_which_sources_it_was_proved(repository: Path) -> None:
    assert prove(repository) == 0
    _, _, said = run(repository, "--version")
    noted = (repository / "out/hugetlbd.built").read_text().strip()
    assert said == f"run: proved of the sources with the sum {noted}\n" and len(noted) == 64


def test_the_proved_program_is_started_while_it_stands(repository: Path) -> None:
    """Then the build with no proofs is, which is said; and the version says nothing of a proof."""
    assert prove(repository) == 0
    assert run(repository) == (0, "proved\n", "")
    written(repository / "crates/hugetlbd/src/main.rt", "x")
    for word in ("--slots=1", "--version"):
        status, output, said = run(repository, word)
        assert (status, output) == (0, "quick\n")
        assert "this build is not proved" in said and "proved of" not in said


def test_a_build_that_failed_is_not_started(repository: Path) -> None:
    """Nor is the one of other sources before it."""
    assert run(repository)[:2] == (0, "quick\n")
    written(repository / "crates/hugetlbd/src/main.rt", "x")
    written(repository / ".ci/quick", f"{STUB}exit 1\n")
    for _ in range(2):
        status, output, _ = run(repository)
        assert status != 0 and output == ""


def is_proved(top: Path, program: Path) -> str:
    ran = subprocess.run([top / "packaging/is-proved", program], capture_output=True, text=True, check=True)
    return ran.stdout


def test_no_other_program_counts_as_proved(repository: Path) -> None:
    """What is installed or packed is said to be proved where it is the program that stands, byte for byte."""
    program = repository / "out/hugetlbd"
    written(other := repository / "other", PROVED)
    assert is_proved(repository, other) == "no\n"
    assert prove(repository) == 0
    assert is_proved(repository, program) == is_proved(repository, other) == "yes\n"
    written(other, PROVED.replace("proved", "proven"))
    assert is_proved(repository, other) == "no\n"
    written(repository / "crates/hugetlbd/src/main.rt", "x")
    assert is_proved(repository, program) == "no\n"


def command(monkeypatch: pytest.MonkeyPatch, name: str) -> ModuleType:
    """The module of this command of .ci."""
    monkeypatch.syspath_prepend(TOP / ".ci")
    loader = importlib.machinery.SourceFileLoader(f"command_{name}", str(TOP / ".ci" / name))
    spec = importlib.util.spec_from_loader(f"command_{name}", loader)
    assert spec
    module = importlib.util.module_from_spec(spec)
    monkeypatch.setitem(sys.modules, f"command_{name}", module)
    loader.exec_module(module)
    return module


@pytest.fixture
def building(monkeypatch: pytest.MonkeyPatch) -> ModuleType:
    return command(monkeypatch, "build")


@dataclass
class Checked:
    """A crate whose check ends so, once those below it are proved."""

    name: str
    status: int
    proved: list[str]

    def prove(self, _jobs: int, _waits: bool) -> tuple[int, str]:
        if self.status == 0:
            self.proved.append(self.name)
        return self.status, f"what was said of {self.name}"

    link = prove


BELOW = {"low": [], "middle": ["low"], "beside": ["low"], "top": ["middle", "beside"]}


def proved_with(building: ModuleType, refused: str) -> tuple[int, list[str]]:
    """The status of a build in which this crate is refused, and the crates that were proved, in order."""
    proved = list[str]()
    crates = {it: Checked(it, int(it == refused), proved) for it in BELOW}
    plan = building.Plan(crates, BELOW, dict.fromkeys(BELOW, 1.0))
    return building.prove_all(plan, "top"), proved


@pytest.mark.parametrize("refused", BELOW)
def test_nothing_is_built_over_a_crate_that_was_refused(building: ModuleType, refused: str) -> None:
    """The command fails, and what stands on the crate is not proved."""
    status, proved = proved_with(building, refused)
    assert status != 0 and refused not in proved and "top" not in proved


def test_all_crates_are_proved_bottom_up(building: ModuleType) -> None:
    status, proved = proved_with(building, "none")
    assert (status, sorted(proved), proved[0], proved[-1]) == (0, sorted(BELOW), "low", "top")


VERSION = """@static.6 = private unnamed_addr constant [15 x i8] c"hugetlbd 0.2.0\\0A", align 1
define void @one(ptr %r0) {
  store ptr @static.6, ptr %r0, align 8
  store i64 15, ptr %r0, align 8
}
"""


class Lowers:
    """A kit that lowers a program to its version, and keeps what is compiled."""

    compiled = ""

    def crates(self, _top: Path) -> dict[str, "Lowers"]:
        return {"hugetlbd": self}

    def sources(self) -> list[Path]:
        return []

    def lowered(self, _room: Path) -> str:
        return VERSION

    def to_text(self, text: str, module: str) -> None:
        Path(text).write_text(module)

    def to_code(self, code: str, lean: str) -> None:
        self.compiled = Path(lean).read_text()
        Path(code).touch()

    def link(self, whole: str, _code: str) -> None:
        Path(whole).write_bytes(b"program")


def test_a_build_with_no_proofs_is_told_from_another(monkeypatch: pytest.MonkeyPatch, tmp_path: Path) -> None:
    """What .ci/quick compiles has the word about proofs in its version."""
    quick, kit = command(monkeypatch, "quick"), Lowers()
    monkeypatch.chdir(tmp_path)
    monkeypatch.setattr(quick.rattle, "Kit", lambda _name: kit)
    quick.build(tmp_path / "program", "hugetlbd", False, print)
    assert "hugetlbd 0.2.0 (built without proofs)" in kit.compiled and "i64 38" in kit.compiled
    assert (tmp_path / "program").read_bytes() == b"program"


@dataclass
class Own:
    """The kit's own crate, of which a check ends so; the sources are others when it ends, if there are more
    stamps."""

    rlib: str
    status: int
    stamps: list[str] = field(default_factory=lambda: ["sum"])
    name = folder = "low"

    def stamp(self) -> str:
        return self.stamps.pop() if len(self.stamps) > 1 else self.stamps[0]

    def words(self, flags: list[str], keeps: bool) -> list[str]:
        return [*flags, str(keeps)]

    def call(self, *_words: str) -> int:
        Path(self.rlib).mkdir(exist_ok=True)
        return self.status


@pytest.mark.parametrize(
    "status, stamps, stays", [(0, ["sum"], True), (1, ["sum"], False), (0, ["after", "before"], False)]
)
def test_a_library_that_was_not_proved_is_no_library(
    building: ModuleType, tmp_path: Path, status: int, stamps: list[str], stays: bool
) -> None:
    """Only of a check that passed, over sources that did not change meanwhile, is the sum noted."""
    kit: Any = type("Kit", (), {"rtlib": type("Kept", (), {"RATTLE": "rattle"})})
    own = Own(str(tmp_path / "out/rlib"), status, stamps)
    assert building.rattle.Crate(kit, own).build_statements([]) == status
    assert (tmp_path / "out/stamp").exists() == stays


def test_a_source_that_changes_beside_the_proof_counts_as_newer(repository: Path) -> None:
    edits = f'{STUB}sleep 0.05\necho x > "$(dirname "$0")/../crates/hugetlbd/src/main.rt"\n'
    written(repository / ".ci/build", edits)
    assert prove(repository) == 0
    assert not stands(repository)


def test_a_failed_proof_leaves_no_program(repository: Path) -> None:
    written(repository / ".ci/build", f"{STUB}exit 1\n")
    assert prove(repository) != 0
    assert not (repository / "out/hugetlbd").exists() and not stands(repository)


def test_a_failed_proof_leaves_the_program_before_it_as_old(repository: Path) -> None:
    assert prove(repository) == 0
    time.sleep(0.05)
    written(repository / "crates/hugetlbd/src/main.rt", "x")
    written(repository / ".ci/build", f"{STUB}exit 1\n")
    assert prove(repository) != 0
    assert not stands(repository)


def test_the_gate_runs_all_folders_of_tests() -> None:
    """No folder of tests is left out of the list, nor of the parts of the gate."""
    told = configparser.ConfigParser()
    told.read(TOP / "tests/pytest.ini")
    folders = {it.parent.name for it in TOP.glob("tests/*/test_*.py")}
    assert set(told["pytest"]["testpaths"].split()) == folders
    run = (TOP / ".ci/run").read_text()
    parts = {word for line in run.splitlines() if line.startswith(".ci/tests") for word in line.split()}
    assert folders <= parts


def test_the_gate_has_all_its_parts_in_order() -> None:
    lines = [it for it in (TOP / ".ci/run").read_text().splitlines() if not it.startswith("#")]
    parts = (
        ".ci/lint",
        '.ci/tests --program "$quick"',
        "rt ci",
        "keep_proved",
        ".ci/wrong-bodies",
        ".ci/tests --durations",
    )
    places = [next(at for at, line in enumerate(lines) if line.startswith(part)) for part in parts]
    assert places == sorted(places)
