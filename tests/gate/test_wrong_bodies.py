"""What `.ci/wrong-bodies` tries again: a kept refusal counts only over the very texts that its check read."""
import shutil
import subprocess
import sys
from collections.abc import Callable
from importlib.machinery import SourceFileLoader
from importlib.util import module_from_spec, spec_from_loader
from pathlib import Path
from types import ModuleType

import pytest
from built import TOP

# Two crates with wrong bodies, of which the second stands on the first.
CRATES = ("hp_model", "hp_text", "hp_options")
OF_TEXT = {"hp_text/meminfo_of_free_pages", "hp_text/number_wraps_around", "hp_text/separator_stays"}
OF_OPTIONS = {f"hp_options/{it.stem}" for it in (TOP / "crates/hp_options/must-fail").glob("*.md")}
ALL = OF_TEXT | OF_OPTIONS


def loaded(top: Path) -> ModuleType:
    """The command's own code, over the repository in this folder."""
    sys.path.insert(0, str(top / ".ci"))
    try:
        for name in ("cited", "rattle"):
            sys.modules.pop(name, None)
        spec = spec_from_loader(
            "wrong_bodies", SourceFileLoader("wrong_bodies", str(top / ".ci/wrong-bodies"))
        )
        assert spec and spec.loader
        module = module_from_spec(spec)
        spec.loader.exec_module(module)
        return module
    finally:
        sys.path.pop(0)


@pytest.fixture(scope="module")
def first(tmp_path_factory: pytest.TempPathFactory) -> Path:
    """A repository of these crates, of which all wrong bodies were refused: their sums are kept."""
    top: Path = tmp_path_factory.mktemp("gate")
    shutil.copytree(TOP / ".ci", top / ".ci")
    for name in CRATES:
        shutil.copytree(TOP / "crates" / name, top / "crates" / name, ignore=shutil.ignore_patterns("out"))
    lines = (TOP / "crates.txt").read_text().splitlines(keepends=True)
    (top / "crates.txt").write_text("".join(it for it in lines if it.split(":")[0] in CRATES))
    code = loaded(top)
    kit = code.rattle.Kit("wrong-bodies")
    sums = code.Sums(code.rattle.logic(kit.folder))
    for crate in kit.crates(top).values():
        code.keep(crate, code.trial_of(crate, sums, anew=False).sums)
    return top


@pytest.fixture
def repository(first: Path, tmp_path: Path) -> Path:
    shutil.copytree(first, tmp_path / "top")
    return tmp_path / "top"


def left(top: Path, *words: str) -> set[str]:
    """The wrong bodies that would be tried."""
    ran = subprocess.run(
        [top / ".ci/wrong-bodies", "--list", *words], capture_output=True, text=True, check=True
    )
    return set(ran.stdout.split())


def replaced(file: str, old: str, new: str) -> Callable[[Path], None]:
    def edit(top: Path) -> None:
        text = (top / file).read_text()
        assert text.count(old) >= 1, f"{file} has no {old}"
        (top / file).write_text(text.replace(old, new, 1))

    return edit


def added(file: str, text: str) -> Callable[[Path], None]:
    def edit(top: Path) -> None:
        (top / file).write_text((top / file).read_text() + text)

    return edit


KEPT = "crates/hp_text/refused"


def a_sum_of_another(top: Path) -> None:
    """A refusal is kept with the sum of another wrong body."""
    lines = (top / KEPT).read_text().splitlines()
    own = next(it for it in lines if it.endswith(" number_wraps_around"))
    other = next(it for it in lines if it.endswith(" separator_stays"))
    (top / KEPT).write_text("\n".join(lines).replace(own.split()[0], other.split()[0]) + "\n")


def a_new_body(top: Path) -> None:
    folder = top / "crates/hp_text/must-fail"
    shutil.copy(folder / "separator_stays.md", folder / "separator_goes.md")


EDITS = {
    "nothing": (lambda top: None, set()),
    "a body of its own": (replaced("crates/hp_text/src/numbers.rt", "||", "&&"), ALL - OF_OPTIONS),
    "a comment of a crate below": (added("crates/hp_model/src/lib.rt", "// nothing\n"), set()),
    "a clause of a crate below": (replaced("crates/hp_text/src/numbers.rt", "ensures", "ensures  "), ALL),
    "a definition of a crate below": (added("crates/hp_model/specs/Profile.antt", "\n-- more\n"), ALL),
    "a lemma of a crate below": (added("crates/hp_model/proofs/Words.antt", "\n-- more\n"), ALL),
    "the text of a wrong body": (
        added("crates/hp_text/must-fail/separator_stays.md", "\n"),
        {"hp_text/separator_stays"},
    ),
    "a new wrong body": (a_new_body, {"hp_text/separator_goes"}),
    "a sum": (a_sum_of_another, {"hp_text/number_wraps_around"}),
    "all sums": (lambda top: (top / KEPT).unlink(), OF_TEXT),
    "what a crate stands on": (replaced("crates.txt", "hp_text: hp_model itoa", "hp_text: hp_model"), ALL),
    "another logic of the kit": (replaced(".ci/rattle.py", "[1:3])", "[1:3]) + ' of another kit'"), ALL),
    "another way to check": (replaced(".ci/wrong-bodies", 'FORM = "', 'FORM = "other '), ALL),
}


@pytest.mark.parametrize("edit, tried", EDITS.values(), ids=EDITS)
def test_tries_again_what_differs(repository: Path, edit: Callable[[Path], None], tried: set[str]) -> None:
    edit(repository)
    assert left(repository) == tried


def test_tries_all_anew(repository: Path) -> None:
    assert left(repository, "--anew") == ALL


def test_passes_over_none() -> None:
    """Each text of must-fail is one of those that the command knows, and each crate is one of crates.txt."""
    texts = {f"{it.parts[-3]}/{it.stem}" for it in TOP.glob("crates/*/must-fail/*")}
    assert left(TOP, "--anew") == texts
    assert {it.split(":")[0] for it in (TOP / "crates.txt").read_text().splitlines()} == {
        it.name for it in (TOP / "crates").iterdir()
    }


def test_keeps_no_refusal_of_a_body_that_went() -> None:
    for file in TOP.glob("crates/*/refused"):
        names = {it.split()[1] for it in file.read_text().splitlines() if it.startswith("    ")}
        assert names <= {it.stem for it in (file.parent / "must-fail").iterdir()}, file
