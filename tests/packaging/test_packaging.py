"""What was built, installed into an empty folder, and what is there."""
import importlib.machinery
import importlib.util
import os
import re
import subprocess
import sys
import urllib.request
from collections.abc import Iterable, Iterator, Mapping
from pathlib import Path
from shutil import which
from typing import Any

import pytest
from built import PROGRAM, QUICK, SECONDS, TOP, version, version_line

PACKAGING = TOP / "packaging"
# what lintian may say: that no licence has been chosen
ALLOWED = "hugetlbd: copyright-without-copyright-notice"
WHERE = ["PREFIX=/usr", "MODULES=/usr/lib/python3/modules"]
HOME = {"PATH": os.environ["PATH"], "HOME": "/nonexistent"}


def run(
    words: Iterable[object],
    environment: Mapping[str, str] | None = None,
    cwd: Path | str | None = None,
    script: bytes = b"",
) -> "subprocess.CompletedProcess[bytes]":
    return subprocess.run(
        [str(word) for word in words],
        input=script,
        capture_output=True,
        timeout=3 * SECONDS,
        env={**HOME, **(environment or {})},
        cwd=cwd,
    )


def make(folder: Path, *words: str) -> "subprocess.CompletedProcess[bytes]":
    return run(["make", "-s", "-C", TOP, *words, f"DESTDIR={folder}", *WHERE])


@pytest.fixture
def usr(tmp_path: Path) -> Path:
    """A folder into which all is installed, below `tmp_path`."""
    ran = make(tmp_path, "install", f"PROGRAM={PROGRAM}")
    assert ran.returncode == 0, ran.stderr.decode()
    return tmp_path / "usr"


def files_of(folder: Path) -> list[str]:
    return sorted(str(path.relative_to(folder)) for path in folder.rglob("*") if not path.is_dir())


def test_answers_from_an_empty_folder(usr: Path, tmp_path: Path) -> None:
    """The program that was installed answers the first example, from anywhere; so do the tool beside it, its
    plans, and a program of one's own. None of these
    leaves a file there, and all is taken away again."""
    script, doc = (TOP / "examples/first.script").read_bytes(), usr / "share/doc/hugetlbd"
    ran = run([usr / "bin/hugetlbd"], cwd="/", script=script)
    assert (ran.returncode, ran.stdout, ran.stderr) == (0, (TOP / "examples/first.replies").read_bytes(), b"")
    ran = run([usr / "bin/hugetlbctl"], cwd="/", script=script)
    assert (ran.returncode, ran.stderr) == (0, b"") and b"store 1 0 1 0 0 ff" in ran.stdout
    ran = run([usr / "bin/hugetlbctl", "plan", doc / "examples/plan.toml"], cwd="/")
    assert (ran.returncode, ran.stderr) == (0, b"") and b"It fits." in ran.stdout
    assert (
        run([usr / "bin/hugetlbctl", "--version"]).stdout.split()[1]
        == run([usr / "bin/hugetlbd", "--version"]).stdout.split()[1]
    )
    modules = {"PYTHONPATH": f"{usr}/lib/python3/modules", "PYTHONDONTWRITEBYTECODE": "1"}
    assert (
        run(
            [sys.executable, "-c", "import hugetlb_session; print(hugetlb_session.Session.__name__)"], modules
        ).stdout
        == b"Session\n"
    )
    assert [it for it in files_of(usr) if not it.startswith("share/doc/")] == sorted(
        [
            "bin/hugetlbctl",
            "bin/hugetlbd",
            "lib/python3/modules/hugetlb_session.py",
            "lib/systemd/system/hugetlbd-exporter.service",
            "lib/systemd/system/hugetlbd.service",
            "share/bash-completion/completions/hugetlbctl",
            "share/bash-completion/completions/hugetlbd",
            "share/man/man1/hugetlbctl.1",
            "share/man/man1/hugetlbd.1",
            "share/zsh/site-functions/_hugetlbd",
        ]
    )
    for document in ("README.md", "docs/PROTOCOL.md", "examples/guests.script"):
        assert (doc / document).exists()
    assert (make(tmp_path, "uninstall").returncode, files_of(usr)) == (0, [])


def test_installs_a_module_that_is_found(tmp_path: Path) -> None:
    """Below a prefix that Python looks in, the module goes where it looks; the same sources make the same
    tool."""
    assert run([sys.executable, PACKAGING / "modules", sys.prefix]).stdout.decode().strip() in sys.path
    for name in ("one", "two"):
        run([sys.executable, PACKAGING / "make-tool", tmp_path / name])
    assert (tmp_path / "one").read_bytes() == (tmp_path / "two").read_bytes()


def test_takes_what_run_would(tmp_path: Path) -> None:
    """Without PROGRAM= the program is the one that ./run would start, and its word about proof is said; one
    that is named must be there."""
    ran = make(tmp_path, "install", "PROGRAM=/nowhere/hugetlbd")
    assert ran.returncode != 0 and b"/nowhere/hugetlbd is not there" in ran.stderr
    stands = 'top=$1; . "$top/.ci/programs"; stands "$proved" || stands "$quick"'
    if run(["bash", "-c", stands, "stands", TOP]).returncode == 0:
        chosen, ran = run([TOP / ".ci/choose", "install"]), make(tmp_path, "install")
        assert (tmp_path / "usr/bin/hugetlbd").read_bytes() == Path(
            chosen.stdout.decode().strip()
        ).read_bytes()
        assert chosen.stderr.strip() in ran.stderr


def is_proved(program: Path) -> bool:
    return run([PACKAGING / "is-proved", program]).stdout.decode().strip() == "yes"


def links_of(folder: Path) -> Iterator[tuple[Path, str]]:
    """Each link of the installed documents to a file, with the document."""
    for document in folder.rglob("*.md"):
        for path in re.findall(r"\]\(([^)\s#]+)", document.read_text()):
            if "://" not in path:
                yield document, path


def dead_links(folder: Path) -> list[tuple[str, str]]:
    return [
        (document.name, path) for document, path in links_of(folder) if not (document.parent / path).exists()
    ]


def test_links_lead_somewhere(usr: Path) -> None:
    """Each link of what is installed leads to what is installed."""
    doc = usr / "share/doc/hugetlbd"
    assert dead_links(doc) == [] and len(list(links_of(doc))) > 10


def other_program(folder: Path) -> Path:
    """A program that does what the tested one does, and is not it: one byte stands behind its end."""
    program = folder / "other-hugetlbd"
    program.write_bytes(PROGRAM.read_bytes() + b"\0")
    program.chmod(0o755)
    return program


NO_PROOF = b"built with no proofs"


def test_says_whether_it_is_proved(tmp_path: Path) -> None:
    """A program that is not the proved one is said to be built with no proofs: by --version, and in both
    pages of the manual."""
    for number, program in enumerate((PROGRAM, other_program(tmp_path))):
        root, proved = tmp_path / str(number), is_proved(program)
        assert make(root, "install", f"PROGRAM={program}").returncode == 0
        said = run([root / "usr/bin/hugetlbctl", "--version"]).stdout
        pages = [(root / f"usr/share/man/man1/{name}.1").read_bytes() for name in ("hugetlbd", "hugetlbctl")]
        assert [NO_PROOF in it for it in (said, *pages)] == 3 * [not proved]
        assert (b"The program is proved" in pages[0]) == proved
    assert not is_proved(other_program(tmp_path))


MODULE = """@static.5 = private unnamed_addr constant [4 x i8] c"help", align 1
@static.6 = private unnamed_addr constant [15 x i8] c"hugetlbd 0.2.0\\0A", align 1
define void @one(ptr %r0) {
  store ptr @static.6, ptr %r0, align 8
  %r1 = getelementptr i8, ptr %r0, i64 8
  store i64 15, ptr %r1, align 8
  store i64 15, ptr %r0, align 8
}
""".splitlines()


def quick() -> Any:
    """The commands of .ci/quick."""
    loader = importlib.machinery.SourceFileLoader("quick", str(TOP / ".ci/quick"))
    spec = importlib.util.spec_from_loader("quick", loader)
    assert spec is not None
    module = importlib.util.module_from_spec(spec)
    loader.exec_module(module)
    return module


def test_a_build_with_no_proofs_says_so_in_its_version(monkeypatch: pytest.MonkeyPatch) -> None:
    """Its text and the length beside it are others; a module that takes the text in a way that is not known
    is not built."""
    monkeypatch.syspath_prepend(TOP / ".ci")
    module = quick()
    made = [*module.with_word_of_proofs(MODULE)]
    assert (
        made[1] == "@static.6 = private unnamed_addr constant [38 x i8] "
        'c"hugetlbd 0.2.0 (built without proofs)\\0A", align 1'
    )
    assert [at for at, (old, new) in enumerate(zip(MODULE, made, strict=True)) if old != new] == [1, 5]
    assert made[5] == "  store i64 38, ptr %r1, align 8"
    for wrong in (MODULE[:5] + MODULE[7:], MODULE[:3] + ["  call void @two(ptr @static.6, i64 15)", "}"]):
        with pytest.raises(module.rattle.Failed):
            [*module.with_word_of_proofs(wrong)]


def test_the_quick_build_says_that_it_has_no_proofs() -> None:
    if not QUICK.exists() or QUICK.stat().st_mtime < (TOP / ".ci/quick").stat().st_mtime:
        pytest.skip("no build with no proofs stands here that is newer than .ci/quick")
    assert run([QUICK, "--version"]).stdout == f"hugetlbd {version()} (built without proofs)\n".encode()


def test_a_proved_program_says_nothing_of_the_kind() -> None:
    if run(["bash", "-c", 'top=$1; . "$top/.ci/programs"; stands "$proved"', "stands", TOP]).returncode != 0:
        pytest.skip("no proved program stands here")
    assert run([TOP / "out/hugetlbd", "--version"]).stdout == f"hugetlbd {version()}\n".encode()


def make_deb(program: Path) -> Path:
    ran = run(
        [
            "make",
            "-s",
            "-C",
            TOP,
            "deb",
            f"PROGRAM={program}",
            "MAINTAINER=The maintainers <maintainers@users.noreply.virgomsa.example>",
        ]
    )
    assert ran.returncode == 0, ran.stderr.decode()
    return TOP / ran.stdout.decode().split()[-1]


@pytest.mark.skipif(not which("dpkg-deb"), reason="dpkg-deb is not here")
def test_makes_a_deb(tmp_path: Path) -> None:
    """The package holds what is installed, says whether it is proved, and lintian finds nothing in it but
    that no licence is chosen."""
    for program in (other_program(tmp_path), PROGRAM):
        deb = make_deb(program)
        described = run(["dpkg-deb", "--field", deb, "Description"]).stdout
        assert (NO_PROOF in described) == (not is_proved(program)) and (
            b"is proved" in described
        ) == is_proved(program)
    listed = run(["dpkg-deb", "--contents", deb]).stdout.decode()
    for path in (
        "./usr/bin/hugetlbctl",
        "./usr/bin/hugetlbd",
        "./usr/lib/python3/dist-packages/hugetlb_session.py",
        "./usr/share/man/man1/hugetlbctl.1.gz",
        "./lib/systemd/system/hugetlbd.service",
        "./lib/systemd/system/hugetlbd-exporter.service",
    ):
        assert path in listed
    if which("lintian"):
        ran = run(["lintian", "--fail-on", "none", "--allow-root", deb])
        assert [line for line in ran.stdout.decode().splitlines() if not re.search(ALLOWED, line)] == []


def dpkg(root: Path, *words: object) -> "subprocess.CompletedProcess[bytes]":
    return run(
        [
            "dpkg",
            f"--root={root}",
            "--force-depends",
            "--force-not-root",
            "--force-script-chrootless",
            f"--log={root}/dpkg.log",
            *words,
        ],
        {"PATH": f"{os.environ['PATH']}:/usr/sbin:/sbin"},
    )


@pytest.mark.skipif(not which("dpkg"), reason="dpkg is not here")
def test_the_deb_is_installed_and_runs(tmp_path: Path) -> None:
    """Installed by dpkg into a root of its own: the tool, the program, the manual and the completions work,
    no link is dead, and its removal leaves nothing."""
    root = tmp_path / "root"
    for folder in ("info", "updates", "triggers"):
        (root / "var/lib/dpkg" / folder).mkdir(parents=True)
    for name in ("status", "available"):
        (root / "var/lib/dpkg" / name).touch()
    ran = dpkg(root, "--install", make_deb(PROGRAM))
    assert ran.returncode == 0, ran.stderr.decode()
    usr = root / "usr"
    script = (TOP / "examples/first.script").read_bytes()
    ran = run([usr / "bin/hugetlbd"], cwd="/", script=script)
    assert (ran.returncode, ran.stdout, ran.stderr) == (0, (TOP / "examples/first.replies").read_bytes(), b"")
    assert (usr / "bin/hugetlbctl").read_bytes().startswith(b"#!/usr/bin/python3\nPK")
    if run(["/usr/bin/python3", "-c", "import sys; sys.exit(sys.version_info < (3, 11))"]).returncode == 0:
        ran = run([usr / "bin/hugetlbctl", "plan", usr / "share/doc/hugetlbd/examples/plan.toml"], cwd="/")
        assert (ran.returncode, ran.stderr) == (0, b"") and b"It fits." in ran.stdout
        assert run([usr / "bin/hugetlbctl", "--version"]).stdout.startswith(
            b"hugetlbctl " + version().encode()
        )
        asked: list[list[object]] = [
            ["observe"],
            ["who"],
            ["help"],
            ["plan", "--from", usr / "share/doc/hugetlbd/examples/libvirt.xml"],
        ]
        for words in asked:
            assert run([usr / "bin/hugetlbctl", *words]).returncode == 0
        modules = {"PYTHONPATH": str(usr / "lib/python3/dist-packages"), "PYTHONDONTWRITEBYTECODE": "1"}
        assert (
            run(
                ["/usr/bin/python3", "-c", "import hugetlb_session; print(hugetlb_session.Session.__name__)"],
                modules,
            ).stdout
            == b"Session\n"
        )
    if which("man"):
        for name in ("hugetlbd", "hugetlbctl"):
            ran = run(["man", "-M", usr / "share/man", name], {"MANPAGER": "cat", "MANWIDTH": "100"})
            assert ran.returncode == 0 and name.upper().encode() in ran.stdout
    completes = f"source {usr}/share/bash-completion/completions/hugetlbctl; "
    completes += "COMP_WORDS=(hugetlbctl wh); COMP_CWORD=1; _hugetlbctl; echo ${COMPREPLY[@]}"
    assert run(["bash", "-c", completes], cwd=tmp_path).stdout == b"who\n"
    assert dead_links(usr / "share/doc/hugetlbd") == []
    if which("systemd-analyze"):
        for unit in (root / "lib/systemd/system").iterdir():
            assert "@PREFIX@" not in unit.read_text()
    assert dpkg(root, "--remove", "hugetlbd").returncode == 0
    assert [it for it in files_of(root) if not it.startswith(("var/lib/dpkg/", "dpkg.log"))] == []


def test_a_first_line_that_is_changed_cuts_the_tool(tmp_path: Path) -> None:
    """Why the Python of the first line is given to make-tool: an archive knows its own places, and a shorter
    line moves them."""
    run([sys.executable, PACKAGING / "make-tool", tmp_path / "tool"], {"INTERPRETER": "/usr/bin/python3"})
    assert (tmp_path / "tool").read_bytes().startswith(b"#!/usr/bin/python3\n")
    assert run([sys.executable, tmp_path / "tool", "--version"]).returncode == 0
    (tmp_path / "cut").write_bytes(
        (tmp_path / "tool").read_bytes().replace(b"#!/usr/bin/python3\n", b"#!/bin/python3\n", 1)
    )
    assert run([sys.executable, tmp_path / "cut", "--version"]).returncode != 0


def test_is_one_version() -> None:
    """The version of the sources is what the program prints, and what the documents and the manual say; the
    kit's name stands in the manual."""
    assert run([PROGRAM, "--version"]).stdout == version_line(PROGRAM)
    for name in ("hugetlbd.1", "hugetlbctl.1"):
        assert set(re.findall(r"hugetlbd (\d+\.\d+\.\d+)", (PACKAGING / name).read_text())) == {
            version()
        }, name
    needed = re.search(r'needed="(.*)"', (TOP / ".ci/kit").read_text())
    assert needed and needed[1] in (PACKAGING / "hugetlbd.1").read_text()


def test_has_a_manual() -> None:
    """The manual is made from docs/PROTOCOL.md, has each line and refusal, and is read without a warning."""
    assert run([PACKAGING / "make-manual", "--check"]).returncode == 0
    text, plans = (PACKAGING / "hugetlbd.1").read_text(), (PACKAGING / "hugetlbctl.1").read_text()
    assert [it for it in (r"plan", r"\-\-sysctl", "[[redis]]", "shared_memory") if it not in plans] == []
    told = re.findall(
        r"^\.B (?:[a-z]+(?: [A-Z]+)*.*|\d+ \w+)$",
        text.split(".SH LINES")[1].split(".SH EXIT")[0],
        re.MULTILINE,
    )
    assert len(told) >= 24 + 25


@pytest.mark.skipif(not which("groff"), reason="groff is not here")
@pytest.mark.parametrize("name", ["hugetlbd.1", "hugetlbctl.1"])
def test_groff_reads_the_manual(name: str) -> None:
    ran = run(["groff", "-man", "-Tutf8", "-ww", "-z", PACKAGING / name])
    assert (ran.returncode, ran.stderr) == (0, b"")


@pytest.mark.skipif(not which("man"), reason="man is not here")
def test_man_finds_the_manual(usr: Path) -> None:
    ran = run(["man", "-M", usr / "share/man", "hugetlbd"], {"MANPAGER": "cat", "MANWIDTH": "100"})
    assert ran.returncode == 0 and b"HUGETLBD(1)" in ran.stdout


@pytest.mark.parametrize(
    "line, wanted",
    {
        "hugetlbd s": ["script", "serve"],
        "hugetlbd script --": ["--frames", "--page", "--slots", "--help"],
        "hugetlbd serve --": [
            "--port",
            "--sessions",
            "--workers",
            "--trace",
            "--idle",
            "--frames",
            "--page",
            "--slots",
            "--help",
        ],
        "hugetlbd --page 20": ["2097152"],
        "hugetlbctl --s": ["--slots", "--svg", "--seconds"],
        "hugetlbctl examples/gue": ["examples/guests.replies", "examples/guests.script"],
        "hugetlbctl pl": ["plan"],
        "hugetlbctl plan --s": ["--svg", "--sysctl"],
    }.items(),
)
def test_completes(line: str, wanted: list[str]) -> None:
    """Words of each option and the subcommand, in bash."""
    typed = line.split(" ")
    script = f"source {PACKAGING}/hugetlbd.bash; COMP_WORDS=({' '.join(repr(it) for it in typed)}); "
    script += f"COMP_CWORD={len(typed) - 1}; "
    script += f"_{typed[0]}; printf '%s\\n' \"${{COMPREPLY[@]}}\""
    assert run(["bash", "-c", script], cwd=TOP).stdout.decode().split() == wanted


def test_completions_have_each_option() -> None:
    bash, zsh = ((PACKAGING / name).read_text() for name in ("hugetlbd.bash", "_hugetlbd"))
    told = run([PROGRAM, "--help"]).stdout.decode()
    assert [option for option in re.findall(r"--[a-z]+", told) if option not in bash] == []
    told = "".join(
        run([TOP / "tools/hugetlbctl", *words, "--help"]).stdout.decode()
        for words in (list[str](), ["plan"], ["observe"], ["who"])
    )
    assert [
        option for option in set(re.findall(r"--[a-z]+", told)) if option not in bash or option not in zsh
    ] == []


@pytest.mark.skipif(not which("zsh"), reason="zsh is not here")
def test_zsh_reads_its_completions() -> None:
    assert run(["zsh", "-n", PACKAGING / "_hugetlbd"]).stderr == b""


@pytest.mark.parametrize("name", ["hugetlbd", "hugetlbd-exporter"])
def test_has_a_unit(name: str, usr: Path, tmp_path: Path) -> None:
    """The units are those that systemd reads, where it is there."""
    unit = tmp_path / f"{name}.service"
    unit.write_text((PACKAGING / f"{name}.service.in").read_text().replace("@PREFIX@", str(usr)))
    assert not re.search(r"@[A-Z]+@", unit.read_text())
    if which("systemd-analyze"):
        ran = run(["systemd-analyze", "verify", "--man=no", unit])
        assert [line for line in ran.stderr.decode().splitlines() if f"{name}.service" in line] == []


def settings_of(name: str) -> dict[str, str]:
    """The settings of a unit's service."""
    lines = (PACKAGING / f"{name}.service.in").read_text().splitlines()
    return {
        name: value
        for name, at, value in (line.partition("=") for line in lines if not line.startswith("#"))
        if at
    }


def test_the_exporter_serves_what_its_unit_says(usr: Path) -> None:
    """The words of the exporter's unit are run: it tells the counts of the server of the other unit's
    port."""
    words = settings_of("hugetlbd-exporter")["ExecStart"].replace("@PREFIX@", str(usr)).split()
    served = settings_of("hugetlbd")["ExecStart"].split()
    assert words[words.index("--port") + 1] == served[served.index("--port") + 1]
    assert settings_of("hugetlbd-exporter")["Restart"] == "always"
    server = subprocess.Popen(
        [usr / "bin/hugetlbd", "serve", "--port", "0", "--sessions", "2", "--workers", "1", "--trace", "0"],
        stdout=subprocess.PIPE,
        text=True,
    )
    assert server.stdout is not None
    port = server.stdout.readline().split()[1]
    words[words.index("--port") + 1], words[words.index("--listen") + 1] = port, "0"
    exporter = subprocess.Popen(words, stdout=subprocess.PIPE, text=True, env=HOME)
    try:
        assert exporter.stdout is not None
        address = exporter.stdout.readline().split()[-1]
        told = urllib.request.urlopen(address, timeout=SECONDS).read().decode()
        assert "hugetlb_page_size_bytes 1024" in told
    finally:
        for one in (exporter, server):
            one.kill()
            one.communicate()


def bytes_of(text: str) -> int:
    """A size as units of systemd write it."""
    power = " KMGT".index(text[-1]) if text[-1] in "KMGT" else 0
    return int(text.rstrip("KMGT")) << 10 * power


def test_has_a_unit_that_lasts() -> None:
    """The unit's server keeps no trails, serves as many sessions as it can, is started again after any end,
    and may have memory for all its frames."""
    settings = settings_of("hugetlbd")
    line = settings["ExecStart"].split()[2:]
    words = dict(zip(line[::2], line[1::2]))
    assert (words["--trace"], words["--sessions"], settings["Restart"]) == ("0", "65535", "always")
    frames = sum(map(int, words["--frames"].split(","))) * int(words["--page"])
    assert bytes_of(settings.get("MemoryMax", "1024T")) > frames
    assert "ExecStop" not in settings
