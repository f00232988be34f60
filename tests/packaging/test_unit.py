"""The unit that is installed: what it says, how much it leaves open, and the program under its own command
and settings."""
import ctypes
import os
import re
import resource
import shutil
import signal
import socket
import subprocess
import sys
import time
import urllib.request
from collections.abc import Callable, Iterator
from pathlib import Path
from shutil import which

import pytest
from built import PROGRAM, SECONDS, TOP

UNIT = TOP / "packaging/hugetlbd.service.in"
EXPORTER = TOP / "packaging/hugetlbd-exporter.service.in"
# What it leaves open at most, as systemd counts it.
MOST_EXPOSURE = 1.2
# The settings of both units that keep the service in, or start it again.
COMMON = {
    "CapabilityBoundingSet": [""],
    "DynamicUser": ["yes"],
    "IPAddressAllow": ["localhost"],
    "IPAddressDeny": ["any"],
    "LockPersonality": ["yes"],
    "NoNewPrivileges": ["yes"],
    "PrivateDevices": ["yes"],
    "PrivateTmp": ["yes"],
    "PrivateUsers": ["yes"],
    "ProtectClock": ["yes"],
    "ProtectControlGroups": ["yes"],
    "ProtectHome": ["yes"],
    "ProtectHostname": ["yes"],
    "ProtectKernelLogs": ["yes"],
    "ProtectKernelModules": ["yes"],
    "ProtectKernelTunables": ["yes"],
    "ProtectProc": ["invisible"],
    "ProtectSystem": ["strict"],
    "Restart": ["always"],
    "RestartPreventExitStatus": ["2"],
    "RestrictAddressFamilies": ["AF_INET"],
    "RestrictNamespaces": ["yes"],
    "RestrictRealtime": ["yes"],
    "StartLimitIntervalSec": ["0"],
    "SystemCallArchitectures": ["native"],
    "SystemCallFilter": ["@system-service", "~@privileged @resources"],
    "Type": ["exec"],
    "UMask": ["0077"],
    "WantedBy": ["multi-user.target"],
}
# All settings of each, but for what it says of itself and its command.
SETTINGS = {
    "hugetlbd": COMMON
    | {
        "Environment": ["MALLOC_ARENA_MAX=1"],
        "LimitNOFILE": ["1024"],
        "MemoryDenyWriteExecute": ["yes"],
        "PrivateMounts": ["yes"],
        "ProcSubset": ["pid"],
        "RestartSec": ["100ms"],
    },
    "hugetlbd-exporter": COMMON
    | {
        "After": ["hugetlbd.service"],
        "MemoryMax": ["256M"],
        "RestartSec": ["1"],
        "RestrictSUIDSGID": ["yes"],
        "TasksMax": ["64"],
        "Wants": ["hugetlbd.service"],
    },
}
TOLD = {"Description", "Documentation", "ExecStart"}
by_analysis = pytest.mark.skipif(not which("systemd-analyze"), reason="systemd-analyze is not here")
SCRIPT = "nr 4\nconnect 1 0\nanon 1 2 private\nstore 1 0 1 0 0 61\nload 1 0 1 0 0 2\nexit 1\n"
REPLIES = "ok 4\nok\nok 1\nok\nok 6100\nok\n"


def settings(text: str) -> dict[str, list[str]]:
    """The settings of a unit, each with its values in order."""
    found: dict[str, list[str]] = {}
    for line in text.splitlines():
        if "=" in line and not line.startswith("#"):
            name, _, value = line.partition("=")
            found.setdefault(name, []).append(value)
    return found


def command(unit: Path = UNIT) -> list[str]:
    """The words of a unit behind its program."""
    return settings(unit.read_text())["ExecStart"][0].split()[1:]


def written(folder: Path, prefix: str, change: Callable[[str], str] = str) -> Path:
    """The unit as it is installed below a prefix, with a change."""
    unit = folder / "hugetlbd.service"
    unit.write_text(change(UNIT.read_text().replace("@PREFIX@", prefix)))
    return unit


def analyzed(*words: str | Path) -> subprocess.CompletedProcess[str]:
    return subprocess.run(["systemd-analyze", *words], capture_output=True, text=True, timeout=3 * SECONDS)


def exposure(unit: Path) -> float:
    said = re.search(
        r"Overall exposure level for \S+: (\d+\.\d+)",
        analyzed("security", "--offline=true", "--no-pager", unit).stdout,
    )
    assert said
    return float(said[1])


@pytest.mark.parametrize("name", SETTINGS)
def test_has_each_setting(name: str) -> None:
    """None is missing or changed, and there is no other."""
    found = settings((TOP / f"packaging/{name}.service.in").read_text())
    assert {setting: it for setting, it in found.items() if setting not in TOLD} == SETTINGS[name]


def test_ends_silent_clients_and_serves_several() -> None:
    words = dict(zip(command()[1::2], command()[2::2]))
    assert words["--idle"] == "600" and int(words["--workers"]) > 1


@by_analysis
def test_leaves_little_open(tmp_path: Path) -> None:
    """What it leaves open is little by systemd's own count, and more without most of its settings."""
    assert exposure(written(tmp_path, "/usr")) <= MOST_EXPOSURE
    counted = [
        "ProtectClock",
        "ProtectKernelLogs",
        "ProtectHostname",
        "RestrictRealtime",
        "ProtectProc",
        "ProcSubset",
        "PrivateUsers",
        "UMask",
        "SystemCallFilter",
    ]
    without = "|".join(counted)
    assert (
        exposure(written(tmp_path, "/usr", lambda text: re.sub(rf"(?m)^(?:{without})=.*\n", "", text)))
        > MOST_EXPOSURE
    )


@by_analysis
def test_is_read_without_a_word(tmp_path: Path) -> None:
    """systemd reads the unit with no complaint."""
    (tmp_path / "bin").mkdir()
    (tmp_path / "bin/hugetlbd").symlink_to(PROGRAM)
    unit = written(tmp_path, str(tmp_path), lambda text: re.sub(r"(?m)^Documentation=.*\n", "", text))
    ran = analyzed("verify", unit)
    assert (ran.returncode, ran.stderr) == (0, "")


# ---- by hand, under the same limits

ALLOW, KILL = 0x7FFF0000, 0x80000000


def calls_of(name: str) -> set[str]:
    """The system calls of a set of systemd's, with those of the sets in it."""
    lines = [line.strip() for line in analyzed("syscall-filter", "--no-pager", name).stdout.splitlines()[1:]]
    named = [line for line in lines if line and not line.startswith("#")]
    return {it for line in named for it in (calls_of(line) if line.startswith("@") else {line})}


def allowed() -> set[str]:
    """The system calls that both units allow: of the lines, the first adds, and one that begins with ~ takes
    away."""
    calls: set[str] = set()
    for line in COMMON["SystemCallFilter"]:
        taken = {it for name in line.removeprefix("~").split() for it in calls_of(name)}
        calls = calls - taken if line.startswith("~") else calls | taken
    return calls


def filtered(calls: set[str]) -> Callable[[], None]:
    """What leaves a process these system calls: any other ends it. Beside it the limits that a process can
    set for itself."""
    library = ctypes.CDLL("libseccomp.so.2")
    library.seccomp_init.restype = ctypes.c_void_p
    library.seccomp_rule_add.argtypes = [ctypes.c_void_p, ctypes.c_uint32, ctypes.c_int, ctypes.c_uint]
    library.seccomp_load.argtypes = [ctypes.c_void_p]
    numbers = [library.seccomp_syscall_resolve_name(name.encode()) for name in calls]
    rules = library.seccomp_init(KILL)
    # (one that this machine has not is below zero)
    for number in numbers:
        if number >= 0:
            assert library.seccomp_rule_add(rules, ALLOW, number, 0) == 0

    def load() -> None:
        os.umask(0o077)
        files = int(SETTINGS["hugetlbd"]["LimitNOFILE"][0])
        resource.setrlimit(resource.RLIMIT_NOFILE, (files, files))
        if library.seccomp_load(rules) != 0:
            os._exit(99)

    return load


def has_seccomp() -> bool:
    try:
        ctypes.CDLL("libseccomp.so.2")
    except OSError:
        return False
    return which("systemd-analyze") is not None


def served(port: int) -> str:
    """What a client gets that sends the script and the end."""
    with socket.create_connection(("127.0.0.1", port), timeout=SECONDS) as link:
        link.sendall(SCRIPT.encode())
        link.shutdown(socket.SHUT_WR)
        return b"".join(iter(lambda: link.recv(65536), b"")).decode()


by_seccomp = pytest.mark.skipif(not has_seccomp(), reason="libseccomp or systemd-analyze is not here")


@by_seccomp
def test_serves_under_its_limits() -> None:
    """The unit's command serves clients with its system calls, descriptors and environment alone; with one
    set of calls less it does not."""
    words = [re.sub("^7070$", "0", it) for it in command()]
    home = dict([it.split("=") for it in SETTINGS["hugetlbd"]["Environment"]])

    def started(calls: set[str]) -> subprocess.Popen[str]:
        return subprocess.Popen(
            [PROGRAM, *words],
            stdin=subprocess.DEVNULL,
            stdout=subprocess.PIPE,
            text=True,
            env=home,
            preexec_fn=filtered(calls),
        )

    with started(allowed()) as program:
        try:
            assert program.stdout is not None
            port = int(program.stdout.readline().split()[1])
            assert [served(port) for _ in range(20)] == 20 * [REPLIES]
            kept = Path(f"/proc/{program.pid}/status").read_text()
            assert re.search(r"(?m)^Seccomp:\s+2$", kept) and re.search(r"(?m)^NoNewPrivs:\s+1$", kept)
        finally:
            program.kill()
    with started(allowed() - calls_of("@network-io")) as program:
        assert program.wait(SECONDS) == -signal.SIGSYS


@by_seccomp
def test_the_exporter_serves_under_its_limits() -> None:
    """Its unit's command tells the counts with its system calls alone, in little memory and few threads, and
    without network calls it does not."""
    words = [str(TOP / "tools/hugetlbctl"), *command(EXPORTER)]
    words[words.index("--listen") + 1] = "0"
    served = ["serve", "--port", "0", "--sessions", "2", "--workers", "1", "--trace", "0"]
    with subprocess.Popen([PROGRAM, *served], stdout=subprocess.PIPE, text=True) as server:
        assert server.stdout is not None
        words[words.index("--port") + 1] = server.stdout.readline().split()[1]

        def started(calls: set[str]) -> subprocess.Popen[str]:
            return subprocess.Popen(
                [sys.executable, *words],
                stdin=subprocess.DEVNULL,
                stdout=subprocess.PIPE,
                stderr=subprocess.DEVNULL,
                text=True,
                env={"PATH": os.environ["PATH"]},
                preexec_fn=filtered(calls),
            )

        try:
            with started(allowed() - calls_of("@network-io")) as exporter:
                assert exporter.wait(SECONDS) == -signal.SIGSYS
            with started(allowed()) as exporter:
                try:
                    assert exporter.stdout is not None
                    at = exporter.stdout.readline().split()[-1]
                    for _ in range(20):
                        with urllib.request.urlopen(at, timeout=SECONDS) as told:
                            assert b"hugetlb_page_size_bytes 1024" in told.read()
                    status = Path(f"/proc/{exporter.pid}/status").read_text()
                finally:
                    exporter.kill()
        finally:
            server.kill()
    kilobytes, threads = (re.search(rf"(?m)^{name}:\s+(\d+)", status) for name in ("VmHWM", "Threads"))
    limits = SETTINGS["hugetlbd-exporter"]
    assert kilobytes and int(kilobytes[1]) < int(limits["MemoryMax"][0].removesuffix("M")) << 9
    assert threads and int(threads[1]) < int(limits["TasksMax"][0])


# ---- under a systemd of its own

CONTAINER = ["--volatile=yes", "--register=no", "--keep-unit", "--private-network", "--quiet", "--boot"]
FIRST = ["systemd.unit=basic.target", "systemd.wants=hugetlbd.service", "systemd.firstboot=off"]
in_container = pytest.mark.skipif(
    os.geteuid() != 0 or not which("systemd-nspawn") or not which("nsenter"),
    reason="systemd-nspawn is not here, or not for this user",
)


def processes() -> Iterator[tuple[int, int, str]]:
    """Each process with its parent and its first word."""
    for folder in Path("/proc").glob("[0-9]*"):
        try:
            parent = int((folder / "stat").read_text().rpartition(")")[2].split()[1])
            yield int(folder.name), parent, (folder / "cmdline").read_text().split("\0")[0]
        except (OSError, ValueError):
            continue


class Booted:
    """A systemd in a container, with a network and processes of its own, that started the unit."""

    def __init__(self, folder: Path, change: Callable[[str], str] = str) -> None:
        (folder / "opt/bin").mkdir(parents=True)
        shutil.copy(PROGRAM, folder / "opt/bin/hugetlbd")
        unit = written(folder, "/opt/hugetlbd", change)
        # (pytest's own folders are for root alone)
        binds = [
            f"--bind-ro={folder / 'opt'}:/opt/hugetlbd",
            f"--bind-ro={unit}:/run/systemd/system/hugetlbd.service",
        ]
        words = [
            "systemd-nspawn",
            "--directory=/",
            f"--machine=unit{os.getpid()}",
            *CONTAINER,
            *binds,
            *FIRST,
        ]
        self.log = folder / "log"
        with self.log.open("wb") as log:
            self.process = subprocess.Popen(
                words, stdin=subprocess.DEVNULL, stdout=log, stderr=log, start_new_session=True
            )

    def __enter__(self) -> "Booted":
        return self

    def __exit__(self, *_: object) -> None:
        self.process.terminate()
        try:
            self.process.wait(SECONDS)
        except subprocess.TimeoutExpired:
            self.process.kill()
            self.process.wait()

    def pid(self) -> int | None:
        """The program's process, where it runs."""
        found = list(processes())
        below = {self.process.pid}
        for _ in range(6):
            below |= {pid for pid, parent, _ in found if parent in below}
        return next((pid for pid, _, word in found if pid in below and word.endswith("/bin/hugetlbd")), None)

    def replies(self, other_than: int | None = None) -> tuple[int, str]:
        """The process that answered the script, one other than that, and its replies."""
        until, got = time.monotonic() + 2 * SECONDS, ""
        ask = "import socket\nlink = socket.create_connection(('127.0.0.1', 7070), timeout=5)\n"
        ask += f"link.sendall({SCRIPT.encode()!r})\nlink.shutdown(1)\n"
        ask += "print(link.makefile().read(), end='')"
        while time.monotonic() < until:
            if (pid := self.pid()) and pid != other_than:
                ran = subprocess.run(
                    ["nsenter", f"--net=/proc/{pid}/ns/net", sys.executable, "-c", ask],
                    capture_output=True,
                    text=True,
                    timeout=SECONDS,
                )
                got = ran.stdout
                if got:
                    return pid, got
            time.sleep(0.02)
        raise AssertionError(f"nobody answered: {self.log.read_text(errors='replace')[-2000:]}")


@in_container
def test_serves_under_systemd(tmp_path: Path) -> None:
    """systemd starts the unit as it stands, each of its settings is in force on the process, and clients are
    served. However often it is killed, it is there again at once."""
    with Booted(tmp_path) as systemd:
        pid, got = systemd.replies()
        assert got == REPLIES
        folder = Path(f"/proc/{pid}")
        status = dict(
            line.split(":\t", 1) for line in (folder / "status").read_text().splitlines() if ":\t" in line
        )
        assert {
            int(status[name].strip(), 16) for name in ("CapInh", "CapPrm", "CapEff", "CapBnd", "CapAmb")
        } == {0}
        assert [status[name].strip() for name in ("Umask", "NoNewPrivs", "Seccomp")] == ["0077", "1", "2"]
        assert int(status["Uid"].split()[0]) >= 61184
        assert len((folder / "uid_map").read_text().splitlines()) == 2, "no users of its own"
        assert re.search(r"Max open files +1024 +1024 ", (folder / "limits").read_text())
        assert "MALLOC_ARENA_MAX=1" in (folder / "environ").read_text().split("\0")
        mounted = (folder / "mountinfo").read_text()
        assert re.search(r" /proc \S+ .*hidepid=invisible,subset=pid", mounted) and re.search(
            r"(?m) / ro\S* ", mounted
        )
        took = []
        for _ in range(8):
            begun = time.monotonic()
            os.kill(pid, signal.SIGKILL)
            pid, got = systemd.replies(other_than=pid)
            assert got == REPLIES
            took.append(time.monotonic() - begun)
        assert min(took) < 5, took


@in_container
def test_starts_again_after_its_sessions_are_spent(tmp_path: Path) -> None:
    """A user who spends all sessions ends the server with its machine, and it is there again at once, as
    often as they are spent: here two sessions, twelve times."""
    with Booted(tmp_path, lambda text: text.replace("--sessions 65535", "--sessions 2")) as systemd:
        seen: set[int] = set()
        for _ in range(24):
            pid, got = systemd.replies()
            # (each new server has a new machine)
            assert got == REPLIES
            seen.add(pid)
        assert len(seen) == 12
