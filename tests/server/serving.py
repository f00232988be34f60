"""`hugetlbd serve` as its clients use it.

Each server has a port that the system chooses, and whatever is started here is ended here.
"""
import os
import resource
import select
import signal
import socket
import subprocess
import time
from collections.abc import Callable, Mapping, Sequence
from concurrent.futures import ThreadPoolExecutor
from pathlib import Path
from types import TracebackType
from typing import IO

from built import SECONDS, Words

from hugetlb_session import Session

LABELS = ["HugePages_Total", "HugePages_Free", "HugePages_Rsvd", "HugePages_Surp", "Hugepagesize", "Hugetlb"]
# A session that must stay served has its reply by then, whatever others do. What holds it up for good is no
# quicker, so this is generous for a slow machine.
PROMPT = 8

# lines, and places of trails
MANY = 500

# What a program is done to before it starts.
Prepare = Callable[[], None]


def words_of(sessions: int, workers: int, trace: int, words: Sequence[str] = (), port: int = 0) -> list[str]:
    numbers = {"port": port, "sessions": sessions, "workers": workers, "trace": trace}
    given = [word for name, number in numbers.items() for word in (f"--{name}", str(number))]
    return ["serve", *given, *words]


def end_group(program: "subprocess.Popen[str] | subprocess.Popen[bytes]") -> None:
    """Ends a program that still runs, and what it runs under."""
    if program.poll() is None:
        os.killpg(program.pid, signal.SIGKILL)


class Server:
    """A server that was started.

    At the end of a `with` it has served its sessions, and has ended as it must: status 0, `audit ok` where
    trails are kept, and six lines.
    """

    def __init__(
        self,
        program: Path,
        sessions: int,
        workers: int,
        words: Sequence[str] = (),
        trace: int = 0,
        under: Sequence[str] = (),
        prepared: Prepare | None = None,
    ) -> None:
        self.sessions, self.trace, self.opened = sessions, trace, 0
        # how long its end may take
        self.seconds = SECONDS
        self.program = subprocess.Popen(
            [*under, program, *words_of(sessions, workers, trace, words)],
            stdin=subprocess.DEVNULL,
            stdout=subprocess.PIPE,
            stderr=subprocess.PIPE,
            text=True,
            preexec_fn=prepared,
            start_new_session=True,
        )
        assert self.program.stdout
        if not select.select([self.program.stdout], [], [], SECONDS)[0]:
            self.kill()
            raise AssertionError("no port was printed")
        line = self.program.stdout.readline()
        if not line.startswith("port "):
            end_group(self.program)
            raise AssertionError(f"{line!r} was printed, and {self.program.communicate()[1]!r}")
        self.port = int(line.split()[1])

    def __enter__(self) -> "Server":
        return self

    def __exit__(
        self, kind: type[BaseException] | None, error: BaseException | None, trace: TracebackType | None
    ) -> None:
        try:
            if kind is None:
                self.ends()
        finally:
            self.kill()

    def kill(self) -> None:
        end_group(self.program)
        self.program.communicate()

    def session(self, seconds: float = SECONDS) -> Session:
        self.opened += 1
        session: Session = Session.over_socket(self.port, seconds=seconds)
        return session

    def link(self) -> socket.socket:
        """A connection as a peer has it that is no good client."""
        self.opened += 1
        return socket.create_connection(("127.0.0.1", self.port), timeout=SECONDS)

    def ends(self) -> None:
        """Opens and closes the sessions that are left, and looks at the server's end."""
        for _ in range(self.sessions - self.opened):
            self.link().close()
        output, faults = self.program.communicate(timeout=self.seconds)
        lines = output.splitlines()
        audited = ["audit ok"] if self.trace else []
        labels = [line.split(":")[0] for line in lines]
        assert (self.program.returncode, faults, labels) == (0, "", [*audited, *LABELS])
        total, free, rsvd, surp = (int(line.split()[1]) for line in lines[len(audited) :][:4])
        assert (free, rsvd, surp) == (total, 0, 0)

    def descriptors(self) -> int:
        """How many descriptors it has open."""
        return len(list(Path(f"/proc/{self.program.pid}/fd").iterdir()))

    def descriptors_reach(self, count: int) -> None:
        """Waits until it has so many descriptors open."""
        until = time.monotonic() + SECONDS
        while self.descriptors() < count and time.monotonic() < until:
            time.sleep(0.01)
        assert self.descriptors() == count


Serve = Callable[..., Server]


def ended(
    program: Path,
    words: Sequence[str],
    under: Sequence[str] = (),
    stdout: int | IO[bytes] | None = None,
    environment: Mapping[str, str] | None = None,
) -> tuple[int, bytes]:
    """Status and standard error of a program that ends by itself."""
    with subprocess.Popen(
        [*under, program, *words],
        stdin=subprocess.DEVNULL,
        stdout=stdout,
        stderr=subprocess.PIPE,
        env=environment,
        start_new_session=True,
    ) as started:
        try:
            _, faults = started.communicate(timeout=SECONDS)
        finally:
            end_group(started)
    return started.returncode, faults


def outcome_of(program: Path, script: bytes, words: Words = ()) -> bytes:
    """What the program answers to this as a script."""
    ran = subprocess.run(
        [program, "script", *words], input=script, stdout=subprocess.PIPE, check=True, timeout=SECONDS
    )
    return ran.stdout


def at_once(sessions: Sequence[Session], lines: Sequence[list[str]]) -> list[list[object]]:
    """What each session is answered to its lines, where all send them at once."""

    def sends(session: Session, sent: list[str]) -> list[object]:
        replies: list[object] = session.many(sent)
        return replies

    with ThreadPoolExecutor(len(sessions)) as pool:
        return list(pool.map(sends, sessions, lines))


def few_descriptors(count: int) -> Prepare:
    """What gives a program so many descriptors."""
    return lambda: resource.setrlimit(resource.RLIMIT_NOFILE, (count, count))


def failing(calls: str, how: str) -> list[str]:
    """The words by which these calls of a program fail as strace injects it."""
    return [
        *"strace -f -qq -o /dev/null".split(),
        "-e",
        f"trace={calls}",
        "-e",
        f"inject={calls}:error={how}",
    ]


def cut(link: socket.socket) -> None:
    """Resets a connection."""
    link.setsockopt(socket.SOL_SOCKET, socket.SO_LINGER, b"\1\0\0\0\0\0\0\0")
    link.close()


def rest_of(link: socket.socket) -> bytes:
    """All that comes until the other side ends."""
    return b"".join(iter(lambda: link.recv(65536), b""))


def whole_replies(link: socket.socket, script: bytes) -> bytes:
    """Sends a script and the end, and answers all that comes."""
    link.sendall(script)
    link.shutdown(socket.SHUT_WR)
    return rest_of(link)


def hundreds_come_and_go(server: Server, count: int) -> None:
    """So many times a hundred connections stand at once, behind a session that is served.

    Each second one of them is closed, and the others are reset.
    """
    for turn in range(count):
        with server.session() as session:
            assert session.nr(turn % 8) == turn % 8, f"a session after {100 * turn} connections"
        links = [server.link() for _ in range(100)]
        for at, link in enumerate(links):
            cut(link) if at % 2 else link.close()
