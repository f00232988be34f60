"""A race of sessions on a server: what they send, what comes back, and what explains it.

The folders of the reference machine and of by_events.py must be on Python's path.
"""
import os
import random
import select
import socket
import subprocess
import time
from collections.abc import Iterator
from contextlib import contextmanager
from pathlib import Path

import wire
from by_events import ByEvents
from lines import Shape, Writer, shape
from search import Line, Search, differing, machine_of, twin_of

SECONDS = 60
PROCESSORS = os.sched_getaffinity(0)
# A line that reads nothing and changes nothing, wherever it comes, and its reply.
IDLE, IDLE_REPLY = "df 99", b"error 8 NoSuchSlot\n"
MOST_IDLE, HEAD_START = (0, 20, 80), 25


class Lost(Exception):
    """Why a race has no replies that could be explained."""


def sendable(lines: list[str]) -> bytes:
    return "".join(f"{line}\n" for line in lines).encode()


class Link:
    """A session: lines out, and the bytes of each whole reply in."""

    def __init__(self, port: int) -> None:
        self.socket = socket.create_connection(("127.0.0.1", port), timeout=SECONDS)
        self.socket.setsockopt(socket.IPPROTO_TCP, socket.TCP_NODELAY, 1)
        self.left = b""

    def come(self) -> list[bytes]:
        """The replies that have come whole; it waits for more bytes."""
        more = self.socket.recv(1 << 20)
        if not more:
            raise Lost("the server closed a session")
        *lines, self.left = (self.left + more).split(b"\n")
        whole, at = list[bytes](), 0
        while at < len(lines):
            count = int(lines[at][5:]) if lines[at].startswith(b"text ") else 0
            if at + count >= len(lines):
                break
            whole.append(b"".join(line + b"\n" for line in lines[at : at + 1 + count]))
            at += 1 + count
        self.left = b"".join(line + b"\n" for line in lines[at:]) + self.left
        return whole

    def replies(self, lines: list[str]) -> list[bytes]:
        """Sends the lines at once, and waits for the replies to all of them."""
        self.socket.sendall(sendable(lines))
        come: list[bytes] = []
        while len(come) < len(lines):
            come += self.come()
        return come


class Racer:
    """A session's part in a race: what it sent, and when, and what came. Each line has so many idle ones
    before it."""

    def __init__(self, link: Link, lines: list[str], idle: list[int], is_at_once: bool) -> None:
        self.link = link
        self.sent: list[int] = []
        self.come: list[tuple[int, bytes]] = []
        told = [(line, is_idle) for line, count in zip(lines, idle) for is_idle in [True] * count + [False]]
        self.lines = [IDLE if is_idle else line for line, is_idle in told]
        self.is_idle = [is_idle for _, is_idle in told]
        parts = [self.lines] if is_at_once else [[line] for line in self.lines]
        self.parts = [(len(part), sendable(part)) for part in reversed(parts)]

    def send_more(self) -> None:
        """Sends what is to be sent once all before it is answered."""
        count, data = self.parts.pop()
        self.sent += [time.monotonic_ns()] * count
        self.link.socket.sendall(data)

    def read_more(self) -> bool:
        """Takes the replies that came, and sends more where none is out. Whether the session goes on."""
        come = self.link.come()
        now = time.monotonic_ns()
        self.come += [(now, reply) for reply in come]
        if len(self.come) == len(self.sent) < len(self.lines):
            self.send_more()
        return len(self.come) < len(self.lines)

    def told(self) -> list[tuple[str, int, int, bytes]]:
        """Each line with its time of sending, that of its reply and the reply, without the idle ones."""
        if any(is_idle and reply != IDLE_REPLY for is_idle, (_, reply) in zip(self.is_idle, self.come)):
            raise Lost(f"an idle line was answered otherwise: {self.come}")
        told = zip(self.is_idle, self.lines, self.sent, self.come, strict=True)
        return [(line, sent, *come) for is_idle, line, sent, come in told if not is_idle]


def race(racers: list[Racer]) -> None:
    """Lets all send at once, until all is answered."""
    poll = select.poll()
    by_number = {racer.link.socket.fileno(): racer for racer in racers}
    for number in by_number:
        poll.register(number, select.POLLIN)
    for racer in racers:
        racer.send_more()
    while by_number:
        ready = poll.poll(1000 * SECONDS)
        if not ready:
            raise Lost("no reply came")
        for number, _ in ready:
            if not by_number[number].read_more():
                poll.unregister(number)
                del by_number[number]


def idle_lines(dice: random.Random, scripts: list[list[str]]) -> Iterator[list[int]]:
    """How many idle lines stand before each line; more before the first one of an early session."""
    most = dice.choice(MOST_IDLE)
    for later, script in zip(reversed(range(len(scripts))), scripts):
        yield [dice.randint(0, HEAD_START) + HEAD_START * later, *(dice.randint(0, most) for _ in script[1:])]


class Round:
    """A race, with what was sent before and after it, and all replies.

    Once `fault` found nothing, `mixed` has "line" where no order of whole lines explains them, and "session"
    where none of whole sessions does.
    """

    def __init__(self, program: Path, name: str) -> None:
        dice = random.Random(name)
        self.shape = shape(dice)
        writer = Writer(dice, self.shape)
        self.setup, self.scripts, self.closing = list(writer.setup()), writer.race(), list(writer.closing())
        self.is_at_once = dice.random() < 0.5
        self.idle = (
            list(idle_lines(dice, self.scripts))
            if self.is_at_once
            else [[0] * len(script) for script in self.scripts]
        )
        with served(program, self.shape, len(self.scripts)) as (process, port):
            self.run(process, port)

    def run(self, process: int, port: int) -> None:
        first = Link(port)
        self.setup_replies = first.replies(self.setup)
        first.socket.close()
        links = [Link(port) for _ in self.scripts]
        for link in links:
            link.replies([IDLE])
        spread(process)
        racers = [
            Racer(link, script, idle, self.is_at_once)
            for link, script, idle in zip(links, self.scripts, self.idle)
        ]
        race(racers)
        last = Link(port)
        self.closing_replies = last.replies(self.closing)
        for link in (*links, last):
            link.socket.close()
        self.sessions = [
            [
                Line(wire.step_of_line(line.encode()), sent, come, reply)
                for line, sent, come, reply in it.told()
            ]
            for it in racers
        ]

    def fault(self) -> str | None:
        """What the reference machine does not explain; None where it explains all."""
        machine, self.search = machine_of(self.shape), self.search_for("event")
        self.mixed: set[str] = set()
        fault = differing(machine, [line.encode() for line in self.setup], self.setup_replies)
        if fault:
            return "before the race {!r} has by the reference machine {!r}, and {!r} came".format(*fault)
        if not self.search.explains(machine):
            return f"no order of events explains it{self.last}"
        self.mixed = {whole for whole in ("line", "session") if not self.search_for(whole).explains(machine)}
        return None

    def search_for(self, whole: str) -> Search:
        closing, self.last = [line.encode() for line in self.closing], ""

        def closes(reached: ByEvents) -> bool:
            other = differing(twin_of(reached), closing, self.closing_replies)
            if other:
                line, wanted, came = other
                self.last = f": after one that gives all replies, {line!r} has {wanted!r}, and {came!r} came"
            return other is None

        return Search(self.sessions, closes, whole)

    def overlapping(self) -> int:
        """How many lines were out while one of another session was."""
        count = 0
        for lines in self.sessions:
            others = [other for it in self.sessions if it is not lines for other in it]
            count += sum(any(is_beside(line, other) for other in others) for line in lines)
        return count

    def told(self, fault: str) -> Iterator[str]:
        """The round, to be read by who looks for the fault."""
        begin = min(line.sent for lines in self.sessions for line in lines)
        yield fault
        yield f"{self.shape}; before the race:"
        yield from (
            f"    {line}: {reply.decode().rstrip()}" for line, reply in zip(self.setup, self.setup_replies)
        )
        for number, (script, lines) in enumerate(zip(self.scripts, self.sessions)):
            yield f"session {number}, microseconds from its sending to its reply:"
            for text, line in zip(script, lines):
                times = f"{(line.sent - begin) / 1000:.1f} to {(line.replied - begin) / 1000:.1f}"
                yield f"    {times}: {text}: {line.reply.decode().rstrip()}"
        yield "after it:"
        yield from (
            f"    {line}: {reply.decode().rstrip()}"
            for line, reply in zip(self.closing, self.closing_replies)
        )


def is_beside(one: Line, other: Line) -> bool:
    return one.sent <= other.replied and other.sent <= one.replied


def spread(process: int) -> None:
    """Gives the server's threads processors by turns, and this program one of its own, so all run at once."""
    mine, *others = sorted(PROCESSORS)
    if others:
        os.sched_setaffinity(0, {mine})
        for at, thread in enumerate(os.listdir(f"/proc/{process}/task")):
            os.sched_setaffinity(int(thread), {others[at % len(others)]})


@contextmanager
def served(program: Path, shape: Shape, racers: int) -> Iterator[tuple[int, int]]:
    """A server for a race's sessions, one before and one after them: its process and its port.

    It must end by itself, and well.
    """
    frames, sessions = ",".join(map(str, shape.frames)), racers + 2
    words = f"serve --port 0 --sessions {sessions} --workers {sessions} --trace 0"
    words += f" --frames {frames} --page {shape.page} --slots {shape.slots}"
    server = subprocess.Popen(
        [program, *words.split()], stdout=subprocess.PIPE, stderr=subprocess.PIPE, text=True
    )
    assert server.stdout
    try:
        if not select.select([server.stdout], [], [], SECONDS)[0]:
            raise Lost("no port was printed")
        yield server.pid, int(server.stdout.readline().split()[1])
        _, faults = server.communicate(timeout=SECONDS)
    finally:
        server.kill()
        server.wait()
    if server.returncode or faults:
        raise Lost(f"the server's status was {server.returncode}, and it said {faults!r}")
