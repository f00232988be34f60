"""A client of hugetlbd: one session, over a pipe to the program or over a socket to a server.

    with Session.over_pipe(["crates/hugetlbd/out/hugetlbd", "script", "--frames", "8"]) as session:
        session.nr(4)
        session.connect(1, 0)
        number = session.anon(1, 2, "private")
        session.store(1, 0, number, 0, 0, b"hello")
        print(session.load(1, 0, number, 0, 0, 5), session.meminfo().rsvd)

A method for each command gives its reply as a value, and raises Refused where it is refused. `many` sends any
number of lines at once. Python's standard library alone.
"""
import errno
import os
import selectors
import socket
import subprocess
from collections.abc import Callable, Iterable, Mapping, Sequence
from dataclasses import dataclass
from types import TracebackType
from typing import Any, NamedTuple, NoReturn

LINE_BYTES = 1024
SECONDS = 20
# A session that has no byte of an answer by then is told of as one that waits.
WAIT_SECONDS = 1.0

# A line to be sent, and the lines of a reply.
Line = str | bytes
Reply = list[str]


class Stat(NamedTuple):
    """What `stat` tells of a file."""

    pages_long: int
    pages: int
    entries: int
    maps: int


class Usage(NamedTuple):
    """What `df` tells of a mount."""

    limit: int | None
    minimum: int
    used: int
    inodes: int | None
    files: int


class Meminfo(NamedTuple):
    """What `meminfo` tells of the pool."""

    total: int
    free: int
    rsvd: int
    surp: int
    page_kilobytes: int
    kilobytes: int


class Node(NamedTuple):
    """What `nodes` tells of one node."""

    node: int
    total: int
    free: int
    surp: int


class Refused(Exception):
    """A refusal: its number, its name, and the line that was refused."""

    def __init__(self, number: int, name: str, line: Line) -> None:
        super().__init__(f"{line!s}: error {number} {name}")
        self.number, self.name, self.line = number, name, line

    def __eq__(self, other: object) -> bool:
        return isinstance(other, Refused) and (self.number, self.name) == (other.number, other.name)

    def __hash__(self) -> int:
        return hash((self.number, self.name))


class BadLine(ValueError):
    """A line that is not sent.

    It holds a line feed, is too long, or one of its words is empty or has a space.
    """


class Ended(Exception):
    """The service ended, or closed the session, before it had answered."""


class Unreadable(Exception):
    """A reply that is none of the protocol's for its line."""


# ---- the language of lines


def done(_: Reply, first: str, more: Reply) -> None:
    if (first, more) != ("ok", []):
        raise ValueError


def number(_: Reply, first: str, more: Reply) -> int:
    (text,) = more if first == "ok" else ()
    return int(text)


def data(_: Reply, first: str, more: Reply) -> bytes:
    (text,) = more if first == "ok" else ()
    return bytes.fromhex(text)


def stat(_: Reply, first: str, more: Reply) -> Stat:
    return Stat(*map(int, more if first == "ok" else ()))


def limit_of(text: str) -> int | None:
    return None if text == "-" else int(text)


def usage(_: Reply, first: str, more: Reply) -> Usage:
    limit, minimum, used, inodes, files = more if first == "ok" else ()
    return Usage(limit_of(limit), int(minimum), int(used), limit_of(inodes), int(files))


def text(reply: Reply, first: str, more: Reply) -> Reply:
    if first != "text" or more != [str(len(reply) - 1)]:
        raise ValueError
    return reply[1:]


def meminfo(reply: Reply, first: str, more: Reply) -> Meminfo:
    return Meminfo(*(int(line.split(":")[1].removesuffix(" kB")) for line in text(reply, first, more)))


def nodes(reply: Reply, first: str, more: Reply) -> list[Node]:
    return [Node(*map(int, line.split(" "))) for line in text(reply, first, more)]


@dataclass(frozen=True)
class Form:
    """A command of the protocol: the places of its words, what it does, and how its reply is read."""

    words: str
    what: str
    value: Callable[[Reply, str, Reply], Any] = done

    @property
    def places(self) -> list[str]:
        return self.words.split()


FORMS = {
    "connect": Form("T H", "adds a task with its home node"),
    "attach": Form("T", "prints a task's home node", number),
    "fork": Form("T C", "makes C a copy of T, with copies of its maps that own nothing"),
    "exit": Form("T", "ends a task and its maps"),
    "mount": Form(
        "S OPTIONS", "mounts a slot; OPTIONS is - or size=, min_size= and nr_inodes= joined by commas"
    ),
    "remount": Form("S OPTIONS", "sets a mount's limits anew; an option that is not given sets none"),
    "umount": Form("S", "ends a mount without maps"),
    "create": Form("S NAME", "makes an empty file"),
    "unlink": Form("S NAME", "removes a file's name; the file's pages go with its last map"),
    "truncate": Form("S NAME N", "sets a file's length"),
    "punch": Form("S NAME A E", "gives the pages of a range back"),
    "preallocate": Form("S NAME A E", "gives each index of a range a page; if pages are too few, gives none"),
    "read": Form("S NAME I O K", "reads bytes of a file; a hole reads as zeros", data),
    "ls": Form("S", "lists the files, the oldest first", text),
    "stat": Form("S NAME", "prints a file's length, pages, entered indices and maps", stat),
    "map": Form("T S NAME A N shared|private [noreserve]", "maps N pages of a file from A on", number),
    "anon": Form(
        "T N shared|private [noreserve]", "makes a file without name in slot 0, and maps it whole", number
    ),
    "unmap": Form("T S M A E", "unmaps a range"),
    "fault": Form("T S M I read|write", "ensures that index I has a page"),
    "load": Form("T S M I O K", "reads bytes through a map", data),
    "store": Form("T S M I O HEX", "writes bytes through a map"),
    "nr": Form("N", "sets the number of persistent pages", number),
    "overcommit": Form("N", "limits the surplus pages that may be made"),
    "meminfo": Form("", "prints the pool's counts", meminfo),
    "nodes": Form("", "prints each node's counts", nodes),
    "df": Form("S", "prints limit, minimum, pages used or reserved, limit of files, files", usage),
}
VALUES = {command: form.value for command, form in FORMS.items()}


def line_of(*words: object) -> str:
    """A line of words. A word that is empty or holds a space would make another line, and is not taken."""
    texts = [str(word) for word in words]
    for word in texts:
        if not word or " " in word:
            raise BadLine(f"a word of a line can't be {word!r}")
    return " ".join(texts)


def sendable(line: Line) -> bytes:
    """The bytes of a line with its end."""
    sent = line if isinstance(line, bytes) else line.encode()
    if b"\n" in sent:
        raise BadLine("a line can't hold a line feed")
    if len(sent) > LINE_BYTES:
        raise BadLine(f"a line has at most {LINE_BYTES:,} bytes, and this one {len(sent):,}")
    return sent + b"\n"


def value_of(line: Line, reply: Reply) -> Any:
    """What a reply says, its lines given: a value, or a Refused."""
    command = (line.decode("latin-1") if isinstance(line, bytes) else line).split(" ")[0]
    first, *more = reply[0].split(" ")
    try:
        if first == "error":
            number, name = more
            return Refused(int(number), name, line)
        return VALUES[command](reply, first, more)
    except (KeyError, ValueError, IndexError, TypeError):
        raise Unreadable(f"{line!s}: {reply}") from None


class Session:
    """Lines out and replies in, over two descriptors; `over_pipe` and `over_socket` make one.

    `on_wait` is called once if no byte comes within a second of the first line.
    """

    def __init__(
        self,
        reads: int,
        writes: int,
        program: subprocess.Popen[bytes] | None = None,
        link: socket.socket | None = None,
        seconds: float = SECONDS,
        on_wait: Callable[[], None] | None = None,
    ) -> None:
        self._reads = reads
        self._writes: int | None = writes
        self._program, self._link, self._seconds, self._on_wait = program, link, seconds, on_wait
        self._left = ""
        self._lines: list[str] = []
        os.set_blocking(reads, False)
        os.set_blocking(writes, False)

    @classmethod
    def over_pipe(
        cls, words: Sequence[Any], seconds: float = SECONDS, environment: Mapping[str, str] | None = None
    ) -> "Session":
        """Starts the program with these words, and speaks with it over its standard input and output."""
        # (a session of its own: Ctrl-C at a prompt is for the prompt)
        program = subprocess.Popen(
            words,
            bufsize=0,
            env=environment,
            start_new_session=True,
            stdin=subprocess.PIPE,
            stdout=subprocess.PIPE,
            stderr=subprocess.PIPE,
        )
        assert program.stdin and program.stdout
        return cls(program.stdout.fileno(), program.stdin.fileno(), program=program, seconds=seconds)

    @classmethod
    def over_socket(
        cls,
        port: int,
        host: str = "127.0.0.1",
        seconds: float = SECONDS,
        on_wait: Callable[[], None] | None = None,
    ) -> "Session":
        """Opens a session with the server that listens there."""
        link = socket.create_connection((host, port), timeout=seconds)
        link.setsockopt(socket.IPPROTO_TCP, socket.TCP_NODELAY, 1)
        return cls(link.fileno(), link.fileno(), link=link, seconds=seconds, on_wait=on_wait)

    def __enter__(self) -> "Session":
        return self

    def __exit__(
        self, kind: type[BaseException] | None, error: BaseException | None, trace: TracebackType | None
    ) -> None:
        self.close()

    # ---- lines and replies as text

    def replies(self, lines: Sequence[Line], are_last: bool = False) -> list[Reply]:
        """Sends the lines, however many, and answers each one's reply as a list of its lines.

        It reads while it writes, so that neither side waits for the other with both buffers full. With
        `are_last` it ends the input once the lines are sent, and reads on.
        """
        if self._writes is None:
            raise Ended("the input was ended")
        return self._exchange(b"".join(map(sendable, lines)), len(lines), are_last)

    def reply(self, line: Line) -> Reply:
        return self.replies([line])[0]

    def many(self, lines: Iterable[Line]) -> list[Any]:
        """Sends the lines at once, and answers the values; a refused line has its Refused in its place."""
        listed = list(lines)
        return [value_of(line, reply) for line, reply in zip(listed, self.replies(listed))]

    def ask(self, *words: object) -> Any:
        """One line of these words, and its value; raises Refused."""
        line = line_of(*words)
        value = value_of(line, self.reply(line))
        if isinstance(value, Refused):
            raise value
        return value

    # ---- the commands

    def connect(self, task: int, home: int = 0) -> None:
        self.ask("connect", task, home)

    def attach(self, task: int) -> int:
        return int(self.ask("attach", task))

    def fork(self, task: int, child: int) -> None:
        self.ask("fork", task, child)

    def exit(self, task: int) -> None:
        self.ask("exit", task)

    def mount(self, slot: int, options: str = "-") -> None:
        self.ask("mount", slot, options)

    def remount(self, slot: int, options: str = "-") -> None:
        self.ask("remount", slot, options)

    def umount(self, slot: int) -> None:
        self.ask("umount", slot)

    def create(self, slot: int, name: str) -> None:
        self.ask("create", slot, name)

    def unlink(self, slot: int, name: str) -> None:
        self.ask("unlink", slot, name)

    def truncate(self, slot: int, name: str, pages: int) -> None:
        self.ask("truncate", slot, name, pages)

    def punch(self, slot: int, name: str, first: int, end: int) -> None:
        self.ask("punch", slot, name, first, end)

    def preallocate(self, slot: int, name: str, first: int, end: int) -> None:
        self.ask("preallocate", slot, name, first, end)

    def read(self, slot: int, name: str, index: int, offset: int, count: int) -> bytes:
        return bytes(self.ask("read", slot, name, index, offset, count))

    def ls(self, slot: int) -> list[str]:
        return list(self.ask("ls", slot))

    def stat(self, slot: int, name: str) -> Stat:
        return Stat(*self.ask("stat", slot, name))

    def map(
        self, task: int, slot: int, name: str, first: int, pages: int, kind: str, noreserve: bool = False
    ) -> int:
        return int(self.ask("map", task, slot, name, first, pages, kind, *["noreserve"][:noreserve]))

    def anon(self, task: int, pages: int, kind: str, noreserve: bool = False) -> int:
        return int(self.ask("anon", task, pages, kind, *["noreserve"][:noreserve]))

    def unmap(self, task: int, slot: int, number: int, first: int, end: int) -> None:
        self.ask("unmap", task, slot, number, first, end)

    def fault(self, task: int, slot: int, number: int, index: int, access: str) -> None:
        self.ask("fault", task, slot, number, index, access)

    def load(self, task: int, slot: int, number: int, index: int, offset: int, count: int) -> bytes:
        return bytes(self.ask("load", task, slot, number, index, offset, count))

    def store(self, task: int, slot: int, number: int, index: int, offset: int, data: bytes) -> None:
        self.ask("store", task, slot, number, index, offset, data.hex())

    def nr(self, pages: int) -> int:
        return int(self.ask("nr", pages))

    def overcommit(self, pages: int) -> None:
        self.ask("overcommit", pages)

    def meminfo(self) -> Meminfo:
        return Meminfo(*self.ask("meminfo"))

    def nodes(self) -> list[Node]:
        return list(self.ask("nodes"))

    def df(self, slot: int) -> Usage:
        return Usage(*self.ask("df", slot))

    # ---- the end

    def end_input(self) -> None:
        """Says that no more lines come; to read replies after it, `replies` has `are_last`.

        A session that was reset before is a ConnectionError.
        """
        if self._link:
            try:
                self._link.shutdown(socket.SHUT_WR)
            except OSError as error:
                # (Python has no ConnectionError for this number)
                if error.errno == errno.ENOTCONN:
                    raise ConnectionResetError(*error.args) from None
                raise
        elif self._program and self._program.stdin:
            self._program.stdin.close()
            self._program.stdin = None
        self._writes = None

    def wait_for_end(self) -> bool:
        """Waits until the service has ended the session too, and drops what it still sends.

        Answers whether it was ended, and not cut off.
        """
        while self._ready(False)[0]:
            try:
                if not os.read(self._reads, 65536):
                    return True
            except ConnectionError:
                return False
        raise TimeoutError(f"the service did not end in {self._seconds} seconds")

    def close(self) -> tuple[int, str] | None:
        """Ends the session. Over a pipe: the program's status, and what it said on standard error."""
        if self._link:
            self._link.close()
        if self._program is None:
            return None
        try:
            _, faults = self._program.communicate(timeout=self._seconds)
        except subprocess.TimeoutExpired:
            self._program.kill()
            self._program.communicate()
            raise TimeoutError("the program did not end with its input") from None
        return self._program.returncode, faults.decode(errors="replace")

    # ---- bytes

    def _exchange(self, sent: bytes, wanted: int, are_last: bool) -> list[Reply]:
        replies: list[Reply] = []
        at = 0
        while True:
            if are_last and at == len(sent) and self._writes is not None:
                self.end_input()
            replies += self._whole_replies(wanted - len(replies))
            if len(replies) == wanted and at == len(sent):
                return replies
            can_read, can_write = self._ready(at < len(sent))
            if not can_read and not can_write:
                left = wanted - len(replies)
                raise TimeoutError(
                    f"{left:,} {'reply' if left == 1 else 'replies'} did not come in {self._seconds} seconds"
                )
            if can_write:
                at += self._write(sent[at : at + 65536])
            if can_read:
                self._read()

    def _ready(self, has_more: bool) -> tuple[bool, bool]:
        """Waits until there is something to read, or room to write where there is more to write."""
        with selectors.DefaultSelector() as selector:
            wanted = {self._reads: selectors.EVENT_READ}
            if has_more and self._writes is not None:
                wanted[self._writes] = wanted.get(self._writes, 0) | selectors.EVENT_WRITE
            for descriptor, events in wanted.items():
                selector.register(descriptor, events)
            found = self._selected(selector)
        return bool(found & selectors.EVENT_READ), bool(found & selectors.EVENT_WRITE)

    def _selected(self, selector: selectors.BaseSelector) -> int:
        """What is ready in time; a first answer that is late is told of, once."""
        left = self._seconds
        found = []
        if self._on_wait and WAIT_SECONDS < left:
            found = selector.select(WAIT_SECONDS)
            left -= WAIT_SECONDS
            if not found:
                self._on_wait()
                self._on_wait = None
        if not found:
            found = selector.select(left)
        seen = 0
        for _, events in found:
            seen |= events
        return seen

    def _write(self, sent: bytes) -> int:
        assert self._writes is not None
        try:
            return os.write(self._writes, sent)
        except BlockingIOError:
            return 0
        except (BrokenPipeError, ConnectionError):
            self._raise_ended()

    def _read(self) -> None:
        try:
            more = os.read(self._reads, 65536)
        except BlockingIOError:
            return
        except ConnectionError:
            more = b""
        if not more:
            self._raise_ended()
        self._on_wait = None
        *lines, self._left = (self._left + str(more, "latin-1")).split("\n")
        self._lines += lines

    def _whole_replies(self, most: int) -> list[Reply]:
        """Takes the replies that are there with all of their lines, at most so many."""
        replies: list[Reply] = []
        at, lines, end = 0, self._lines, len(self._lines)
        while len(replies) < most and at < end:
            first = lines[at]
            more = int(first[5:]) if first[:5] == "text " and first[5:].isdigit() else 0
            if at + more >= end:
                break
            replies.append(lines[at : at + 1 + more])
            at += 1 + more
        del lines[:at]
        return replies

    def _raise_ended(self) -> NoReturn:
        raise Ended(self._last_words()) from None

    def _last_words(self) -> str:
        if self._program is None:
            return "the server closed the session"
        try:
            _, faults = self._program.communicate(timeout=self._seconds)
        except (subprocess.TimeoutExpired, ValueError):
            return "the program closed its output"
        said = faults.decode(errors="replace").strip()
        return f"the program ended with status {self._program.returncode}: {said}"
