"""The client tools/hugetlb_session.py against the program, over a pipe and a socket; then what fails."""
import os
import re
import socket
import struct
import subprocess
import sys
import threading
from collections.abc import Callable, Iterator
from contextlib import AbstractContextManager, contextmanager
from pathlib import Path

import hugetlb_session
import pytest
from built import PROGRAM, SECONDS, TOP, Case, Words, cases, each_case
from hugetlb_session import BadLine, Ended, Meminfo, Node, Refused, Session, Stat, Unreadable, Usage

TOO_LONG = "error 22 LineTooLong"
COUNTS = ["Total", "Free", "Rsvd", "Surp"]
LABELS = [*(f"HugePages_{it}" for it in COUNTS), "Hugepagesize", "Hugetlb"]

# What serves a connection, and how a session is had with a program of these words.
Serves = Callable[[socket.socket], object]
Way = Callable[[Words], AbstractContextManager[Session]]


@contextmanager
def listening(serve: Serves) -> Iterator[int]:
    """A port at which each connection is served by a thread, until the end."""
    with socket.create_server(("127.0.0.1", 0)) as server:

        def accepts() -> None:
            while True:
                try:
                    link, _ = server.accept()
                except OSError:
                    return
                threading.Thread(target=serve, args=(link,), daemon=True).start()

        threading.Thread(target=accepts, daemon=True).start()
        yield server.getsockname()[1]
        server.shutdown(socket.SHUT_RDWR)


@contextmanager
def over_pipe(words: Words) -> Iterator[Session]:
    session = Session.over_pipe([PROGRAM, "script", *words], seconds=SECONDS)
    yield session
    assert session.close() == (0, "")


@contextmanager
def over_socket(words: Words) -> Iterator[Session]:
    """A program whose standard input and output are a connection's."""

    def serve(link: socket.socket) -> None:
        with link:
            ends = link.fileno()
            subprocess.run([PROGRAM, "script", *words], stdin=ends, stdout=ends, timeout=3 * SECONDS)

    with listening(serve) as port, Session.over_socket(port, seconds=SECONDS) as session:
        yield session


@contextmanager
def answered_by(answer: bytes | Serves, seconds: float = SECONDS) -> Iterator[Session]:
    """A session with a service that answers whatever comes with these bytes, or as a function does."""

    def serve(link: socket.socket) -> None:
        with link:
            if callable(answer):
                answer(link)
            else:
                link.recv(65536)
                link.sendall(answer)

    with listening(serve) as port, Session.over_socket(port, seconds=seconds) as session:
        yield session


each_way = pytest.mark.parametrize("way", [over_pipe, over_socket], ids=["over_pipe", "over_socket"])


def texts(case: Case) -> Iterator[tuple[str, str]]:
    """The lines of a case that a client can send, with the text of each one's reply."""
    for line, reply in case.lines():
        if line.endswith(b"\n") and not reply.startswith(TOO_LONG.encode()):
            yield line[:-1].decode("latin-1"), reply.decode()


# The method of each command.
METHODS: tuple[Callable[..., object], ...] = (
    Session.connect,
    Session.attach,
    Session.fork,
    Session.exit,
    Session.mount,
    Session.remount,
    Session.umount,
    Session.create,
    Session.unlink,
    Session.truncate,
    Session.punch,
    Session.preallocate,
    Session.read,
    Session.ls,
    Session.stat,
    Session.map,
    Session.anon,
    Session.unmap,
    Session.fault,
    Session.load,
    Session.store,
    Session.nr,
    Session.overcommit,
    Session.meminfo,
    Session.nodes,
    Session.df,
)
BY_NAME = {it.__name__: it for it in METHODS}


def called(session: Session, line: str) -> str:
    """Calls the method that a line names, and writes its value as the reply was."""
    command, *words = line.split(" ")
    arguments: list[object] = [int(word) if word.isdigit() else word for word in words]
    if command == "store":
        arguments[5] = bytes.fromhex(words[5])
    if command in ("map", "anon") and words[-1] == "noreserve":
        arguments[-1] = True
    try:
        return as_text(command, BY_NAME[command](session, *arguments))
    except Refused as refused:
        return f"error {refused.number} {refused.name}\n"


def as_text(command: str, value: object) -> str:
    """A value of the client's as the text that it came from."""
    match value:
        case None:
            lines = ["ok"]
        case int():
            lines = [f"ok {value}"]
        case bytes():
            lines = [f"ok {value.hex()}"]
        case Stat():
            lines = ["ok " + " ".join(map(str, value))]
        case Usage():
            lines = ["ok " + " ".join("-" if number is None else str(number) for number in value)]
        case Meminfo():
            rows = zip(LABELS, value, [*4 * [""], *2 * [" kB"]])
            lines = ["text 6", *(f"{label + ':':16}{number:8}{unit}" for label, number, unit in rows)]
        case list():
            rest = [" ".join(map(str, it)) if isinstance(it, Node) else str(it) for it in value]
            lines = [f"text {len(rest)}", *rest]
        case _:
            raise AssertionError(f"{command} has {value!r}")
    return "".join(line + "\n" for line in lines)


def typed(line: str) -> bool:
    """Whether a method can stand for the line: it has a command, and words that are one each."""
    words = line.split(" ")
    return words[0] in hugetlb_session.VALUES and all(words)


@each_case
def test_runs_cases_by_methods(case: Case) -> None:
    """Each row and example, a line at a time: by its command's method, which gives the reply's value."""
    with over_pipe(case.words) as session:
        for line, reply in texts(case):
            if typed(line) and reply != "error 21 BadLine\n":
                assert called(session, line) == reply, line
            else:
                assert "\n".join(session.reply(line)) + "\n" == reply, line


def test_cases_have_each_command() -> None:
    called = {
        line.split(" ")[0]
        for case in cases()
        for line, reply in texts(case)
        if typed(line) and reply != "error 21 BadLine\n"
    }
    assert called >= set(hugetlb_session.VALUES)


@each_way
@each_case
def test_runs_cases_at_once(case: Case, way: Way) -> None:
    """Each row and example, all lines at once, over a pipe and over a socket."""
    lines, replies = zip(*texts(case))
    with way(case.words) as session:
        got = session.replies(lines)
    assert ["\n".join(reply) + "\n" for reply in got] == list(replies)


@each_way
def test_sends_more_than_pipes_hold(way: Way) -> None:
    """Lines and replies of more bytes than any buffer between the two has."""
    with way([]) as session:
        session.nr(4)
        got = session.many(["meminfo", "connect 1 7", "nr 4"] * 20_000)
        assert (len(got), got[-3:]) == (60_000, [Meminfo(4, 4, 0, 0, 1, 4), Refused(25, "NoSuchNode", ""), 4])


def test_names_refusals() -> None:
    with over_pipe([]) as session:
        with pytest.raises(Refused) as caught:
            session.anon(1, 4, "private")
        error = caught.value
        assert (error.number, error.name, str(error)) == (
            6,
            "NoSuchTask",
            "anon 1 4 private: error 6 NoSuchTask",
        )
        session.connect(1, 0)
        with pytest.raises(Refused) as caught:
            session.anon(1, 4, "private")
        assert caught.value.name == "NoPages"
        assert session.attach(1) == 0


def test_sends_no_broken_lines() -> None:
    """A line feed, a line too long and a word that is two are not sent, and what came before and after them
    is answered."""
    with over_pipe([]) as session:
        broken: list[str | bytes] = ["nr 4\nnr 5", "nr 4\n", b"nr 4\n", "\n"]
        for line in (*broken, 1025 * "a", "a" + 512 * "é"):
            with pytest.raises(BadLine):
                session.reply(line)
        for line in broken:
            with pytest.raises(BadLine):
                session.many(["nr 3", line])
        for name in ("a b", "", "a\nnr 5"):
            with pytest.raises(BadLine):
                session.create(0, name)
        with pytest.raises(BadLine):
            session.store(1, 0, 1, 0, 0, b"")
        assert session.reply(1024 * "a") == ["error 21 BadLine"]
        assert session.meminfo().total == 0


def test_tells_of_wrong_words() -> None:
    """A service that ended before a reply, and what it said."""
    session = Session.over_pipe([PROGRAM, "script", "--slots", "0"], seconds=SECONDS)
    with pytest.raises(Ended) as caught:
        session.meminfo()
    assert "bad value for --slots" in str(caught.value) and "status 2" in str(caught.value)
    assert session.close() == (2, "hugetlbd: bad value for --slots\n")


@pytest.mark.parametrize("answer", [b"", b"ok", b"text 6\nHugePages_Total:       0\n"])
def test_tells_of_ends(answer: bytes) -> None:
    """A service that ended, before or within a reply."""
    with answered_by(answer) as session, pytest.raises(Ended):
        session.meminfo()


def test_tells_of_a_reset() -> None:
    with answered_by(cuts_off) as session, pytest.raises(Ended):
        session.many(["meminfo"] * 50_000)


@pytest.mark.parametrize("first", [b"", b"text 6\n"])
def test_waits_no_longer_than_told(first: bytes) -> None:
    """A service that is silent, at once or within a reply."""
    done = threading.Event()

    def answers_no_more(link: socket.socket) -> None:
        link.sendall(first)
        done.wait(SECONDS)

    with answered_by(answers_no_more, seconds=0.2) as session:
        with pytest.raises(TimeoutError):
            session.meminfo()
        done.set()


def test_waits_no_longer_for_a_service_that_reads_nothing() -> None:
    done = threading.Event()
    with answered_by(lambda link: done.wait(SECONDS), seconds=0.2) as session:
        with pytest.raises(TimeoutError):
            session.many(["meminfo"] * 1_000_000)
        done.set()


def test_takes_replies_in_pieces() -> None:
    """Replies that come a byte at a time, and several in one piece."""

    def piece_by_piece(link: socket.socket) -> None:
        link.setsockopt(socket.IPPROTO_TCP, socket.TCP_NODELAY, 1)
        for byte in b"ok 7\ntext 2\n0 1 2 3\n1 4 5 6\n":
            link.sendall(bytes([byte]))
        link.sendall(b"ok\nok 00ff\nerror 2 NoPages\n")
        link.recv(65536)

    with answered_by(piece_by_piece) as session:
        got = session.many(["nr 7", "nodes", "exit 1", "load 1 0 1 0 0 2", "anon 1 1 private"])
        assert got == [7, [Node(0, 1, 2, 3), Node(1, 4, 5, 6)], None, b"\x00\xff", Refused(2, "NoPages", "")]


@pytest.mark.parametrize(
    "line, answer",
    [
        ("nr 4", b"ok\n"),
        ("nr 4", b"ok four\n"),
        ("exit 1", b"ok 1\n"),
        ("meminfo", b"ok\n"),
        ("meminfo", b"text 1\nx\n"),
        ("df 0", b"ok - 0 0 -\n"),
        ("stat 0 a", b"ok 1 2 3\n"),
        ("load 1 0 1 0 0 1", b"ok 0\n"),
        ("exit 1", b"error NoPages\n"),
        ("exit 1", b"\n"),
        ("nodes", b"text 1\n0 1 2\n"),
        ("no such", b"ok\n"),
    ],
)
def test_refuses_replies_that_are_none(line: str, answer: bytes) -> None:
    with answered_by(answer) as session, pytest.raises(Unreadable):
        session.many([line])


def cuts_off(link: socket.socket) -> None:
    """Waits for some input, and resets the connection."""
    link.recv(1)
    link.setsockopt(socket.SOL_SOCKET, socket.SO_LINGER, struct.pack("ii", 1, 0))


@each_way
def test_waits_for_the_service_to_end(way: Way) -> None:
    with way([]) as session:
        session.nr(4)
        session.end_input()
        assert session.wait_for_end()


def test_tells_of_a_service_that_stays() -> None:
    done = threading.Event()
    with answered_by(lambda link: done.wait(SECONDS), seconds=0.2) as session:
        session.end_input()
        with pytest.raises(TimeoutError):
            session.wait_for_end()
        done.set()


def test_tells_of_a_session_that_was_cut_off() -> None:
    with answered_by(cuts_off) as session:
        session.end_input()
        assert session.wait_for_end() is False


def test_reads_a_reply_after_the_end() -> None:
    def answers_at_the_end(link: socket.socket) -> None:
        while link.recv(65536):
            pass
        link.sendall(b"ok 4\n")

    with answered_by(answers_at_the_end) as session:
        assert session.replies(["nr 4"], are_last=True) == [["ok 4"]]


@each_way
def test_reads_on_after_its_input_ended(way: Way) -> None:
    """A client that says that no more lines come still gets the replies, and sends no more."""
    lines = ["nr 4", *["meminfo"] * 20_000, "nr 5"]
    with way([]) as session:
        got = session.replies(lines, are_last=True)
        assert (len(got), got[0], got[-1]) == (len(lines), ["ok 4"], ["ok 5"])
        with pytest.raises(Ended):
            session.meminfo()
    with way([]) as session:
        session.end_input()
        with pytest.raises(Ended):
            session.meminfo()


def test_runs_the_document(tmp_path: Path) -> None:
    """The program in docs/TUTORIAL.md prints what stands under it."""
    text = (TOP / "docs/TUTORIAL.md").read_text()
    found = re.search(r"```python\n(.*?)```\n\nIt prints:\n\n```text\n(.*?)```\n", text, re.DOTALL)
    assert found, "the tutorial has no program"
    program, printed = found.groups()
    (tmp_path / "hugetlbd").symlink_to(PROGRAM)
    path = {
        "PATH": f"{tmp_path}:{os.environ['PATH']}",
        "PYTHONPATH": str(TOP / "tools"),
        "PYTHONDONTWRITEBYTECODE": "1",
    }
    ran = subprocess.run(
        [sys.executable, "-c", program], capture_output=True, text=True, timeout=SECONDS, env=path
    )
    assert (ran.returncode, ran.stdout, ran.stderr) == (0, printed, "")
