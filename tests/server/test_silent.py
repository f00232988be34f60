"""Clients that have gone or are silent: what they cost, and when their sessions end.

A test that looks at times has five tries, of which one must hold: other work on the machine makes a right
server late now and then, and a wrong one is late each time.
"""
import select
import signal
import socket
import time
from contextlib import suppress
from pathlib import Path

import pytest
from built import SECONDS, text_of
from serving import Serve, Server, cut

SLOTS, MAPS, TRIES = 8, 2000, 5
# Seconds of work after a client has gone, beside the line that is being done.
MOST_WORK = 0.05
# Rounds of a fork and an exit. The first replies are there after this share of all, and of the time.
ROUNDS, MOST_AT_FIRST = 100, 0.3


def worked(server: Server) -> float:
    """Seconds of processor time that the server has had."""
    threads = Path(f"/proc/{server.program.pid}/task").iterdir()
    return sum(int((it / "schedstat").read_text().split()[0]) for it in threads) / 1e9


def rests(server: Server) -> float:
    """Waits until the server works no more, and tells the time that it has had."""
    before, until = -1.0, time.monotonic() + 3 * SECONDS
    while (now := worked(server)) > before and time.monotonic() < until:
        before = now
        time.sleep(0.25)
    return now


def prepared(link: socket.socket) -> None:
    """Task 1 with many maps on each slot."""
    files = [f"create {slot} a" for slot in range(SLOTS)]
    lines = [*(f"mount {slot} -" for slot in range(1, SLOTS)), "connect 1 0", *files]
    lines += [f"map 1 {slot} a 0 1 shared noreserve" for slot in range(SLOTS) for _ in range(MAPS)]
    answered(link, lines)


def waited(link: socket.socket, count: int) -> None:
    """Waits for so many replies of one line."""
    while count > 0:
        got = link.recv(65536)
        assert got, f"the session ended before {count} replies"
        count -= got.count(b"\n")


def answered(link: socket.socket, lines: list[str]) -> None:
    """Sends lines, and waits for a reply of one line to each."""
    link.sendall(text_of(lines))
    waited(link, len(lines))


def work_after(server: Server, first: socket.socket, rounds: int, ends: str) -> tuple[float, float]:
    """Seconds that a fork and an exit take, and those that the server works on once a client went.

    The client sent so many of them.
    """
    before = worked(server)
    answered(first, ["fork 1 2", "exit 2"])
    pair = worked(server) - before
    gone = server.link()
    gone.sendall(text_of(["fork 1 2", "exit 2"] * rounds))
    time.sleep(pair / 2)
    before = worked(server)
    cut(gone) if ends == "reset" else gone.close()
    after = rests(server) - before
    # (the fork that was done last may have its child)
    answered(first, ["exit 2"])
    return pair, after


@pytest.mark.parametrize("ends", ["reset", "closed"])
@pytest.mark.parametrize("rounds", [100, 5000])
def test_a_client_that_has_gone_costs_little(serve: Serve, ends: str, rounds: int) -> None:
    """Of a client that sends many forks and exits and goes, no more is done than the line at hand and what
    some milliseconds take."""
    with serve(2 + TRIES, 2, ["--slots", str(SLOTS)]) as server, server.link() as first:
        prepared(first)
        seen = list[tuple[float, float]]()
        while not any(after <= pair + MOST_WORK for pair, after in seen):
            assert len(seen) < TRIES, seen
            seen.append(work_after(server, first, rounds, ends))
        answered(first, ["exit 1"])


def share_at_first(link: socket.socket) -> float:
    """Of many replies, or of the time that they take, how much has passed when the first are there."""
    begun = time.monotonic()
    link.sendall(text_of(["fork 1 2", "exit 2"] * ROUNDS))
    first, left = link.recv(65536).count(b"\n"), time.monotonic() - begun
    assert first
    waited(link, 2 * ROUNDS - first)
    return max(first / (2 * ROUNDS), left / (time.monotonic() - begun))


def test_replies_come_while_lines_are_done(serve: Serve) -> None:
    """Of lines that were sent at once, and of which each takes long, the first are answered while the others
    are done."""
    with serve(1, 1, ["--slots", str(SLOTS)]) as server, server.link() as link:
        prepared(link)
        shares = list[float]()
        while not any(it <= MOST_AT_FIRST for it in shares):
            assert len(shares) < TRIES, shares
            shares.append(share_at_first(link))
        answered(link, ["exit 1"])


IDLE = 1.0


def idle_when_ended(link: socket.socket, last: float) -> float:
    """Waits until the other side ends, and sends nothing before; how long after this time that was."""
    assert select.select([link], [], [], SECONDS)[0] and link.recv(64) == b""
    return time.monotonic() - last


def test_ends_a_silent_session(serve: Serve) -> None:
    """A client that sends nothing, or no end to its first or a later line, is ended after the time that was
    asked for, and not before."""
    with serve(4, 4, ["--idle", "1"]) as server:
        begun = time.monotonic()
        silent, cut_first, cut_later, asks = (server.link() for _ in range(4))
        cut_first.sendall(b"nr ")
        answered(cut_later, ["nr 4"])
        cut_later.sendall(b"meminfo")
        answered(asks, ["nr 0"])
        for link in (silent, cut_first, cut_later, asks):
            assert IDLE * 0.9 < idle_when_ended(link, begun) < SECONDS / 2


def is_served_on(serve: Serve) -> bool:
    """Whether a client that sends lines, and one that sends bytes one by one, are served for twice the
    time."""
    with serve(2, 2, ["--idle", "1"]) as server, server.link() as asks, server.link() as slow:
        with suppress(AssertionError, ConnectionError):
            for byte in b"nr 2\nnr 3\n":
                slow.sendall(bytes([byte]))
                answered(asks, ["nr 0"])
                time.sleep(2 * IDLE / 10)
            return slow.recv(64) == b"ok 2\nok 3\n"
    return False


def test_serves_on_who_sends_in_time(serve: Serve) -> None:
    """No session ends whose client sends something within that time."""
    assert any(is_served_on(serve) for _ in range(TRIES))


def test_a_worker_is_free_again(serve: Serve) -> None:
    """Where all workers are held by silent clients, the next client is served once these are ended."""
    with serve(4, 2, ["--idle", "1"]) as server:
        held = [server.link() for _ in range(3)]
        with server.session() as session:
            assert session.nr(0) == 0
        for link in held:
            link.close()


def test_ends_a_session_that_reads_nothing(serve: Serve) -> None:
    """A client that reads none of its replies is ended."""
    with serve(1, 1, ["--idle", "1"]) as server, server.link() as deaf:
        deaf.setblocking(False)
        begun, lines = time.monotonic(), b"meminfo\n" * 8192
        with suppress(ConnectionError):
            while time.monotonic() - begun < SECONDS:
                with suppress(BlockingIOError):
                    deaf.send(lines)
                time.sleep(0.02)
        assert IDLE * 0.9 < time.monotonic() - begun < SECONDS


@pytest.mark.parametrize("words", [[], ["--idle", "0"], ["--idle", "4294967295"]])
def test_waits_for_a_silent_session(serve: Serve, words: list[str]) -> None:
    """With no such time, with 0, or with much, a silent client is served on."""
    with serve(1, 1, words) as server, server.link() as link:
        time.sleep(2.5 * IDLE)
        answered(link, ["nr 0"])


def test_goes_on_after_it_was_stopped(serve: Serve) -> None:
    """A server that is stopped and goes on, while it waits for a client that has some time, serves that
    client."""
    with serve(1, 1, ["--idle", "10"]) as server, server.link() as link:
        answered(link, ["nr 4"])
        for _ in range(3):
            server.program.send_signal(signal.SIGSTOP)
            time.sleep(0.1)
            server.program.send_signal(signal.SIGCONT)
            time.sleep(0.1)
        answered(link, ["nr 0"])
