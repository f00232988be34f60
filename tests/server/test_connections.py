"""Connections and those behind them: peers that are no good, errors of `accept`, and few descriptors."""
import http.client
import resource
import select
import socket
import time
from contextlib import suppress
from pathlib import Path
from shutil import which

import pytest
from built import OUT_OF_MEMORY, SECONDS
from hugetlb_session import Session
from serving import (
    PROMPT,
    Serve,
    cut,
    ended,
    failing,
    few_descriptors,
    hundreds_come_and_go,
    rest_of,
    whole_replies,
    words_of,
)

ACCEPT, CLONE = "accept4,accept", "clone3,clone"
# How a browser sees that its connection ended.
ENDED = (http.client.RemoteDisconnected, ConnectionResetError, BrokenPipeError)
# Errors of `accept` that pass.
PASS = "EMFILE ENFILE ENOBUFS ENOMEM EPROTO ENETDOWN ENETUNREACH EHOSTUNREACH EPERM EAGAIN EINTR".split()
by_strace = pytest.mark.skipif(not which("strace"), reason="strace is not here")


def served_promptly(session: Session, pages: int) -> None:
    """The session has its reply in time."""
    began = time.monotonic()
    assert session.nr(pages) == pages
    assert time.monotonic() - began <= PROMPT, "a session beside the others waited for its reply"


def test_bears_peers_that_are_no_good(serve: Serve) -> None:
    """Slow, half-closed, reset, silent and unreading peers, and one without an end of line.

    A session beside them stays served.
    """
    with serve(40, 12) as server, server.session(PROMPT) as good:
        links = [server.link() for _ in range(6)]
        slow, half_closed, reset, silent, unreading, endless = links
        for byte in b"nr 3\n":
            slow.sendall(bytes([byte]))
            served_promptly(good, 4)
        half_closed.sendall(b"meminfo\n" * 50)
        half_closed.shutdown(socket.SHUT_WR)
        reset.sendall(b"meminfo\n" * 50)
        cut(reset)
        served_promptly(good, 5)
        for peer, data in ((unreading, b"meminfo\n" * 8192), (endless, b"a" * 65536)):
            peer.setblocking(False)
            with suppress(BlockingIOError):
                for _ in range(200):
                    peer.send(data)
        served_promptly(good, 6)
        assert select.select([silent], [], [], 0)[0] == []
        assert rest_of(half_closed).count(b"HugePages_Total") == 50
        assert slow.recv(64) == b"ok 3\n"
        served_promptly(good, 7)
        for link in links:
            link.close()
        served_promptly(good, 8)


@by_strace
@pytest.mark.parametrize("error", PASS)
def test_waits_out_errors_of_accepting(serve: Serve, error: str) -> None:
    """Errors of `accept` that pass are waited out, and the next client is served."""
    with serve(1, 1, under=failing(ACCEPT, f"{error}:when=1..3")) as server, server.session() as session:
        assert (session.nr(4), session.nr(0)) == (4, 0)


def test_accepts_as_soon_as_a_connection_ended(serve: Serve) -> None:
    """Where descriptors ran out 1.4 seconds ago, the server waits for a second before it tries again.

    One that is given back is had by the next client at once: a server that waited would take 0.87 seconds.
    """
    with serve(20, 8, prepared=few_descriptors(10)) as server:
        waiting = [server.link() for _ in range(19)]
        served, took = list[socket.socket](), list[float]()
        for link in waiting:
            link.sendall(b"nr 0\n")
        for _ in range(4):
            time.sleep(1.4)
            served += [link for link in waiting if select.select([link], [], [], 0)[0]]
            waiting = [link for link in waiting if link not in served]
            assert 0 < len(served) < 8, "descriptors have not run out"
            begun = time.monotonic()
            served.pop(0).close()
            assert select.select(waiting, [], [], SECONDS)[0]
            took.append(time.monotonic() - begun)
        for link in [*served, *waiting]:
            link.close()
    assert min(took[1:]) < 0.5, took


@by_strace
def test_waits_longer_each_time(serve: Serve) -> None:
    """Between tries that fail the server waits, 10 ms first and then twice as long each time.

    For six that is 630 ms.
    """
    begun = time.monotonic()
    with serve(1, 1, under=failing(ACCEPT, "EMFILE:when=1..6")) as server, server.session() as session:
        assert session.nr(0) == 0
    assert time.monotonic() - begun >= 0.63


def test_serves_again_after_descriptors_ran_out(serve: Serve) -> None:
    """With too few descriptors for all that connect, the server goes on once some have left.

    Forty hold it up, and the next is served.
    """
    with serve(62, 8, prepared=few_descriptors(16)) as server:
        links = [server.link() for _ in range(40)]
        time.sleep(0.2)
        for link in links:
            link.close()
        for turn in range(20):
            with server.session() as session:
                assert (session.nr(4), session.nr(0)) == (4, 0), turn
        with server.session(PROMPT) as session:
            served_promptly(session, 0)


def test_holds_one_descriptor_a_connection(serve: Serve) -> None:
    """A connection that a worker serves takes one descriptor of the process."""
    with serve(9, 8) as server:
        none, sessions = server.descriptors(), [server.session() for _ in range(8)]
        for session in sessions:
            session.nr(0)
        assert server.descriptors() - none == 8
        for session in sessions:
            session.close()


def test_listens_at_the_loopback_alone(serve: Serve) -> None:
    """The port is had at 127.0.0.1, and at no other address of the machine."""
    with serve(1, 1) as server:
        sockets = [line.split() for line in Path("/proc/net/tcp").read_text().splitlines()[1:]]
        listening = [it[1].split(":") for it in sockets if it[3] == "0A"]
        assert [address for address, port in listening if int(port, 16) == server.port] == ["0100007F"]


def test_takes_few_that_wait(serve: Serve) -> None:
    """Of many connections at once the server has those that its workers serve, as many in its queue, and one
    more.

    The others wait in the system. Twelve descriptors and twice the workers are enough for it.
    """
    with serve(30, 2, prepared=few_descriptors(16)) as server:
        none = server.descriptors()
        links = [server.link() for _ in range(30)]
        server.descriptors_reach(none + 5)
        time.sleep(0.2)
        assert server.descriptors() - none == 5
        for link in links:
            link.close()


def test_serves_on_after_connections_were_cut(serve: Serve) -> None:
    """Connections that are reset where they wait, before they are accepted and behind that, leave the one
    worker to those that come next."""
    with serve(5, 1) as server:
        none = server.descriptors()
        first, *others = (server.link() for _ in range(4))
        server.descriptors_reach(none + 3)
        for link in others:
            cut(link)
        first.sendall(b"nr 3\n")
        assert first.recv(64) == b"ok 3\n"
        cut(first)
        with server.session() as session:
            assert (session.nr(4), session.nr(0)) == (4, 0)


@by_strace
def test_serves_on_after_connections_were_given_up(serve: Serve) -> None:
    """A connection that its peer gave up before it could be accepted counts as a session.

    The next is served.
    """
    given_up = failing(ACCEPT, "ECONNABORTED:when=1..3")
    with serve(4, 1, under=given_up) as server, server.session() as session:
        server.opened += 3
        assert (session.nr(4), session.nr(0)) == (4, 0)


@by_strace
def test_ends_where_no_more_connections_are_to_be_had(serve: Serve) -> None:
    """Where `accept` fails with an error that does not pass, the sessions that are open are served to their
    end, and the server ends and says so."""
    server = serve(3, 2, under=failing(ACCEPT, "EINVAL:when=2+"))
    try:
        with server.session() as session:
            assert (session.nr(4), session.meminfo()[0], session.nr(0)) == (4, 4, 0)
        output, faults = server.program.communicate(timeout=SECONDS)
        assert (server.program.returncode, output, faults) == (1, "", "hugetlbd: network failed\n")
    finally:
        server.kill()


@by_strace
def test_serves_with_the_workers_that_it_gets(serve: Serve, program: Path) -> None:
    """Workers that can't be started are left out, and one serves alone.

    Where none can be started, the server ends and says so.
    """
    with serve(3, 4, under=failing(CLONE, "EAGAIN:when=2+")) as server:
        for turn in range(3):
            with server.session() as session:
                assert session.nr(0) == 0, turn
    ran = ended(program, words_of(1, 4, 0), failing(CLONE, "EAGAIN:when=1+"))
    assert ran == (1, OUT_OF_MEMORY)


def test_serves_again_after_ten_thousand_connections(serve: Serve) -> None:
    """With 24 descriptors and 8 workers, 10,000 connections come and go, a hundred at once.

    After each hundred the next is served.
    """
    with serve(10_101, 8, prepared=few_descriptors(24)) as server:
        hundreds_come_and_go(server, 100)
        with server.session() as session:
            assert session.nr(0) == 0


def test_ends_requests_of_a_browser(serve: Serve) -> None:
    """A web page can have a browser send a request with lines for a body to any port.

    None is answered, or done.
    """
    body = b"nr 4\nconnect 1 0\nmeminfo\n"
    requests = [b"GET / HTTP/1.1\r\n", b"OPTIONS * HTTP/1.0\n", b"POST /" + 100000 * b"b" + b" HTTP/1.1"]
    with serve(8, 2) as server:
        server.opened += 1
        browser = http.client.HTTPConnection("127.0.0.1", server.port, timeout=SECONDS)
        with pytest.raises(ENDED):
            browser.request("POST", "/" + 2000 * "a", body, {"Content-Type": "text/plain"})
            browser.getresponse().read()
        for head in requests:
            got, link = b"", server.link()
            with suppress(OSError):
                got = whole_replies(link, head + b"\r\n" + body)
            assert got == b"", head[:12]
        # (a request that comes a byte at a time, and lines that are none)
        link = server.link()
        for byte in b"PUT / HTTP/1.1\r\n":
            link.sendall(bytes([byte]))
            time.sleep(0.002)
        assert link.recv(64) == b""
        got = whole_replies(server.link(), b"GET / HTTP\nnr 0\nGET / HTTP/1.1\n")
        assert got == b"error 21 BadLine\nok 0\nerror 21 BadLine\n"
        with server.session() as session:
            assert session.meminfo()[0] == 0


@by_strace
@pytest.mark.parametrize("calls", ["recvfrom", "sendto"])
def test_goes_on_after_a_signal(serve: Serve, calls: str) -> None:
    """A read or a write that a signal interrupted is done again: no session ends with it."""
    lines = [b"nr 4\n", b"meminfo\n", b"nodes\n", b"nr 0\n"]
    with serve(2, 1, under=failing(calls, "EINTR:when=1+2")) as server:
        for _ in range(2):
            with server.link() as link:
                for line in lines:
                    link.sendall(line)
                    assert link.recv(4096)
                link.shutdown(socket.SHUT_WR)
                assert rest_of(link) == b""


@pytest.mark.parametrize("megabytes", [30, 60, 80])
@pytest.mark.parametrize("workers", [8, 16])
def test_serves_within_few_addresses(serve: Serve, megabytes: int, workers: int) -> None:
    """Where a process may have 30 MB of addresses, each worker has its stack, and each of its sessions is
    opened."""

    def few() -> None:
        resource.setrlimit(resource.RLIMIT_AS, (megabytes << 20, megabytes << 20))

    with serve(3 * workers, workers, prepared=few) as server:
        for turn in range(3):
            links = [server.link() for _ in range(workers)]
            for link in links:
                link.settimeout(PROMPT)
                link.sendall(b"nr 4\n")
                assert link.recv(64) == b"ok 4\n", (turn, links.index(link))
            links[0].sendall(b"nr 0\n")
            assert links[0].recv(64) == b"ok 0\n"
            for link in links:
                link.close()
