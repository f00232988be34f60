"""Each limit of the profile over a session, and the limits of a server: sessions, workers and places."""
import hashlib
import socket
from collections.abc import Iterable, Iterator
from concurrent.futures import ThreadPoolExecutor
from shutil import disk_usage

import pytest
from built import PROGRAM, SECONDS, TOP, replies_in, text_of
from limit_table import ELSEWHERE, OF_WORDS, Size, sizes
from serving import Serve, Server, rest_of, whole_replies

# More of the most sessions than any number at which a body might give up.
MOST_SESSIONS, MOST_WORKERS = OF_WORDS["most_sessions"], OF_WORDS["most_workers"]
MOST_PLACES = ELSEWHERE["most_places"]
MANY_EVENTS = 1_100_000
# How many places are filled to the last by each run.
FILLED = 100_000
# Which sources keep trails, the sum of those with which the most places were filled, and the room that these
# take.
KEEP_TRAILS = [f"hp_{it}" for it in "trail history shared entrance sessions closing serving server".split()]
FILLED_ONCE, DISK_BYTES = TOP / "tests/server/filled", 30 << 30
# An event of each part: of the pool, of a slot, and of the task table, which has no task then.
LINES = {b"nr 4\n": b"ok 4\n", b"df 0\n": b"ok - 0 0 - 0\n", b"attach 7\n": b"error 6 NoSuchTask\n"}
PIECE = 100_000
# Addresses of clients by turns. One has some 28,000 ports, and a port rests for a while after its use: on a
# quick machine one address would run out of them.
ADDRESSES = 16


@pytest.mark.parametrize("size", [pytest.param(size, id=name) for name, size in sizes()])
def test_answers_within_and_refuses_above(serve: Serve, size: Size) -> None:
    with serve(1, 1, size.words) as server:
        if max(map(len, size.lines)) <= 1024:
            with server.session(seconds=3 * SECONDS) as session:
                replies = ["\n".join(it) for it in session.replies(size.lines)]
        else:
            server.opened = 1
            got = replies_in(asked(server.port, text_of(size.lines)))
            replies = [it.decode().removesuffix("\n") for it in got]
    assert len(replies) == len(size.lines)
    assert replies[-len(size.replies) :] == size.replies


def asked(port: int, script: bytes, client: int = 0) -> bytes:
    source = (f"127.0.0.{1 + client % ADDRESSES}", 0)
    with socket.create_connection(("127.0.0.1", port), SECONDS, source) as link:
        return whole_replies(link, script)


def test_serves_all_sessions_that_there_can_be() -> None:
    """One worker serves each of them, and the server ends behind the last."""
    with Server(PROGRAM, MOST_SESSIONS, 1) as server:
        for number in range(MOST_SESSIONS):
            pages = number % 9
            reply = asked(server.port, b"nr %d\n" % pages, number)
            assert reply == b"ok %d\n" % min(pages, 8), f"session {number}"
        server.opened = MOST_SESSIONS


def test_serves_as_many_at_a_time_as_there_can_be_workers(serve: Serve) -> None:
    with serve(MOST_WORKERS + 1, MOST_WORKERS) as server:
        links = [server.link() for _ in range(MOST_WORKERS)]
        for number, link in enumerate(links):
            link.sendall(b"connect %d 0\n" % number)
            assert link.recv(64) == b"ok\n", number
        for link in links:
            link.shutdown(socket.SHUT_WR)
            assert rest_of(link) == b""
            link.close()


@pytest.mark.parametrize("places", [MOST_PLACES - 1, MOST_PLACES])
def test_has_room_for_the_most_places(places: int) -> None:
    """The room is asked for at once, and takes no memory until events are there."""
    with Server(PROGRAM, 1, 1, ["--slots", "1"], trace=places) as server, server.session() as session:
        asked = ["nr 4", "connect 1 0", "anon 1 4 private", "store 1 0 1 3 0 5a"]
        assert session.many(asked) == [4, None, 1, None]


def sends(link: socket.socket, pieces: Iterable[bytes]) -> None:
    """Sends what there is, and the end."""
    for piece in pieces:
        link.sendall(piece)
    link.shutdown(socket.SHUT_WR)


def streamed(server: Server, pieces: Iterable[bytes]) -> bytes:
    """The replies of a session, which are read while lines are sent: no buffer holds so many."""
    with server.link() as link, ThreadPoolExecutor(1) as pool:
        sent = pool.submit(sends, link, pieces)
        replies = rest_of(link)
        sent.result()
    return replies


def times(line: bytes, count: int) -> Iterator[bytes]:
    """A line so many times, in pieces."""
    for sent in range(0, count, PIECE):
        yield min(PIECE, count - sent) * line


@pytest.mark.parametrize("line", LINES)
def test_keeps_and_audits_a_million_events(line: bytes) -> None:
    """A million events of one part, most of one session: each has its place and its receipt, and the audit
    joins them all."""
    with Server(PROGRAM, 2, 1, ["--slots", "1"], trace=MANY_EVENTS) as server:
        for count in (MANY_EVENTS - 30_000, 20_000):
            got = streamed(server, [b"connect 1 0\n", *times(line, count), b"exit 1\n"])
            assert got == b"ok\n" + count * LINES[line] + b"ok\n"


def fills(under: list[str], places: int, line: bytes, count: int) -> None:
    """So many events of one part; what is above the places is refused, and the audit joins all others."""
    with Server(PROGRAM, 1, 1, ["--slots", "1"], trace=places, under=under) as server:
        server.seconds = SECONDS + places // 10_000
        replies, done = streamed(server, times(line, count)), min(count, places)
        assert replies == done * LINES[line] + (count - done) * b"error 23 TraceFull\n"


@pytest.mark.parametrize("more", [-1, 0, 1])
@pytest.mark.parametrize("line", LINES)
def test_fills_its_places_to_the_last_and_audits_them(on_disk: list[str], line: bytes, more: int) -> None:
    """As many events as there are places, one fewer, and one more."""
    fills(on_disk, FILLED, line, FILLED + more)


def sum_of_trails() -> str:
    """A sum of the sources that keep trails and join them."""
    made = hashlib.sha256()
    for file in sorted(it for name in KEEP_TRAILS for it in (TOP / f"crates/{name}/src").rglob("*.rt")):
        made.update(f"{file.relative_to(TOP)}\n".encode() + file.read_bytes())
    return made.hexdigest()


def test_fills_the_most_places_that_there_can_be(on_disk: list[str]) -> None:
    """The largest trail of each part, and one event more. It takes minutes, so it is done once for what it
    stands on: tests/server/filled has the sum of that."""
    summed = f"{sum_of_trails()}\n"
    if FILLED_ONCE.read_text() == summed:
        pytest.skip("it passed with these sources")
    if disk_usage(on_disk[-1].partition("=")[2]).free < DISK_BYTES:
        pytest.skip(f"it wants {DISK_BYTES >> 30} GiB of disk: HUGETLB_DISK names a folder there")
    for line in LINES:
        fills(on_disk, MOST_PLACES, line, MOST_PLACES + 1)
    FILLED_ONCE.write_text(summed)
