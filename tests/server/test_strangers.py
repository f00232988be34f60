"""Clients that speak another protocol: web pages, clients of TLS, and random bytes.

What is refused stands in docs/PROTOCOL.md, and here once more.
"""
import contextlib
import errno
import http.server
import random
import re
import socket
import subprocess
import threading
import time
from collections.abc import Iterator
from contextlib import suppress
from pathlib import Path
from shutil import which

import pytest
from built import SECONDS
from serving import Serve, Server, outcome_of, rest_of, whole_replies

# A line with a byte outside of visible ASCII and space, or one that ends as a request of HTTP does.
FOREIGN = re.compile(rb".*[^ -~].*|.* HTTP/[0-9]+(?:\.[0-9]+)*", re.DOTALL)
# Lines that such a client would have done: they end the task that the server has, and leave one page.
WANTED = b"\nexit 1\nnr 1\n"
CHROMIUM = next((it for it in ("chromium", "chromium-browser", "google-chrome") if which(it)), "")


def is_foreign(sent: bytes) -> bool:
    """Whether the first line is none of the protocol; a carriage return at its end is not looked at."""
    line = sent.split(b"\n", 1)[0]
    return FOREIGN.fullmatch(line.removesuffix(b"\r")) is not None


def cuts(sent: bytes, draw: random.Random) -> Iterator[bytes]:
    """Some bytes in pieces that are cut anywhere, many of them small."""
    at = 0
    while at < len(sent):
        size = draw.choice([1, 1, 2, 3, 7, 40, 1500, 70_000])
        yield sent[at : at + size]
        at += size


def answers(server: Server, pieces: Iterator[bytes], pause: float = 0.0) -> bytes:
    """What a client gets that sends these pieces and the end.

    It is nothing where its connection is ended before it is done.
    """
    link = server.link()
    link.setsockopt(socket.IPPROTO_TCP, socket.TCP_NODELAY, 1)
    got = b""
    with link:
        # (one that was reset takes no more, and has no end to be shut)
        with suppress(ConnectionError), suppress_unconnected():
            for piece in pieces:
                link.sendall(piece)
                if pause:
                    time.sleep(pause)
            link.shutdown(socket.SHUT_WR)
        with suppress(ConnectionError):
            while more := link.recv(65536):
                got += more
    return got


@contextlib.contextmanager
def suppress_unconnected() -> Iterator[None]:
    try:
        yield
    except OSError as error:
        if error.errno != errno.ENOTCONN:
            raise


@contextlib.contextmanager
def with_a_task(serve: Serve, sessions: int) -> Iterator[Server]:
    """A server with task 1 and three pages.

    They are there at the end as well: nothing of what strangers sent was done.
    """
    with serve(sessions + 2, 2) as server:
        with server.session() as session:
            session.nr(3)
            session.connect(1, 0)
        yield server
        with server.session() as session:
            assert (session.attach(1), session.meminfo()[0]) == (0, 3)
            session.exit(1)


REQUESTS = [
    b"patch / HTTP/1.1\r",
    b"PATCH / HTTP/1.1",
    b"M-SEARCH * HTTP/1.1\r",
    b"get / HTTP/1.0\r",
    b"GET / HTTP/2.0",
    b"PRI * HTTP/2.0\r",
    b"x HTTP/3",
    b"GET / HTTP/10.25\r",
    b"GET / HTTP/1.1.1",
    b" HTTP/1.1",
    b"a HTTP/1.1 HTTP/1.1\r",
    b"nr 1 HTTP/1.1",
    b"!#$%&'*+-.^_`|~ / HTTP/1.1\r",
    b"POST /" + 100_000 * b"b" + b" HTTP/1.1\r",
    200_000 * b"b" + b" HTTP/1.1",
]
BINARY = [
    b"\x16\x03\x01",
    b"\xff",
    b"nr 1\x00",
    b"\x7fnr 1",
    b"nr\t1",
    b"\r\r",
    b"nr 1\r\r",
    b"a\rb",
    b"nr 1\x1f",
    70_000 * b"a" + b"\x80",
    b"nr \xc2\xb9",
    1023 * b"a" + b"\r\r",
    b"GET / HTTP/1.1\r\r",
    b"GET / HTTP/1.\xff",
]


def shown(sent: bytes) -> str:
    """The name of a test that sends this: its ends where it is long."""
    return repr(sent if len(sent) <= 40 else sent[:24] + sent[-12:])[2:-1]


@pytest.mark.parametrize("sent", [*REQUESTS, *BINARY], ids=shown)
def test_ends_a_connection_of_another_protocol(serve: Serve, sent: bytes) -> None:
    """A first line that is none of the protocol gets no reply, and nothing behind it is done.

    So it is however it is cut, and wherever its sender ends.
    """
    assert is_foreign(sent)
    draw = random.Random(len(sent))
    with with_a_task(serve, 5) as server:
        assert answers(server, iter([sent + WANTED])) == b""
        assert answers(server, iter([sent, WANTED]), 0.01) == b""
        assert answers(server, cuts(sent + WANTED, draw), 0.0005) == b""
        assert answers(server, iter([sent])) == b""
        last = [sent[:-1], sent[-1:], b"\n", WANTED[1:]]
        assert answers(server, iter(last), 0.002) == b""


OF_THE_PROTOCOL = [
    b"AB " + 70_000 * b"a",
    b"AB " + 70_000 * b"a" + b"\r",
    1025 * b"a",
    b"",
    b"\r",
    b"nr 3\r",
    b"nr 3",
    b"GET / HTTP/1.x",
    b"GET / HTTP/1.",
    b"GET / HTTP/1. ",
    b"GET / HTTP/",
    b"GET / HTTP",
    b"GET / HTTP/.1",
    b"GET / HTTP/1..1",
    b"GET / HTTP/1.1 ",
    b"GET /HTTP/1.1",
    b"GET / http/1.1",
    b"GET / HTTP/1.1x",
    b"GET / HTTP/1.1 \r",
    b"HTTP/1.1",
    b"GET / HHTTP/1.1",
    b"GET /  HTTP/1.1"[:-8] + b" HTTP /1.1",
]


@pytest.mark.parametrize("sent", OF_THE_PROTOCOL, ids=shown)
def test_answers_a_first_line_that_is_none_of_these(serve: Serve, program: Path, sent: bytes) -> None:
    """A first line of visible ASCII that does not end in ` HTTP/` and a version gets a script's reply.

    So do the lines behind it.
    """
    assert not is_foreign(sent)
    script = sent + b"\nnr 2\nGET / HTTP/1.1\n\xff\nnr 0\n"
    wanted = outcome_of(program, script)
    with serve(3, 1) as server:
        assert answers(server, iter([script])) == wanted
        assert answers(server, cuts(script, random.Random(2))) == wanted
        assert answers(server, cuts(script, random.Random(3)), 0.0002) == wanted


WORDS = (
    b"GET,M-SEARCH,/, ,HTTP/, HTTP/,1,.,1.1, HTTP/1.1,\r,nr 1,x,H,HT,HTTP,/2,attach 7,df 9,\x00,\x7f,~".split(
        b","
    )
)
WORDS += b"meminfo,create 0 a,unlink 0 a,connect 1 0,exit 1,nodes".split(b",")
DONE = b"nr 3,nr 2,meminfo,nodes,connect 1 0,exit 1,create 0 a,unlink 0 a".split(b",")
DONE += b"ls 0,df 0,anon 1 2 private".split(b",")
ENDS = [b"", b" HTTP/1.1", b"\r", b"HTTP/1.1", b"\x01"]
LENGTHS = [1000, 1023, 1024, 1025, 3000, 70_000]


def random_line(draw: random.Random) -> bytes:
    """A line of words that are near to a request, of a length near to the limit, of any bytes, or one that is
    done."""
    kind = draw.randrange(10)
    if kind == 0:
        return bytes(draw.randrange(256) for _ in range(draw.randrange(12))).replace(b"\n", b"")
    if kind == 1:
        return draw.choice([b"a", b"b "]) * draw.choice(LENGTHS) + draw.choice(ENDS)
    if kind < 5:
        return b"".join(draw.choice(WORDS) for _ in range(draw.randrange(1, 6)))
    return draw.choice(DONE)


def random_script(draw: random.Random) -> bytes:
    """Some lines, of which the last may want its end."""
    lines = b"\n".join(random_line(draw) for _ in range(draw.randrange(1, 7)))
    return lines + draw.choice([b"\n", b"\n", b""])


def as_ended(script: bytes) -> bytes:
    """A script whose lines all have their ends, and the same replies.

    A last line without its end does nothing, and is too long or bad.
    """
    whole, _, last = script.rpartition(b"\n")
    whole += b"\n" if b"\n" in script else b""
    if not last:
        return whole
    return whole + (b"-\n" if len(last) <= 1024 else last + b"\n")


SCRIPTS = 3000


def test_answers_random_scripts_as_a_script(serve: Serve, program: Path) -> None:
    """Random scripts, one session each and cut anywhere, get the replies of one script of them all.

    Those of another protocol get none, and nothing of them is done.
    """
    draw = random.Random(83)
    scripts = [random_script(draw) for _ in range(SCRIPTS)]
    own = [it for it in scripts if not is_foreign(it)]
    assert SCRIPTS // 10 < len(own) < SCRIPTS - SCRIPTS // 10
    whole = b"".join(as_ended(it) for it in own) + b"nr 0\n"
    wanted = outcome_of(program, whole)
    at = 0
    with serve(SCRIPTS + 1, 1) as server:
        for number, script in enumerate(scripts):
            got = answers(server, cuts(script, draw), draw.choice([0, 0, 0.0002]))
            if is_foreign(script):
                assert got == b"", (number, script[:60])
            else:
                seen = (number, script[:200], got[:200], wanted[at : at + 200])
                assert wanted.startswith(got, at) and bool(got) == bool(script), seen
                at += len(got)
        link = server.link()
        assert whole_replies(link, b"exit 1\nexit 1\nnr 0\n").endswith(b"error 6 NoSuchTask\nok 0\n")
        link.close()
    assert wanted[at:] == b"ok 0\n" or wanted[at:].startswith(b"ok ")


def hello(session: bytes) -> bytes:
    """The first message of a client of TLS 1.2 that resumes a session of this name."""
    body = b"\x03\x03" + 32 * b"r" + bytes([len(session)]) + session + b"\x00\x02\xc0\x2f\x01\x00"
    handshake = b"\x01" + len(body).to_bytes(3, "big") + body
    return b"\x16\x03\x01" + len(handshake).to_bytes(2, "big") + handshake


def test_ends_a_client_of_tls(serve: Serve) -> None:
    """A client of TLS that resumes a session whose name has lines has none of them done."""
    with with_a_task(serve, 2) as server:
        assert answers(server, iter([hello(WANTED)])) == b""
        assert answers(server, (bytes([byte]) for byte in hello(WANTED)), 0.001) == b""


@pytest.mark.skipif(not which("openssl"), reason="openssl is not here")
def test_ends_openssl(serve: Serve, tmp_path: Path) -> None:
    """The same by `openssl s_client`, which got the session from a server that names it so."""
    made = "openssl req -x509 -newkey rsa:2048 -nodes -subj /CN=localhost -keyout key -out cert".split()
    subprocess.run(made, cwd=tmp_path, check=True, capture_output=True, timeout=SECONDS)
    with socket.create_server(("127.0.0.1", 0)) as listens:
        port = listens.getsockname()[1]
    words = f"openssl s_server -accept 127.0.0.1:{port} -cert cert -key key -tls1_2 -no_ticket -quiet".split()
    none = subprocess.DEVNULL
    with subprocess.Popen(
        [*words, "-id_prefix", WANTED], cwd=tmp_path, stdin=none, stdout=none, stderr=none
    ) as other:
        try:
            connects(port)
            client(port, tmp_path, "-sess_out", "session")
        finally:
            other.kill()
    assert (tmp_path / "session").exists()
    with with_a_task(serve, 1) as server:
        server.opened += 1
        client(server.port, tmp_path, "-sess_in", "session")


def connects(port: int) -> None:
    """Waits until somebody listens at the port."""
    until = time.monotonic() + SECONDS
    while time.monotonic() < until:
        with suppress(ConnectionRefusedError):
            return socket.create_connection(("127.0.0.1", port), timeout=SECONDS).close()
        time.sleep(0.02)
    raise AssertionError("nobody listens")


def client(port: int, folder: Path, *words: str) -> None:
    """`openssl s_client` without input."""
    command = ["openssl", "s_client", "-connect", f"127.0.0.1:{port}", "-tls1_2", *words]
    subprocess.run(command, cwd=folder, stdin=subprocess.DEVNULL, capture_output=True, timeout=SECONDS)


PAGE = """<script>
const wanted = '\\nexit 1\\nnr 1\\n', none = () => 0, to = 'http://127.0.0.1:PORT/';
const sends = method => fetch(to, {method, body: wanted}).catch(none);
const tls = fetch('https://127.0.0.1:PORT/').catch(none);
Promise.all([sends('patch'), sends('POST'), sends('PUT'), sends('M-SEARCH'), tls])
    .then(() => { document.title = 'all sent'; });
</script>"""


@contextlib.contextmanager
def web_page(text: str) -> Iterator[int]:
    """A server of one web page, and its port."""

    class Page(http.server.BaseHTTPRequestHandler):
        def do_GET(self) -> None:
            self.send_response(200)
            self.send_header("Content-Type", "text/html")
            self.end_headers()
            self.wfile.write(text.encode())

        def log_message(self, *_: object) -> None:
            pass

    with http.server.ThreadingHTTPServer(("127.0.0.1", 0), Page) as server:
        threading.Thread(target=server.serve_forever, daemon=True).start()
        yield server.server_address[1]
        server.shutdown()


@pytest.mark.skipif(not CHROMIUM, reason="Chromium is not here")
def test_ends_a_browser(serve: Serve, tmp_path: Path) -> None:
    """A page in Chromium that may send requests of any method to any origin has no line done."""
    words = "--headless --no-sandbox --disable-gpu --disable-web-security --timeout=20000".split()
    words += [f"--user-data-dir={tmp_path}", "--virtual-time-budget=4000", "--dump-dom"]
    # (how many connections a browser makes is its own affair, so the server is not served to its end)
    server = serve(1000, 8)
    try:
        with server.session() as session:
            session.nr(3)
            session.connect(1, 0)
        with web_page(PAGE.replace("PORT", str(server.port))) as port:
            ran = subprocess.run(
                [CHROMIUM, *words, f"http://127.0.0.1:{port}/"],
                stdin=subprocess.DEVNULL,
                capture_output=True,
                text=True,
                timeout=4 * SECONDS,
            )
        assert "all sent" in ran.stdout, ran.stdout + ran.stderr[-400:]
        with server.session() as session:
            assert (session.attach(1), session.meminfo()[0]) == (0, 3)
    finally:
        server.kill()


def test_reads_what_was_not_refused(serve: Serve) -> None:
    """A request behind the first line is a bad line, and no end."""
    with serve(1, 1) as server:
        link = server.link()
        link.sendall(b"nr 1\n")
        assert link.recv(64) == b"ok 1\n"
        link.sendall(b"GET / HTTP/1.1\r\n\x16\x03\nnr 0\n")
        link.shutdown(socket.SHUT_WR)
        assert rest_of(link) == b"error 21 BadLine\nerror 21 BadLine\nok 0\n"
