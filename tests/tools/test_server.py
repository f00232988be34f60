"""A server's counts, its end, and the exporter."""
import re
import signal
import socket
import subprocess
import sys
import threading
import time
import urllib.error
import urllib.request
from collections.abc import Iterator
from concurrent.futures import Future, ThreadPoolExecutor
from contextlib import contextmanager, suppress
from pathlib import Path
from shutil import which
from typing import IO

import built
import pytest
from common import PROGRAM, TOOL, must_hold, run


def line_of(stream: IO[str] | None) -> str:
    """The next line of a process."""
    assert stream is not None
    return stream.readline()


@contextmanager
def server() -> Iterator[tuple[int, list[int]]]:
    """The program behind a port, as a server of one connection after another stands there; `served` counts
    them."""
    served: list[int] = []
    with socket.create_server(("127.0.0.1", 0)) as listens:

        def serves() -> None:
            while True:
                try:
                    link, _ = listens.accept()
                except OSError:
                    return
                served.append(1)
                with link:
                    at = link.fileno()
                    subprocess.run([PROGRAM, "script"], stdin=at, stdout=at, timeout=3 * built.SECONDS)

        threading.Thread(target=serves, daemon=True).start()
        yield listens.getsockname()[1], served
        listens.shutdown(socket.SHUT_RDWR)


def test_speaks_with_a_server() -> None:
    """Over a port: a script, a want of pages where the server's own numbers are not known, counts for
    others."""
    with server() as (port, _):
        status, output, faults = run(
            ["--port", port], "nr 2\nconnect 1 0\nanon 1 4 private\novercommit 1\nanon 1 4 private\n"
        )
        assert (status, faults) == (0, "")
        must_hold(
            output,
            "2 pages short of nr and overcommit",
            "an overcommit that this session has not set allows 2",
            "overcommit 1 allows 3",
            "`nr 3` or `overcommit 2` would do",
        )
        must_hold(
            run(["--port", port, "--frames", "1,2"], "nr 2\nconnect 1 0\nanon 1 9 private\n")[1],
            "6 pages short of frames: the machine has 3",
        )
        status, output, faults = run(["--watch", port, "--times", "3", "--seconds", "0.01"])
        assert (status, len(output.splitlines()), faults) == (0, 4, "")
        assert re.fullmatch(
            r"\d\d:\d\d:\d\d        0        0        0        0        0", output.splitlines()[-1]
        )


WAITING = "hugetlbctl: waits for a worker that is free: all workers of the server have other sessions\n"


@contextmanager
def held_server() -> Iterator[tuple[int, socket.socket]]:
    """A server whose one worker has a session that stays open until it is ended."""
    words = ["serve", "--port", "0", "--sessions", "9", "--workers", "1", "--trace", "0"]
    with subprocess.Popen([PROGRAM, *words], stdout=subprocess.PIPE, text=True) as program:
        try:
            port = int(line_of(program.stdout).split()[1])
            with socket.create_connection(("127.0.0.1", port), timeout=built.SECONDS) as held:
                held.sendall(b"nr 4\n")
                assert held.recv(64) == b"ok 4\n"
                yield port, held
        finally:
            program.kill()


@pytest.mark.parametrize("words", [["--port"], ["--watch"], ["--prometheus", "--port"]], ids=" ".join)
def test_a_client_that_waits_for_a_worker_says_so(words: list[str]) -> None:
    """Once all workers are held, one line tells that the client waits; it is answered when a worker is
    free."""
    more = ["--times", "2", "--seconds", "0.01"] if "--watch" in words else ["-"]
    with held_server() as (port, held):
        tool = subprocess.Popen(
            [sys.executable, TOOL, *words, str(port), *more],
            stdin=subprocess.PIPE,
            stdout=subprocess.PIPE,
            stderr=subprocess.PIPE,
            text=True,
        )
        assert tool.stdin is not None
        tool.stdin.write("meminfo\nmeminfo\n")
        tool.stdin.close()
        tool.stdin = None
        assert line_of(tool.stderr) == WAITING
        held.close()
        output, faults = tool.communicate(timeout=built.SECONDS)
    assert (tool.returncode, faults) == (0, "") and "4" in output


def test_a_client_that_is_answered_says_nothing() -> None:
    """Later waits are none for a worker: a server that answered once may take its time."""
    held = Held()
    words = [sys.executable, str(TOOL), "--watch", str(held.port), "--times", "2", "--seconds", "0"]
    with subprocess.Popen(words, stdout=subprocess.PIPE, stderr=subprocess.PIPE, text=True) as tool:
        assert "Total" in line_of(tool.stdout) and line_of(tool.stdout)
        held.free.clear()
        time.sleep(1.3)
        held.free.set()
        assert tool.communicate(timeout=built.SECONDS)[1] == ""
    held.ends()


def numbers_of(text: str) -> dict[str, str]:
    pairs = (line.rpartition(" ") for line in text.splitlines() if not line.startswith("#"))
    return {name: number for name, _, number in pairs}


def test_counts_once() -> None:
    status, output, faults = run(
        ["--prometheus", "-"], "nr 3\nconnect 1 0\nanon 1 2 private\nfault 1 0 1 0 read\n"
    )
    assert (status, faults) == (0, "")
    assert numbers_of(output) == {
        'hugetlb_pages{node="0"}': "2",
        'hugetlb_pages_free{node="0"}': "1",
        'hugetlb_pages_in_use{node="0"}': "1",
        'hugetlb_pages_surplus{node="0"}': "0",
        'hugetlb_pages{node="1"}': "1",
        'hugetlb_pages_free{node="1"}': "1",
        'hugetlb_pages_in_use{node="1"}': "0",
        'hugetlb_pages_surplus{node="1"}': "0",
        "hugetlb_pages_reserved": "1",
        "hugetlb_page_size_bytes": "1024",
    }
    # each name may be summed: it has one kind of number, and its labels part it
    assert output.count("# TYPE ") == output.count("# HELP ") == 6


@pytest.mark.skipif(not which("promtool"), reason="promtool is not here")
def test_promtool_reads_the_counts() -> None:
    """promtool finds no fault."""
    output = run(["--prometheus", "-"], "nr 3\n")[1]
    ran = subprocess.run(["promtool", "check", "metrics"], input=output, capture_output=True, text=True)
    assert (ran.returncode, ran.stdout, ran.stderr) == (0, "", "")


@contextmanager
def exporter(port: int) -> Iterator[tuple["subprocess.Popen[str]", int]]:
    """An exporter of the server at this port, as a process, and the port where it is asked.

    It closes each session itself: Python warns of a connection that is dropped, and at the end nothing was
    said.
    """
    warns = [sys.executable, "-W", "always::ResourceWarning"]
    words = [*warns, str(TOOL), "--port", str(port), "--prometheus", "--listen", "0"]
    with subprocess.Popen(words, stdout=subprocess.PIPE, stderr=subprocess.PIPE, text=True) as process:
        try:
            line = line_of(process.stdout)
            assert re.fullmatch(r"metrics at http://127\.0\.0\.1:\d+/metrics\n", line), line
            yield process, int(line.split(":")[2].split("/")[0])
            assert process.poll() is None
        finally:
            process.terminate()
            faults = process.communicate()[1]
    assert faults == ""


def asked(
    port: int, host: str | list[str] | None = None, path: str = "/metrics", method: str = "GET"
) -> tuple[int, str]:
    """Status and text of an answer at a port, to a request with these hosts: one, several or none."""
    hosts = [f"127.0.0.1:{port}"] if host is None else host if isinstance(host, list) else [host]
    with socket.create_connection(("127.0.0.1", port), timeout=built.SECONDS) as link:
        link.sendall(
            "\r\n".join([f"{method} {path} HTTP/1.1", *(f"Host: {it}" for it in hosts), "", ""]).encode()
        )
        got = b"".join(iter(lambda: link.recv(65536), b""))
    head, _, body = got.decode().partition("\r\n\r\n")
    assert f"Content-Length: {len(body)}" in head and head.startswith("HTTP/1.")
    return int(head.split(" ")[1]), body


def age_of(body: str) -> float:
    return float(numbers_of(body)["hugetlb_counts_age_seconds"])


def pages_of(body: str) -> str:
    return numbers_of(body)['hugetlb_pages{node="0"}']


Answer = tuple[int, str]


def wait_for(count: int, questions: "list[Future[Answer]]") -> "tuple[list[Answer], Future[Answer]]":
    """The answers of the first so many questions, and the one that is left."""
    done: list[Future[Answer]] = []
    until = time.monotonic() + 4 * built.SECONDS
    while len(done) < count and time.monotonic() < until:
        done = [it for it in questions if it.done()]
        time.sleep(0.01)
    assert len(done) == count
    return [it.result() for it in done], next(it for it in questions if it not in done)


class Held:
    """A server of counts that can be held: it answers the two questions of the exporter once it may, and
    counts its sessions."""

    def __init__(self, port: int = 0, pages: int = 3) -> None:
        self.pages, self.free = pages, threading.Event()
        self.links: list[socket.socket] = []
        self.left: list[socket.socket] = []
        self.free.set()
        self.listens = socket.create_server(("127.0.0.1", port))
        self.port = self.listens.getsockname()[1]
        threading.Thread(target=self._accepts, daemon=True).start()

    def _accepts(self) -> None:
        while True:
            try:
                link, _ = self.listens.accept()
            except OSError:
                return
            self.links.append(link)
            threading.Thread(target=self._serves, args=(link,), daemon=True).start()

    def _serves(self, link: socket.socket) -> None:
        lines = {
            "meminfo": [
                f"HugePages_Total: {self.pages}",
                "HugePages_Free: 0",
                "HugePages_Rsvd: 0",
                "HugePages_Surp: 0",
                "Hugepagesize: 1 kB",
                "Hugetlb: 3 kB",
            ],
            "nodes": [f"0 {self.pages} 0 0"],
        }
        try:
            with link.makefile("r") as asks:
                for line in asks:
                    self.free.wait()
                    told = lines[line.strip()]
                    link.sendall("\n".join([f"text {len(told)}", *told, ""]).encode())
        except OSError:
            pass
        self.left.append(link)
        link.close()

    def ends(self) -> None:
        self.listens.shutdown(socket.SHUT_RDWR)
        self.listens.close()
        for link in self.links:
            # (its own client may have ended it meanwhile)
            with suppress(OSError):
                link.shutdown(socket.SHUT_RDWR)


def test_exporter_keeps_one_session() -> None:
    """Five questions go over one session, to a port of 127.0.0.1 alone."""
    with server() as (port, served), exporter(port) as (_, at):
        for _ in range(5):
            with urllib.request.urlopen(f"http://127.0.0.1:{at}/metrics") as answer:
                assert answer.headers["Content-Type"].startswith("text/plain; version=0.0.4")
                body = answer.read().decode()
            assert numbers_of(body)["hugetlb_pages_reserved"] == "0" and 0 <= age_of(body) < 5
        assert len(served) == 1
        with pytest.raises(urllib.error.HTTPError):
            urllib.request.urlopen(f"http://127.0.0.1:{at}/nothing")
        rows = [
            line.split()
            for name in ("tcp", "tcp6")
            for line in Path(f"/proc/net/{name}").read_text().splitlines()[1:]
        ]
        bound = [row[1].split(":") for row in rows if row[3] == "0A"]
        assert [address for address, number in bound if int(number, 16) == at] == ["0100007F"]


def test_exporter_answers_to_its_own_name() -> None:
    """A page of another name that leads to 127.0.0.1 reads nothing, nor does one without a name or with
    two."""
    with server() as (port, _), exporter(port) as (_, at):
        for host in (f"127.0.0.1:{at}", f"localhost:{at}", f"LocalHost:{at}", "127.0.0.1", "localhost"):
            assert asked(at, host)[0] == 200, host
        others: list[str | list[str]] = [
            "evil.example",
            f"evil.example:{at}",
            f"127.0.0.1.evil.example:{at}",
            f"localhost.evil.example:{at}",
            "",
            f"127.0.0.1:{at + 1}",
            f"0.0.0.0:{at}",
            [],
            [f"127.0.0.1:{at}", "evil.example"],
            [f"127.0.0.1:{at}"] * 2,
            f"evil.example@127.0.0.1:{at}",
        ]
        for other in others:
            status, body = asked(at, other)
            assert status == 403 and "hugetlb_pages" not in body, other
        assert asked(at, method="POST")[0] == 405
        assert asked(at, path="/nothing")[0] == 404
        assert asked(at, path="http://evil.example/metrics")[0] == 404


def test_exporter_ends_silent_clients() -> None:
    """200 clients that send nothing, or a line a second, cost no thread, are ended, and keep nobody from the
    counts."""
    with server() as (port, _), exporter(port) as (process, at):
        tasks, files = Path(f"/proc/{process.pid}/task"), Path(f"/proc/{process.pid}/fd")
        none = len(list(files.iterdir()))
        begun = time.monotonic()
        links = [socket.create_connection(("127.0.0.1", at), timeout=built.SECONDS) for _ in range(200)]
        for link in links[150:]:
            link.sendall(b"GET /metrics HTTP/1.1\r\n")
        assert asked(at)[0] == 200
        assert len(list(tasks.iterdir())) <= 3 and len(list(files.iterdir())) < none + 80
        slow, until = links[-1], begun + 4
        with suppress(ConnectionError):
            while time.monotonic() < until:
                time.sleep(0.5)
                slow.sendall(b"Accept: all\r\n")
        # (each ends within its own time: a client that is never ended fails here by the limit of its socket)
        for link in links:
            with suppress(ConnectionError):
                assert link.recv(1) == b""
        assert asked(at)[0] == 200
        assert len(list(files.iterdir())) <= none + 2


def test_exporter_refuses_what_is_no_request() -> None:
    """Bytes of no request, a head without end and a line without end get an answer or the end, and the next
    is answered."""
    with server() as (port, _), exporter(port) as (_, at):
        for sent in (
            b"\r\n\r\n",
            b"\x16\x03\x01\n\n",
            b"GET /metrics\r\n\r\n",
            b"GET /metrics HTTP/1.1\r\n" + 200 * b"a: b\r\n",
            b"GET /" + 20_000 * b"a",
        ):
            with socket.create_connection(("127.0.0.1", at), timeout=built.SECONDS) as link:
                with suppress(ConnectionError):
                    link.sendall(sent)
                    assert link.recv(64).startswith(b"HTTP/1.1 400 "), sent[:20]
        assert asked(at)[0] == 200


def test_exporter_of_a_server_that_is_held() -> None:
    """One question waits for a server that is held; the others are answered at once, with the last counts
    and their age, and then with those of now."""
    held = Held()
    with exporter(held.port) as (process, at), ThreadPoolExecutor(12) as pool:
        assert pages_of(asked(at)[1]) == "3"
        held.pages = 5
        held.free.clear()
        time.sleep(0.5)
        questions = [pool.submit(asked, at) for _ in range(11)]
        # (the first that comes waits, and the others do not wait for it)
        done, first = wait_for(10, questions)
        for status, body in done:
            assert (status, pages_of(body)) == (200, "3") and age_of(body) >= 0.5
        assert not first.done()
        assert len(list(Path(f"/proc/{process.pid}/task").iterdir())) <= 3
        held.free.set()
        status, body = first.result()
        assert (status, len(held.links)) == (200, 1)
        held.pages = 7
        assert min(age_of(asked(at)[1]) for _ in range(5)) < 0.5
    held.ends()


def test_exporter_of_a_server_that_never_answered() -> None:
    """Where no counts are there, a server that is held is told of after some seconds; its counts come once
    it answers."""
    held = Held()
    held.free.clear()
    with exporter(held.port) as (_, at), ThreadPoolExecutor(12) as pool:
        begun = time.monotonic()
        for status, body in pool.map(asked, 10 * [at]):
            assert status == 503 and "no reply came" in body
        assert 4 < time.monotonic() - begun
        held.free.set()
        assert asked(at)[0] == 200 and len(held.links) == 1
    held.ends()


def test_exporter_of_a_server_that_is_started_again() -> None:
    """A server that has gone is told of, with no counts from before; once it is started again its own counts
    come. It keeps one session, and leaves none."""
    held = Held(pages=3)
    with exporter(held.port) as (process, at):
        files = Path(f"/proc/{process.pid}/fd")
        assert pages_of(asked(at)[1]) == "3"
        none = len(list(files.iterdir()))
        for pages in (4, 5, 6):
            held.ends()
            for _ in range(3):
                status, body = asked(at)
                assert status == 503 and "does not answer" in body
            held = Held(held.port, pages)
            for _ in range(3):
                assert pages_of(asked(at)[1]) == str(pages)
            assert len(held.links) == 1
            held.links[0].shutdown(socket.SHUT_RDWR)
            time.sleep(0.3)
            assert pages_of(asked(at)[1]) == str(pages) and len(held.links) == 2
            assert held.left == held.links[:1]
        assert len(list(files.iterdir())) <= none
    for _ in range(1000):
        if len(held.left) == 2:
            break
        time.sleep(0.02)
    assert len(held.left) == 2, "its session ends with the exporter"
    held.ends()


def test_exporter_forgets_a_server_that_has_gone() -> None:
    """Counts from before a fault are told to nobody, though the server that came after it is held."""
    held = Held()
    with exporter(held.port) as (_, at), ThreadPoolExecutor(2) as pool:
        assert pages_of(asked(at)[1]) == "3"
        held.ends()
        assert asked(at)[0] == 503
        held = Held(held.port, 4)
        held.free.clear()
        assert [status for status, _ in pool.map(asked, 2 * [at])] == [503, 503]
        held.free.set()
    held.ends()


def test_exporter_asked_by_ten_at_once() -> None:
    with server() as (port, served), exporter(port) as (_, at), ThreadPoolExecutor(10) as pool:
        for _ in range(5):
            assert [status for status, _ in pool.map(asked, 10 * [at])] == 10 * [200]
        assert len(served) == 1


def test_ends_a_server() -> None:
    """The sessions that are left of a server's number are opened and closed, one waiting for the other."""
    with socket.create_server(("127.0.0.1", 0)) as listens:
        port: int = listens.getsockname()[1]
        served: list[bytes] = []

        def serves() -> None:
            for number in range(3):
                link, _ = listens.accept()
                if number == 2:
                    listens.shutdown(socket.SHUT_RDWR)
                    listens.close()
                served.append(link.recv(1))
                link.close()

        thread = threading.Thread(target=serves)
        thread.start()
        assert run(["--end", port]) == (0, "3 sessions were left; the server takes no more\n", "")
        thread.join()
        assert served == 3 * [b""]
        status, _, faults = run(["--end", port])
        assert status == 1 and "no server listens at port" in faults


def test_ends_a_server_with_idle_workers() -> None:
    """Where all workers have sessions that stay open, --end comes to an end by its bound, and sends SIGTERM
    where it is told the process."""
    words = ["serve", "--port", "0", "--sessions", "9", "--workers", "1", "--trace", "0"]
    program = subprocess.Popen([PROGRAM, *words], stdout=subprocess.PIPE, text=True)
    try:
        port = int(line_of(program.stdout).split()[1])
        with socket.create_connection(("127.0.0.1", port)) as idle:
            idle.sendall(b"nr 4\n")
            assert idle.recv(64) == b"ok 4\n"
            begun = time.monotonic()
            status, output, _ = run(["--end", port, "--within", "0.5"])
            assert status == 1 and time.monotonic() - begun < built.SECONDS
            assert (
                output == "after 0.5 seconds its workers still hold sessions that stay open; 0 were closed\n"
            )
            assert program.poll() is None
            status, output, _ = run(["--end", port, "--within", "0.3", "--pid", program.pid])
            assert (
                status == 1 and f"process {program.pid} was sent SIGTERM: it ends without an audit" in output
            )
            assert program.wait(built.SECONDS) == -signal.SIGTERM
    finally:
        program.kill()
        program.wait()
