"""The client, where a wrong one would go unseen: it judges the tests of the server."""
import os
import socket
import struct
import subprocess
import sys
import threading
import time

import built
import pytest
from common import PROGRAM, TOOL, run

from hugetlb_session import Refused, Session


def test_refusals_differ() -> None:
    """A refusal is equal to the same refusal of any line, and to no other, and to no value."""
    assert Refused(2, "NoPages", "a") == Refused(2, "NoPages", "b") and hash(
        Refused(2, "NoPages", "a")
    ) == hash(Refused(2, "NoPages", "b"))
    for other in (Refused(3, "NoPages", "a"), Refused(2, "MountFull", "a"), 2, "NoPages", None):
        assert Refused(2, "NoPages", "a") != other


def test_seconds_are_kept() -> None:
    with socket.create_server(("127.0.0.1", 0)) as server:
        begun = time.monotonic()
        with Session.over_socket(server.getsockname()[1], seconds=0.3) as session, pytest.raises(
            TimeoutError
        ):
            session.reply("nr 4")
        assert 0.2 < time.monotonic() - begun < built.SECONDS


def test_host_is_kept() -> None:
    """A server at another address of this machine is found by it, and not at the usual one."""
    with socket.create_server(("127.0.0.2", 0)) as server:
        port = server.getsockname()[1]
        threading.Thread(target=lambda: server.accept()[0].sendall(b"ok 4\n"), daemon=True).start()
        with pytest.raises(ConnectionRefusedError):
            Session.over_socket(port)
        with Session.over_socket(port, host="127.0.0.2") as session:
            assert session.nr(4) == 4


def test_end_goes_on_after_a_reset() -> None:
    """A session that the server resets, before or after it has the client's end, is no end: the next one is
    opened, until no more are taken."""
    with socket.create_server(("127.0.0.1", 0)) as listens:

        def serves() -> None:
            for number in range(60):
                link, _ = listens.accept()
                if number == 59:
                    listens.close()
                if number % 3 > 0:
                    link.setsockopt(socket.SOL_SOCKET, socket.SO_LINGER, struct.pack("ii", 1, 0))
                if number % 3 < 2:
                    link.recv(1)
                link.close()

        thread = threading.Thread(target=serves)
        thread.start()
        assert run(["--end", listens.getsockname()[1]])[::2] == (0, "")
        thread.join(built.SECONDS)
        assert not thread.is_alive()


def test_end_of_input_after_a_reset() -> None:
    """The input of a session that the server has reset already is ended by no call of its own: it is a
    ConnectionError as each other reset."""
    with socket.create_server(("127.0.0.1", 0)) as listens, Session.over_socket(
        listens.getsockname()[1]
    ) as session:
        link, _ = listens.accept()
        link.setsockopt(socket.SOL_SOCKET, socket.SO_LINGER, struct.pack("ii", 1, 0))
        link.close()
        with pytest.raises(ConnectionError):
            session.end_input()


def test_watch_writes_each_line_at_once() -> None:
    """Each line comes when it is asked for, also into a pipe."""
    words = ["serve", "--port", "0", "--sessions", "1", "--workers", "1", "--trace", "0"]
    program = subprocess.Popen([PROGRAM, *words], stdout=subprocess.PIPE, text=True)
    try:
        assert program.stdout
        port = program.stdout.readline().split()[1]
        # (with PYTHONUNBUFFERED a line comes at once whoever writes it)
        environment = {name: value for name, value in os.environ.items() if name != "PYTHONUNBUFFERED"}
        watch = subprocess.Popen(
            [sys.executable, TOOL, "--watch", port, "--seconds", "60"],
            stdout=subprocess.PIPE,
            text=True,
            env=environment,
        )
        assert watch.stdout
        reads, found = watch.stdout.readline, list[str]()
        reader = threading.Thread(target=lambda: found.extend([reads(), reads()]))
        reader.start()
        reader.join(built.SECONDS)
        watch.kill()
        watch.wait()
        assert (
            len(found) == 2
            and found[0].split() == ["Total", "Free", "Rsvd", "Surp", "in", "use"]
            and found[1].endswith("0\n")
        )
        program.wait(built.SECONDS)
    finally:
        program.kill()
        program.wait()


def test_a_preallocation_is_short_by_what_it_lacks() -> None:
    """Its shortage is of the indices of its range that have no page, and not of all up to its end."""
    output = run([], "nr 4\nconnect 1 0\nanon 1 2 private\ncreate 0 a\npreallocate 0 a 5 9\n")[1]
    assert "2 pages short of nr and overcommit: 4 pages more would be committed" in output
    output = run([], "nr 4\nconnect 1 0\ncreate 0 a\npreallocate 0 a 0 2\npreallocate 0 a 0 5\n")[1]
    assert "1 page short of nr and overcommit: 3 pages more would be committed" in output
