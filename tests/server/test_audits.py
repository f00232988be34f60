"""Trails and receipts, and the audit of them at a server's end."""
from pathlib import Path

import pytest
from built import SECONDS
from serving import MANY, Serve, Server, at_once, hundreds_come_and_go

from hugetlb_session import Refused

FULL = Refused(23, "TraceFull", "")
# How a server ended: its status, its standard error, and the first line that it printed at its end.
End = tuple[int, str, tuple[str, ...]]


def mixed(at: int) -> list[str]:
    """Lines of a task of its own."""
    turn = [
        f"anon {at} 1 private",
        f"store {at} 0 1 0 0 6{at}",
        f"load {at} 0 1 0 0 1",
        f"unmap {at} 0 1 0 1",
    ]
    return [f"connect {at} 0", *(200 * [*turn, "meminfo"]), f"exit {at}"]


def test_audits(serve: Serve) -> None:
    """With room for trails, mixed lines of four sessions are audited at the end."""
    with serve(4, 4, trace=100_000) as server:
        sessions = [server.session() for _ in range(4)]
        sessions[0].nr(8)
        got = at_once(sessions, [mixed(at) for at in range(4)])
        loaded = [{it for it in replies if isinstance(it, bytes)} for replies in got]
        assert loaded == [{bytes([0x60 + at])} for at in range(4)]
        for session in sessions:
            session.close()


def test_refuses_lines_where_trails_are_full(serve: Serve) -> None:
    """Where the room for trails is used up lines are refused TraceFull, and it ends well."""
    with serve(1, 1, trace=20) as server, server.session() as session:
        assert session.many(["nr 4"] * 50) == [4] * 20 + [FULL] * 30


def test_gives_back_with_full_trails(serve: Serve) -> None:
    """Where the task table's trail is full, tasks that are there exit all the same, whatever session asks.

    The audit is right.
    """
    with serve(3, 1, trace=10) as server:
        with server.session() as session:
            assert session.many([f"connect {task} 0" for task in range(12)]) == [None] * 10 + [FULL] * 2
        with server.session() as session:
            lines = "nr 4,connect 10 0,attach 2,anon 2 1 private,exit 1,exit 1,exit 2"
            got = session.many(lines.split(","))
            assert got == [4, FULL, FULL, FULL, None, FULL, None]
        with server.session() as session:
            assert session.many(["meminfo", "exit 2", "exit 3"])[1:] == [FULL, None]


def test_audits_three_hundred_sessions(serve: Serve) -> None:
    """Each session files what it was told under a number of its own: the audit of 300 has it all."""
    with serve(300, 4, trace=2000) as server:
        for task in range(300):
            with server.session() as session:
                session.connect(task, 0)


def test_audits_five_thousand_sessions(serve: Serve) -> None:
    """Each session of 5,000 has what it was told, also where that is nothing."""
    with serve(5000, 4, trace=60) as server:
        hundreds_come_and_go(server, 49)


def test_has_room_for_a_million(serve: Serve) -> None:
    with serve(1, 1, trace=1_000_000) as server, server.session() as session:
        assert session.many(["nr 4", "connect 1 0", "anon 1 4 private", "nr 0"]) == [4, None, 1, 0]


@pytest.mark.parametrize("line", ["nr 4", "df 0", "attach 1"])
def test_keeps_many_places(serve: Serve, line: str) -> None:
    """66,000 of 70,000 places that are used on a part: nothing is given up, and the audit is right."""
    with serve(1, 1, trace=70_000) as server, server.session() as session:
        got = session.replies(["connect 1 0", *66_000 * [line]])
        assert (len(got), len({it[0] for it in got[1:]}), got[-1][0][:2]) == (66_001, 1, "ok")


def places_of(server: Server, number: int) -> list[int]:
    """Where the server's memory has this number, in eight bytes."""
    wanted, found = number.to_bytes(8, "little"), list[int]()
    with open(f"/proc/{server.program.pid}/mem", "rb", 0) as memory:
        for line in Path(f"/proc/{server.program.pid}/maps").read_text().splitlines():
            begin, end = (int(it, 16) for it in line.split()[0].split("-"))
            if " rw" not in line or "[v" in line:
                continue
            memory.seek(begin)
            bytes_there, at = memory.read(end - begin) or b"", -1
            while (at := bytes_there.find(wanted, at + 1)) >= 0:
                found.append(begin + at)
    return found


def end_with_one_changed(serve: Serve, number: int, which_of: int) -> End | None:
    """How a server with trails ends where one of the places with a task's number gets another number.

    A session was told of the task. There is no end if there are fewer places.
    """
    server = serve(1, 1, trace=MANY)
    try:
        link = server.link()
        link.sendall(b"attach %d\n" % number)
        assert link.recv(64) == b"error 6 NoSuchTask\n"
        places = places_of(server, number)
        if which_of < len(places):
            with open(f"/proc/{server.program.pid}/mem", "r+b", 0) as memory:
                memory.seek(places[which_of])
                memory.write(bytes([number % 256 ^ 1]))
        link.close()
        output, faults = server.program.communicate(timeout=SECONDS)
        end = server.program.returncode, faults, tuple(output.splitlines()[:1])
        return end if which_of < len(places) else None
    finally:
        server.kill()


def test_tells_of_an_audit_that_failed(serve: Serve) -> None:
    """Where the memory of a trail, or that of a receipt, is not any more what a session was told, the server
    says so at its end, with status 3."""
    ends, number, failed = list[End](), 0x1F2E3D4C5B6A7988, (3, "", ("audit failed",))
    while (end := end_with_one_changed(serve, number, len(ends))) is not None:
        ends.append(end)
    assert {*ends} - {(0, "", ("audit ok",))} == {failed}
    assert ends.count(failed) == 2, "for the trail and for the receipt"
