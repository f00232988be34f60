"""Sessions and what they share: rows, races for pages, look-ups, and all that a session left."""
import random
from concurrent.futures import ThreadPoolExecutor
from dataclasses import dataclass
from pathlib import Path

import pytest
from built import SECONDS, Case, Memory, each_case, text_of
from limits import each_limit
from serving import MANY, Serve, at_once, cut, outcome_of, whole_replies

from hugetlb_session import Meminfo, Refused


@each_case
def test_runs_rows_over_a_session(serve: Serve, case: Case) -> None:
    """Each row and example over a session, as a stream that is half closed at its end.

    Those of few lines have trails, whose audit is right.
    """
    trace = MANY if len(case.lines()) < MANY else 0
    with serve(1, 1, case.words, trace) as server, server.link() as link:
        assert whole_replies(link, case.script) == case.expected


@each_case
def test_runs_rows_over_four_sessions(serve: Serve, case: Case) -> None:
    """Each row and example with its lines over four sessions by turns.

    Each waits for the reply of the one before.
    """
    with serve(4, 4, case.words) as server:
        sessions = [server.session() for _ in range(4)]
        for at, (line, reply) in enumerate(case.lines()):
            if line.endswith(b"\n") and len(line) <= 1025:
                got = sessions[at % 4].reply(line[:-1])
                assert "".join(f"{it}\n" for it in got) == reply.decode(), line
        for session in sessions:
            session.close()


def test_races_for_the_last_pages(serve: Serve) -> None:
    """Four sessions at once ask for more pages than there are: as many are granted as there are.

    Each reply is its session's own.
    """
    with serve(5, 5) as server:
        first = server.session()
        first.nr(7)
        sessions = [server.session() for _ in range(4)]
        for task, session in enumerate(sessions):
            session.connect(task, 0)
        got = at_once(sessions, [5 * [f"anon {at} 1 private"] for at in range(4)])
        granted = [[it for it in replies if isinstance(it, int)] for replies in got]
        assert granted == [list(range(1, len(numbers) + 1)) for numbers in granted]
        refused = {it for replies in got for it in replies if isinstance(it, Refused)}
        assert refused == {Refused(2, "NoPages", "")}
        assert (sum(map(len, granted)), first.meminfo()) == (7, Meminfo(7, 7, 7, 0, 1, 7))
        for session in (first, *sessions):
            session.close()


def own_file(at: int) -> list[str]:
    """Lines of a task and a file of its own."""
    mapped = [f"connect {at} 0", f"create 0 f{at}", f"map {at} 0 f{at} 0 3 shared"]
    return [*mapped, f"store {at} 0 1 0 0 ff", f"load {at} 0 1 0 0 2"]


@pytest.mark.parametrize("trace", [0, 1000])
def test_races_with_files_of_their_own(serve: Serve, trace: int) -> None:
    """Four sessions at once on four workers, each with a task and a file of its own.

    Two get the pages that they map, and two none.
    """
    with serve(6, 4, trace=trace) as server:
        with server.session() as session:
            session.nr(8)
        sessions = [server.session() for _ in range(4)]
        got = at_once(sessions, [own_file(at) for at in range(4)])
        no_map = Refused(16, "NoSuchMap", "")
        granted = [None, None, 1, None, b"\xff\0"]
        refused = [None, None, Refused(2, "NoPages", ""), no_map, no_map]
        wanted = [granted, granted, refused, refused]
        assert sorted(got, key=lambda it: isinstance(it[2], Refused)) == wanted
        for session in sessions:
            session.close()
        with server.session() as session:
            assert session.meminfo()[:4] == (8, 6, 4, 0)


def random_map(draw: random.Random, task: int, other: int) -> str:
    place = f"{draw.randrange(4)} {1 + draw.randrange(8)}"
    kind = draw.choice(["shared", "shared", "private"]) + draw.choice(["", "", " noreserve"])
    return f"map {task} 1 f{other} {place} {kind}"


def random_run(draw: random.Random, task: int, other: int) -> list[str]:
    """Faults of which most follow each other, and what counts behind them."""
    first, count, intent = draw.randrange(6), 1 + draw.randrange(20), draw.choice(["read", "write"])
    lines = [
        f"fault {task} 1 {1 + draw.randrange(2)} {at} {intent}"
        for at in range(first, first + count)
        if draw.randrange(12)
    ]
    load, store = f"load {other} 1 1 {first} 0 4", f"store {task} 1 1 {first} 0 ab"
    return lines + draw.choice([["nodes", "meminfo"], [load], [store], []])


def lines_with_runs(seed: int) -> list[str]:
    """Lines of four tasks of one slot, of which many are faults at indices that follow each other.

    They are in maps of holes, of reservations and private ones, past their ends, and of other tasks between.
    Others take pages, tasks and homes away.
    """
    draw = random.Random(seed)
    words = [*2 * ["map"], *5 * ["run"], "truncate", "punch", "unmap", "exit"]
    lines = ["nr 14", "mount 1 size=40K,min_size=8K"]
    for task in range(4):
        lines += [f"connect {task} {draw.randrange(3)}", f"create 1 f{task}"]
    for _ in range(60):
        task, other = draw.randrange(4), draw.randrange(4)
        word = draw.choice(words)
        if word == "map":
            lines.append(random_map(draw, task, other))
        elif word == "run":
            lines += random_run(draw, task, other)
        elif word == "truncate":
            lines.append(f"truncate 1 f{other} {draw.randrange(8)}")
        elif word == "punch":
            lines.append(f"punch 1 f{other} 0 {1 + draw.randrange(8)}")
        elif word == "unmap":
            lines.append(f"unmap {task} 1 1 {draw.randrange(4)} {4 + draw.randrange(6)}")
        else:
            lines += [f"exit {task}", f"connect {task} {draw.randrange(3)}"]
    return [*lines, "nodes", "meminfo", "df 1", "ls 1"]


def test_faults_that_follow_each_other(serve: Serve, program: Path) -> None:
    """Faults at indices that follow each other, all sent at once, are answered as one at a time.

    The replies are a script's, with a trace and without.
    """
    words = ["--frames", "3,6,5", "--page", "1024", "--slots", "2"]
    for seed in range(60):
        script = text_of(lines_with_runs(seed))
        wanted = outcome_of(program, script, words)
        assert b"error" in wanted and b"HugePages_Free" in wanted
        with serve(1, 1, words, trace=seed % 2 * 2000) as server, server.link() as link:
            assert whole_replies(link, script) == wanted, seed


# Tasks of one place among the words that look-ups read, one beside it, and the least and greatest numbers,
# with those from which on none is noted.
NUMBERED = [7, 7 + 16384, 7 + 2 * 16384, 8, 0, 1, 2**62 - 2, 2**62 - 1, 2**62, 2**63]
NUMBERED += [2**64 - 16384 + 7, 2**64 - 2, 2**64 - 1]
LOOK_UPS = 100_000


@dataclass
class Change:
    """A line that changes the task table: `connect` to a home, `fork` to a child, or `exit`."""

    word: str
    task: int
    other: int

    @classmethod
    def drawn(cls, draw: random.Random) -> "Change":
        word, task = draw.choice(["connect", "connect", "exit", "fork"]), draw.choice(NUMBERED)
        return cls(word, task, draw.choice(NUMBERED) if word == "fork" else draw.randrange(4))

    def line(self) -> str:
        return f"exit {self.task}" if self.word == "exit" else f"{self.word} {self.task} {self.other}"

    def answer(self, homes: dict[int, int]) -> bytes:
        """Its reply where tasks have these homes, which are then as it leaves them."""
        made = {"connect": self.task, "fork": self.other}.get(self.word)
        if self.word != "connect" and self.task not in homes:
            return b"error 6 NoSuchTask"
        if made in homes:
            return b"error 7 TaskExists"
        if made is None:
            del homes[self.task]
        else:
            homes[made] = self.other if self.word == "connect" else homes[self.task]
        return b"ok"


def test_look_ups_see_what_was_answered(serve: Serve) -> None:
    """What one session was answered, the next look-ups of others see.

    So it is after each connect, exit and fork of tasks whose numbers collide, and of the greatest.
    """
    draw, homes, looked = random.Random(1), dict[int, int](), 0
    with serve(3, 3, ["--frames", "64,64,64,64", "--slots", "2"]) as server:
        links = [server.link() for _ in range(3)]
        ends = [link.makefile("rb") for link in links]
        while looked < LOOK_UPS:
            change, at = Change.drawn(draw), draw.randrange(3)
            line = change.line()
            links[at].sendall(f"{line}\n".encode())
            assert ends[at].readline().strip() == change.answer(homes), line
            for link, end in ((links[k], ends[k]) for k in range(3) if k != at):
                link.sendall("".join(f"attach {it}\n" for it in NUMBERED).encode())
                for it in NUMBERED:
                    wanted = b"ok %d" % homes[it] if it in homes else b"error 6 NoSuchTask"
                    assert end.readline().strip() == wanted, f"attach {it} of another session, after {line}"
                    looked += 1
        for task in list(homes):
            links[0].sendall(f"exit {task}\n".encode())
            assert ends[0].readline().strip() == b"ok", f"exit {task}"
        for link, end in zip(links, ends):
            end.close()
            link.close()


@pytest.mark.parametrize("trace", [0, MANY])
def test_keeps_what_a_failed_session_left(serve: Serve, trace: int) -> None:
    """Tasks and maps of a session that failed at its reader after its store stay, for others to use and to
    end."""
    with serve(2, 2, trace=trace) as server:
        link = server.link()
        link.sendall(b"nr 4\nconnect 1 0\nanon 1 1 private\nstore 1 0 1 0 0 5a\n")
        got = b""
        while got.count(b"\n") < 4:
            got += link.recv(64)
        assert got == b"ok 4\nok\nok 1\nok\n"
        cut(link)
        with server.session() as session:
            assert (session.attach(1), session.load(1, 0, 1, 0, 0, 1)) == (0, b"\x5a")
            session.exit(1)
            assert session.meminfo()[:4] == (4, 4, 0, 0)


def test_keeps_what_a_session_left(serve: Serve) -> None:
    """Tasks and maps of a session that ended stay, for others to use and to end."""
    with serve(3, 2) as server:
        with server.session() as session:
            session.nr(4)
            session.connect(1, 1)
            session.store(1, 0, session.anon(1, 2, "private"), 0, 0, b"left")
        with server.session() as session:
            assert (session.attach(1), session.load(1, 0, 1, 0, 0, 4)) == (1, b"left")
            session.exit(1)
            assert session.meminfo()[:4] == (4, 4, 0, 0)


def test_serves_as_many_as_it_has_workers(serve: Serve) -> None:
    """64 sessions that stay open, each served."""
    with serve(64, 64) as server:
        sessions = [server.session() for _ in range(64)]
        for turn in range(3):
            for task, session in enumerate(sessions):
                got = session.many([f"connect {task} 0", f"attach {task}"])
                assert got[1] == 0, (turn, task)
        for session in sessions:
            session.close()


def test_serves_a_thousand(serve: Serve) -> None:
    """1,000 short sessions, four at a time."""
    with serve(1000, 4) as server:

        def one(number: int) -> None:
            with server.session() as session:
                session.connect(number, 0)
                session.exit(number)

        with ThreadPoolExecutor(4) as pool:
            list(pool.map(one, range(1000)))


def test_waits_where_all_workers_have_sessions(serve: Serve) -> None:
    """A session beyond the workers is served as soon as one of the others ends."""
    with serve(3, 2) as server, ThreadPoolExecutor(1) as pool:
        first, second, third = (server.session() for _ in range(3))
        assert (first.nr(1), second.nr(2)) == (1, 2)
        served = pool.submit(third.nr, 3)
        first.close()
        assert (served.result(SECONDS), second.meminfo().total) == (3, 3)
        second.close()
        third.close()


@each_limit
def test_answers_at_the_limits(serve: Serve, words: list[str], lines: list[str], refused: list[str]) -> None:
    """With ample memory a session is given nothing up at a size that the limits allow.

    The shorter scripts are run with trails too, which are audited.
    """
    for trace in (0, 40_000) if len(lines) <= 15_000 else (0,):
        with serve(1, 1, words, trace) as server, server.session() as session:
            got = [reply[0] for reply in session.replies(lines)]
        assert len(got) == len(lines), trace
        assert {it for it in got if it.startswith("error")} == set(refused), trace


def test_holds_nothing_of_sessions_that_went(serve: Serve, memory: Memory) -> None:
    """Sessions that come and go leave nothing but the cell of each, which is there from the start.

    What is held at most does not grow by what they held.
    """
    most = list[int]()
    preloaded = ["env", *(f"{name}={value}" for name, value in memory.environment().items())]
    for sessions in (10, 1000):
        with serve(sessions, 1, under=preloaded) as server:
            for _ in range(sessions):
                with server.session() as session:
                    session.nr(4)
                    session.nr(0)
        calls, held, bytes_held = memory.told()
        assert held == 0
        most.append(bytes_held)
    assert most[1] - most[0] < 990 * 256
