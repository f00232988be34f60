"""What it costs to wait for a part that another session holds."""
import time
from pathlib import Path

from built import text_of
from serving import Serve, Server

# A page of a file takes so long to fill that one line holds its slot for a good while.
PAGES, WAITING = 65_536, 6
WORDS = ["--page", "4096", "--frames", str(PAGES)]
# Of the time that a thread waits, it may work for this share and for these seconds: else it spins.
MOST_SHARE, MOST_SECONDS, TRIES = 0.1, 0.005, 5


def work_of_threads(server: Server) -> dict[str, float]:
    """Seconds of processor time of each thread."""
    threads = Path(f"/proc/{server.program.pid}/task").iterdir()
    return {it.name: int((it / "schedstat").read_text().split()[0]) / 1e9 for it in threads}


def work_while_waiting(serve: Serve) -> tuple[float, float]:
    """Seconds that the slot was held, and those that all who waited for it worked meanwhile."""
    with serve(1 + WAITING, 1 + WAITING, WORDS) as server:
        holds, *waits = (server.link() for _ in range(1 + WAITING))
        for link in (holds, *waits):
            link.sendall(b"nr %d\n" % PAGES)
            assert link.recv(64) == b"ok %d\n" % PAGES
        holds.sendall(b"create 0 a\n")
        assert holds.recv(64) == b"ok\n"
        before, begun = work_of_threads(server), time.monotonic()
        holds.sendall(text_of([f"preallocate 0 a 0 {PAGES}"]))
        time.sleep(0.01)
        for link in waits:
            link.sendall(b"stat 0 a\n")
        assert holds.recv(64) == b"ok\n"
        seconds = time.monotonic() - begun
        assert {link.recv(64) for link in waits} == {b"ok %d %d %d 0\n" % (PAGES, PAGES, PAGES)}
        after = work_of_threads(server)
        worked = sorted(after[it] - before[it] for it in after)
        holds.sendall(b"unlink 0 a\n")
        assert holds.recv(64) == b"ok\n"
        for link in (holds, *waits):
            link.close()
    # (the one that held the slot worked most)
    return seconds, sum(worked[:-1])


def test_who_waits_for_a_slot_sleeps(serve: Serve) -> None:
    seen = list[tuple[float, float]]()
    while not any(worked < seconds * MOST_SHARE + MOST_SECONDS * WAITING for seconds, worked in seen):
        assert len(seen) < TRIES, seen
        seen.append(work_while_waiting(serve))
