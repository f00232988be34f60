"""Lines where trails are full: what gives back is never refused."""
from serving import Serve, whole_replies

FULL = b"error 23 TraceFull\n"
MAKES_A_PAGE = {
    b"connect 1 0\n": b"ok\n",
    b"nr 2\n": b"ok 2\n",
    b"create 0 a\n": b"ok\n",
    b"map 1 0 a 0 1 private\n": b"ok 1\n",
    b"fault 1 0 1 0 write\n": b"ok\n",
}
# Each part's trail has so many places: three of the slot's and three of the pool's are taken by then.
PLACES = 8
LEFT = PLACES - 3
FILLS = {LEFT * b"ls 0\n": LEFT * b"text 1\na\n", LEFT * b"overcommit 0\n": LEFT * b"ok\n"}
IS_FULL = {b"ls 0\n": FULL, b"unlink 0 a\n": FULL, b"meminfo\n": FULL, b"exit 1\n": b"ok\n"}


def test_full_trails_keep_no_page(serve: Serve) -> None:
    """The task exits, and its page goes back, where the trails of its slot and of the pool are full.

    The audit is right.
    """
    asked = MAKES_A_PAGE | FILLS | IS_FULL
    with serve(len(asked), 1, trace=PLACES) as server:
        for lines, replies in asked.items():
            with server.link() as link:
                assert (lines, whole_replies(link, lines)) == (lines, replies)
