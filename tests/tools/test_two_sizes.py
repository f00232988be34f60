"""Plans with pages of two sizes: each is a pool of its own, and they share the host's memory."""
from pathlib import Path
from typing import Any

import pytest
from plans import answered, told

HOST = '[host]\nmemory = "64GiB"\nkeep = 0\n'
GUESTS = '[[guest]]\ncount = {}\nmemory = "7.5GiB"\npage = "1GiB"\n'


def pools(answer: dict[str, Any]) -> dict[int, tuple[bool, int, int]]:
    return {it["page_bytes"] >> 20: (it["fits"], it["nr"], it["host_pages"]) for it in answer["pools"]}


def test_each_is_a_pool(tmp_path: Path) -> None:
    """Guests of 1 GiB pages beside a database of 2 MiB ones: a table for each, and the smaller pages have
    what is left."""
    text = HOST + GUESTS.format(4) + '[[postgresql]]\nshared_memory = "16GiB"\n'
    answer = told(tmp_path, text)
    assert answer["fits"] and pools(answer) == {1024: (True, 32, 64), 2: (True, 8192, 16384)}
    output = answered(tmp_path, text)[1]
    assert (
        "Pages of 1 GiB:" in output
        and "Pages of 2 MiB:" in output
        and "from the kernel's command line: --cmdline prints it" in output
    )


@pytest.mark.parametrize(
    ("guests", "memory", "fits"),
    [(7, "8GiB", True), (7, "8.002GiB", False), (8, "2MiB", False), (8, None, True), (9, None, False)],
)
def test_they_share_the_memory(guests: int, memory: str | None, fits: bool, tmp_path: Path) -> None:
    database = f'[[redis]]\nmemory = "{memory}"\n'.replace("8.002GiB", "4097 pages") if memory else ""
    answer = told(tmp_path, HOST + GUESTS.format(guests) + database)
    assert answer["fits"] == fits, answer["pools"]


def test_they_share_each_node(tmp_path: Path) -> None:
    """On a node the sum of what is bound there decides, whatever its size of page; what is not bound gives
    way."""
    host = '[host]\nnodes = ["16GiB", "16GiB"]\nkeep = 0\n'
    guest = '[[guest]]\nmemory = "12GiB"\npage = "1GiB"\nnode = 0\n'
    assert told(tmp_path, host + guest + '[[map]]\nmemory = "4GiB"\nnode = 0\nbind = true\n')["fits"]
    status, output = answered(tmp_path, host + guest + '[[map]]\nmemory = "5GiB"\nnode = 0\nbind = true\n')
    assert (
        status == 1
        and "of pages of 2 MiB node 0 is asked for 5 GiB of 16 GiB, of which 4 GiB can be had" in output
    )
    answer = told(
        tmp_path,
        host + guest.replace("node = 0\n", "") + '[[map]]\nmemory = "16GiB"\nnode = 0\nbind = true\n',
    )
    assert answer["fits"] and pools(answer)[1024] == (True, 12, 16)


def test_larger_pages_leave_room_for_what_is_bound_to_several_nodes(tmp_path: Path) -> None:
    """Four pages of 1 GiB find room on the node that the 6 GiB bound to the other two do not want."""
    host = '[host]\nnodes = ["4GiB", "4GiB", "4GiB"]\nkeep = 0\n'
    large = '[[map]]\nmemory = "4GiB"\npage = "1GiB"\n'
    small = '[[map]]\nmemory = "6GiB"\nnode = [0, 1]\nbind = true\n'
    answer = told(tmp_path, host + large + small)
    assert answer["fits"], answer["pools"]
    assert not told(tmp_path, host + large.replace('"4GiB"', '"7GiB"') + small)["fits"]


def test_a_mount_has_a_size_of_page(tmp_path: Path) -> None:
    """The programs on a mount have its pages; the overcommit is of the default size alone."""
    text = (
        HOST
        + '[[mount]]\nname = "big"\npage = "1GiB"\nminimum = "10GiB"\n'
        + '[[guest]]\nmemory = "8GiB"\nmount = "big"\n'
        + '[[java]]\nmemory = "4GiB"\n[overcommit]\nat_most = "1GiB"\n'
    )
    answer = told(tmp_path, text)
    assert pools(answer) == {1024: (True, 10, 64), 2: (True, 2048, 27648)}
    assert [it["nr_with_overcommit"] for it in answer["pools"]] == [None, 1536]


def test_the_default_size_may_be_the_larger_one(tmp_path: Path) -> None:
    answer = told(
        tmp_path,
        HOST.replace("keep", 'page = "1GiB"\nkeep')
        + '[[guest]]\nmemory = "8GiB"\n[[java]]\nmemory = "4GiB"\npage = "2MiB"\n',
    )
    assert answer["page_bytes"] == 1 << 30 and pools(answer) == {1024: (True, 8, 64), 2: (True, 2048, 28672)}
