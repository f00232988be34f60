"""Plans whose programs are bound to nodes: each node decides, and the order of touching may hurt."""
import random
from itertools import permutations
from pathlib import Path

import pytest
from common import run
from plans import answered, by_node, told

TWO = '[host]\nnodes = ["128GiB", "128GiB"]\nkeep = 0\n'
GUESTS = '[[guest]]\ncount = 10\nmemory = "20GiB"\n'


def test_a_node_that_is_too_small(tmp_path: Path) -> None:
    """Ten guests of 20 GiB fit a host of two nodes of 128 GiB, and do not fit one of its nodes."""
    assert told(tmp_path, TWO + GUESTS)["fits"]
    status, output = answered(tmp_path, TWO + GUESTS + "node = 0\n")
    assert status == 1 and "It does not fit: node 0 is asked for 200 GiB of 128 GiB." in output
    assert "guest 7 to 10" in output and "is killed (SIGBUS) at a touch: node 0 has too few pages" in output
    answer = told(tmp_path, TWO + GUESTS + "node = 0\n")
    assert by_node(answer, "bound") == [102400, 0] and by_node(answer, "room") == [65536, 65536]
    assert [it["state"] for it in answer["programs"]] == 6 * ["whole"] + 4 * ["killed"]


def test_changing_the_node_changes_the_answer(tmp_path: Path) -> None:
    sides = [told(tmp_path, TWO + GUESTS.replace("10", "6") + f"node = {node}\n") for node in (0, 1)]
    assert [by_node(it, "bound") for it in sides] == [[61440, 0], [0, 61440]]
    assert [by_node(it, "nr") for it in sides] == [[61440, 0], [0, 61440]]


def test_what_binds(tmp_path: Path) -> None:
    """A guest is bound by its node alone; others where they say so; a guest that only prefers it is not."""
    small = '[host]\nnodes = ["8GiB", "56GiB"]\nkeep = 0\n'
    for text, fits in (
        ('[[guest]]\nmemory = "16GiB"\nnode = 0\n', False),
        ('[[guest]]\nmemory = "16GiB"\nnode = 0\nbind = false\n', True),
        ('[[guest]]\nmemory = "16GiB"\nnode = 1\n', True),
        ('[[guest]]\nmemory = "16GiB"\n', True),
        ('[[redis]]\nmemory = "16GiB"\nnode = 0\n', True),
        ('[[redis]]\nmemory = "16GiB"\nnode = 0\nbind = true\n', False),
        ('[[java]]\nheap = "16GiB"\nnode = 0\nbind = true\n', False),
        ('[[dpdk]]\nsocket_memory = ["16GiB", "0GiB"]\n', False),
        ('[[dpdk]]\nsocket_memory = ["8GiB", "8GiB"]\n', True),
        ('[[dpdk]]\nmemory = "16GiB"\n', True),
        ('[[guest]]\nnode_memory = ["9GiB", "1GiB"]\n', False),
        ('[[guest]]\nnode_memory = ["8GiB", "50GiB"]\n', True),
    ):
        assert told(tmp_path, small + text)["fits"] == fits, text


def test_a_guest_larger_than_a_node(tmp_path: Path) -> None:
    """It fits over both nodes where it is not bound; the larger of two unequal nodes takes what the smaller
    one can't."""
    text = '[host]\nnodes = ["32GiB", "96GiB"]\nkeep = 0\n[[guest]]\nmemory = "100GiB"\n'
    text += '[[guest]]\nname = "other"\nmemory = "1GiB"\nnode = 0\n'
    answer = told(tmp_path, text)
    assert (
        answer["fits"]
        and by_node(answer, "nr") == [512 + 15872, 35328]
        and by_node(answer, "room") == [16384, 49152]
    )
    assert not told(tmp_path, text + '[[guest]]\nmemory = "31.5GiB"\nnode = 0\n')["fits"]


def test_socket_sizes_are_rounded_each(tmp_path: Path) -> None:
    """Each size of a node is rounded up to pages by itself."""
    answer = told(tmp_path, TWO + '[[dpdk]]\nsocket_memory = ["1MiB", "3MiB"]\n')
    assert (by_node(answer, "bound"), answer["nr"]) == ([1, 2], 3)


def test_nodes_are_rounded_each(tmp_path: Path) -> None:
    """Half a page on each of two nodes is no page."""
    answer = told(
        tmp_path,
        '[host]\nnodes = ["1025MiB", "1025MiB"]\nkeep = 0\n'
        '[[java]]\nmemory = "1GiB"\nnode = 1\nbind = true\n',
    )
    assert answer["host_pages"] == 1024 and by_node(answer, "room") == [512, 512]


def test_a_snapshot_stands_on_its_node(tmp_path: Path) -> None:
    """The copies of a bound store stand there too: with a page less the snapshot is lost."""
    store = '[[redis]]\nmemory = "10GiB"\nsnapshot = true\nrewritten = "50%"\nnode = 1\nbind = true\n'
    answer = told(tmp_path, '[host]\nnodes = ["64GiB", "15GiB"]\nkeep = 0\n' + store)
    assert answer["fits"] and by_node(answer, "bound") == [0, 7680]
    answer = told(tmp_path, '[host]\nnodes = ["64GiB", "15358MiB"]\nkeep = 0\n' + store)
    assert not answer["fits"] and [it["state"] for it in answer["programs"]] == ["lost"]


def test_an_nr_for_each_node(tmp_path: Path) -> None:
    """With `nr` a plan is tried: spread evenly as Linux does it, or as the list says."""
    text = '[host]\nnodes = ["64GiB", "64GiB"]\nkeep = 0\nnr = {}\n[[guest]]\nmemory = "20GiB"\nnode = 0\n'
    assert not told(tmp_path, text.format(20478))["fits"]
    assert told(tmp_path, text.format(20480))["fits"]
    assert told(tmp_path, text.format([10240, 0]))["fits"]
    answer = told(tmp_path, text.format([10239, 5000]))
    assert not answer["fits"] and by_node(answer, "nr") == [10239, 5000]


LATE = '[[redis]]\nmemory = "8GiB"\n[[guest]]\nmemory = "8GiB"\nnode = 1\n'


def test_who_may_take_a_bound_page(tmp_path: Path) -> None:
    """What is not bound may come first to a node: the answer says who, how much, and what would do."""
    host = '[host]\nnodes = ["32GiB", "32GiB"]\nkeep = 0\n'
    answer = told(tmp_path, host + LATE)
    assert answer["fits"] and by_node(answer, "nr") == [2048, 6144]
    assert by_node(answer, "short_of") == [0, 2048] and answer["nodes"][1]["takers"] == ["redis"]
    output = answered(tmp_path, host + LATE)[1]
    assert "node 1: redis may take 2,048 pages too many there, before guest touched theirs" in output
    assert "or set 8,192 pages there, 2,048 more" in output
    # bound ones that are preallocated and come first are safe; those that come later, or touch later, are not
    first = '[[guest]]\nmemory = "8GiB"\nnode = 1\nprealloc = true\n[[redis]]\nmemory = "8GiB"\n'
    assert by_node(told(tmp_path, host + first), "short_of") == [0, 0]
    assert by_node(told(tmp_path, host + first.replace("prealloc = true\n", "")), "short_of") == [0, 2048]
    assert by_node(told(tmp_path, host + LATE + "prealloc = true\n"), "short_of") == [0, 2048]
    assert "start what is bound first" in answered(tmp_path, host + LATE + "prealloc = true\n")[1]


def test_what_is_preferred(tmp_path: Path) -> None:
    """What only looks at a node first is set there, as far as there is room; the rest is spread evenly."""
    text = '[host]\nnodes = ["16GiB", "5GiB"]\nkeep = 0\n[[guest]]\nmemory = "4GiB"\nnode = 0\n'
    text += '[[redis]]\nmemory = "4GiB"\n'
    assert by_node(told(tmp_path, text), "nr") == [3072, 1024]
    assert by_node(told(tmp_path, text + "node = 1\n"), "nr") == [2048, 2048]
    assert by_node(told(tmp_path, text.replace("4GiB", "6GiB") + "node = 1\n"), "nr") == [3584, 2560]


def test_worst(tmp_path: Path) -> None:
    """With --worst no order of touching hurts: each node has what is bound to it, and all that could come
    before."""
    host = '[host]\nnodes = ["32GiB", "32GiB"]\nkeep = 0\n'
    answer = told(tmp_path, host + LATE, "--worst")
    assert answer["fits"] and by_node(answer, "nr") == [0, 8192] and by_node(answer, "short_of") == [0, 0]
    tight = '[host]\nnodes = ["32GiB", "15GiB"]\nkeep = 0\n'
    assert told(tmp_path, tight + LATE)["fits"] and not told(tmp_path, tight + LATE, "--worst")["fits"]
    assert "node 1 is asked for 16 GiB of 15 GiB" in answered(tmp_path, tight + LATE, "--worst")[1]


class Hurt(Exception):
    """A program touched a page that was promised, and found none."""


def touched(nodes: list[int], programs: list[tuple[int | None, int]], order: list[int], first: int) -> None:
    """Linux' nodes: each program of (node, pages) takes its pages in this order; what is bound to none takes
    those of the first node before others."""
    left = list(nodes)
    for at in order:
        node, pages = programs[at]
        for other in [first, *range(len(left))] if node is None else [node]:
            taken = min(pages, left[other])
            left[other], pages = left[other] - taken, pages - taken
        if pages:
            raise Hurt


@pytest.mark.parametrize("seed", range(12))
def test_worst_by_chance(seed: int, tmp_path: Path) -> None:
    """Plans by chance: with --worst no order of touching hurts on any node, and with a page less on a node
    one does."""
    chance = random.Random(seed)
    programs: list[tuple[int | None, int]] = [
        (chance.choice([None, 0, 1, 2]), chance.randrange(1, 60)) for _ in range(4)
    ]
    text = '[host]\nnodes = ["4GiB", "4GiB", "4GiB"]\nkeep = 0\n'
    for node, pages in programs:
        text += f"[[guest]]\npages = {pages}\n" + ("" if node is None else f"node = {node}\n")
    answer = told(tmp_path, text, "--worst")
    if not answer["nodes"]:
        assert all(node is None for node, _ in programs)
        return
    nodes = by_node(answer, "nr")
    for order in permutations(range(4)):
        for first in range(3):
            touched(nodes, programs, list(order), first)
    free_first = sorted(range(4), key=lambda it: programs[it][0] is not None)
    for node in {node for node, _ in programs if node is not None}:
        with pytest.raises(Hurt):
            touched([count - (at == node) for at, count in enumerate(nodes)], programs, free_first, node)


@pytest.mark.parametrize("seed", range(10))
def test_nodes_by_chance(seed: int, tmp_path: Path) -> None:
    """Whether it fits is what sums say: of each node what is bound to it, of the whole all."""
    chance = random.Random(100 + seed)
    sizes = [chance.randrange(1, 400) for _ in range(chance.randrange(2, 9))]
    listed = [f'"{size * 2 + chance.randrange(2)}MiB"' for size in sizes]
    text = f'[host]\nnodes = [{", ".join(listed)}]\nkeep = 0\n'
    bound, free = [0] * len(sizes), 0
    for _ in range(chance.randrange(1, 9)):
        node, count, pages = (
            chance.choice([None, *range(len(sizes))]),
            chance.randrange(1, 4),
            chance.randrange(1, 90),
        )
        kind = chance.choice(["guest", "redis", "map"])
        text += f"[[{kind}]]\ncount = {count}\npages = {pages}\n"
        if node is None:
            free += count * pages
        else:
            text += f"node = {node}\nbind = true\n"
            bound[node] += count * pages
    answer = told(tmp_path, text)
    assert answer["nr"] == sum(bound) + free
    fits = all(asked <= size for asked, size in zip(bound, sizes)) and sum(bound) + free <= sum(sizes)
    assert answer["fits"] == fits
    if answer["nodes"]:
        assert by_node(answer, "bound") == bound and by_node(answer, "room") == sizes
        if fits:
            assert sum(by_node(answer, "nr")) == sum(bound) + free
            assert all(low <= nr <= high for low, nr, high in zip(bound, by_node(answer, "nr"), sizes))


THREE = '[host]\nnodes = ["10GiB", "10GiB", "20GiB"]\nkeep = 0\n'
WIDE = '[[guest]]\nname = "wide"\ncount = 2\nmemory = "7GiB"\nnode = [0, 1]\n'
ZERO = '[[guest]]\nname = "zero"\nmemory = "{}GiB"\nnode = 0\n'


def test_several_nodes_hold_pages_together(tmp_path: Path) -> None:
    """Two guests of 7 GiB have 20 GiB on two nodes, of which a third takes 6 of one node, and not 7."""
    answer = told(tmp_path, THREE + WIDE + ZERO.format(6))
    assert (
        answer["fits"]
        and by_node(answer, "bound") == [3072, 0, 0]
        and by_node(answer, "nr") == [5120, 5120, 0]
    )
    assert [(it["nodes"], it["bound"], it["room"]) for it in answer["node_sets"]] == [([0, 1], 7168, 10240)]
    status, output = answered(tmp_path, THREE + WIDE + ZERO.format(7))
    assert status == 1
    assert "nodes 0 and 1 are asked for 14 GiB together, of which 13 GiB can be had there." in output
    assert "wide 2" in output and "nodes 0 and 1 have too few pages for what is bound to them" in output
    assert "nodes 0 and 1  20 GiB        7,168  10,240  10,240" in output


def test_sets_of_nodes_make_way_for_each_other(tmp_path: Path) -> None:
    """What may stand on nodes 0 and 1 moves to node 0 where another has node 1 and 2 alone, and these are
    full."""
    text = THREE + '[[guest]]\nmemory = "10GiB"\nnode = [0, 1]\n[[guest]]\nmemory = "{}GiB"\nnode = [1, 2]\n'
    assert told(tmp_path, text.format(30))["fits"] and not told(tmp_path, text.format(31))["fits"]
    answer = told(tmp_path, text.format(30))
    assert by_node(answer, "nr") == [5120, 5120, 10240]


def test_all_nodes_are_no_binding(tmp_path: Path) -> None:
    """Whoever may stand on all nodes is bound to none, and its snapshot may take surplus pages."""
    store = '[[redis]]\nmemory = "8GiB"\nsnapshot = true\nnode = [2, 0, 1]\nbind = true\n'
    store += '[overcommit]\nat_most = "8GiB"\n'
    answer = told(tmp_path, THREE + store)
    assert (answer["nr"], answer["nr_with_overcommit"], answer["nodes"]) == (8192, 4096, [])
    answer = told(tmp_path, THREE + store.replace("[2, 0, 1]", "[2, 0]"))
    assert (answer["nr"], answer["nr_with_overcommit"]) == (8192, 8192)


def test_who_takes_the_pages_of_several_nodes(tmp_path: Path) -> None:
    """A guest of two nodes may fill one of them before the guest there comes; --worst sets what both want."""
    text = THREE + WIDE.replace("count = 2\n", "") + ZERO.format(4)
    status, output = answered(tmp_path, text)
    assert status == 0 and "node 0: wide may take" in output and "nodes 0 and 1: " not in output
    answer = told(tmp_path, text.replace('"7GiB"', '"6GiB"'), "--worst")
    assert answer["fits"] and by_node(answer, "worst") == [5120, None, None]
    assert sum(by_node(answer, "nr")) >= 5120
    assert not told(tmp_path, text, "--worst")["fits"]


@pytest.mark.parametrize(
    ("values", "fault"),
    [
        ("node = [0, 3]", "guest.node: 3 is no node of this host: its nodes are 0 to 2"),
        ("node = []", "guest.node: the list names no node: its nodes are 0 to 2"),
        ('node = [0, "1"]', "guest.node: '1' is no node of this host: its nodes are 0 to 2"),
    ],
)
def test_wrong_lists_of_nodes(tmp_path: Path, values: str, fault: str) -> None:
    status, output, faults = run(["plan", "-"], THREE + f'[[guest]]\nmemory = "1GiB"\n{values}\n')
    assert (status, output) == (2, "") and f"standard input:6: {fault}" in faults


def test_several_nodes_want_to_be_bound() -> None:
    """Where several nodes are no binding, they say nothing: a store says that it is bound to them."""
    status, _, faults = run(["plan", "-"], THREE + '[[redis]]\nmemory = "1GiB"\nnode = [0, 1]\n')
    assert status == 2 and "standard input:6: redis.node: several nodes go with bind = true" in faults


def test_the_worst_of_several_nodes(tmp_path: Path) -> None:
    """With --worst two nodes have room for what is bound to them, and for a store that may come before."""
    text = THREE + WIDE.replace("count = 2\n", "") + '[[redis]]\nmemory = "2GiB"\n'
    answer = told(tmp_path, text, "--worst")
    assert answer["fits"] and [it["worst"] for it in answer["node_sets"]] == [4608]
    assert sum(by_node(answer, "nr")[:2]) >= 4608
    assert sum(by_node(told(tmp_path, text), "nr")[:2]) < 4608
