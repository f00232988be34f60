"""Where pages stand that are bound to several nodes: as many as could stand in any way, and none in room that
there is not."""
import random
from itertools import chain, combinations

import pytest

from hugetlb.bound import Nodes, Placement


def subsets(nodes: range) -> list[Nodes]:
    return list(chain.from_iterable(combinations(nodes, count) for count in range(len(nodes) + 1)))


def most_placed(together: dict[Nodes, int], room: list[int]) -> int:
    """By the least cut: some nodes are full, and what may stand on others too has its place."""
    return min(
        sum(room[node] for node in full)
        + sum(pages for nodes, pages in together.items() if not set(nodes) <= set(full))
        for full in subsets(range(len(room)))
    )


@pytest.mark.parametrize("seed", range(200))
def test_places_as_many_as_any_way_could(seed: int) -> None:
    draw = random.Random(seed)
    room = [draw.randrange(9) for _ in range(draw.randrange(2, 5))]
    sets = [it for it in subsets(range(len(room))) if len(it) > 1]
    together = {it: draw.randrange(12) for it in draw.sample(sets, draw.randrange(1, len(sets) + 1))}
    placement = Placement(together, room)
    shares = [placement.share(node) for node in range(len(room))]
    placed = {nodes: placement.places(nodes) for nodes in together}
    assert all(0 <= share <= most for share, most in zip(shares, room)), (together, room, shares)
    assert all(0 <= placed[nodes] <= pages for nodes, pages in together.items())
    assert sum(shares) == sum(placed.values()) == most_placed(together, room), (together, room, placed)
    assert all(set(on) <= set(nodes) for nodes, on in placement.on.items())
    on_nodes = [sum(on.get(node, 0) for on in placement.on.values()) for node in range(len(room))]
    assert on_nodes == shares
