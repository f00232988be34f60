"""More guests with a minimum than the program has slots: the answer is the one that each with a slot of its
own would get."""
import json
from pathlib import Path

import pytest
from common import PROGRAM
from plans import answered, told

from hugetlb.fit import answer_of
from hugetlb.machine import promises_of
from hugetlb.model import Mount, State
from hugetlb.plan_file import plan_of

HOST = '[host]\nmemory = "64GiB"\nkeep = 0\n'


@pytest.mark.parametrize("count", [62, 63, 64, 65, 200])
def test_like_one_slot_each(count: int, tmp_path: Path) -> None:
    """A host with room for ten fewer: ten are refused, whatever their number."""
    pages = 32768 // (count - 10)
    answer = told(tmp_path, HOST + f"[[guest]]\ncount = {count}\npages = {pages}\nminimum = true\n")
    assert not answer["fits"] and answer["nr"] == count * pages
    states = [it["state"] for it in answer["programs"]]
    granted = 32768 // pages
    assert states == granted * ["whole"] + (count - granted) * ["refused"]
    assert "minimums of" not in json.dumps(answer["remarks"])


def test_a_smaller_one_behind_a_refused_one(tmp_path: Path) -> None:
    """Each minimum is promised or refused by itself: a large guest that is refused leaves room for smaller
    ones."""
    sizes = [400] * 70 + [9000] + [100] * 10
    text = HOST + "".join(
        f'[[guest]]\nname = "g{at}"\npages = {size}\nminimum = true\n' for at, size in enumerate(sizes)
    )
    states = [it["state"] for it in told(tmp_path, text)["programs"]]
    assert states == 70 * ["whole"] + ["refused"] + 10 * ["whole"]


def test_among_named_mounts_and_others(tmp_path: Path) -> None:
    """Named mounts keep slots of their own; what reserves nothing, and copies, are counted as ever."""
    text = HOST + '[[mount]]\nname = "m"\nminimum = "1000 pages"\nsize = "1200 pages"\n'
    text += '[[guest]]\ncount = 80\npages = 100\nminimum = true\nreserve = false\nused = "40 pages"\n'
    text += '[[guest]]\nname = "on m"\npages = 1100\nmount = "m"\n'
    text += '[[redis]]\npages = 500\nsnapshot = true\nrewritten = "10%"\n'
    answer = told(tmp_path, text)
    assert answer["fits"] and answer["nr"] == 80 * 100 + 1100 + 550
    lines = answered(tmp_path, text, "--lines")[1]
    assert (
        "mount 1 size=1200K,min_size=1000K\n" in lines
        and "mount 2 size=100K,min_size=100K\n" in lines
        and "remount 2 size=8000K,min_size=8000K\n" in lines
    )


def test_slots() -> None:
    """Up to 63 mounts each has a slot; beyond that own mounts share some, a thousand to a slot, and named
    ones none."""
    mounts = [Mount("m", 1, None, 5)] + [Mount(str(at), 1, 1, 1, True) for at in range(2500)]
    promises = promises_of(mounts)
    assert [it.slot for it in promises[:3]] == [1, 2, 2] and {it.slot for it in promises} == {1, 2, 3, 4}
    assert [it.is_first for it in promises].count(True) == 4
    assert [it.slot for it in promises_of(mounts[:63])] == list(range(1, 64))


@pytest.mark.parametrize("room", [1, 3, 7])
def test_by_hand(room: int) -> None:
    """64 guests of one page, and room for few of them."""
    answer = answer_of(
        plan_of(
            "x",
            f'[host]\nmemory = "{room * 2}MiB"\nkeep = 0\n[[guest]]\ncount = 64\npages = 1\nminimum = true\n',
        ),
        str(PROGRAM),
    )
    assert [it.state for it in answer.pools[0].outcomes] == room * [State.WHOLE] + (64 - room) * [
        State.REFUSED
    ]
