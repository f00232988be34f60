"""The processor time of a line, which no client can make long by what it picks.

The bounds are for the machine that they were written on, six times what was measured there or more. They
grow where another machine, or a busy one, takes longer for a line that does next to nothing.
"""
import random
import resource
from typing import Protocol

import pytest
from built import Run, Words, text_of


# The microseconds that a plain line took, and so many of these.
PLAIN, PLAIN_LINES = 0.05, ["nr 4"] * 100_000


class MustTakeLess(Protocol):
    """Each of some lines behind others takes fewer microseconds of a processor than these."""

    def __call__(self, most: float, before: list[str], lines: list[str], words: Words = ()) -> None:
        ...


@pytest.fixture
def must_take_less(run: Run) -> MustTakeLess:
    """The lines must take so little at one of three tries: the machine may be busy."""

    def least(lines: list[str], words: Words) -> float:
        """The least time of three runs."""
        text, times = text_of(lines), list[float]()
        for _ in range(3):
            begun = resource.getrusage(resource.RUSAGE_CHILDREN)
            status, _, faults = run(words, text)
            ended = resource.getrusage(resource.RUSAGE_CHILDREN)
            assert (status, faults) == (0, b"")
            times.append(ended.ru_utime + ended.ru_stime - begun.ru_utime - begun.ru_stime)
        return min(times)

    def each(before: list[str], lines: list[str], words: Words) -> float:
        """The microseconds of a line."""
        return (least([*before, *lines], words) - least(before, words)) * 1e6 / len(lines)

    def must_take_less(most: float, before: list[str], lines: list[str], words: Words = ()) -> None:
        took: list[tuple[float, float]] = []
        while not took or len(took) < 3 and took[-1][0] >= took[-1][1]:
            slower = max(1.0, each([], PLAIN_LINES, []) / PLAIN)
            took.append((each(before, lines, words), most * slower))
        assert took[-1][0] < took[-1][1], f"microseconds a line, and what it may take: {took}"

    return must_take_less


BACK = pow(0x9E37_79B9_7F4A_7C15, -1, 1 << 64)


def task_of(product: int) -> int:
    """The task's number of which this is the product by whose upper bits tasks are told apart."""
    joined = product * BACK % (1 << 64)
    return (joined ^ joined >> 32) * BACK % (1 << 64)


@pytest.mark.parametrize(
    "most, numbers, absent",
    [
        pytest.param(0.5, range(4000), 4000, id="in a row"),
        pytest.param(0.5, range(4000, 0, -1), 4001, id="falling"),
        pytest.param(0.5, range(0, 4000 << 14, 1 << 14), 1, id="16,384 apart"),
        pytest.param(0.5, range(0, 4000 << 16, 1 << 16), 1, id="65,536 apart"),
        pytest.param(0.5, random.Random(1).sample(range(1 << 32), 4000), 1 << 32, id="anyhow"),
        pytest.param(0.5, range(0, 4000 << 5, 1 << 5), 1, id="32 apart"),
        pytest.param(0.5, range(0, 4000 * 233, 233), 1, id="233 apart"),
        pytest.param(4, [task_of(at) for at in range(1, 4001)], task_of(5000), id="of one rest"),
    ],
)
def test_finds_tasks_of_any_numbers(
    must_take_less: MustTakeLess, most: float, numbers: list[int], absent: int
) -> None:
    """Tasks come and go, and are found or known not to be there, whichever numbers a client picks.

    No task moves all others. Where the products by which tasks are told apart have the same upper bits, a
    task takes some hundred steps.
    """
    tasks, lowest = [f"connect {it} 0" for it in numbers], sorted(numbers)[:400]
    must_take_less(most, tasks, 200 * [line for it in lowest for line in (f"exit {it}", f"connect {it} 0")])
    must_take_less(1, tasks, 5 * [line for it in numbers for line in (f"attach {it}", f"attach {absent}")])


WIDE, TWO = "preallocate 0 a 0 65536", "preallocate 0 a 30000 95536"
APART = [f"preallocate 0 a {at} {at + 65536}" for at in (0, 65536, 131072)]
WHOLE = ["nr 65536", "create 0 a", WIDE]
MAPPED = ["nr 4", "connect 1 0", "create 0 a"]
ENTERED = ["nr 65536", "connect 1 0", "create 0 a", "map 1 0 a 0 65536 shared"]
SHORT = ["nr 65535", "create 0 a", "preallocate 0 a 0 65000", "preallocate 0 a 65001 65536"]


@pytest.mark.parametrize(
    "most, before, lines",
    [
        pytest.param(10, ["nr 4", "create 0 a", WIDE], [WIDE], id="refused"),
        pytest.param(15, ["nr 4", "create 0 a", TWO], [TWO], id="refused in two blocks"),
        pytest.param(15, ["nr 4", "create 0 a"], APART, id="refused in one block after another"),
        pytest.param(15, WHOLE, [WIDE], id="whole"),
        pytest.param(15, ["nr 65536", "create 0 a", TWO], [TWO], id="whole in two blocks"),
        pytest.param(
            15, [*WHOLE, "punch 0 a 65000 65001"], [WIDE, "punch 0 a 65000 65001"], id="a page short"
        ),
        pytest.param(30, SHORT, [WIDE], id="refused a page"),
        pytest.param(8, ENTERED, ["map 1 0 a 0 65536 shared", "unmap 1 0 2 0 65536"], id="entered"),
        pytest.param(5, MAPPED, ["punch 0 a 0 65536"], id="punched"),
        pytest.param(5, MAPPED, ["truncate 0 a 65536", "truncate 0 a 1"], id="cut"),
        pytest.param(5, MAPPED, ["anon 1 65536 private noreserve", "unmap 1 0 1 0 65536"], id="unmapped"),
    ],
)
def test_passes_wide_ranges_by_words(
    must_take_less: MustTakeLess, most: float, before: list[str], lines: list[str]
) -> None:
    """Ranges of 65,536 indices are passed a word of 64 at a time, and words that are full or empty in a run.

    The bounds are for a machine that is busy. The room and the tables that a refused range asks for come from
    what the program keeps of freed memory, in a few pieces for each block.
    """
    must_take_less(most, before, 5000 * lines, ["--frames", "65536"])
