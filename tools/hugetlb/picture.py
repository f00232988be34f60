"""A picture of the counts after each line of a script."""
from collections.abc import Callable, Sequence
from xml.etree.ElementTree import Element

from .lines import printable
from .svg import element, number, picture
from .talk import Row

WIDTH, LEFT, RIGHT, TOP, PLOT, BOTTOM = 960, 60, 16, 56, 220, 144
LONGEST_LABEL = 24
# Of more lines those that changed nothing have no column; of more columns several lines share one.
MOST_LINES_DRAWN, MOST_COLUMNS = 400, 2_000
# A column is at most so wide, and has a label of its own from some width on.
WIDEST, LABELLED = 110, 15
# A tooltip is at least so wide, that a pointer meets it.
TIP_WIDTH = 2
# A mark of a refusal; in narrower columns it is a line.
MARK_WIDTH = 8
STYLE = (
    "text{font:11px sans-serif;fill:#222}.b{fill:#fff}.u{fill:#2f6aa8}.r{fill:#eaa23a}.f{fill:#c3dcb8}"
    "use{fill:#000;fill-opacity:0}use:hover{fill-opacity:.15}\n"
    ".s{fill:none;stroke:#222;stroke-dasharray:4 3}.n{fill:none;stroke:#222}"
    ".x{fill:none;stroke:#c81e1e;stroke-width:2.5}.e{fill:#c81e1e}\n"
    "@media(prefers-color-scheme:dark){text{fill:#ddd}.b{fill:#16191d}.u{fill:#5b98d8}.r{fill:#d8932c}"
    ".f{fill:#47653f}use{fill:#fff}.s,.n{stroke:#ddd}.x{stroke:#ff6b6b}.e{fill:#ff6b6b}}"
)
LEGEND = (
    ("u", "in use"),
    ("r", "reserved"),
    ("f", "free to promise"),
    ("s", "surplus, above nr"),
    ("n", "nr"),
    ("x", "refused"),
)

# Of Total, Free, Rsvd and Surp: the pages below a band and those up to its top.
Band = Callable[[int, int, int, int], tuple[int, int]]


def columns_of(rows: Sequence[Row]) -> list[list[Row]]:
    """The rows that share a column each."""
    if len(rows) > MOST_LINES_DRAWN:
        rows = [
            row
            for at, row in enumerate(rows)
            if at == 0 or row.is_refused() or row.counts != rows[at - 1].counts
        ]
    count = len(rows)
    if count <= MOST_COLUMNS:
        return [[row] for row in rows]
    ends = [count * at // MOST_COLUMNS for at in range(MOST_COLUMNS + 1)]
    return [list(rows[first:end]) for first, end in zip(ends, ends[1:])]


def representative(rows: Sequence[Row]) -> Row:
    """The row that is shown for several.

    The first that was refused, else the one with the fewest free to promise.
    """
    refused = next((row for row in rows if row.is_refused()), None)
    return refused or min(rows, key=lambda row: row.counts[1] - row.counts[2])


class Picture:
    """The counts after each line of a script: a column a line.

    From below in use, reserved, free to promise; the surplus is dashed.
    """

    def __init__(self, rows: Sequence[Row], name: str) -> None:
        self.name = printable(name)
        self.groups = columns_of(rows)
        self.rows = [representative(group) for group in self.groups]
        self.column = min((WIDTH - LEFT - RIGHT) / max(len(self.rows), 1), WIDEST)
        self.places = 1 if self.column >= TIP_WIDTH else 2
        self.most = max([row.counts[0] for row in rows] + [1])
        self.has_labels = self.column >= LABELLED

    def x(self, at: float) -> float:
        return LEFT + at * self.column

    def y(self, pages: int) -> float:
        return TOP + PLOT * (1 - pages / self.most)

    def across(self, at: float) -> str:
        return number(self.x(at), self.places)

    def bands(self, kind: str, band: Band) -> list[Element]:
        """Each run of columns with the same two heights is one rectangle of a path."""
        path, start = "", 0
        heights = [band(*row.counts) for row in self.rows]
        for at in range(1, len(heights) + 1):
            if at < len(heights) and heights[at] == heights[start]:
                continue
            low, high = heights[start]
            if high > low:
                width = number(self.x(at) - self.x(start), self.places)
                height = number(self.y(low) - self.y(high))
                path += f"M{self.across(start)} {number(self.y(high))}h{width}v{height}h-{width}z"
            start = at
        return [element("path", class_=kind, d=path)] if path else []

    def level_of_nr(self) -> Element:
        path, before = "", None
        for at, row in enumerate(self.rows):
            level = row.counts[0] - row.counts[3]
            if level != before:
                path += (f"H{self.across(at)}V" if path else f"M{LEFT} ") + number(self.y(level))
            before = level
        return element("path", class_="n", d=f"{path}H{number(self.x(len(self.rows)))}")

    def legend(self) -> list[Element]:
        made: list[Element] = []
        x = LEFT
        for kind, text in LEGEND:
            marks = {"n": f"M{x} 20h12", "x": f"M{x + 2} 16l8 8m0-8l-8 8"}
            made.append(element("path", class_=kind, d=marks.get(kind, f"M{x}.5 14.5h11v11h-11z")))
            made.append(element("text", text, x=x + 17, y=24))
            x += 36 + 6 * len(text)
        return [*made, element("text", self.name, x=WIDTH - RIGHT, y=24, text_anchor="end")]

    def scale(self) -> list[Element]:
        x = LEFT - 6
        levels = sorted({0, self.most // 2, self.most})
        return [
            *(element("text", f"{it:,}", x=x, y=number(self.y(it) + 4), text_anchor="end") for it in levels),
            element("text", "pages", x=x, y=TOP - 10, text_anchor="end"),
        ]

    def label(self, at: int, row: Row) -> Element:
        line = printable(row.line if len(row.line) <= LONGEST_LABEL else row.line[: LONGEST_LABEL - 1] + "…")
        place = f"translate({number(self.x(at) + self.column / 2 + 4)} {TOP + PLOT + 12})rotate(-58)"
        kind = "e" if row.is_refused() else ""
        return element("text", line, class_=kind, text_anchor="end", transform=place)

    def tip(self, first: int, last: int) -> str:
        """What a pointer is told over some columns.

        A line's own reply and counts, or which lines stand there and the first refusal of them.
        """
        row = representative([self.rows[at] for at in range(first, last + 1)])
        begin, end = self.groups[first][0].number, self.groups[last][-1].number
        of = f"lines {begin:,} to {end:,}, of these\n" if begin != end else ""
        total, free, rsvd, surp = row.counts
        counts = f"Total {total} Free {free} Rsvd {rsvd} Surp {surp}"
        return f"{of}{row.number}: {printable(row.line)}\n{row.reply}\n{counts}"

    def columns(self) -> list[Element]:
        """For each column its line, a mark where it was refused, and all of it as a tooltip."""
        made: list[Element] = []
        together = max(1, -int(-TIP_WIDTH // self.column))
        for at, row in enumerate(self.rows):
            middle = self.x(at) + self.column / 2
            if self.has_labels:
                made.append(self.label(at, row))
            elif at % max(len(self.rows) // 20, 1) == 0:
                x, y = number(middle), TOP + PLOT + 16
                made.append(element("text", str(row.number), text_anchor="middle", x=x, y=y))
            is_first = self.column >= TIP_WIDTH or at % together == 0 or not self.rows[at - 1].is_refused()
            if row.is_refused() and is_first:
                cross = f"M{number(middle - 4)} {TOP - 12}l8 8m0-8l-8 8"
                line = f"M{number(middle)} {TOP - 12}v8"
                made.append(element("path", class_="x", d=cross if self.column >= MARK_WIDTH else line))
            if at % together == 0:
                tip = self.tip(at, min(at + together, len(self.rows)) - 1)
                made.append(element("use", inner=[element("title", tip)], href="#c", x=number(self.x(at))))
        return made

    def text(self) -> str:
        height = TOP + PLOT + (BOTTOM if self.has_labels else 30)
        column = f"M0 {TOP - 14}h{number(max(self.column, TIP_WIDTH))}v{PLOT + 14}H0z"
        parts = [
            element("title", f"{self.name}: the pool after each line"),
            element("style", STYLE),
            element("defs", inner=[element("path", id="c", d=column)]),
            element("path", class_="b", d="M0 0h960v999H0z"),
            *self.legend(),
            *self.scale(),
            *self.bands("u", lambda total, free, rsvd, surp: (0, total - free)),
            *self.bands("r", lambda total, free, rsvd, surp: (total - free, total - free + rsvd)),
            *self.bands("f", lambda total, free, rsvd, surp: (total - free + rsvd, total)),
            self.level_of_nr(),
            *self.bands("s", lambda total, free, rsvd, surp: (total - surp, total)),
            *self.columns(),
        ]
        return picture(parts, 0, 0, WIDTH, height)
