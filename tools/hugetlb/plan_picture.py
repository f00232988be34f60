"""A plan's answer as a picture, and as a page that has it all: for light and for dark screens."""
import re
from dataclasses import dataclass
from html import escape
from xml.etree.ElementTree import Element

from .lines import printable
from .model import State
from .report import Group, PoolReport, Report, name_without_number
from .settings import Settings
from .sizes import in_words
from .svg import element, number, picture

WIDTH, LEFT, RIGHT, TOP, ROW, BAR = 960, 176, 168, 64, 26, 16
# of more groups a picture has one for each kind, with a legend
MOST_ROWS = 40
INK, PALE, LINE, GROUND, WHOLE, COPIES, WRONG = (
    "#1d2125",
    "#5c6670",
    "#d5dae0",
    "#ffffff",
    "#2f6aa8",
    "#eaa23a",
    "#c81e1e",
)
KINDS = ("#2f6aa8", "#4c956c", "#8e5ea2", "#b5651d", "#3aa6a6", "#7a869a", "#c2699b", "#8a8f29")
# (each shape has its colours as attributes, which every reader knows; the style is for dark screens alone)
DARK = """@media(prefers-color-scheme:dark){.ground{fill:#16191d}text{fill:#e4e7ea}.pale{fill:#9aa4ae}
.whole{fill:#5b98d8}.copies{fill:#d8932c}.wrong{stroke:#ff7b72}text.wrong{fill:#ff7b72;stroke:none}
.nr{stroke:#e4e7ea}.host{stroke:#9aa4ae}.axis{stroke:#363c43}}"""
COLOURS = """:root{--ground:#fff;--ink:#1d2125;--pale:#5c6670;--line:#d5dae0;--whole:#2f6aa8;--wrong:#c81e1e}
@media(prefers-color-scheme:dark){
:root{--ground:#16191d;--ink:#e4e7ea;--pale:#9aa4ae;--line:#363c43;--whole:#5b98d8;--wrong:#ff7b72}}"""
PAGE = """
body{background:var(--ground);color:var(--ink);font:16px/1.5 system-ui,sans-serif;max-width:64rem;
margin:2rem auto;padding:0 1rem}
h1{font-size:1.6rem;margin-bottom:.2rem}h2{font-size:1.1rem;margin-top:2rem}
p.file{color:var(--pale);margin-top:0}table{border-collapse:collapse;width:100%}
th,td{text-align:left;padding:.35rem .8rem .35rem 0;border-bottom:1px solid var(--line);vertical-align:top}
th{color:var(--pale);font-weight:normal}
td.number,th.number{text-align:right;font-variant-numeric:tabular-nums;white-space:nowrap}
td.wrong{color:var(--wrong)}
pre{background:color-mix(in srgb,var(--ink) 6%,var(--ground));padding:.8rem;overflow-x:auto;font-size:.85rem}
svg{width:100%;height:auto}strong.fits{color:var(--whole)}strong.wrong{color:var(--wrong)}"""


def safe(text: str) -> str:
    """A text for a page: characters that are none are escaped."""
    return escape(printable(text))


def label(
    text: str,
    x: float,
    y: float,
    anchor: str = "start",
    fill: str = INK,
    kind: str = "",
    size: int = 12,
    weight: str = "",
) -> Element:
    """A line of text."""
    return element(
        "text",
        printable(text),
        class_=kind,
        font_weight=weight,
        x=number(x),
        y=number(y),
        font_family="sans-serif",
        font_size=size,
        fill=fill,
        text_anchor=anchor,
    )


@dataclass
class Bar:
    """A row of the picture: programs that get the same, or all of a kind."""

    name: str
    told: str
    tip: str
    size: int
    copies: int
    state: State
    mount: str | None
    is_mount: bool
    fill: str = WHOLE


STATES = {
    State.LOST: "snapshot lost",
    State.SMALL: "small pages",
    State.KILLED: "killed",
    State.REFUSED: "refused",
}


def bar_of(pool: PoolReport, group: Group) -> Bar:
    """The row of a group, in bytes."""
    one = group.first
    copies = (pool.snapshots.get(one.name) or 0) * group.count * pool.page
    size = one.asked * group.count * pool.page
    told = (
        in_words(size) + (f" + {in_words(copies)}" if copies else "")
        if one.state is State.WHOLE
        else STATES[one.state]
    )
    together = pool.pages(one.asked * group.count)
    tip = f"{group.name()}: {pool.pages(one.asked)} each, {together} together; {pool.gets(group)}"
    return Bar(group.name(), told, tip, size, copies, one.state, one.mount, one.kind == "mount")


def by_kind(pool: PoolReport, colours: dict[str, str]) -> list[Bar]:
    """All programs of a kind that get the same as one row."""
    found: dict[tuple[str, State], list[Group]] = {}
    for group in pool.groups:
        found.setdefault((group.first.kind, group.first.state), []).append(group)
    made = []
    for (kind, state), groups in found.items():
        bars = [bar_of(pool, it) for it in groups]
        count, size, copies = (
            sum(it.count for it in groups),
            sum(it.size for it in bars),
            sum(it.copies for it in bars),
        )
        told = (
            in_words(size) + (f" + {in_words(copies)}" if copies else "")
            if state is State.WHOLE
            else STATES[state]
        )
        names = ", ".join(dict.fromkeys(name_without_number(it.first) for it in groups[:8]))
        fill = colours.setdefault(kind, KINDS[len(colours) % len(KINDS)])
        made.append(
            Bar(
                f"{count:,} of {kind}",
                told,
                f"{count:,} of {kind}: {names}: {told}",
                size,
                copies,
                state,
                None,
                False,
                fill,
            )
        )
    return made


class PlanPicture:
    """Programs from above in the order of starting, each where the pages of those before it end."""

    def __init__(self, report: Report):
        self.report = report
        self.colours: dict[str, str] = {}
        is_grouped = sum(len(it.groups) for it in report.pools) > MOST_ROWS
        self.bars = [
            bar
            for pool in report.pools
            for bar in (
                by_kind(pool, self.colours) if is_grouped else [bar_of(pool, it) for it in pool.groups]
            )
        ]
        self.host = sum(report.plan.host.room(node) for node in range(len(report.plan.host.node_bytes)))
        known = [it.of.smallest * it.page for it in report.pools if it.of.smallest is not None]
        self.nr = sum(known) if len(known) == len(report.pools) else None
        self.most = max(sum(it.size + it.copies for it in self.bars), self.host, self.nr or 0, 1)

    def x(self, size: int) -> float:
        return LEFT + (WIDTH - LEFT - RIGHT) * min(size, self.most) / self.most

    def shape(self, kind: str, start: int, size: int, y: float, tip: str, fill: str = WHOLE) -> Element:
        width = max(self.x(start + size) - self.x(start), 1)
        if kind == "wrong":
            look = {"fill": "none", "stroke": WRONG, "stroke_width": "1.5", "stroke_dasharray": "4 3"}
        else:
            look = {"fill": COPIES if kind == "copies" else fill}
        place = {"x": number(self.x(start)), "y": number(y), "width": number(width), "height": str(BAR)}
        inner = [element("title", printable(tip))]
        return element("rect", "", inner, class_=kind if fill == WHOLE else "kind", **place, **look)

    def rows(self) -> list[Element]:
        """A row for each: a name, a bar, and what it gets.

        What a mount promises is where its own programs stand.
        """
        made: list[Element] = []
        copied: list[tuple[Bar, int]] = []
        of_mount: dict[str, int] = {}
        start = 0
        for at, bar in enumerate(self.bars):
            y = TOP + at * ROW
            has_pages = bar.state in (State.WHOLE, State.LOST)
            is_within = bar.mount in of_mount and not bar.is_mount
            begin = of_mount[bar.mount or ""] if is_within else start
            name = bar.name if len(bar.name) < 26 else bar.name[:25] + "…"
            is_wrong = bar.state is not State.WHOLE
            made.append(
                label(name, LEFT - 10, y + 12, "end", WRONG if is_wrong else INK, "wrong" if is_wrong else "")
            )
            made.append(self.shape("whole" if has_pages else "wrong", begin, bar.size, y, bar.tip, bar.fill))
            made.append(
                label(
                    bar.told,
                    WIDTH - RIGHT + 14,
                    y + 12,
                    "start",
                    WRONG if is_wrong else PALE,
                    "wrong" if is_wrong else "pale",
                )
            )
            if bar.is_mount and bar.mount:
                of_mount[bar.mount] = start
            if is_within and bar.mount:
                of_mount[bar.mount] += bar.size if has_pages else 0
            elif has_pages:
                start += bar.size
            if bar.copies:
                copied.append((bar, y))
        for bar, y in copied:
            tip = f"{bar.name}: {in_words(bar.copies)} more while its snapshot runs"
            made.append(
                self.shape("copies" if bar.state is State.WHOLE else "wrong", start, bar.copies, y, tip)
            )
            start += bar.copies
        return made

    def levels(self) -> tuple[list[Element], int]:
        made, bottom = list[Element](), TOP + len(self.bars) * ROW + 6
        levels = [("host", self.host, f"host {in_words(self.host)}")]
        if self.nr is not None:
            one = self.report.pools[0].of.smallest if len(self.report.pools) == 1 else None
            levels.append(("nr", self.nr, f"nr {one:,}" if one is not None else f"asked {in_words(self.nr)}"))
        for kind, size, text in levels:
            x = self.x(size)
            dashed = {"stroke": PALE, "stroke_dasharray": "5 4"}
            look = dashed if kind == "host" else {"stroke": INK, "stroke_width": "1.5"}
            path = f"M{number(x)} {TOP - 14}V{bottom}"
            made.append(element("path", "", (), class_=kind, d=path, fill="none", **look))
            made.append(
                label(
                    text,
                    x,
                    TOP - 18 if kind == "host" else bottom + 14,
                    "middle",
                    PALE if kind == "host" else INK,
                    "pale" if kind == "host" else "",
                )
            )
        axis = f"M{LEFT} {bottom}H{WIDTH - RIGHT}"
        made.append(element("path", class_="axis", d=axis, fill="none", stroke=LINE))
        return made, bottom + 26

    def legend(self, top: int) -> tuple[list[Element], int]:
        """The colour of each kind, where programs are shown by kind."""
        made, x = list[Element](), LEFT
        for kind, fill in self.colours.items():
            made.append(element("rect", class_="kind", x=x, y=top, width=11, height=11, fill=fill))
            made.append(label(kind, x + 16, top + 10))
            x += 34 + 7 * len(kind)
        return made, top + (24 if made else 0)

    def text(self, has_style: bool = True) -> str:
        """The picture; within a page that has its heading, without it."""
        levels, bottom = self.levels()
        legend, height = self.legend(bottom)
        report, top = self.report, 0 if has_style else 28
        head = [
            label(report.headline(), 16, 22, size=15, weight="600"),
            label(report.plan.file.rpartition("/")[2], WIDTH - 16, 22, "end", PALE, "pale"),
        ]
        parts = [
            element("title", printable(report.headline())),
            element("style", DARK),
            element("rect", class_="ground", width=WIDTH, height=height, fill=GROUND),
            *(head if has_style else []),
            *levels,
            *self.rows(),
            *legend,
        ]
        return picture(parts, 0, top, WIDTH, height - top)


WRONG_CELL = ' class="wrong"'


def table_of(pool: PoolReport) -> str:
    """The numbers, nodes and programs of a pool."""
    numbers = "".join(
        f'<tr><td class="number">{safe(number)}</td><td>{safe(what)}</td></tr>'
        for number, what in pool.numbers()
    )
    nodes = "".join(
        "<tr>" + "".join(f'<td class="number">{safe(it)}</td>' for it in row) + "</tr>"
        for row in pool.node_rows()
    )
    heads = "".join(f'<th class="number">{it}</th>' for it in ("", "memory", "bound to it", "set", "room"))
    rows = "".join(
        f'<tr><td>{safe(name)}</td><td class="number">{safe(each)}</td><td class="number">{pages}</td>'
        f"<td{WRONG_CELL if state is not State.WHOLE else ''}>{safe(gets)}</td></tr>"
        for name, each, pages, gets, state in pool.rows()
    )
    return (
        f"<table>{numbers}</table>"
        + (f"<table><tr>{heads}</tr>{nodes}</table>" if nodes else "")
        + f'<table><tr><th>At {safe(pool.where())}</th><th class="number">each</th>'
        + f'<th class="number">pages</th><th>gets</th></tr>{rows}</table>'
    )


def block(text: str) -> str:
    """Lines of a file, without characters that are none."""
    return re.sub(r"[^\n\x20-\x7e\u00a0-\uffff]", "?", escape(text))


def page(report: Report) -> str:
    """One file: the answer, the picture, the tables, and the files of the host."""
    fits, settings = report.answer.fits, Settings(report)
    several = len(report.pools) > 1
    tables = "".join(
        (f"<h2>Pages of {in_words(it.page)}</h2>" if several else "") + table_of(it) for it in report.pools
    )
    remarks = "".join(f"<li>{safe(it)}</li>" for it in report.remarks())
    return f"""<!doctype html>
<html lang="en"><head><meta charset="utf-8">
<meta name="viewport" content="width=device-width,initial-scale=1">
<meta name="color-scheme" content="light dark">
<title>{safe(report.plan.file)}: {safe(report.headline())}</title><style>{COLOURS}
{PAGE}</style></head><body>
<h1><strong class="{'fits' if fits else 'wrong'}">{safe(report.headline())}</strong></h1>
<p class="file">{safe(report.plan.file)}</p>
{PlanPicture(report).text(False)}
{tables}
<h2>Pages of the host</h2><pre>{block(settings.sysctl())}</pre>
<h2>On the kernel's command line</h2><pre>{block(settings.cmdline())}</pre>
<h2>Mounts of the host</h2><pre>{block(settings.fstab())}</pre>
<h2>Remarks</h2><ul>{remarks}</ul>
</body></html>
"""
