"""A plan's answer in words: for people, and for programs."""
import json
import re
from dataclasses import dataclass
from typing import Any

from .fit import Answer, Hazard, Node, NodeSet, PoolAnswer
from .lines import plural, printable
from .machine import Phase
from .model import Consumer, State, least_left
from .runs import Outcome
from .sizes import in_words

# of more groups the answer has one for each kind
MOST_GROUPS = 60


@dataclass
class Group:
    """Programs of one name that get the same, in the order of starting."""

    first: Outcome
    last: Outcome
    count: int = 1

    def name(self) -> str:
        return printable(
            self.first.name
            if self.count == 1
            else f"{self.first.name} to {self.last.name.rpartition(' ')[2]}"
        )


def name_without_number(outcome: Outcome) -> str:
    """A name without its number."""
    return re.sub(r" \d+$", "", outcome.name)


def are_alike(one: Outcome, other: Outcome) -> bool:
    alike = (one.kind, one.asked, one.state, one.got, one.what)
    same = alike == (other.kind, other.asked, other.state, other.got, other.what)
    return (
        same
        and other.name != name_without_number(other)
        and name_without_number(one) == name_without_number(other)
    )


def groups_of(outcomes: list[Outcome]) -> list[Group]:
    made: list[Group] = []
    for one in outcomes:
        if made and are_alike(one, made[-1].last):
            made[-1].last, made[-1].count = one, made[-1].count + 1
        else:
            made.append(Group(one, one))
    return made


def names_of(consumers: list[Consumer]) -> str:
    """The names of programs, those with numbers together."""
    found: dict[str, list[str]] = {}
    for one in consumers:
        base = re.sub(r" \d+$", "", one.name)
        found.setdefault(base, []).append(one.name)
    told = [
        printable(names[0] if len(names) == 1 else f"{names[0]} to {names[-1].rpartition(' ')[2]}")
        for names in found.values()
    ]
    return ", ".join(told[:6]) + (f" and {len(told) - 6} more" if len(told) > 6 else "")


class PoolReport:
    """What is said of the pool of one size of page: numbers in its pages."""

    def __init__(self, answer: Answer, pool: PoolAnswer):
        self.answer, self.of, self.page = answer, pool, pool.pool.page_bytes
        self.capacity, self.snapshots = pool.capacity, {
            it.name: it.rewritten for it in pool.pool.consumers if it.rewritten
        }
        self.groups = groups_of(pool.outcomes)

    def size(self, pages: int) -> str:
        return in_words(pages * self.page)

    def pages(self, number: int) -> str:
        return f"{number:,} page{'' if number == 1 else 's'} ({self.size(number)})"

    # ---- the answer

    def lacking(self) -> list[Node]:
        """The nodes that have too few pages for what is bound to them."""
        return [it for it in self.of.nodes if not it.fits() or it.worst is not None and it.worst > it.room]

    def lacking_sets(self) -> list[NodeSet]:
        """Several nodes that have too few pages together for what is bound to them."""
        return [it for it in self.of.sets if not it.fits()]

    def of_set(self, one: NodeSet) -> str:
        """What is asked of several nodes, and how much of it finds a place there."""
        if one.asked > one.placed:
            return (
                f"{one.name} are asked for {self.size(one.asked)} together, of which {self.size(one.placed)} "
                "can be had there"
            )
        return f"{one.name} are asked for {self.size(one.worst or 0)} together, and have too little room"

    def of_node(self, node: Node) -> str:
        wanted = node.asked if node.worst is None else node.worst
        memory, room = in_words(node.memory), self.size(
            min(node.room, node.nr) if self.of.pool.nr else node.room
        )
        return f"node {node.number} is asked for {self.size(wanted)} of {memory}" + (
            f", of which {room} can be had" if room != memory else ""
        )

    def why_not(self) -> str:
        """Why the pool does not fit, in a sentence."""
        refused = [it for it in self.of.outcomes if it.state is not State.WHOLE]
        if self.of.smallest is None:
            return "no number of pages will do."
        if wrong := [*map(self.of_node, self.lacking()), *map(self.of_set, self.lacking_sets())]:
            return "; ".join(wrong[:4]) + (f"; and {len(wrong) - 4} nodes more." if len(wrong) > 4 else ".")
        return (
            f"{len(refused)} of {len(self.of.outcomes)} get less than they ask for."
            if refused
            else "there are too few pages."
        )

    def set_to(self) -> str:
        """What to set, where the plan tells what is set now."""
        present = self.of.pool.present
        if present is None:
            return ""
        now = sum(present)
        return (
            f"leave nr at {now:,}" if now == self.of.nr else f"set nr to {self.of.nr:,} (it is {now:,} now)"
        )

    def numbers(self) -> list[tuple[str, str]]:
        """The numbers that answer, each with what it is."""
        of, unit = self.of, self.of.runs.scale.unit
        if of.smallest is None:
            return [("no nr", "even with all pages that are asked for somebody is refused, as told below")]
        said = [
            (
                f"nr {of.smallest:,}",
                f"the smallest number of pages with which all is whole: {self.size(of.smallest)}",
            )
        ]
        if of.smallest_with is not None:
            said.append(
                (
                    f"nr {of.smallest_with:,}",
                    f"the smallest with the overcommit that is allowed, {of.allowed or 0:,} pages: "
                    f"{self.size(of.smallest_with)}",
                )
            )
        if of.one_less:
            step = "one page" if unit == 1 else f"{unit:,} pages"
            said.append(
                (
                    f"nr {of.smallest - unit:,}",
                    f"with {step} less: {printable(of.one_less[0].name)} {of.one_less[0].what}",
                )
            )
        if self.answer.worst and of.binds and of.fits:
            said.append((f"nr {of.nr:,}", "with these on the nodes below no order of touching hurts"))
        rest = (
            f"{self.pages(of.capacity - of.smallest)} are left"
            if of.smallest <= of.capacity
            else f"{self.pages(of.smallest - of.capacity)} are missing"
        )
        besides = (
            ""
            if len(self.answer.pools) == 1
            else ", besides the larger pages"
            if self.answer.pools[0] is not of
            else ""
        )
        kept = sum(self.answer.plan.host.keep)
        but = f", with {in_words(kept)} kept" if kept else ""
        return [
            *said,
            (
                f"host {of.capacity:,}",
                f"the pages of its memory{besides}{but}: {self.size(of.capacity)}; {rest}",
            ),
        ]

    def node_rows(self) -> list[tuple[str, ...]]:
        """Where programs are bound.

        For each node what is bound to it, what is set, and what it has room for; the sums last.
        """
        if not self.of.binds:
            return []
        nodes = [it for it in self.of.nodes if it.memory]
        rows = [
            (f"node {it.number}", in_words(it.memory), f"{it.asked:,}", f"{it.nr:,}", f"{it.room:,}")
            for it in nodes
        ]
        for one in self.of.sets:
            here = [self.of.nodes[node] for node in one.nodes]
            memory, nr, room = (
                sum(it.memory for it in here),
                sum(it.nr for it in here),
                sum(it.room for it in here),
            )
            rows.append((one.name, in_words(memory), f"{one.asked:,}", f"{nr:,}", f"{room:,}"))
        total = [
            in_words(sum(it.memory for it in nodes)),
            f"{self.of.bound.total():,}",
            f"{sum(it.nr for it in nodes):,}",
            f"{sum(it.room for it in nodes):,}",
        ]
        return [*rows, ("all", *total)]

    def where(self) -> str:
        overcommit = f" with overcommit {self.of.at_overcommit:,}" if self.of.at_overcommit else ""
        return f"nr {self.of.at:,}{overcommit}"

    def gets(self, group: Group) -> str:
        one = group.first
        if one.state is not State.WHOLE:
            return one.what
        copies = self.snapshots.get(one.name)
        return "all" + (
            f", and {plural(copies)} more while its snapshot runs"
            if copies
            else ", promised before anything starts"
            if one.kind == "mount"
            else ""
        )

    def rows(self) -> list[tuple[str, str, str, str, State]]:
        """For each group: its name, the size of one, its pages, and what it gets."""
        return [
            (it.name(), self.size(it.first.asked), f"{it.first.asked:,}", self.gets(it), it.first.state)
            for it in self.groups
        ]

    # ---- remarks

    def of_hazard(self, where: str, hazard: Hazard, nr: int, room: int) -> list[str]:
        """What may go wrong on nodes, and what would do."""
        said = [
            f"{where}: {names_of(hazard.takers)} may take {plural(hazard.short)} too many there, "
            f"before {names_of(hazard.bound)} touched theirs: "
            "Linux promises pages of the whole pool"
        ]
        is_late = any(it.is_late() for it in hazard.bound)
        first = "preallocate what is bound, and start it first" if is_late else "start what is bound first"
        needed = nr + hazard.short
        more = (
            f"or set {needed:,} pages there, {hazard.short:,} more"
            if needed <= room
            else f"{plural(hazard.short)} more {'has' if hazard.short == 1 else 'have'} no room there"
        )
        return [*said, f"{where}: what would do: {first}; {more}"]

    def hazards(self) -> list[str]:
        """What the order of touching may do on each node, and on several together."""
        said: list[str] = []
        for node in self.of.nodes:
            if node.hazard:
                said += self.of_hazard(f"node {node.number}", node.hazard, node.nr, node.room)
        for one in self.of.sets:
            if one.hazard:
                said += self.of_hazard(one.name, one.hazard, one.nr, one.room)
        return said

    def remarks(self) -> list[str]:
        scale, said = self.of.runs.scale, []
        if scale.unit > 1:
            said.append(
                f"computed in units of {scale.unit:,} pages, which all sizes divide: the numbers are exact"
                if scale.is_exact
                else f"computed in units of {scale.unit:,} pages, to which sizes are rounded up: up to "
                f"{scale.unit * len(self.of.pool.consumers) * 2:,} pages fewer may do"
            )
        hazards = self.hazards()
        said += hazards
        if hazards and not self.answer.worst:
            said.append("--worst tells numbers with which no order of touching hurts")
        if self.page >= 1 << 30:
            said.append(
                "pages of 1 GiB are taken at the start alone, from the kernel's command line: --cmdline "
                "prints it"
            )
        return said

    def text(self) -> list[str]:
        numbers, rows, nodes = self.numbers(), self.rows(), self.node_rows()
        width = max(len(number) for number, _ in numbers)
        lines = [f"  {number:{width}}  {what}" for number, what in numbers]
        if nodes:
            table = [("", "memory", "bound to it", "set", "room"), *nodes]
            widths = [max(len(row[at]) for row in table) for at in range(5)]
            lines += [""] + [
                "  "
                + "  ".join([f"{row[0]:{widths[0]}}", *(f"{row[at]:>{widths[at]}}" for at in range(1, 5))])
                for row in table
            ]
        widths = [
            max(len(row[at]) for row in [*(it[:3] for it in rows), ("", "each", "pages")]) for at in range(3)
        ]
        lines += [
            "",
            f"  In the order of starting, at {self.where()}:",
            f"  {'':{widths[0]}}  {'each':>{widths[1]}}  {'pages':>{widths[2]}}  gets",
        ]
        return lines + [
            f"  {name:{widths[0]}}  {each:>{widths[1]}}  {pages:>{widths[2]}}  {gets}"
            for name, each, pages, gets, _ in rows
        ]

    def as_value(self) -> dict[str, Any]:
        of = self.of
        return {
            "page_bytes": self.page,
            "fits": of.fits,
            "host_pages": of.capacity,
            "nr": of.smallest,
            "nr_with_overcommit": of.smallest_with,
            "overcommit": of.allowed,
            "unit_pages": of.runs.scale.unit,
            "is_exact": of.runs.scale.is_exact,
            "set": {"nr": of.nr, "overcommit": of.overcommit},
            "nodes": [
                {
                    "node": it.number,
                    "memory": it.memory,
                    "bound": it.asked,
                    "nr": it.nr,
                    "room": it.room,
                    "worst": it.worst,
                    "short_of": it.hazard.short if it.hazard else 0,
                    "takers": [one.name for one in it.hazard.takers] if it.hazard else [],
                }
                for it in of.nodes
            ]
            if of.binds
            else [],
            "node_sets": [
                {"nodes": list(it.nodes), "bound": it.asked, "nr": it.nr, "room": it.room, "worst": it.worst}
                for it in of.sets
            ],
            "told_at": {"nr": of.at, "overcommit": of.at_overcommit},
            "one_less": [{"name": it.name, "state": it.state.value, "what": it.what} for it in of.one_less],
            "programs": [
                {
                    "name": it.name,
                    "kind": it.kind,
                    "pages": it.asked,
                    "gets": it.got,
                    "state": it.state.value,
                    "what": it.what,
                    "snapshot_pages": self.snapshots.get(it.name, 0),
                    "line": it.line,
                    "reply": it.reply,
                }
                for it in of.outcomes
            ],
        }


class Report:
    """What is said of all pools."""

    def __init__(self, answer: Answer):
        self.answer, self.plan = answer, answer.plan
        self.pools = [PoolReport(answer, it) for it in answer.pools]

    def headline(self) -> str:
        if self.answer.fits:
            words = [it.set_to() for it in self.pools if it.set_to()]
            order = ", in any order of touching" if self.answer.worst else ""
            return f"It fits{order}{': ' + words[0] if words else ''}."
        wrong = [it for it in self.pools if not it.of.fits]
        several = len(self.pools) > 1
        told = [
            (f"of pages of {in_words(it.page)} " if several else "") + it.why_not().rstrip(".")
            for it in wrong
        ]
        return f"It does not fit: {'; '.join(told)}."

    def bytes_free(self) -> int:
        """The bytes that are left for all else."""
        return sum(self.plan.host.node_bytes) - sum(
            (it.of.nr + it.of.overcommit) * it.page for it in self.pools
        )

    def remarks(self) -> list[str]:
        """What limits the answer, and what Linux does otherwise."""
        said, host = list(dict.fromkeys(self.plan.remarks)), self.plan.host
        for pool in self.pools:
            said += pool.remarks()
        total = sum(host.node_bytes)
        if host.is_default_keep:
            said.append(
                f"{in_words(sum(host.keep))} of the memory are kept for the kernel and all that takes no "
                "huge pages: `keep` in [host] sets another size"
            )
        left = self.bytes_free()
        if left < least_left(total):
            said.append(
                f"too little is left besides: {in_words(max(left, 0))} of {in_words(total)}, and the "
                f"kernel alone wants {in_words(least_left(total))}"
            )
        kinds = {it.kind for it in self.plan.consumers}
        if "guest" in kinds:
            said.append(
                "of a guest its RAM is counted, which is the file of memory-backend-file; ROMs, video and "
                "device memory are on small pages"
            )
        if "redis" in kinds:
            said.append(
                "Redis takes huge pages only where its malloc does; the jemalloc of a stock build takes none"
            )
        if any(len(it.snapshots) > 1 for it in self.pools):
            said.append(
                "all snapshots run at the same time here, after everything has started: the worst case"
            )
        if self.plan.overcommit:
            said.append(
                "Linux may refuse a surplus page that the overcommit allows: it is made from memory as it "
                "is then"
            )
        return [
            *said,
            "at run time Linux may find fewer pages than you set: look at HugePages_Total; docs/KERNEL.md "
            "tells what else differs",
        ]

    def text(self) -> str:
        lines = [f"{printable(self.plan.file)}: {self.headline()}"]
        for pool in self.pools:
            lines += [
                "",
                *([f"  Pages of {in_words(pool.page)}:", ""] if len(self.pools) > 1 else []),
                *pool.text(),
            ]
        return "\n".join([*lines, "", *(f"  - {printable(it)}" for it in self.remarks())]) + "\n"

    def as_json(self) -> str:
        values = [it.as_value() for it in self.pools]
        # (the pool of the default size, or the only one, stands at the top too)
        first = next((it for it in values if it["page_bytes"] == self.plan.host.page_bytes), values[0])
        return (
            json.dumps(
                {
                    **first,
                    "plan": self.plan.file,
                    "fits": self.answer.fits,
                    "keep": sum(self.plan.host.keep),
                    "pools": values,
                    "remarks": self.remarks(),
                },
                indent=2,
            )
            + "\n"
        )

    def lines(self) -> str:
        """The plan as lines of the protocol, with ranges and comments: hugetlbctl reads them.

        Of several pools each is a machine of its own.
        """
        made: list[str] = []
        for pool in self.pools:
            script = pool.of.runs.script
            unit, words = script.scale.unit, " ".join(script.words())
            made += [
                f"# hugetlbctl {words} THIS_FILE",
                f"# a page stands for {unit:,} of {in_words(pool.page)}",
                f"nr {pool.of.at // unit}",
            ]
            made += [f"overcommit {pool.of.at_overcommit // unit}"] if pool.of.at_overcommit else []
            made += script.mounts()
            for program in script.programs:
                made += [f"# {printable(program.one.name)}", *program.start, *program.touches]
            for phase in Phase:
                lines = [line for program in script.programs for line in program.of_phase[phase]]
                made += [f"# {phase.value}", *lines] if lines else []
            made += [f"exit {program.child}" for program in script.programs if program.forks]
        return "\n".join(made) + "\n"
