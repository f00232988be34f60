"""Looks for an order of the events of several sessions' lines in which the reference machine gives every
reply.

The folders of that machine and of by_events.py must be on Python's path. A line stands before each line that
was sent after its reply had come. Else its events may come at any time: those of one line in their order, and
those of others between them.
"""
from collections.abc import Callable, Hashable, Sequence
from dataclasses import dataclass, replace
from operator import itemgetter
from typing import Any, TypeVar

import wire
from by_events import OF_TASK, ByEvents
from lines import Shape
from model import Done, Refusal

# A step of the reference machine: its command and its words.
Step = tuple[Any, ...]
# What a session has come to: its line, and the stage of that.
Place = tuple[int, Any]
Thing = TypeVar("Thing")


@dataclass(frozen=True)
class Line:
    """A line's step, when it was sent, when its reply had come, and the reply's bytes."""

    step: Step
    sent: int
    replied: int
    reply: bytes

    def with_reply(self, reply: bytes) -> "Line":
        return replace(self, reply=reply)


READS = ("attach", "meminfo", "nodes", "df", "ls", "stat", "read")
OF_TWO_TABLES = {"fork": "add_child", "exit": "remove"}


def shallow(thing: Thing) -> Thing:
    """Another of its kind, with the same parts."""
    twin = object.__new__(type(thing))
    twin.__dict__.update(thing.__dict__)
    return twin


def twin_of_rows(rows: Any) -> Any:
    twin = shallow(rows)
    twin.total, twin.surp = list(rows.total), list(rows.surp)
    return twin


def twin_of_file(file: Any) -> Any:
    twin = shallow(file)
    twin.entries, twin.content = set(file.entries), dict(file.content)
    return twin


def twin_of_map(one: Any, files: dict[int, Any]) -> Any:
    twin = shallow(one)
    twin.file = files[id(one.file)]
    twin.gone, twin.consumed, twin.private = set(one.gone), set(one.consumed), dict(one.private)
    return twin


def twin_of_mount(mount: Any) -> Any:
    twin = shallow(mount)
    files = {id(file): twin_of_file(file) for file in mount.files}
    twin.files = list(files.values())
    twin.maps = {place: twin_of_map(one, files) for place, one in mount.maps.items()}
    return twin


def twin_of(machine: ByEvents) -> ByEvents:
    """A machine in the same state, which shares nothing with it that changes."""
    twin = shallow(machine)
    twin.tasks, twin.rows = dict(machine.tasks), twin_of_rows(machine.rows)
    twin.slots = [mount and twin_of_mount(mount) for mount in machine.slots]
    return twin


def told_of_mount(mount: Any) -> Hashable:
    """All that a mount is. Copies that are one page have one number, in the order in which they are met."""
    files = {id(file): at for at, file in enumerate(mount.files)}
    stamps: dict[Any, int] = {}
    maps = []
    for place, one in sorted(mount.maps.items(), key=itemgetter(0)):
        copies = tuple(
            (index, stamps.setdefault(copy.stamp, len(stamps)), copy.node, copy.data)
            for index, copy in sorted(one.private.items(), key=itemgetter(0))
        )
        flags = (one.shared, one.owner, one.unmapped, one.first, one.end)
        maps.append((place, files[id(one.file)], flags, frozenset(one.gone), frozenset(one.consumed), copies))
    told = tuple(
        (file.name, file.length, frozenset(file.entries), frozenset(file.content.items()))
        for file in mount.files
    )
    return mount.limits, told, tuple(maps)


def told_of(machine: ByEvents) -> Hashable:
    """All that a machine is: two with the same answer to all lines that come have the same."""
    rows = machine.rows
    of_rows = (tuple(rows.total), tuple(rows.surp), rows.grow_cursor, rows.release_cursor)
    mounts = tuple(mount and told_of_mount(mount) for mount in machine.slots)
    return machine.nr, machine.overcommit, of_rows, frozenset(machine.tasks.items()), mounts


def next_event(machine: ByEvents, step: Step, stage: Any) -> tuple[Any, Any]:
    """Does a line's next event on the machine: the line's stage after it, or else its reply.

    The stage is None before the first event. Then it is the home that was found, or the slot to which a fork
    or an exit has come.
    """
    command, *words = step
    if command in OF_TWO_TABLES:
        return next_slot(machine, command, words, stage)
    if command not in OF_TASK:
        return None, machine.apply(step)
    if stage is None:
        home = machine.apply(("attach", words[0]))
        return (None, home) if isinstance(home, Refusal) else (home.node, None)
    return None, machine.apply_found(step, stage)


def next_slot(machine: ByEvents, command: str, words: Sequence[Any], slot: int | None) -> tuple[Any, Any]:
    """The next event of a fork or an exit: in the table, then on each slot where the task has maps."""
    if slot is None:
        reply = machine.apply((OF_TWO_TABLES[command], *words))
        return (None, reply) if isinstance(reply, Refusal) else (0, None)
    mount = machine.slots[slot]
    if mount is not None and mount.maps_of_task(words[0]):
        reply = machine.apply((f"{command}_maps", slot, *words))
        if isinstance(reply, Refusal):
            raise ValueError(f"a {command} on slot {slot} was refused {reply.name} on so small a machine")
    return (slot + 1, None) if slot + 1 < len(machine.slots) else (None, Done())


def moved_tasks(sessions: list[list[Line]]) -> set[int]:
    """The tasks that a line may add or remove."""
    of = {"connect": 1, "exit": 1, "fork": 2}
    return {line.step[of[line.step[0]]] for lines in sessions for line in lines if line.step[0] in of}


class Search:
    """A search for an order, over the lines of each session; `closes` tells whether a machine is the last
    one.

    Nothing comes into what is `whole`: an "event"; or a "line", between its events; or a "session", between
    its lines, and then without regard to times. `events` counts those that were tried.
    """

    def __init__(
        self, sessions: list[list[Line]], closes: Callable[[ByEvents], bool], whole: str = "event"
    ) -> None:
        self.sessions, self.closes, self.whole = sessions, closes, whole
        self.moved, self.events = moved_tasks(sessions), 0
        self.seen: set[Hashable] = set()

    def explains(self, machine: ByEvents) -> bool:
        begin: Place = (0, None)
        return self.goes_on(machine, (begin,) * len(self.sessions))

    def goes_on(self, machine: ByEvents, places: tuple[Place, ...]) -> bool:
        """Whether the lines from these places on can be done; a place is a session's line and its stage."""
        may = self.may_go_on(places)
        if not may:
            return self.closes(machine)
        key = (places, told_of(machine))
        if key in self.seen:
            return False
        self.seen.add(key)
        tried = []
        for session in may:
            twin, place, is_idle = self.tried(machine, session, places[session])
            if place is None:
                continue
            after = places[:session] + (place,) + places[session + 1 :]
            if is_idle and self.whole != "session":
                # (it changes nothing, wherever it comes: it may as well come now)
                return self.goes_on(twin, after)
            tried.append((twin, after))
        return any(self.goes_on(twin, after) for twin, after in tried)

    def may_go_on(self, places: tuple[Place, ...]) -> list[int]:
        """The sessions whose next event may be the next of all, the one with the earliest reply first."""
        open_lines = [
            (lines[at], at, number)
            for number, (lines, (at, _)) in enumerate(zip(self.sessions, places))
            if at < len(lines)
        ]
        if self.whole == "session":
            return [number for _, at, number in open_lines if at] or [number for _, _, number in open_lines]
        first = min((line.replied for line, _, _ in open_lines), default=0)
        return [
            number
            for line, _, number in sorted(open_lines, key=lambda it: it[0].replied)
            if line.sent <= first
        ]

    def tried(self, machine: ByEvents, session: int, place: Place) -> tuple[ByEvents, Place | None, bool]:
        """A session's next event: the machine and its place after it, and whether the event changes nothing.

        The place is None where the reply is another than that which came.
        """
        at, stage = place
        line = self.sessions[session][at]
        twin = machine if line.step[0] in READS else twin_of(machine)
        stage, reply = self.event(twin, line.step, stage)
        if reply is None:
            return twin, (at, stage), False
        if wire.text_of_reply(reply, machine.page_bytes) != line.reply:
            return twin, None, False
        return twin, (at + 1, None), isinstance(reply, Refusal) or line.step[0] in READS

    def event(self, machine: ByEvents, step: Step, stage: Any) -> tuple[Any, Any]:
        """The next event, with the one after it where no other can make a difference between them."""
        self.events += 1
        stage, reply = next_event(machine, step, stage)
        while reply is None and (self.whole != "event" or step[0] in OF_TASK and step[1] not in self.moved):
            stage, reply = next_event(machine, step, stage)
        return stage, reply


def machine_of(shape: Shape) -> ByEvents:
    """The reference machine in its first state."""
    return ByEvents(shape.frames, shape.page, shape.slots, level="full")


def differing(machine: ByEvents, lines: list[bytes], replies: list[bytes]) -> tuple[str, str, str] | None:
    """The first of these lines, done one after another, to which the machine replies otherwise."""
    for line, reply in zip(lines, replies, strict=True):
        wanted = wire.text_of_reply(machine.apply(wire.step_of_line(line)), machine.page_bytes)
        if wanted != reply:
            return line.decode(), wanted.decode(), reply.decode()
    return None
