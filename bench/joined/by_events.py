"""The lines of several sessions, done by the reference machine event by event.

The folder of that machine must be on Python's path.
"""
from collections.abc import Generator
from typing import Any

import wire
from model import Done, Machine, Refusal

OF_TABLE = ("connect", "attach", "add_child", "remove")
OF_POOL = ("nr", "overcommit", "meminfo", "nodes")
OF_TASK = ("map", "anon", "unmap", "fault", "load", "store")
ON_SLOT = {"fork_maps": "fork", "exit_maps": "exit"}


# A step of the reference machine: its command and its words. And what goes on when its turn has come, with a
# reply.
Step = tuple[Any, ...]
Turns = Generator[None, None, Any]


class ByEvents(Machine):  # type: ignore[misc]
    """The reference machine, with the events of which a task's line, a fork and an exit consist."""

    home: Any = None

    def find(self, task: int) -> Any:
        return super().find(task) if self.home is None else self.home

    def apply_found(self, step: Step, home: Any) -> Any:
        """A task's event on a slot, once the task was found."""
        self.home = home
        reply = self.apply(step)
        self.home = None
        return reply

    def is_enabled(self, step: Step) -> bool:
        return True

    def do_add_child(self, parent: int, child: int) -> Any:
        self.add_task(child, self.find(parent))
        return Done()

    def do_remove(self, task: int) -> Any:
        self.find(task)
        del self.tasks[task]
        return Done()

    def do_fork_maps(self, slot: int, parent: int, child: int) -> Any:
        # (another session may have made maps under the child's number since it was added: these go first)
        self.exit_maps(self.slots[slot], child)
        self.fork_maps(self.slots[slot], parent, child)
        return Done()

    def do_exit_maps(self, slot: int, task: int) -> Any:
        self.exit_maps(self.slots[slot], task)
        return Done()


def event_of(step: Step) -> str:
    """How the program names the event."""
    command = step[0]
    if command in OF_TABLE or command in OF_POOL:
        return "tasks" if command in OF_TABLE else "pool"
    slot = 0 if command == "anon" else step[2] if command in OF_TASK else step[1]
    return f"{ON_SLOT.get(command, 'slot')} {slot}"


class Session:
    """A session's lines. It stops before each event until that is due; `events` are those it was told of."""

    def __init__(self, machine: ByEvents, lines: list[bytes], events: list[str]) -> None:
        self.machine, self.events, self.told, self.text = machine, events, 0, b""
        self.turns = self.run(lines)
        next(self.turns, None)

    def go_on(self) -> None:
        """Does the event that is due."""
        next(self.turns, None)

    def run(self, lines: list[bytes]) -> Turns:
        for line in lines:
            reply = yield from self.step(wire.step_of_line(line))
            self.text += wire.text_of_reply(reply, self.machine.page_bytes)

    def next_is(self, kind: str) -> bool:
        return self.told < len(self.events) and self.events[self.told].startswith(kind)

    def turn(self, step: Step) -> Turns:
        """Waits for the turn of an event."""
        yield
        if not self.next_is(event_of(step)):
            due = self.events[self.told :][:1]
            raise SystemExit(
                f"joined: {event_of(step)} is due by the reference machine, {due} by the program"
            )
        self.told += 1

    def event(self, *step: Any) -> Turns:
        yield from self.turn(step)
        return self.machine.apply(step)

    def step(self, step: Step) -> Turns:
        command, *words = step
        if command == "fork":
            return (yield from self.fork(*words))
        if command == "exit":
            return (yield from self.leave(*words))
        if command not in OF_TASK:
            return (yield from self.event(*step))
        home = yield from self.event("attach", words[0])
        if isinstance(home, Refusal):
            return home
        yield from self.turn(step)
        return self.machine.apply_found(step, home.node)

    def on_slots(self, kind: str, *tasks: int) -> Turns:
        """A fork's or an exit's events on slots, up to a refusal."""
        reply = Done()
        while reply == Done() and self.next_is(kind):
            slot = int(self.events[self.told].split()[1])
            reply = yield from self.event(f"{kind}_maps", slot, *tasks)
        return reply

    def leave(self, task: int) -> Turns:
        reply = yield from self.event("remove", task)
        return reply if isinstance(reply, Refusal) else (yield from self.on_slots("exit", task))

    def fork(self, parent: int, child: int) -> Turns:
        reply = yield from self.event("add_child", parent, child)
        if isinstance(reply, Refusal):
            return reply
        reply = yield from self.on_slots("fork", parent, child)
        if isinstance(reply, Refusal):
            yield from self.on_slots("exit", child)
            yield from self.event("remove", child)
        return reply
