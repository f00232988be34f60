"""Why pages were refused: what a line asked for, and what was short.

What must be known of the machine is asked right behind each line, in the same batch: `questions` names those
lines.
"""
from collections.abc import Sequence
from dataclasses import dataclass, field
from typing import Any

from hugetlb_session import Meminfo, Refused, Reply, Stat, Usage, value_of

from .faults import bad_line
from .lines import NUMBERS, RANGE, between, places_of, plural

ACCESSES = {"fault", "load", "store"}
ASKS_PAGES = {"mount", "remount", "map", "anon", "preallocate", *ACCESSES}
NO_PAGES, MOUNT_FULL, BAD_LINE = "error 2 NoPages", "error 3 MountFull", "error 21 BadLine"


def amount_in_pages(text: str, page_bytes: int, nr: int) -> int:
    """A size of the mount options in pages."""
    if text.endswith("%"):
        return nr * int(text[:-1]) // 100
    shift = {"k": 10, "m": 20, "g": 30}.get(text[-1].lower(), 0)
    return (int(text[:-1] if shift else text) << shift) // page_bytes


def questions(line: str) -> list[str]:
    """The lines that tell what a refusal of this one will want to know."""
    if line[: line.find(" ")] not in ASKS_PAGES:
        return []
    command, *words = line.split(" ")
    if len(words) < 2:
        return []
    if command in ACCESSES:
        return [f"df {words[1]}"]
    slots = {"remount": words[:1], "anon": ["0"], "preallocate": words[:1], "map": words[1:2]}
    asked = [f"df {slot}" for slot in slots.get(command, [])]
    if command == "map" and len(words) > 2:
        asked.append(f"stat {words[1]} {words[2]}")
    if command == "preallocate":
        asked.append(f"stat {words[0]} {words[1]}")
    return asked


@dataclass
class Answers:
    """The answers to questions, by their lines."""

    replies: dict[str, Reply]

    def value(self, line: str) -> Any:
        found = value_of(line, self.replies[line])
        if isinstance(found, Refused):
            raise found
        return found

    def df(self, slot: str) -> Usage:
        return Usage(*self.value(f"df {slot}"))

    def stat(self, slot: str, name: str) -> Stat:
        return Stat(*self.value(f"stat {slot} {name}"))


@dataclass(frozen=True)
class Wanted:
    """What a refused line asked for.

    The slot, none for a mount itself, and at least and at most how many pages beyond what its file has
    entered.
    """

    slot: str | None
    least: int = 1
    most: int = 1
    by_percentage: bool = False

    @classmethod
    def of(cls, answers: Answers, line: str, nr: int, page_bytes: int) -> "Wanted":
        command, *words = line.split(" ")
        if command in ("mount", "remount"):
            return cls.by_mount(answers, command, words, nr, page_bytes)
        if command == "anon":
            return cls("0", int(words[1]), int(words[1]))
        if command == "map":
            slot, pages = words[1], int(words[4])
            if words[5] != "shared":
                return cls(slot, pages, pages)
            return cls(slot, *without_entries(answers.stat(slot, words[2]), int(words[3]), pages))
        if command == "preallocate":
            slot, first, end = words[0], int(words[2]), int(words[3])
            return cls(slot, *without_entries(answers.stat(slot, words[1]), first, end - first))
        return cls(words[1])

    @classmethod
    def by_mount(cls, answers: Answers, command: str, words: list[str], nr: int, page_bytes: int) -> "Wanted":
        """What a minimum asks for, or adds to the one before."""
        minimum = [option[9:] for option in words[1].split(",") if option.startswith("min_size=")][-1]
        pages = amount_in_pages(minimum, page_bytes, nr)
        if command == "remount":
            usage = answers.df(words[0])
            pages = max(usage.used, pages) - max(usage.used, usage.minimum)
        return cls(None, pages, pages, minimum.endswith("%"))


def without_entries(file: Stat, first: int, pages: int) -> tuple[int, int]:
    """At least and at most how many indices of a range have no entry.

    A file tells how many it has below its length, and not which.
    """
    below = min(first, file.pages_long)
    within = max(min(first + pages, file.pages_long) - first, 0)
    elsewhere = below + max(file.pages_long - first - pages, 0)
    return max(pages - min(file.entries, within), 1), pages - max(file.entries - elsewhere, 0)


def ranged_place(line: str) -> str | None:
    """The place of a form at which a line has a range."""
    command, *words = line.split(" ")
    found = zip(words, places_of(command))
    return next((place for word, place in found if place in NUMBERS and RANGE.fullmatch(word)), None)


def makes_its_own(line: str) -> bool:
    """Whether each line of a range asks for pages that no other of them asks for."""
    words = line.split(" ")
    return words[0] == "anon" or words[0] == "map" and "private" in words


@dataclass
class Together:
    """What several refused lines asked for, each as if alone: by slot, at least and at most."""

    wanted: Sequence[Wanted]
    are_distinct: bool
    slots: dict[str | None, tuple[int, int]] = field(default_factory=dict)

    def __post_init__(self) -> None:
        self.by_percentage = any(it.by_percentage for it in self.wanted)
        for it in self.wanted:
            before = self.slots.get(it.slot)
            if before is None:
                self.slots[it.slot] = it.least, it.most
            else:
                least = before[0] + it.least if self.are_distinct else max(before[0], it.least)
                self.slots[it.slot] = least, before[1] + it.most


def rise(usage: Usage, pages: int) -> int:
    """By how much a mount's commitment would have risen: what is within its minimum is committed already."""
    return max(usage.used + pages, usage.minimum) - max(usage.used, usage.minimum)


@dataclass(frozen=True)
class Rises:
    """By how much the pool's commitment would have risen, at least and at most."""

    least: int
    most: int
    # (what a mount has no room for is not asked of the pool)
    is_past: bool

    @classmethod
    def of(cls, together: Together, answers: Answers) -> "Rises":
        rises, is_past = [0, 0], False
        for slot, (least, most) in together.slots.items():
            usage = answers.df(slot) if slot is not None else None
            if usage and usage.limit is not None and usage.used + most > usage.limit:
                is_past, room = True, usage.limit - usage.used
                least, most = (max(min(it, room), 0) for it in (least, most))
            for at, pages in enumerate((least, most)):
                rises[at] += pages if usage is None else rise(usage, pages)
        return cls(rises[0], rises[1], is_past)

    def beyond(self, committed: int, allowed: int) -> tuple[int, int]:
        """By how many pages that is more than so many, at least and at most."""
        return max(committed + self.least - allowed, 0), max(committed + self.most - allowed, 0)


def shortage(short: tuple[int, int]) -> str:
    """How many pages are short; of what was refused at least one is."""
    return f"{between(max(short[0], 1), short[1])} short"


class Machine:
    """What is known of the machine beside its counts.

    Its frames and overcommit, each None where a server may have others.
    """

    def __init__(self, frames: str | None, is_own: bool) -> None:
        self.overcommit = 0 if is_own else None
        self.frames = sum(map(int, frames.split(","))) if frames else None

    def note(self, line: str, reply: str) -> None:
        if reply == "ok" and line.startswith("overcommit "):
            self.overcommit = int(line[11:])

    def no_pages(self, together: Together, counts: Meminfo, answers: Answers) -> list[str]:
        """By how many pages lines fell short, and of what."""
        nr, committed = counts.total - counts.surp, counts.rsvd + counts.total - counts.free
        rises = Rises.of(together, answers)
        overcommit = 0 if self.overcommit is None else self.overcommit
        allowed = nr + overcommit
        short = rises.beyond(committed, allowed)
        of_frames = rises.beyond(committed, self.frames) if self.frames is not None else (0, 0)
        more = between(rises.least, rises.most)
        told = f"{more} more would be committed, beside {committed:,} in use or reserved"
        if self.frames is not None and of_frames[1] >= max(short[1], 1):
            return [
                f"{shortage(of_frames)} of frames: {told}, and the machine has "
                f"{plural(self.frames, 'frame')}; no nr and no overcommit will do"
            ]
        known = (
            f"overcommit {overcommit:,}"
            if self.overcommit is not None
            else "an overcommit that this session has not set"
        )
        said = [
            f"{shortage(short)} of nr and overcommit: {told}, and nr {nr:,} with {known} allows {allowed:,}"
        ]
        if self.frames is not None and of_frames[1]:
            said.append(f"and {shortage(of_frames)} of frames: the machine has {self.frames:,}")
        elif rises.least == rises.most and not together.by_percentage and self.overcommit is not None:
            room = " for what its mount has room for" if rises.is_past else ""
            said.append(f"`nr {nr + short[1]}` or `overcommit {overcommit + short[1]}` would do{room}")
        return said

    @staticmethod
    def mount_full(together: Together, answers: Answers) -> list[str]:
        """Which mounts have no room for what was asked of them, and by how many pages."""
        said = []
        for slot, (least, most) in together.slots.items():
            usage = answers.df(slot) if slot is not None else None
            if usage is None or usage.limit is None or usage.used + most <= usage.limit:
                continue
            past = [max(usage.used + pages - usage.limit, 1) for pages in (least, most)]
            asked = f"{least:,}" if least == most else f"{least:,} to {most:,}"
            said.append(
                f"{between(*past)} past the limit of mount {slot}: it has {usage.used:,} of {usage.limit:,} "
                f"in use or reserved, and {asked} more {'was' if most == 1 else 'were'} asked"
            )
        if not said:
            return []
        if len(said) == 1:
            return [*said, "its limit is the size= of its last mount or remount"]
        return [*said, "their limits are the size= of their last mounts or remounts"]

    def why(self, line: str, refused: list[tuple[str, str]], counts: Meminfo, answers: Answers) -> list[str]:
        """Explains the refusals of a line, or of all that a range stands for.

        Of each there is a pair of the line and its reply.
        """
        said, place = [], ranged_place(line)
        are_distinct = place in (None, "I", "S") or makes_its_own(line)
        if bad := [one for one, reply in refused if reply == BAD_LINE]:
            said += bad_line(bad[-1])

        def wanted_by(kind: str) -> list[Wanted]:
            nr, page_bytes = counts.total - counts.surp, counts.page_kilobytes * 1024
            return [Wanted.of(answers, one, nr, page_bytes) for one, reply in refused if reply == kind]

        try:
            of_pages, of_mounts = wanted_by(NO_PAGES), wanted_by(MOUNT_FULL)
            if of_pages:
                said += self.no_pages(Together(of_pages, are_distinct), counts, answers)
            said += self.mount_full(Together([*of_pages, *of_mounts], are_distinct), answers)
        except Refused as fault:
            said.append(f"(it can't be told any more: {fault})")
        return said
