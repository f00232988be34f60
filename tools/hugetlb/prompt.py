"""The prompt: history, completion, help."""
import os
import sys
from collections.abc import Callable
from pathlib import Path

from hugetlb_session import FORMS, Refused, Session

from .lines import places_of
from .talk import Talk, helps

MOST_LINES = 1000


def choices_of(session: Session, before: list[str]) -> list[str]:
    """What may stand behind these words of a line."""
    if not before:
        return [*FORMS, "help", "quit"]
    if before[0] == "help":
        return list(FORMS)
    places = places_of(before[0])
    place = places[len(before) - 1].strip("[]") if len(before) <= len(places) else ""
    if place == "NAME" and before[-1].isdigit():
        names = session.many([f"ls {before[-1]}"])[0]
        return [] if isinstance(names, Refused) else list(names)
    if place == "OPTIONS":
        return ["size=", "min_size=", "nr_inodes="]
    return place.split("|") if place.islower() else []


def completions(session: Session, typed: str) -> list[str]:
    """What may stand where the last word of a typed line is begun."""
    *before, begun = typed.split(" ")
    found = [it for it in choices_of(session, before) if it.startswith(begun)]
    return [it if it.endswith("=") else f"{it} " for it in found]


def history_file() -> Path:
    return Path(os.environ.get("XDG_STATE_HOME") or Path.home() / ".local/state") / "hugetlbctl_history"


def with_editing(session: Session) -> Callable[[], None]:
    """History and completion for the prompt, where Python has them; answers what keeps the history."""
    try:
        import readline
    except ImportError:
        return lambda: None
    found: list[str] = []

    def complete(_: str, state: int) -> str | None:
        if state == 0:
            found[:] = completions(session, readline.get_line_buffer()[: readline.get_endidx()])
        return found[state] if state < len(found) else None

    readline.set_completer(complete)
    readline.set_completer_delims(" ,")
    readline.parse_and_bind("tab: complete")
    path = history_file()
    try:
        readline.read_history_file(path)
    except OSError:
        pass

    def keeps() -> None:
        try:
            path.parent.mkdir(parents=True, exist_ok=True)
            readline.set_history_length(MOST_LINES)
            readline.write_history_file(path)
        except OSError:
            pass

    return keeps


def prompts(talk: Talk) -> None:
    keeps, number = with_editing(talk.session), 0
    try:
        while True:
            try:
                line = input("hugetlbd> ")
            except KeyboardInterrupt:
                print()
                continue
            except EOFError:
                print()
                return
            words = line.split()
            if words[:1] == ["help"]:
                helps(words[1:], sys.stdout)
            elif words == ["quit"]:
                return
            else:
                number += 1
                # (a completion leaves a space behind its word)
                talk.take(number, line.strip(" "))
    finally:
        keeps()
