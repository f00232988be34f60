"""Speaks with hugetlbd: a plan with its answer, a prompt, or a script with its replies and counts.

It tells why a line was refused, and draws and exports the counts.

    hugetlbctl plan host.toml                   does it fit, with how many pages, and who is refused if not
    hugetlbctl observe                          a plan from the Linux host that it runs on
    hugetlbctl who                              who holds the huge pages of this host
    hugetlbctl                                  a prompt to a program of its own; `help` lists the lines
    hugetlbctl examples/guests.script           a script, each line with its reply, Total, Free, Rsvd and Surp
    hugetlbctl --svg guests.svg guests.script   the same, and a picture
    hugetlbctl --port 7070                      a prompt to a server
    hugetlbctl --watch 7070                     a line of counts a second
    hugetlbctl --end 7070                       ends a server: uses up the sessions that are left
    hugetlbctl --port 7070 --prometheus         the counts for Prometheus; with --listen PORT as an exporter

Beside the service's lines a script may have empty lines, comments from a `#` on, and one range in a line:
`fault 1 0 1 0..8191 write` is 8,192 lines. Where NAME.words stands beside NAME.script, its words are the
machine's options; those given here go before them.
"""
import argparse
import gc
import io
import os
import re
import signal
import sys
from collections.abc import Callable
from dataclasses import dataclass, fields
from pathlib import Path

from hugetlb_session import Ended, Session, Unreadable

from . import exporter, observe, plan, who
from .picture import Picture
from .program import NoProgram, program, proof, version
from .prompt import prompts
from .refusals import Machine
from .server import ends
from .subcommand import Subcommands, subparser
from .talk import Prompt, Script, Talk

MACHINE = {"frames": "4,4", "page": "1024", "slots": "4"}
# The name of the subcommand of words that name none.
NONE = ""
MOST_PORTS = 65_535
WAITS = "waits for a worker that is free: all workers of the server have other sessions"


@dataclass(frozen=True)
class Words:
    """The words of the command line, where they name no subcommand."""

    script: Path | None
    program: str | None
    port: int | None
    machine: dict[str, str]
    svg: Path | None
    prometheus: bool
    listen: int | None
    watch: int | None
    end: int | None
    within: float
    pid: int | None
    seconds: float
    times: int | None

    @classmethod
    def of(cls, given: argparse.Namespace) -> "Words":
        values = vars(given)
        machine = {name: value for name in MACHINE if (value := values[name])}
        names = {it.name for it in fields(cls)} & values.keys()
        return cls(machine=machine, **{name: values[name] for name in names})

    @property
    def server(self) -> int | None:
        """The port of the server that is spoken with."""
        return next((it for it in (self.port, self.watch, self.end) if it is not None), None)


class NoServer(Exception):
    """No server listens at a port."""


def a_port(text: str) -> int:
    number = int(text) if re.fullmatch(r"[0-9]{1,5}", text) else MOST_PORTS + 1
    if number > MOST_PORTS:
        raise argparse.ArgumentTypeError(f"a port is a number from 0 to {MOST_PORTS}, and not {text!r}")
    return number


def add_to(tool: Subcommands) -> None:
    add = subparser(tool, NONE, __doc__, run).add_argument
    add(
        "script",
        nargs="?",
        type=Path,
        help="a file of lines; `-`, or none where standard input is no terminal: standard input",
    )
    add("--version", action="version", version=f"hugetlbctl {version()}{proof()}")
    add(
        "--program",
        help="the program to start (HUGETLBD in the environment; else the one beside this tool, or what "
        "./run starts)",
    )
    add(
        "--port",
        type=a_port,
        help="the port of a server on this machine, to speak with it in place of a program",
    )
    add(
        "--frames",
        help="the machine's frames, as hugetlbd takes them; with --port those of the server, to tell a want "
        "of frames",
    )
    add("--page", help="the machine's bytes of a page, as hugetlbd takes them")
    add("--slots", help="the machine's slots, as hugetlbd takes them")
    add(
        "--svg",
        type=Path,
        metavar="FILE",
        help="draws the counts over the lines into this file; of more than 400 lines only those that were "
        "refused or changed a count",
    )
    add(
        "--prometheus",
        action="store_true",
        help="writes the counts as Prometheus' textfile collector reads them, after the script if there is "
        "one",
    )
    add(
        "--listen",
        type=a_port,
        metavar="PORT",
        help="with --prometheus: answers /metrics at this port of 127.0.0.1, over one session",
    )
    add(
        "--watch",
        type=a_port,
        metavar="PORT",
        help="writes a line of counts a second, until the server ends or Ctrl-C",
    )
    add(
        "--end",
        type=a_port,
        metavar="PORT",
        help="ends a server gracefully, with its audit: opens and closes the sessions that are left of its "
        "number",
    )
    add(
        "--within",
        type=float,
        default=60,
        metavar="SECONDS",
        help="how long --end waits for sessions that stay open (60)",
    )
    add("--pid", type=int, help="the server's process, which --end sends SIGTERM after that")
    add("--seconds", type=float, default=1, help="how long to wait between two lines of --watch")
    add("--times", type=int, help="how many lines --watch writes")


def add_help_to(tool: Subcommands) -> None:
    def run(given: argparse.Namespace) -> int:
        tool.choices[given.name or NONE].print_help()
        if not given.name:
            print(f"\nhugetlbctl help {'|'.join(names)}: tells of one of these.")
        return 0

    names = [name for name in tool.choices if name != NONE]
    subparser(tool, "help", "Tells of the tool, or of one of its subcommands.", run).add_argument(
        "name", nargs="?", choices=names
    )


def subcommands(tool: argparse.ArgumentParser) -> dict[str, argparse.ArgumentParser]:
    """The parser of each subcommand, by its name."""
    made = tool.add_subparsers(required=True)
    for add in (add_to, plan.add_to, observe.add_to, who.add_to, add_help_to):
        add(made)
    return made.choices


def parse(arguments: list[str]) -> argparse.Namespace:
    known = subcommands(argparse.ArgumentParser())
    is_named = bool(arguments) and arguments[0] != NONE and arguments[0] in known
    name, *words = arguments if is_named else [NONE, *arguments]
    return known[name].parse_args(words)


def words_of(given: argparse.Namespace) -> Words:
    words = Words.of(given)
    if words.port is not None and words.machine.keys() - {"frames"}:
        given.fail("--page and --slots are a program's own: a server has its own")
    if words.listen is not None and (words.port is None or not words.prometheus):
        given.fail("--listen goes with --prometheus and the --port of a server")
    if words.pid is not None and words.end is None:
        given.fail("--pid goes with --end")
    return words


def machine_words(words: Words) -> dict[str, str]:
    """The options of the machine: those given, before those that stand beside the script."""
    file = words.script.with_suffix(".words") if words.script and words.script.suffix == ".script" else None
    texts = re.split(r"[ =\n]+", file.read_text().strip()) if file and file.exists() else []
    beside = {name.removeprefix("--"): value for name, value in zip(texts[::2], texts[1::2])}
    return MACHINE | beside | words.machine


def tell_of_waiting() -> None:
    print(f"hugetlbctl: {WAITS}", file=sys.stderr, flush=True)


def over_socket(port: int) -> Session:
    """A session with a server; one that waits for a worker says so."""
    return Session.over_socket(port, on_wait=tell_of_waiting)


def open_session(words: Words, machine: dict[str, str]) -> Session:
    if words.port is not None:
        return over_socket(words.port)
    options = [word for name, value in machine.items() for word in (f"--{name}", value)]
    return Session.over_pipe([program(words.program), "script", *options])


def lines_of(script: Path | None) -> list[str]:
    """The lines of a script as they are: an end of DOS is part of a line, and the service's to refuse."""
    is_input = script is None or script == Path("-")
    data = sys.stdin.buffer.read() if script is None or is_input else script.read_bytes()
    return data.removesuffix(b"\n").decode(errors="surrogateescape").split("\n") if data else []


def serves(words: Words) -> int:
    if words.watch is not None:
        with over_socket(words.watch) as session:
            exporter.watches(session, words.seconds, words.times)
        return 0
    if words.end is not None:
        return 0 if ends(words.end, words.within, words.pid) else 1
    if words.listen is not None and words.port is not None:
        port = words.port
        exporter.exports(lambda: Session.over_socket(port), words.listen)
        return 0
    talks(words)
    return 0


def talks(words: Words) -> None:
    """A script, or a prompt."""
    machine = machine_words(words)
    at_prompt = words.script is None and sys.stdin.isatty()
    lines = [] if at_prompt or words.prometheus and words.script is None else lines_of(words.script)
    session = open_session(words, machine)
    frames = words.machine.get("frames") if words.port is not None else machine["frames"]
    out = open(os.devnull, "w") if words.prometheus else sys.stdout
    say = Prompt(out) if at_prompt else Script(out)
    talk = Talk(session, Machine(frames, words.port is None), say)
    if at_prompt and not words.prometheus:
        say.head()
        prompts(talk)
    elif lines:
        say.head()
    # (a million rows are kept, and none of them is garbage)
    gc.disable()
    talk.take_all(enumerate(lines, 1))
    gc.enable()
    if words.prometheus:
        print(exporter.prometheus(session), end="")
    if words.svg:
        words.svg.write_text(Picture(talk.rows, words.script.name if words.script else "hugetlbd").text())
    session.close()


def run(given: argparse.Namespace) -> int:
    words = words_of(given)
    try:
        return serves(words)
    except ConnectionRefusedError:
        if words.server is None:
            raise
        raise NoServer(
            f"no server listens at port {words.server} of this machine: the connection was refused"
        ) from None


def what_failed(error: Exception) -> str:
    """An error in words for people."""
    if isinstance(error, OSError) and error.strerror:
        return f"{error.filename}: {error.strerror}" if error.filename else error.strerror
    return str(error)


def main(arguments: list[str]) -> int:
    signal.signal(signal.SIGINT, signal.default_int_handler)
    for stream in (sys.stdout, sys.stderr):
        if isinstance(stream, io.TextIOWrapper):
            stream.reconfigure(errors="backslashreplace")
    try:
        given = parse(arguments)
        run: Callable[[argparse.Namespace], int] = given.run
        return run(given)
    except BrokenPipeError:
        os.dup2(os.open(os.devnull, os.O_WRONLY), sys.stdout.fileno())
        return 0
    except KeyboardInterrupt:
        return 130
    except (Ended, Unreadable, NoProgram, NoServer, OSError) as error:
        print(f"hugetlbctl: {what_failed(error)}", file=sys.stderr)
        return 1
