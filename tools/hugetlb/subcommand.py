"""Subcommands of the tool, each with its own words."""
import argparse
from collections.abc import Callable
from typing import TypeAlias

Subcommands: TypeAlias = "argparse._SubParsersAction[argparse.ArgumentParser]"


def subparser(
    tool: Subcommands, name: str, what: str | None, run: Callable[[argparse.Namespace], int]
) -> argparse.ArgumentParser:
    """A new subcommand: `run` answers its words with a status, and `fail` ends it with its usage."""
    made = tool.add_parser(
        name,
        prog=f"hugetlbctl {name}".strip(),
        description=what,
        formatter_class=argparse.RawDescriptionHelpFormatter,
    )
    made.set_defaults(run=run, fail=made.error)
    return made
