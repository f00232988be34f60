"""Answers a plan: does it fit, with how many pages, and who is refused if not.

    hugetlbctl plan host.toml
    hugetlbctl plan host.toml --html host.html --svg host.svg
    hugetlbctl plan host.toml --sysctl
    hugetlbctl plan --from guests/*.xml postgresql.conf > host.toml

Status 0: it fits. 1: it does not. 2: the plan can't be read.
"""
import argparse
import sys
from enum import Enum
from pathlib import Path

from . import imports
from .fit import answer_of
from .plan_file import read_plan
from .plan_picture import PlanPicture, page
from .report import Report
from .settings import Settings
from .subcommand import Subcommands, subparser
from .tables import PlanFault


class Form(Enum):
    """What is printed, with the help of its option."""

    TEXT = ""
    JSON = "prints the answer as JSON"
    LINES = "prints the plan as lines of the protocol"
    SYSCTL = "prints the numbers of pages: a file of sysctl.d, or a unit of systemd where they are per node"
    CMDLINE = "prints the numbers of pages as words of the kernel's command line"
    FSTAB = "prints the mounts as /etc/fstab has them"


def add_to(tool: Subcommands) -> None:
    made = subparser(tool, "plan", __doc__, run)
    made.add_argument("file", type=Path, nargs="?", help="the plan, in TOML; `-` is standard input")
    made.add_argument(
        "--program",
        help="the program that answers (HUGETLBD in the environment; else the one beside this tool, or what "
        "./run starts)",
    )
    made.add_argument(
        "--from",
        dest="sources",
        type=Path,
        nargs="+",
        metavar="FILE",
        default=[],
        help="prints a plan made of these: libvirt's XML, postgresql.conf, Kubernetes' YAML, a command line "
        "of DPDK; behind the plan if one is named",
    )
    made.add_argument(
        "--root",
        type=Path,
        default=Path("/"),
        metavar="FOLDER",
        help="with --from: the host's /proc and /sys stand below this folder",
    )
    made.add_argument(
        "--worst",
        action="store_true",
        help="answers with numbers for each node with which no order of touching hurts",
    )
    made.add_argument("--svg", type=Path, metavar="FILE", help="writes a picture of the answer")
    made.add_argument(
        "--html", type=Path, metavar="FILE", help="writes a page with the answer, the picture and the table"
    )
    instead = made.add_mutually_exclusive_group()
    for form in Form:
        if form.value:
            instead.add_argument(
                f"--{form.name.lower()}", dest="form", action="store_const", const=form, help=form.value
            )
    made.set_defaults(form=Form.TEXT)


def print_answer(words: argparse.Namespace) -> int:
    """Prints the answer of a plan."""
    answer = answer_of(read_plan(words.file), words.program, words.worst)
    report = Report(answer)
    settings = Settings(report)
    if words.svg:
        words.svg.write_text(PlanPicture(report).text())
    if words.html:
        words.html.write_text(page(report))
    forms = {
        Form.TEXT: report.text,
        Form.JSON: report.as_json,
        Form.LINES: report.lines,
        Form.SYSCTL: settings.sysctl,
        Form.CMDLINE: settings.cmdline,
        Form.FSTAB: settings.fstab,
    }
    print(forms[words.form](), end="")
    return 0 if answer.fits else 1


def run(words: argparse.Namespace) -> int:
    if not words.file and not words.sources:
        words.fail("the plan is missing: a file in TOML, `-` for standard input, or --from FILE...")
    try:
        if words.sources:
            print(imports.plan_from(words.sources, words.file, words.root), end="")
            return 0
        return print_answer(words)
    except PlanFault as fault:
        for text in fault.faults:
            print(f"hugetlbctl: {text}", file=sys.stderr)
        return 2
