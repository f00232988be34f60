"""Scripts that ran on a real Linux kernel, what it answered, and the comparison with a program's answers.

NAME.annotated has lines of the service, `#` comments, and `# args:` for options of the machine. After each
step that can change the counts they were asked too, by `meminfo`. NAME.kernel has a line for each line of the
script: the reply, and after a tab the four counts where they were asked (Total, Free, Rsvd, Surp). The lines
of a reply of several stand with ` / ` between them.
"""
import subprocess
from collections.abc import Iterable
from dataclasses import dataclass
from pathlib import Path

HERE = Path(__file__).resolve().parent
SECONDS = 60
MACHINE = {"--frames": "4,4", "--page": "1024", "--slots": "4"}
# after these the counts are as before them
QUIET = {"read", "stat", "ls", "df", "nodes", "attach", "meminfo", "connect", "create"}
LABELS = [
    "HugePages_Total:",
    "HugePages_Free:",
    "HugePages_Rsvd:",
    "HugePages_Surp:",
    "Hugepagesize:",
    "Hugetlb:",
]
COUNTED = 4

# the refusals that an errno or a signal of the kernel can stand for
MEANINGS = {
    "ENOMEM": {"NoPages", "MountFull"},
    "SIGBUS": {"NoPages", "MountFull", "BeyondEnd", "TakenByOwner"},
    "SIGSEGV": {"NoSuchMap", "OutOfRange"},
    "EBUSY": {"Busy"},
    "EEXIST": {"FileExists"},
    "ENOENT": {"NoSuchFile"},
    "ENOSPC": {"NoInodes"},
    "EINVAL": {"MinOverSize", "BadOption", "OutOfRange"},
    "EOF": {"OutOfRange"},
}
NUMBERS = {
    "NoPages": 2,
    "MountFull": 3,
    "BeyondEnd": 4,
    "TakenByOwner": 5,
    "MinOverSize": 10,
    "BadOption": 11,
    "NoSuchFile": 12,
    "FileExists": 13,
    "NoInodes": 14,
    "NoSuchMap": 16,
    "OutOfRange": 17,
    "Busy": 19,
}


@dataclass(frozen=True)
class Script:
    """A script's lines without its comments, and the machine's options."""

    name: str
    options: dict[str, str]
    lines: list[str]

    @classmethod
    def read(cls, path: Path) -> "Script":
        options = dict(MACHINE)
        lines = path.read_text().splitlines()
        for line in lines:
            if line.startswith("# args:"):
                words = line.removeprefix("# args:").split()
                options.update(zip(words[::2], words[1::2]))
        return cls(path.stem, options, [line for line in lines if not line.startswith("#")])

    def words(self) -> list[str]:
        return [word for option in sorted(self.options.items()) for word in option]

    def page_kilobytes(self) -> int:
        return int(self.options["--page"]) // 1024

    def input(self) -> str:
        """What is run: each line, and a question for the counts after those that can change them."""
        asked: list[str] = []
        for line in self.lines:
            asked += [line] if is_quiet(line) else [line, "meminfo"]
        return "".join(line + "\n" for line in asked)

    def answers(self, output: str) -> list[str]:
        """One answer for each line of the script, from what was written."""
        replies = iter(replies_in(output))
        answers = []
        for line in self.lines:
            reply = next(replies, ["(nothing)"])
            counts = "" if is_quiet(line) else "\t" + self.counts(next(replies, ["(nothing)"]))
            answers.append(" / ".join(reply) + counts)
        return answers + [" / ".join(reply) for reply in replies]

    def counts(self, reply: list[str]) -> str:
        """Total, Free, Rsvd and Surp of a reply to `meminfo`; all of it where its form is wrong."""
        numbers = [line.split()[1] for line in reply[1:] if len(line.split()) > 1]
        if len(numbers) == len(LABELS):
            kilobytes = self.page_kilobytes()
            numbers[COUNTED:] = [str(kilobytes), str(int(numbers[0]) * kilobytes)]
        units = ["" if at < COUNTED else " kB" for at in range(len(LABELS))]
        whole = [
            "text 6",
            *(f"{label:16}{number:>8}{unit}" for label, number, unit in zip(LABELS, numbers, units)),
        ]
        return " ".join(numbers[:COUNTED]) if reply == whole else " / ".join(reply)


def is_quiet(line: str) -> bool:
    return line.split(" ")[0] in QUIET


def replies_in(output: str) -> list[list[str]]:
    """Cuts an output into replies, lists of lines, of which one that begins `text N` has N more."""
    lines, at, replies = output.splitlines(), 0, list[list[str]]()
    while at < len(lines):
        words = lines[at].split(" ")
        end = at + 1 + (int(words[1]) if words[0] == "text" and len(words) == 2 else 0)
        replies.append(lines[at:end])
        at = end
    return replies


def scripts(names: Iterable[str] = ()) -> list[Script]:
    return [Script.read(path) for path in sorted(HERE.glob("*.annotated")) if not names or path.stem in names]


def stored(name: str) -> list[str]:
    """What the kernel answered to each line."""
    return (HERE / f"{name}.kernel").read_text().splitlines()


def run(program: Path, script: Script) -> subprocess.CompletedProcess[str]:
    return subprocess.run(
        [program, "script", *script.words()],
        input=script.input(),
        capture_output=True,
        text=True,
        timeout=SECONDS,
    )


@dataclass(frozen=True)
class Difference:
    """What is known to differ: its name, the kernel's answer and the program's."""

    name: str
    kernel: str
    program: str


def agrees(kernel: str, answer: str) -> bool:
    """Whether the kernel's answer can stand for a program's: what the kernel does not tell is `?`."""
    kernel, _, kernel_counts = kernel.partition("\t")
    answer, _, counts = answer.partition("\t")
    if kernel_counts != counts:
        return False
    if kernel.startswith("refused # "):
        words, reason = answer.split(" "), kernel.removeprefix("refused # ")
        if len(words) != 3 or words[0] != "error":
            return False
        return (
            reason.startswith("bookkeeping")
            or words[2] in MEANINGS[reason]
            and words[1] == str(NUMBERS[words[2]])
        )
    known, told = kernel.split(" "), answer.split(" ")
    return len(known) == len(told) and all(one in ("?", other) for one, other in zip(known, told))


def differences() -> dict[tuple[str, int], Difference]:
    """The table of differences, by the script and the line's number from 1."""
    found: dict[tuple[str, int], Difference] = {}
    for row in (HERE / "differences.tsv").read_text().splitlines()[1:]:
        name, script, number, _, kernel, program = row.split("\t")
        found[script, int(number)] = Difference(
            name, kernel.replace(" | ", "\t"), program.replace(" | ", "\t")
        )
    return found
