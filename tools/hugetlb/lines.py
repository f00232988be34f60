"""The lines of the protocol, as people write them: forms, words, comments and ranges."""
import re

from hugetlb_session import FORMS, BadLine

LETTERS = {
    "T": "a task's number",
    "C": "a child task's number",
    "H": "a node",
    "S": "a slot",
    "M": "a map's number",
    "N": "a number of pages",
    "A": "the first index of a range",
    "E": "the index after a range's last",
    "I": "an index",
    "O": "an offset in bytes",
    "K": "a count of bytes",
    "NAME": "a file's name",
    "OPTIONS": "- or mount options",
    "HEX": "bytes in hex",
}
NUMBERS = set("TCHSMNAEIOK")
ALIASES = {
    "mmap": "map",
    "munmap": "unmap",
    "open": "create",
    "touch": "fault",
    "rm": "unlink",
    "write": "store",
    "clone": "fork",
    "nr_hugepages": "nr",
    "free": "meminfo",
    "statfs": "df",
    "fallocate": "preallocate",
    "ftruncate": "truncate",
    "kill": "exit",
}
RANGE = re.compile(r"([0-9]{1,20})\.\.([0-9]{1,20})")
MOST_LINES = 1_048_576


def places_of(command: str) -> list[str]:
    """The places of a command's words; none where it is no command."""
    return FORMS[command].places if command in FORMS else []


def form_of(command: str) -> str:
    return f"{command} {FORMS[command].words}".strip()


def plural(number: int, word: str = "page") -> str:
    return f"{number:,} {word}{'' if number == 1 else 's'}"


def between(least: int, most: int) -> str:
    return plural(most) if least == most else f"{least:,} to {plural(most)}"


def printable(line: str) -> str:
    """A line as it can be printed: characters that are none are escaped."""
    return line if line.isprintable() else "".join(it if it.isprintable() else ascii(it)[1:-1] for it in line)


def without_comment(line: str) -> str:
    if "#" not in line:
        return line
    found = re.search(r"(^|[ \t])#", line)
    return line[: found.start()].rstrip() if found else line


def expand(line: str) -> list[str]:
    """The lines that a line with a range stands for."""
    if ".." not in line:
        return [line]
    words = line.split(" ")
    places = places_of(words[0])
    at = [
        k
        for k, (word, place) in enumerate(zip(words[1:], places), 1)
        if place in NUMBERS and RANGE.fullmatch(word)
    ]
    if not at:
        return [line]
    first, last = map(int, words[at[0]].split(".."))
    if len(at) > 1:
        raise BadLine("a line may have one range")
    if not first <= last < first + MOST_LINES:
        raise BadLine(f"a range goes up, and has at most {MOST_LINES:,} numbers")
    return [
        " ".join([*words[: at[0]], str(number), *words[at[0] + 1 :]]) for number in range(first, last + 1)
    ]
