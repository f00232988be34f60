"""What is wrong in a line that reads as no command, and how it is written."""
import difflib
import re

from hugetlb_session import FORMS

from .lines import ALIASES, LETTERS, NUMBERS, RANGE, form_of, plural

NO_FAULT = "no fault was found"


def is_number(word: str) -> bool:
    return re.fullmatch(r"[0-9]{1,20}", word) is not None and int(word) < 2**64


def is_hex(word: str) -> bool:
    return re.fullmatch(r"([0-9a-fA-F]{2})+", word) is not None


def fits(word: str, place: str) -> bool:
    """Whether a word may stand at a place of a form."""
    place = place.strip("[]")
    if place in NUMBERS:
        return is_number(word)
    if place == "HEX":
        return is_hex(word)
    return place in ("NAME", "OPTIONS") or word in place.split("|")


def number_fault(word: str, place: str) -> str:
    what = f"`{word}`, in the place of {place} ({LETTERS[place]}),"
    if word.startswith("-"):
        return f"{what} has a sign: numbers are 0 and above"
    if re.fullmatch(r"0[xX][0-9a-fA-F]+", word):
        return f"{what} is in hex: numbers are decimal, here {int(word, 16)}"
    if re.fullmatch(r"\d+[kKmMgG][iI]?[bB]?", word):
        return (
            f"{what} has a suffix, which mount options alone may have: numbers here are whole pages, "
            "indices or bytes"
        )
    if re.fullmatch(r"\d+[.,_'][\d.,_']*", word) and not RANGE.fullmatch(word):
        return f"{what} has a comma, a dot or the like between its digits: write digits alone"
    if word.isdigit() and len(word) > 20:
        return f"{what} has {len(word)} digits, and a number has at most 20"
    if word.isdigit():
        return f"{what} is not below 2^64"
    return f"{what} is no number"


def word_fault(word: str, place: str) -> str:
    bare = place.strip("[]")
    if bare in NUMBERS:
        return number_fault(word, bare)
    if bare == "HEX":
        if re.match(r"0[xX]", word):
            return f"`{word}` begins with 0x: bytes are hex digits alone"
        if re.fullmatch(r"[0-9a-fA-F]+", word):
            return f"`{word}` has {len(word)} hex digits, and a byte has two: the number must be even"
        return f"`{word}` is not hex: two digits of 0-9 and a-f for each byte"
    choices = bare.split("|")
    if word.lower() in choices:
        return f"`{word}` is written in small letters: {word.lower()}"
    near = [choice for choice in choices if choice.startswith(word.lower())]
    near = near or difflib.get_close_matches(word.lower(), choices, 1, 0.6)
    return f"`{word}` stands where {' or '.join(choices)} must" + (f": {near[0]} is meant?" if near else "")


def missing_places(words: list[str], places: list[str]) -> list[str]:
    """The places of which one's word may be missing, by the look of the words that are there."""

    def could_be(word: str, place: str) -> bool:
        return fits(word, place) and not (place == "NAME" and word.isdigit())

    return [
        places[at] for at in range(len(places)) if all(map(could_be, words, places[:at] + places[at + 1 :]))
    ]


def count_fault(command: str, words: list[str], places: list[str]) -> str:
    needed = [place for place in places if not place.startswith("[")]
    if len(words) >= len(needed):
        rest = f"{command} takes nothing" if not places else f"{form_of(command)} is all"
        return f"`{' '.join(words[len(places):])}` is too much: {rest}"
    missing = len(needed) - len(words)
    meant = missing_places(words, needed) if missing == 1 else []
    if meant:
        told = [f"{place} ({LETTERS[place]})" if place in LETTERS else place for place in meant]
        return f"{' or '.join(told)} is missing"
    return f"{plural(missing, 'word')} {'is' if missing == 1 else 'are'} missing"


def spacing_fault(line: str) -> str | None:
    if line.endswith("\r"):
        return (
            "it ends in a carriage return, as files of DOS and telnet have it: lines end in a line feed alone"
        )
    if "\t" in line:
        return "a tab stands in it: one space stands between two words"
    for at, character in enumerate(line, 1):
        if not " " <= character <= "~":
            return f"its character {at} is no visible ASCII: {ascii(character)}"
    if line.startswith(" "):
        return "a space stands before its first word"
    if line.endswith(" "):
        return "a space stands after its last word"
    if "  " in line:
        return f"two spaces stand between words, after `{line[:line.index('  ')]}`: one is enough"
    return None


def command_fault(command: str) -> tuple[str, str | None]:
    """What is wrong with a first word, and the command that is meant."""
    if command.lower() in FORMS:
        return "commands are written in small letters", command.lower()
    near = difflib.get_close_matches(command.lower(), FORMS, 1, 0.75)
    if known := ALIASES.get(command.lower()) or next(iter(near), None):
        return f"there is no command `{command}`: {known} is meant?", known
    return f"there is no command `{command}`: `help` lists them", None


def bad_line(line: str) -> list[str]:
    """What is wrong in a line that was answered BadLine, and how it is written."""
    words = line.split()
    command, *rest = words or [""]
    if fault := spacing_fault(line):
        return [fault, *([f"written: {form_of(command)}"] if command in FORMS else [])]
    if command not in FORMS:
        fault, known = command_fault(command)
        return [fault, *([f"written: {form_of(known)}"] if known else [])]
    fault = fault_of_words(command, rest)
    if fault != NO_FAULT and re.search(r"[;&|]( |$)", line):
        fault = "one line has one command: what stands after `;`, `&` or `|` is a line of its own"
    more = ["(exit T ends a task; Ctrl-D or quit ends this session)"] if line == "exit" else []
    return [fault, f"written: {form_of(command)}", *more]


def fault_of_words(command: str, words: list[str]) -> str:
    """What is wrong with the words behind a command: their number, or the first that may not stand there."""
    places = FORMS[command].places
    needed = sum(not place.startswith("[") for place in places)
    if not needed <= len(words) <= len(places):
        return count_fault(command, words, places)
    found = (word_fault(word, place) for word, place in zip(words, places) if not fits(word, place))
    return next(found, NO_FAULT)
