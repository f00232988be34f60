"""Tables of a plan as text, in TOML."""
import json
from dataclasses import dataclass, field

from .lines import printable
from .sizes import exactly


def text(value: str) -> str:
    """A text in quotes."""
    return json.dumps(value, ensure_ascii=False).replace("\x7f", "\\u007f")


def size(count: int) -> str:
    """Bytes as a text with a unit."""
    return f'"{exactly(count)}"'


def truth(value: bool) -> str:
    return "true" if value else "false"


@dataclass
class Written:
    """A table: its kind, its values as they are written, and what is remarked before it."""

    kind: str
    values: dict[str, str] = field(default_factory=dict)
    remarks: list[str] = field(default_factory=list)
    notes: dict[str, str] = field(default_factory=dict)

    def lines(self) -> list[str]:
        head = f"[{self.kind}]" if self.kind in ("host", "overcommit") else f"[[{self.kind}]]"
        notes = {key: f"  # {printable(note)}" for key, note in self.notes.items()}
        return [
            "",
            *(f"# {printable(it)}" for it in self.remarks),
            head,
            *(f"{key} = {value}{notes.get(key, '')}" for key, value in self.values.items()),
        ]
