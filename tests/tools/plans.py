"""What tests of plans share: a plan is answered, and its answer is read."""
import json
from pathlib import Path
from typing import Any

from common import run


def answered(folder: Path, text: str, *words: str) -> tuple[int, str]:
    """The status and the output of a plan."""
    file = folder / "host.toml"
    file.write_text(text)
    status, output, faults = run(["plan", file, *words], cwd=folder)
    assert faults == "" and status in (0, 1), faults
    return status, output


def told(folder: Path, text: str, *words: str) -> dict[str, Any]:
    """The answer of a plan as JSON."""
    answer: dict[str, Any] = json.loads(answered(folder, text, "--json", *words)[1])
    return answer


def by_node(answer: dict[str, Any], name: str) -> list[int]:
    """A number of each node."""
    return [it[name] for it in answer["nodes"]]
