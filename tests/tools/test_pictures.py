"""Pictures of scripts: those of the examples, and those of many lines."""
import re
import subprocess
import xml.dom.minidom
import zlib
from shutil import which

import pytest
from pathlib import Path
from common import EXAMPLES, PICTURES, must_hold, run

from built import cases
from hugetlb import picture
from hugetlb.talk import Row

MOST_BYTES = 10_240


def tips_of(text: str) -> list[list[str]]:
    return [
        it.firstChild.data.split("\n")
        for it in xml.dom.minidom.parseString(text).getElementsByTagName("title")
    ][1:]


def test_no_picture_of_no_example() -> None:
    assert {it.stem for it in PICTURES.glob("*.svg")} - {it.stem for it in EXAMPLES.glob("*.script")} <= {
        "plan",
        "plan-refused",
    }


def name_of(script: Path) -> str:
    return script.stem


@pytest.mark.parametrize("script", sorted(EXAMPLES.glob("*.script")), ids=name_of)
def test_picture(script: Path, tmp_path: Path) -> None:
    """The picture is the one that is made, within its bytes, for light and dark pages, with a tooltip for
    each line."""
    made = tmp_path / f"{script.stem}.svg"
    assert run(["--svg", made, script])[::2] == (0, "")
    text = made.read_text()
    assert text == (PICTURES / made.name).read_text() and len(text.encode()) <= MOST_BYTES
    case = next(case for case in cases() if case.name == script.stem)
    lines = [(line.decode().rstrip("\n"), reply.decode().split("\n")[0]) for line, reply in case.lines()]
    assert [(tip[0].split(": ", 1)[1], tip[1]) for tip in tips_of(text)] == lines
    assert text.count('class="x"') == 1 + sum(reply.startswith("error ") for _, reply in lines)
    must_hold(text, "prefers-color-scheme:dark")


def test_odd_pictures(tmp_path: Path) -> None:
    odd = tmp_path / "odd.svg"
    assert run(["--svg", odd], "# nothing\n")[0] == 0 and xml.dom.minidom.parse(str(odd))
    run(["--svg", odd], 'create 0 <&>"\nnr 4\x1b\n' + 300 * "nr 3\n")
    assert xml.dom.minidom.parse(str(odd))
    run(["--svg", odd], "nr 4\n" + 500 * "meminfo\n" + "nr 3\nconnect 1 9\n")
    assert [tip[0] for tip in tips_of(odd.read_text())] == ["1: nr 4", "502: nr 3", "503: connect 1 9"]


def test_columns_are_as_wide_as_their_number_allows() -> None:
    """Past 400 lines the lines without a column take no room: three columns are as wide as three of a short
    script."""
    rows = [Row(at, "meminfo", "ok", [], (4 + (at in (7, 8)), 4, 0, 0)) for at in range(1, 600)]
    assert picture.Picture(rows, "x").column == picture.Picture(rows[:3], "x").column == 110


@pytest.mark.parametrize("count", [3_000, 20_000])
def test_many_changes(count: int) -> None:
    """Thousands of changes: at most 2,000 columns, each of some width, with tooltips wide enough to be met,
    in 500 KB."""
    rows = [
        Row(
            at,
            f"nr {at % 97}",
            "error 2 NoPages" if at % 500 == 0 else "ok",
            [],
            (at % 97, at % 53, at % 31, 0),
        )
        for at in range(1, count + 1)
    ]
    made = picture.Picture(rows, "x")
    text = made.text()
    assert len(text.encode()) < 500_000 and len(made.rows) <= 2_000
    assert not re.search(r"h-?0(?:\.0+)?v", text)
    places = [float(it) for it in re.findall(r'<use href="#c" x="([\d.]+)"', text)]
    assert min(b - a for a, b in zip(places, places[1:])) >= 1.9
    told = [tip for tip in tips_of(text) if "error 2 NoPages" in tip[-2]]
    assert len(told) == count // 500


def plan_picture(tmp_path: Path, text: str) -> str:
    (tmp_path / "host.toml").write_text(text)
    status, _, faults = run(
        ["plan", tmp_path / "host.toml", "--svg", tmp_path / "a.svg", "--html", tmp_path / "a.html"]
    )
    assert status in (0, 1) and faults == ""
    return (tmp_path / "a.svg").read_text()


@pytest.mark.parametrize("example", ["plan", "refused"])
def test_a_plan_has_its_colours_everywhere(example: str, tmp_path: Path) -> None:
    """Outside a browser there are no variables of CSS, and in a mail no style: each shape has its colours as
    attributes, and rsvg draws them."""
    text = plan_picture(tmp_path, (EXAMPLES / f"{example}.toml").read_text())
    bare = re.sub(r"<style>.*?</style>", "", text, flags=re.DOTALL)
    assert "var(" not in text
    for shape in re.findall(r"<(?:rect|path|text)[^>]*>", bare):
        assert "fill=" in shape, shape
    if which("rsvg-convert"):
        (tmp_path / "bare.svg").write_text(bare)
        drawn = subprocess.run(
            ["rsvg-convert", "--format", "png", tmp_path / "bare.svg"], capture_output=True
        )
        colours = colours_of(drawn.stdout)
        assert drawn.returncode == 0 and (0x2F, 0x6A, 0xA8) in colours and (0xFF, 0xFF, 0xFF) in colours


def colours_of(data: bytes) -> set[tuple[int, ...]]:
    """The colours of a PNG of 8 bits for each of red, green and blue, with alpha or without."""
    at, packed, width, height, depth = 8, b"", 0, 0, 3
    while at < len(data):
        length, kind = int.from_bytes(data[at : at + 4], "big"), data[at + 4 : at + 8]
        body = data[at + 8 : at + 8 + length]
        if kind == b"IHDR":
            width, height, depth = (
                int.from_bytes(body[:4], "big"),
                int.from_bytes(body[4:8], "big"),
                4 if body[9] == 6 else 3,
            )
        packed += body if kind == b"IDAT" else b""
        at += 12 + length
    bytes_of_row = depth * width
    raw, before = zlib.decompress(packed), bytearray(bytes_of_row)
    found = set[tuple[int, ...]]()
    for row in range(height):
        start = row * (bytes_of_row + 1)
        filtered, line = raw[start], bytearray(raw[start + 1 : start + 1 + bytes_of_row])
        for place in range(bytes_of_row):
            left, up, corner = (
                line[place - depth] if place >= depth else 0,
                before[place],
                before[place - depth] if place >= depth else 0,
            )
            guess = left + up - corner
            nearest = min((left, up, corner), key=lambda it: abs(guess - it))
            line[place] = (line[place] + (0, left, up, (left + up) // 2, nearest)[filtered]) % 256
        found |= {tuple(line[place : place + 3]) for place in range(0, bytes_of_row, depth)}
        before = line
    return found


def test_odd_names_in_a_plan(tmp_path: Path) -> None:
    """Control characters are escaped: the picture stays XML."""
    text = plan_picture(
        tmp_path, '[host]\nmemory = "64GiB"\n[[java]]\nname = "a\\u001b[31m\\u0000<b>"\nmemory = "1GiB"\n'
    )
    assert (
        xml.dom.minidom.parseString(text)
        and "\\x1b" in text
        and "\x1b" not in text + (tmp_path / "a.html").read_text()
    )


def test_three_hundred_programs(tmp_path: Path) -> None:
    """Programs of many tables are shown by kind, with a legend."""
    text = '[host]\nmemory = "2TiB"\n'
    for at in range(300):
        text += f'[[{("guest", "java", "redis")[at % 3]}]]\nname = "p-{at * 7}-x"\nmemory = "{at + 1}MiB"\n'
    picture = plan_picture(tmp_path, text)
    tips = [it.firstChild.data for it in xml.dom.minidom.parseString(picture).getElementsByTagName("title")][
        1:
    ]
    assert [tip.split(":")[0] for tip in tips] == ["100 of guest", "100 of java", "100 of redis"]
    view = re.search(r'viewBox="0 0 960 (\d+)"', picture)
    assert view
    height = float(view[1])
    assert height < 300 and len(set(re.findall(r'class="kind"[^>]*fill="(#\w+)"', picture))) >= 2
    labels = [it.firstChild.data for it in xml.dom.minidom.parseString(picture).getElementsByTagName("text")]
    assert {"guest", "java", "redis"} <= set(labels)
