"""Pictures in SVG, made of elements."""
from collections.abc import Iterable
from xml.etree.ElementTree import Element, tostring

SPACE = "http://www.w3.org/2000/svg"


def element(tag: str, text: str = "", inner: Iterable[Element] = (), **attributes: str | int) -> Element:
    """An element; `_` in the name of an attribute stands for `-`, and one behind it for none."""
    named = {
        name.rstrip("_").replace("_", "-"): str(value) for name, value in attributes.items() if value != ""
    }
    made = Element(tag, named)
    made.text = text or None
    made.extend(inner)
    return made


def number(value: float, places: int = 1) -> str:
    """A coordinate in as few characters as it needs."""
    text = f"{value:.{places}f}"
    return text.rstrip("0").rstrip(".") if "." in text else text


def picture(parts: Iterable[Element], left: int, top: int, width: int, height: int) -> str:
    """A whole picture, each of its parts on a line of its own."""
    view = f"{left} {top} {width} {height}"
    root = element("svg", "\n", parts, xmlns=SPACE, viewBox=view, role="img")
    for part in root:
        part.tail = "\n"
    return tostring(root, encoding="unicode").replace(" />", "/>") + "\n"
