"""Pods of Kubernetes: manifests that ask for hugepages-2Mi, hugepages-1Gi and the like."""
import re
from collections.abc import Iterator
from fractions import Fraction
from typing import Any

from .toml import Written, size, text

QUANTITY = re.compile(r"([0-9]{1,18}(?:\.[0-9]{1,9})?)(?:([KMGTPE]i|[kMGTPE])|[eE]([0-9]{1,2}))?")
UNITS = {
    "Ki": 1 << 10,
    "Mi": 1 << 20,
    "Gi": 1 << 30,
    "Ti": 1 << 40,
    "Pi": 1 << 50,
    "Ei": 1 << 60,
    "k": 10**3,
    "M": 10**6,
    "G": 10**9,
    "T": 10**12,
    "P": 10**15,
    "E": 10**18,
}
PREFIX = "hugepages-"


class NoManifest(ValueError):
    """A text that is no manifest."""


def bytes_of(value: object) -> int:
    """A quantity of Kubernetes."""
    read = (
        QUANTITY.fullmatch(str(value).strip())
        if isinstance(value, int | float | str) and not isinstance(value, bool)
        else None
    )
    if not read:
        raise NoManifest(f"{value!r} is no quantity")
    number = Fraction(read[1]) * UNITS.get(read[2] or "", 1) * 10 ** int(read[3] or 0)
    return int(-(-number.numerator // number.denominator))


def documents(written: str) -> list[Any]:
    """The documents of a text in YAML."""
    try:
        import yaml  # type: ignore[import]
    except ImportError:
        raise NoManifest(
            "manifests are read by PyYAML, which is not here: apt-get install python3-yaml"
        ) from None
    try:
        return list(yaml.safe_load_all(written))
    except yaml.YAMLError as error:
        raise NoManifest(f"it is no YAML: {' '.join(str(error).split())}") from None


def requests_of(container: dict[str, Any]) -> dict[int, int]:
    """The bytes that a container asks for, by the size of page. A limit alone is a request too."""
    resources = container.get("resources") or {}
    limits, requests = resources.get("limits") or {}, resources.get("requests") or {}
    found = {}
    for name, value in {**limits, **requests}.items():
        if str(name).startswith(PREFIX):
            if name in limits and name in requests and bytes_of(limits[name]) != bytes_of(requests[name]):
                raise NoManifest(
                    f"{name}: Kubernetes takes huge pages only where request and limit are equal"
                )
            found[bytes_of(str(name).removeprefix(PREFIX))] = bytes_of(value)
    return found


def of_pod(spec: dict[str, Any]) -> dict[int, int]:
    """What a pod asks for.

    The sum of its containers, or its greatest one of the beginning if that is more.
    """
    running = [requests_of(it) for it in spec.get("containers") or []]
    first = [
        (requests_of(it), it.get("restartPolicy") == "Always") for it in spec.get("initContainers") or []
    ]
    running += [it for it, stays in first if stays]
    found = {}
    for page in sorted({page for it in [*running, *(it for it, _ in first)] for page in it}, reverse=True):
        together = sum(it.get(page, 0) for it in running)
        found[page] = max([together, *(it.get(page, 0) for it, stays in first if not stays)])
    return found


def pods(document: Any) -> Iterator[tuple[str, str, int, dict[str, Any]]]:
    """The pods of a document: their kind, their name, how many, and what each is."""
    if not isinstance(document, dict):
        return
    kind, spec = str(document.get("kind", "")), document.get("spec") or {}
    name = str(
        (document.get("metadata") or {}).get("name")
        or (document.get("metadata") or {}).get("generateName")
        or "pod"
    ).rstrip("-")
    if kind == "List" or isinstance(document.get("items"), list):
        for item in document.get("items") or []:
            yield from pods(item)
    elif kind == "Pod":
        yield kind, name, 1, spec
    elif kind == "CronJob":
        job = (spec.get("jobTemplate") or {}).get("spec") or {}
        yield kind, name, int(job.get("parallelism", 1)), ((job.get("template") or {}).get("spec")) or {}
    elif isinstance(spec.get("template"), dict):
        yield kind, name, int(spec.get("replicas", spec.get("parallelism", 1))), spec["template"].get(
            "spec"
        ) or {}


def manifests(written: str) -> list[Written]:
    """The tables of all pods of a text that take huge pages."""
    made: list[Written] = []
    for document in documents(written):
        for kind, name, count, spec in pods(document):
            found = {page: total for page, total in of_pod(spec).items() if total}
            if count < 1 or not found:
                made.append(Written("", remarks=[f"{name}: it asks for no huge pages"]))
                continue
            for page, total in found.items():
                one = Written("map", {"name": text(name if len(found) == 1 else f"{name}-{page >> 20}M")})
                one.values |= {"count": str(count)} if count > 1 else {}
                one.values |= {"memory": size(total), "page": size(page)}
                if kind == "DaemonSet":
                    one.remarks.append(f"{name}: a DaemonSet has one pod on each machine")
                made.append(one)
    if not made:
        raise NoManifest("it has no pods")
    return made
