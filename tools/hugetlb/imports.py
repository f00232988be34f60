"""Makes a plan of what others have written: guests of libvirt, databases, pods, and command lines of DPDK."""
import re
from enum import Enum
from pathlib import Path

from . import from_dpdk, from_kubernetes, from_libvirt, from_postgresql
from .host import host_table, mounts_of
from .plan_file import text_of
from .tables import PlanFault
from .toml import Written


class Source(Enum):
    """What a file is."""

    LIBVIRT = "libvirt's XML"
    POSTGRESQL = "postgresql.conf"
    KUBERNETES = "a manifest of Kubernetes"
    DPDK = "a command line of DPDK"


def source_of(path: Path, written: str) -> Source:
    """What a file is, by its name and what it says."""
    if path.suffix == ".xml" or written.lstrip("\ufeff \t\r\n").startswith("<"):
        return Source.LIBVIRT
    if path.suffix in (".yaml", ".yml", ".json") or re.search(r"^(apiVersion|kind):", written, re.MULTILINE):
        return Source.KUBERNETES
    if path.suffix == ".conf" or re.search(
        r"^\s*#?\s*(shared_buffers|max_connections|huge_pages)\b", written, re.MULTILINE
    ):
        return Source.POSTGRESQL
    if re.search(
        r"(^|\s)(--socket-mem|--socket-limit|--huge-dir|--no-huge|--legacy-mem|--file-prefix|-m[ 0-9]|-l "
        "|-c 0x)",
        written,
    ):
        return Source.DPDK
    raise PlanFault(f"{path}: it is none of {', '.join(it.value for it in Source)}")


def name_of(path: Path) -> str:
    """The name of a database: the folder of its file, as Debian has it, else PostgreSQL's."""
    parts = [it for it in path.absolute().parts[-3:-1] if re.fullmatch(r"[A-Za-z0-9_.-]+", it)]
    if path.name == "postgresql.conf":
        return (
            "-".join(["postgresql", *parts[-2:]])
            if len(parts) == 2 and re.fullmatch(r"[0-9.]+", parts[0])
            else "postgresql"
        )
    return path.stem


def tables_of(path: Path, root: Path) -> list[Written]:
    """The tables that a file makes."""
    name, written = text_of(path)
    source = source_of(path, written)
    try:
        if source is Source.LIBVIRT:
            return from_libvirt.domains(written)
        if source is Source.KUBERNETES:
            return from_kubernetes.manifests(written)
        if source is Source.POSTGRESQL:
            return [from_postgresql.database(written, name_of(path))]
        return [from_dpdk.packets(written, {it.folder: it.page_bytes for it in mounts_of(root)})]
    except (
        from_libvirt.NoGuest,
        from_kubernetes.NoManifest,
        from_postgresql.NoSetting,
        from_dpdk.NoCommand,
    ) as error:
        raise PlanFault(f"{name}: {error}") from None


def plan_from(sources: list[Path], file: Path | None, root: Path) -> str:
    """A plan of these files: behind the one that is named, else on the host that this is."""
    faults: list[str] = []
    tables: list[tuple[Path, list[Written]]] = []
    for path in sources:
        try:
            tables.append((path, tables_of(path, root)))
        except PlanFault as fault:
            faults += fault.faults
    if faults:
        raise PlanFault(*faults)
    head = text_of(file)[1].rstrip("\n").split("\n") if file else host_table(root).lines()[1:]
    lines = [*head]
    for path, written in tables:
        lines += ["", f"# from {path}"]
        for table in written:
            lines += table.lines() if table.kind else [f"# {it}" for it in table.remarks]
    return "\n".join(lines) + "\n"
