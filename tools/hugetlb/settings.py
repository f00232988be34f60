"""The settings of a host for a plan that fits: pages, the kernel's command line, and mounts."""
import re

from .lines import printable
from .model import Mount
from .report import PoolReport, Report
from .sizes import as_option

UNIT = "hugetlb-pages.service"
NODES, POOLS = "/sys/devices/system/node", "/sys/kernel/mm/hugepages"


class Settings:
    """What is written into a host's files. Nothing is written for a plan that does not fit."""

    def __init__(self, report: Report):
        self.report, self.plan, self.answer = report, report.plan, report.answer
        self.default = self.plan.host.page_bytes

    def refusal(self, head: str) -> str | None:
        return None if self.answer.fits else f"{head}# {self.report.headline()}\n"

    def has_unit(self) -> bool:
        """Whether pages are set by a unit: per node, or of a size that is not the default one."""
        return any(it.of.binds or it.page != self.default for it in self.report.pools)

    # ---- pages

    def sysctl(self) -> str:
        """The numbers of pages: a file of sysctl.d, or a unit where they are per node."""
        return self.unit() if self.has_unit() else self.sysctl_file(self.report.pools[0])

    def sysctl_file(self, pool: PoolReport) -> str:
        head = f"# /etc/sysctl.d/60-hugetlb.conf for {printable(self.plan.file)}\n"
        if refusal := self.refusal(head):
            return refusal
        of = pool.of
        lines = [f"vm.nr_hugepages = {of.nr}", f"vm.nr_overcommit_hugepages = {of.overcommit}"]
        if of.overcommit and of.smallest is not None:
            lines.append(f"# with no surplus pages: vm.nr_hugepages = {of.smallest}")
        if pool.page != 2 << 20:
            lines.append(
                f"# these are of the default size: give default_hugepagesz={as_option(pool.page)} on the "
                "kernel's command line"
            )
        lines += [
            "# At run time Linux may get fewer, where memory is fragmented: look at HugePages_Total "
            "afterwards,",
            f"# or give hugepages={of.nr} on the kernel's command line, which takes them at the start.",
            "# docs/KERNEL.md of hugetlbd tells where Linux differs from the rules by which this was "
            "computed.",
        ]
        return head + "\n".join(lines) + "\n"

    def writes(self, pool: PoolReport) -> list[tuple[str, int]]:
        """The files of a pool below /sys, each with its number."""
        folder = f"hugepages-{pool.page >> 10}kB"
        if pool.of.binds:
            made = [
                (f"{NODES}/node{it.number}/hugepages/{folder}/nr_hugepages", it.nr) for it in pool.of.nodes
            ]
        else:
            made = [(f"{POOLS}/{folder}/nr_hugepages", pool.of.nr)]
        return made + (
            [(f"{POOLS}/{folder}/nr_overcommit_hugepages", pool.of.overcommit)] if pool.page < 1 << 30 else []
        )

    def unit(self) -> str:
        head = f"# /etc/systemd/system/{UNIT} for {printable(self.plan.file)}\n"
        if refusal := self.refusal(head):
            return refusal
        pools = self.report.pools
        writes = [it for pool in pools if pool.page < 1 << 30 for it in self.writes(pool)]
        checks = [it for pool in pools for it in self.writes(pool)]
        lines = [
            "# Then: systemctl enable --now " + UNIT,
            "[Unit]",
            "Description=Huge pages, each node its own number",
            "DefaultDependencies=no",
            "Before=local-fs.target sysinit.target shutdown.target",
            "Conflicts=shutdown.target",
            "",
            "[Service]",
            "Type=oneshot",
            "RemainAfterExit=yes",
        ]
        lines += [f"ExecStart=/bin/sh -c 'echo {number} > {path}'" for path, number in writes]
        lines += [
            f"# pages of {as_option(it.page)} are taken at the start: --cmdline prints the words of the "
            "kernel's command line"
            for it in pools
            if it.page >= 1 << 30
        ]
        lines += [
            "# Linux may get fewer where memory is fragmented: then the unit fails here, and --cmdline "
            "tells what takes them at the start."
        ]
        lines += [f"ExecStart=/bin/grep -qx {number} {path}" for path, number in checks]
        return head + "\n".join([*lines, "", "[Install]", "WantedBy=sysinit.target"]) + "\n"

    def cmdline(self) -> str:
        """The words of the kernel's command line, on one line."""
        if refusal := self.refusal(""):
            return refusal
        words = [f"default_hugepagesz={as_option(self.default)}"]
        for pool in self.report.pools:
            nodes = ",".join(f"{it.number}:{it.nr}" for it in pool.of.nodes if it.nr)
            words += [
                f"hugepagesz={as_option(pool.page)}",
                f"hugepages={nodes if pool.of.binds and nodes else pool.of.nr}",
            ]
        return " ".join(words) + "\n"

    # ---- mounts

    def folders(self) -> dict[int, str]:
        """A folder for each mount, no two the same, and each below /mnt/huge."""
        made: dict[int, str] = {}
        taken: set[str] = set()
        for mount in self.plan.mounts:
            name = re.sub(r"[^A-Za-z0-9_.-]+", "-", mount.name).strip(".-") or "mount"
            unique, number = name, 2
            while unique in taken:
                unique, number = f"{name}_{number}", number + 1
            taken.add(unique)
            made[id(mount)] = f"/mnt/huge/{unique}"
        return made

    def fstab(self) -> str:
        head = f"# /etc/fstab for {printable(self.plan.file)}\n"
        if refusal := self.refusal(head):
            return refusal
        after = UNIT if self.has_unit() else "systemd-sysctl.service"
        common = ["nofail", f"x-systemd.after={after}", "X-mount.mkdir"]
        lines, folders = [], self.folders()
        for pool in self.report.pools:
            if any(one.is_file and not one.mount for one in pool.of.pool.consumers):
                folder = (
                    "/dev/hugepages"
                    if pool.page == self.default
                    else f"/dev/hugepages-{as_option(pool.page)}"
                )
                lines.append(
                    f"hugetlbfs {folder} hugetlbfs "
                    f"{','.join([f'pagesize={as_option(pool.page)}', *common])} 0 0"
                )
        lines += [
            f"hugetlbfs {folders[id(it)]} hugetlbfs {','.join([*self.options(it), *common])} 0 0"
            for it in self.plan.mounts
        ]
        lines += [
            f"# A min_size can be mounted once its pages are there: so each mount waits for {after} "
            "(--sysctl).",
            "# X-mount.mkdir makes the folders. With nofail a host starts without a mount that is refused.",
            "# Linux 6.18 answers 0 to a remount of hugetlbfs with other sizes, and changes nothing: "
            "unmount first.",
        ]
        return head + "\n".join(lines) + "\n"

    @staticmethod
    def options(mount: Mount) -> list[str]:
        options = [f"pagesize={as_option(mount.page_bytes)}"]
        options += [f"size={as_option(mount.size * mount.page_bytes)}"] if mount.size is not None else []
        return options + (
            [f"min_size={as_option(mount.minimum * mount.page_bytes)}"] if mount.minimum else []
        )
