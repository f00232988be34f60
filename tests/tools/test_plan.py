"""Plans: their answers, each checked at N and at N - 1 by the program; pages, pictures and files of the
host; and plans that can't be read."""
import json
import os
import random
import re
import signal
import subprocess
import sys
import time
import xml.dom.minidom
from pathlib import Path

import pytest
from common import EXAMPLES, PICTURES, PROGRAM, TOOL, TOP, must_hold, run

from hugetlb.fit import answer_of
from hugetlb.lines import expand, without_comment
from hugetlb.machine import Question, Scale
from hugetlb.plan_file import KINDS, plan_of, read_plan

HOST = '[host]\nmemory = "256GiB"\n'
HOSTS = """[host]
memory = "256GiB"
page = "2MiB"
[[postgresql]]
shared_memory = "64GiB"
[[guest]]
count = 12
memory = "12GiB"
minimum = true
[[redis]]
memory = "16GiB"
snapshot = true
rewritten = "25%"
[overcommit]
at_most = "8GiB"
"""
EXAMPLE = (EXAMPLES / "plan.toml").read_text()
# each plan with its answer: whether it fits, nr, and nr with the overcommit
KNOWN = {
    "the example": (EXAMPLE, True, 33529 + 12 * 6144 + 8192 + 2048, 33529 + 12 * 6144 + 8192 + 2048 - 4096),
    "one of each": (HOSTS, True, 32768 + 12 * 6144 + 8192 + 2048, 32768 + 12 * 6144 + 8192 + 2048 - 4096),
    "as PostgreSQL counts": (HOSTS.replace('shared_memory = "64GiB"', "pages = 33502"), True, 117470, 113374),
    "one database": (HOST + '[[postgresql]]\nshared_memory = "8GB"\n', True, 4096, None),
    "a database and three guests": (
        '[host]\nnodes = ["8GiB", "8GiB"]\n[[postgresql]]\npages = 4304\n'
        '[[guest]]\ncount = 3\nmemory = "2G"\nminimum = true\nnode = 1\n',
        True,
        7376,
        None,
    ),
    "guests without a minimum": (HOST + '[[guest]]\ncount = 5\nmemory = "1.5GiB"\n', True, 5 * 768, None),
    "guests of private memory": (
        HOST + '[[guest]]\ncount = 2\nmemory = "3GiB"\nshare = false\nprealloc = true\n',
        True,
        2 * 1536,
        None,
    ),
    "a guest without reservations": (
        HOST + '[[guest]]\nmemory = "4GiB"\nreserve = false\nused = "50%"\n',
        True,
        1024,
        None,
    ),
    "a guest without reservations that touches all": (
        HOST + '[[guest]]\nmemory = "4GiB"\nreserve = false\nprealloc = true\nshare = false\n',
        True,
        2048,
        None,
    ),
    "a store": (HOST + '[[redis]]\nmemory = "16GiB"\n', True, 8192, None),
    "a store that rewrites all": (HOST + '[[redis]]\nmemory = "1GiB"\nsnapshot = true\n', True, 1024, None),
    "two stores at once": (
        HOST + '[[redis]]\ncount = 2\nmemory = "2GiB"\nsnapshot = true\nrewritten = "10%"\n'
        '[overcommit]\nat_most = "1GiB"\n',
        True,
        2 * (1024 + 103),
        2 * (1024 + 103) - 512,
    ),
    "a heap": (HOST + '[[java]]\nheap = "20g"\n', True, 10240 + 120 + 2 * 160 + 3 * 20, None),
    "a heap alone": (HOST + '[[java]]\nmemory = "20g"\n', True, 10240, None),
    "packets": (
        '[host]\nnodes = ["4GiB", "4GiB"]\n[[dpdk]]\nsocket_memory = ["1GiB", "512MiB"]\n',
        True,
        768,
        None,
    ),
    "private without reservations on a mount": (
        HOST + '[[mount]]\nname = "m"\nsize = "1GiB"\n'
        '[[map]]\nmemory = "2GiB"\nshared = false\nreserve = false\nused = "1GiB"\nmount = "m"\n',
        True,
        512,
        None,
    ),
    "a minimum above its guests": (
        HOST + '[[mount]]\nname = "m"\nminimum = "10GiB"\n[[guest]]\nmemory = "4GiB"\nmount = "m"\n',
        True,
        5120,
        None,
    ),
    "guests above a minimum": (
        HOST + '[[mount]]\nname = "m"\nsize = "40GiB"\nminimum = "10GiB"\n'
        '[[guest]]\ncount = 3\nmemory = "12GiB"\nmount = "m"\n',
        True,
        18432,
        None,
    ),
    "too small a host": (
        (EXAMPLES / "refused.toml").read_text(),
        False,
        82859 + 120 + 2 * 160 + 3 * 20,
        None,
    ),
    "copies in two pieces": (
        HOST.replace("256GiB", "512GiB")
        + '[[redis]]\npages = 150000\nsnapshot = true\nrewritten = "70001 pages"\n',
        True,
        220001,
        None,
    ),
    "copies in three pieces at a scale": (
        HOST.replace("256GiB", "1TiB")
        + '[[redis]]\npages = 300000\nsnapshot = true\nrewritten = "140000 pages"\n',
        True,
        440000,
        None,
    ),
    "an overcommit below the unit": (
        '[host]\nmemory = "4TiB"\n[[postgresql]]\npages = 262147\n'
        '[[guest]]\ncount = 3\nmemory = "100GiB"\n[overcommit]\nat_most = "1 pages"\n',
        True,
        415748,
        415748,
    ),
    "sixty-four guests with a minimum": (
        '[host]\nmemory = "512GiB"\n[[guest]]\ncount = 64\nmemory = "4GiB"\nminimum = true\n',
        True,
        131072,
        None,
    ),
    "a guest past its mount": (
        HOST + '[[mount]]\nname = "m"\nsize = "1GiB"\n[[guest]]\nmemory = "2GiB"\nmount = "m"\n',
        False,
        None,
        None,
    ),
    "eight nodes of 256 GiB": (
        "[host]\nnodes = [" + '"256GiB", ' * 8 + ']\n[[postgresql]]\nshared_memory = "512GiB"\n'
        '[[guest]]\ncount = 8\nmemory = "128GiB"\nminimum = true\n',
        True,
        786432,
        None,
    ),
    "a large host of odd sizes": (
        '[host]\nmemory = "4TiB"\n[[postgresql]]\npages = 262147\n[[guest]]\ncount = 3\nmemory = "100GiB"\n',
        True,
        415748,
        None,
    ),
    "pages of 1 GiB": (
        '[host]\nmemory = "96GiB"\npage = "1GiB"\n'
        '[[postgresql]]\nshared_memory = "40.5GiB"\n'
        '[[guest]]\ncount = 5\nmemory = "10GiB"\n',
        True,
        91,
        None,
    ),
    "a hundred guests": (
        '[host]\nmemory = "512GiB"\n[[guest]]\ncount = 100\nmemory = "4GiB"\nminimum = true\n',
        True,
        204800,
        None,
    ),
    "two thousand heaps": (HOST + '[[java]]\ncount = 2000\nmemory = "64MiB"\n', True, 64000, None),
    "a guest of several maps": (
        '[host]\nmemory = "512GiB"\n[[guest]]\nmemory = "300GiB"\n',
        True,
        153600,
        None,
    ),
    "an nr that is too small": (
        '[host]\nmemory = "16GiB"\nnr = 4000\n[[postgresql]]\nshared_memory = "8GiB"\n',
        False,
        4096,
        None,
    ),
    "an nr that the overcommit helps": (
        '[host]\nmemory = "16GiB"\nnr = 4000\n[[postgresql]]\nshared_memory = "8GiB"\n'
        '[overcommit]\nat_most = "96 pages"\n',
        True,
        4096,
        4000,
    ),
}


def plan(tmp_path: Path, text: str, *words: object) -> tuple[int, str, str]:
    file = tmp_path / "host.toml"
    file.write_text(text)
    return run(["plan", file, *words], cwd=tmp_path)


def replies_of(lines: str, nr: int, unit: int) -> str:
    """What the program says to the lines of a plan, with another nr."""
    words = lines.splitlines()[0].split()[2:-1]
    script = [line for line in map(without_comment, lines.splitlines()) if line]
    script = [
        f"nr {nr // unit}" if line.startswith("nr ") else line
        for line in script
        if not line.startswith("overcommit ")
    ]
    text = "".join(f"{one}\n" for line in script for one in expand(line))
    ran = subprocess.run([PROGRAM, "script", *words], input=text, capture_output=True, text=True)
    assert (ran.returncode, ran.stderr) == (0, "")
    return ran.stdout


@pytest.mark.parametrize("name", KNOWN)
def test_known_answer(name: str, tmp_path: Path) -> None:
    """The answer is the known one; with N pages nothing is refused by the program, and with N - 1 something
    is."""
    text, fits, nr, nr_with = KNOWN[name]
    status, output, faults = plan(tmp_path, text, "--json")
    told = json.loads(output)
    assert (status, faults) == (0 if fits else 1, "")
    assert (told["fits"], told["nr"], told["nr_with_overcommit"]) == (fits, nr, nr_with)
    if nr is not None:
        lines = plan(tmp_path, text, "--lines")[1]
        unit = told["unit_pages"]
        assert "error " not in replies_of(lines, nr, unit) and "error " in replies_of(lines, nr - unit, unit)
        assert told["one_less"]
    assert all(it["state"] == "whole" for it in told["programs"]) == fits


def test_answers_by_few_runs(tmp_path: Path) -> None:
    """The example is answered by a few runs of the program, and not by one for each number."""
    (tmp_path / "host.toml").write_text(HOSTS)
    answer = answer_of(read_plan(tmp_path / "host.toml"), str(PROGRAM))
    assert sum(it.runs.count for it in answer.pools) <= 10


def test_says_who_is_refused(tmp_path: Path) -> None:
    """In the order of starting: who gets all, who goes on with small pages, who loses a snapshot, who is
    killed, who does not start."""
    status, output, _ = plan(tmp_path, (EXAMPLES / "refused.toml").read_text())
    assert status == 1
    must_hold(
        output,
        "It does not fit: 4 of 10 get less than they ask for.",
        "nr 83,359",
        "63,488  the pages of its memory, with 4 GiB kept: 124 GiB; 19,871 pages (38.81 GiB) are missing",
    )
    rows = output.split("gets\n")[1].split("\n\n")[0].splitlines()
    assert [row.split("  ")[1] for row in rows] == [
        "mount guests",
        "postgresql",
        "guest 1 to 3",
        "java",
        "dpdk",
        "redis",
        "trial",
        "oracle",
    ]
    must_hold(rows[3], "goes on with small pages: too few pages can be promised")
    must_hold(rows[5], "loses its snapshot: 2,987 of 3,277 pages were taken back from the child")
    must_hold(rows[6], "is killed (SIGBUS): its touch of page 290 finds none, and nothing was reserved")
    must_hold(rows[7], "does not start: too few pages can be promised")


def test_a_lost_snapshot_is_named(tmp_path: Path) -> None:
    """No reply of the owner's shows it: the child is asked."""
    told = json.loads(plan(tmp_path, HOSTS, "--json")[1])
    assert told["one_less"] == [
        {
            "name": "redis",
            "state": "lost",
            "what": "loses its snapshot: 1 of 2,048 pages was taken back from the child",
        }
    ]


def test_mount_refusals(tmp_path: Path) -> None:
    told = json.loads(
        plan(
            tmp_path,
            '[host]\nmemory = "8GiB"\nkeep = 0\n[[guest]]\ncount = 5\nmemory = "2GiB"\nminimum = true\n',
            "--json",
        )[1]
    )
    assert [it["state"] for it in told["programs"]] == 4 * ["whole"] + ["refused"]
    assert told["programs"][4]["what"] == "its mount's minimum can't be promised"
    told = json.loads(plan(tmp_path, KNOWN["a guest past its mount"][0], "--json")[1])
    assert (
        told["programs"][0]["what"] == "does not start: mount m is full"
        and told["programs"][0]["reply"] == "error 3 MountFull"
    )


def test_scale(tmp_path: Path) -> None:
    """Larger than this machine's memory, of more nodes and pages than a machine has: in units, exact where
    all sizes divide, else said."""
    told = json.loads(plan(tmp_path, KNOWN["eight nodes of 256 GiB"][0], "--json")[1])
    assert told["is_exact"] and told["unit_pages"] > 1
    must_hold(" ".join(told["remarks"]), "which all sizes divide: the numbers are exact")
    told = json.loads(plan(tmp_path, KNOWN["a large host of odd sizes"][0], "--json")[1])
    assert not told["is_exact"] and "to which sizes are rounded up" in " ".join(told["remarks"])
    status, output, faults = plan(tmp_path, '[host]\nmemory = "900PiB"\n[[java]]\nheap = "100PiB"\n')
    assert (status, faults) == (0, "") and "It fits." in output


def test_a_small_memory_here_makes_a_larger_unit(tmp_path: Path) -> None:
    """Where the machine of all pages can't be had, one of fewer and larger units is: `out of memory` is no
    answer."""
    file = tmp_path / "host.toml"
    file.write_text(HOSTS)
    limited = tmp_path / "limited"
    limited.write_text(f'#!/bin/sh\nulimit -v 60000\nexec {PROGRAM} "$@"\n')
    limited.chmod(0o755)
    status, output, faults = run(["plan", file, "--program", limited, "--json"])
    told = json.loads(output)
    assert (status, faults, told["nr"], told["is_exact"]) == (0, "", 116736, True) and told["unit_pages"] > 1


def test_lines_are_read_by_the_tool(tmp_path: Path) -> None:
    """What --lines writes is a script: the tool runs it, and nothing is refused."""
    lines = tmp_path / "host.script"
    lines.write_text(plan(tmp_path, HOSTS, "--lines")[1])
    words = lines.read_text().splitlines()[0].split()[2:-1]
    status, output, faults = run([*words, lines])
    assert (status, faults) == (0, "") and "error" not in output and "# redis" in output


def test_each_kind_is_a_few_lines(tmp_path: Path) -> None:
    """Each kind without counts is at most ten lines of the protocol."""
    for kind in KINDS:
        size = {"postgresql": "shared_memory", "java": "heap"}.get(kind, "memory")
        more = "snapshot = true\n" if kind == "redis" else ""
        lines = plan(tmp_path, f'{HOST}[[{kind}]]\n{size} = "4GiB"\n{more}', "--lines")[1]
        assert len([line for line in lines.splitlines() if not line.startswith("#")]) <= 10
    guest = plan(
        tmp_path,
        f'{HOST}[[guest]]\nmemory = "4GiB"\nreserve = false\nshare = false\nused = "1GiB"\n',
        "--lines",
    )[1]
    must_hold(
        guest,
        "create 0 ram-1",
        "map 1 0 ram-1 0 2048 private noreserve",
        "unlink 0 ram-1",
        "fault 1 0 1 0..511 write",
    )


def test_files_of_the_host(tmp_path: Path) -> None:
    """sysctl and fstab: the numbers of the answer, and what Linux does otherwise."""
    sysctl = plan(tmp_path, HOSTS, "--sysctl")[1]
    must_hold(
        sysctl,
        "\nvm.nr_hugepages = 112640\nvm.nr_overcommit_hugepages = 4096\n",
        "# with no surplus pages: vm.nr_hugepages = 116736",
        "hugepages=112640",
        "fragmented",
        "docs/KERNEL.md",
    )
    fstab = plan(tmp_path, HOSTS, "--fstab")[1]
    mounts = [line for line in fstab.splitlines() if not line.startswith("#")]
    assert len(mounts) == 12 and mounts[0] == (
        "hugetlbfs /mnt/huge/guest-1 hugetlbfs pagesize=2M,size=12G,min_size=12G,nofail,"
        "x-systemd.after=systemd-sysctl.service,X-mount.mkdir 0 0"
    )
    assert plan(tmp_path, KNOWN["an nr that is too small"][0], "--sysctl")[:2] == (
        1,
        f"# /etc/sysctl.d/60-hugetlb.conf for {tmp_path}/host.toml\n"
        f"# It does not fit: 1 of 1 get less than they ask for.\n",
    )
    must_hold(plan(tmp_path, KNOWN["pages of 1 GiB"][0], "--sysctl")[1], "default_hugepagesz=1G")
    must_hold(
        plan(
            tmp_path,
            '[host]\nmemory = "8GiB"\nnr = 2048\n[[postgresql]]\nshared_memory = "1GiB"\n',
            "--sysctl",
        )[1],
        "vm.nr_hugepages = 2048\n",
    )


def test_picture_and_page(tmp_path: Path) -> None:
    """One file each, well-formed, for light and dark, with nothing fetched from elsewhere, and odd names
    escaped."""
    text = HOSTS.replace("[[redis]]\n", '[[redis]]\nname = "a <b> & \\"c\\""\n')
    status, _, faults = plan(tmp_path, text, "--svg", tmp_path / "a.svg", "--html", tmp_path / "a.html")
    assert (status, faults) == (0, "")
    picture, page = (tmp_path / "a.svg").read_text(), (tmp_path / "a.html").read_text()
    titles = [it.firstChild.data for it in xml.dom.minidom.parseString(picture).getElementsByTagName("title")]
    assert titles[0] == "It fits." and any(
        it.startswith('a <b> & "c": 8,192 pages (16 GiB) each') for it in titles
    )
    for made in (picture, page):
        must_hold(made, "prefers-color-scheme:dark", "a &lt;b&gt; &amp; ")
        assert "http" not in made.replace('xmlns="http://www.w3.org/2000/svg"', "")
    must_hold(page, "<table>", "<svg", "vm.nr_hugepages = 112640", "min_size=12G", "<!doctype html>")
    assert len(page) < 40_000 and "var(" not in picture


@pytest.mark.parametrize("name", ["plan", "refused"])
def test_stored_picture(name: str, tmp_path: Path) -> None:
    """The pictures of the documents are those that are made."""
    run(["plan", f"examples/{name}.toml", "--svg", tmp_path / "a.svg"], cwd=TOP)
    stored = PICTURES / f"{'plan' if name == 'plan' else 'plan-refused'}.svg"
    assert (tmp_path / "a.svg").read_text() == stored.read_text()


BAD = [
    ("", "host.toml: it has no [host]"),
    ("[host]\n", "host.toml:1: host: it has either memory or nodes"),
    ('[host]\nmemory = "1GiB"\nnodes = ["1GiB"]\n', "host.toml:1: host: it has either memory or nodes"),
    ('[host]\nmemory = "1GiB\n', "host.toml:2: "),
    (
        '[host]\nmemory = "256 giga"\n',
        "host.toml:2: host.memory: '256 giga' is no size: write a number and a unit",
    ),
    ("[host]\nmemory = true\n", "host.toml:2: host.memory: True is no size"),
    ('[host]\nmemory = "1GiB"\npage = "3MiB"\n', "host.toml:3: host.page: '3MiB' is no size of a page"),
    (
        '[host]\nmemory = "1MiB"\n[[java]]\nheap = "1GiB"\n',
        "host.toml:1: host: no page of 2,097,152 bytes is left",
    ),
    ('[host]\nmemory = "1GiB"\nkeep = "1GiB"\n', "host.toml:3: host.keep: no page"),
    (
        '[host]\nmemory = "1GiB"\nmemroy = 3\n',
        "host.toml:3: host.memroy: there is no such key; memory is meant?",
    ),
    (HOST, "host.toml: it has no program to start"),
    (
        HOST + '[[postgres]]\nshared_memory = "1GiB"\n',
        "host.toml:3: postgres: there is no such kind; postgresql is meant?",
    ),
    (
        HOST + '[postgresql]\nshared_memory = "1GiB"\nhuge_pages = "off"\n',
        "host.toml:5: postgresql.huge_pages: 'off' is not 'on' or 'try'",
    ),
    (
        HOST + "[[guest]]\ncount = 2\n",
        "host.toml:3: guest: it has no size: write memory or node_memory or pages",
    ),
    (
        HOST + '[[guest]]\nmemory = "1GiB"\npages = 5\n',
        "host.toml:3: guest: it has several sizes, memory and pages: leave all but one out",
    ),
    (
        HOST + '[[guest]]\nmemory = "1GiB"\n\n[[guest]]\nmemory = "1GiB"\ncount = 0\n',
        "host.toml:8: guest.count: 0 is not from 1 to 4,096",
    ),
    (
        HOST + '[[guest]]\nmemory = "1GiB"\ncount = 1.5\n',
        "host.toml:5: guest.count: 1.5 is not a whole number",
    ),
    (
        HOST + '[[guest]]\nmemory = "1GiB"\nminimum = "yes"\n',
        "host.toml:5: guest.minimum: 'yes' is not true or false",
    ),
    (HOST + '[[guest]]\nmemory = "1GiB"\nnode = 1\n', "host.toml:5: guest.node: 1 is not from 0 to 0"),
    (
        HOST + '[[guest]]\nmemory = "1GiB"\nmount = "m"\n',
        "host.toml:5: guest.mount: the plan has no mount 'm': add [[mount]]",
    ),
    (
        HOST + '[[mount]]\nname = "m"\n[[guest]]\nmemory = "1GiB"\nmount = "m"\nminimum = true\n',
        "host.toml:8: guest.minimum: its mount 'm' has a minimum of its own",
    ),
    (HOST + '[[mount]]\nname = "a b"\n', "host.toml:4: mount.name: it is no name of a mount"),
    (
        HOST + '[[mount]]\nname = "m"\nsize = "1GiB"\nminimum = "2GiB"\n',
        "host.toml:6: mount.minimum: the minimum is more than the size",
    ),
    (
        HOST + '[[redis]]\nmemory = "1GiB"\nrewritten = "25%"\n',
        "host.toml:5: redis.rewritten: it belongs to a snapshot, and the plan has none",
    ),
    (
        HOST + '[[redis]]\nmemory = "1GiB"\nsnapshot = true\nrewritten = "125%"\n',
        "host.toml:6: redis.rewritten: '125%' is more than the whole",
    ),
    (HOST + '[[redis]]\nmemory = "0"\n', "host.toml:4: redis.memory: it asks for no page"),
    (
        HOST + "[[redis]]\nmemory = 4096\n",
        'host.toml:4: redis.memory: 4096 has no unit: write it, as "4096MiB" or "4096 pages"',
    ),
    (HOST + '[[redis]]\nmemory = "4096"\n', "host.toml:4: redis.memory: '4096' has no unit"),
    (
        HOST + "[[redis]]\nmemory = 4GiB   # unquoted\n",
        'host.toml:4: memory: 4GiB is a text: write it in quotes, "4GiB"',
    ),
    ('[host]\nnodes = [8GiB, 16 GiB]\n[[redis]]\nmemory = "4GiB"\n', "host.toml:2: nodes: 16 GiB is a text"),
    ("\ufeff" + HOST + '[[redis]]\nmemory = "4GiB"\n', "host.toml:1: it begins with a byte order mark"),
    (
        HOST + '[[guest]]\nmemory = "4GiB"\nused = "1GiB"\n',
        "host.toml:5: guest.used: what is reserved counts whole, whatever is used of it",
    ),
    (
        HOST + '[[guest]]\nmemory = "4GiB"\nbind = true\n',
        "host.toml:5: guest.bind: bind = true wants a node: add node = 0",
    ),
    (
        HOST + '[[guest]]\nnode_memory = ["1GiB", "1GiB"]\n',
        "host.toml:4: guest.node_memory: it has 2 sizes, and there is 1 node",
    ),
    (
        '[host]\nnodes = ["4GiB", "4GiB"]\n[[dpdk]]\nsocket_memory = ["1GiB", "1GiB", "1GiB"]\n',
        "host.toml:4: dpdk.socket_memory: it has 3 sizes, and there are 2 nodes",
    ),
    (
        '[host]\nnodes = ["4GiB", "4GiB"]\n[[dpdk]]\nsocket_memory = ["1GiB"]\nnode = 1\n',
        "host.toml:5: dpdk.node: socket_memory names the nodes already",
    ),
    (
        '[host]\nnodes = ["4GiB", "4GiB"]\nkeep = ["1GiB"]\n[[java]]\nheap = "1GiB"\n',
        "host.toml:3: host.keep: it has 1 sizes, and there are 2 nodes",
    ),
    (
        '[host]\nnodes = ["4GiB", "4GiB"]\nnr = [1, 2, 3]\n[[java]]\nheap = "1GiB"\n',
        "host.toml:3: host.nr: it has 3 numbers, and there are 2 nodes",
    ),
    (
        '[host]\nmemory = "64GiB"\nnr = 100000\n[[java]]\nheap = "1GiB"\n',
        "host.toml:3: host.nr: it is more pages than the host can have: 31,744, with 2,048 MiB kept",
    ),
    (
        '[host]\nnodes = ["1025MiB", "1025MiB"]\nkeep = 0\nnr = 1025\n[[java]]\nmemory = "1GiB"\n',
        "host.toml:4: host.nr: it is more pages than the host can have: 1,024, with 0 MiB kept",
    ),
    (HOST + '[[java]]\nmemory = "1GiB"\ngc = "g1"\n', "host.toml:5: java.gc: it goes with heap"),
    (
        HOST + '[[java]]\nheap = "1GiB"\ngc = "cms"\n',
        "host.toml:5: java.gc: 'cms' is not 'g1' or 'parallel' or 'serial' or 'shenandoah' or 'z'",
    ),
    (
        HOST + '[[postgresql]]\nshared_memory = "1GiB"\nmax_connections = 10\n',
        "host.toml:5: postgresql.max_connections: it goes with shared_buffers",
    ),
    (HOST + '[[mount]]\nname = ".."\n', "host.toml:4: mount.name: it is no name of a mount"),
    (
        HOST
        + '[[mount]]\nname = "m"\npage = "1GiB"\n[[guest]]\nmemory = "4GiB"\nmount = "m"\npage = "2MiB"\n',
        "host.toml:9: guest.page: its mount 'm' has pages of 1,073,741,824 bytes",
    ),
    (
        HOST + '[[redis]]\nmemory = "1GiB"\ncount = 3000\nsnapshot = true\n',
        "6,000 programs and snapshots are too many for one plan",
    ),
    (
        HOST + '[[java]]\nheap = "1GiB"\n[overcommit]\nmost = "1GiB"\n',
        "host.toml:6: overcommit.most: there is no such key; at_most is meant?",
    ),
    (
        HOST.replace("\n", '\npage = "1GiB"\n', 1)
        + '[[java]]\nheap = "1GiB"\n[overcommit]\nat_most = "1GiB"\n',
        "overcommit.at_most: Linux makes no surplus pages of 1 GiB",
    ),
    ("guest = 3\n" + HOST, "host.toml:1: guest: each is a table: write [[guest]]"),
]


@pytest.mark.parametrize(("text", "said"), BAD, ids=range(len(BAD)))
def test_bad_plan(text: str, said: str, tmp_path: Path) -> None:
    """A plan that can't be read ends with status 2, and its line and key are named."""
    file = tmp_path / "host.toml"
    file.write_text(text)
    status, output, faults = run(["plan", "host.toml"], cwd=tmp_path)
    assert (
        (status, output) == (2, "") and faults.startswith("hugetlbctl: host.toml") and said in faults
    ), faults


def test_all_faults_at_once(tmp_path: Path) -> None:
    """Each fault of a plan is told, in the order of its lines."""
    text = (
        "[host]\nmemory = 256\nmemroy = 3\n[[guest]]\nmemory = 4GiB\ncount = 0\n"
        '[[redsi]]\nmemory = "1GiB"\n[[java]]\nnode = 7\n'
        '[[guest]]\nused = "1GiB"\nmemory = "4GiB"\n'
    )
    status, output, faults = plan(tmp_path, text)
    assert (status, output) == (2, "")
    places = [
        line.split(": ")[1].rpartition(":")[2] + " " + line.split(": ")[2] for line in faults.splitlines()
    ]
    assert places == [
        "2 host.memory",
        "3 host.memroy",
        "5 memory",
        "6 guest.count",
        "7 redsi",
        "9 java",
        "10 java.node",
        "12 guest.used",
    ]
    status, _, faults = plan(
        tmp_path, HOST + "".join(f"[[guest]]\nmemory = {number}\n" for number in range(1, 300))
    )
    assert status == 2 and len(faults.splitlines()) == 101 and "and 199 faults more" in faults


def test_reads_standard_input() -> None:
    status, output, faults = run(["plan", "-"], HOST + '[[java]]\nheap = "1GiB"\n')
    assert (status, faults) == (0, "") and output.startswith("standard input: It fits.")
    assert (
        run(["plan", "-"], "[host]\n")[::2][0] == 2
        and "standard input:1: host:" in run(["plan", "-"], "[host]\n")[2]
    )
    assert run(["plan"])[0] == 2


def test_helps() -> None:
    """`hugetlbctl help` tells of the tool, and of each subcommand."""
    status, output, faults = run(["help"])
    assert (status, faults) == (0, "") and "hugetlbctl plan host.toml" in output
    for name in ("plan", "observe", "who"):
        assert run(["help", name])[:2][0] == 0 and f"usage: hugetlbctl {name}" in run(["help", name])[1]


def catches_interrupts(number: int) -> bool:
    found = re.search(r"SigCgt:\t([0-9a-f]+)", Path(f"/proc/{number}/status").read_text())
    return bool(int(found[1], 16) & 2) if found else False


@pytest.mark.parametrize("wait", [0.0, 0.03, 0.06, 0.1, 0.2, 0.5])
def test_an_interrupt_while_it_starts(wait: float, tmp_path: Path) -> None:
    """Ctrl-C ends it without a word, whenever it comes: from its first line on, and while the program that
    it asks does not answer."""
    file, slow = tmp_path / "host.toml", tmp_path / "slow"
    file.write_text(EXAMPLE)
    # (it answers nothing for as long as it lives: the tool, ended by the interrupt, kills it)
    slow.write_text("#!/bin/sh\nexec sleep 60\n")
    slow.chmod(0o755)
    ran = subprocess.Popen(
        [sys.executable, TOOL, "plan", file],
        stdout=subprocess.PIPE,
        stderr=subprocess.PIPE,
        env={"PATH": os.environ["PATH"], "HUGETLBD": str(slow)},
        # (a shell that runs this test behind itself has it ignore interrupts)
        preexec_fn=lambda: signal.signal(signal.SIGINT, signal.default_int_handler),
    )
    # (Python itself catches interrupts before the tool's first line)
    for begins in (True, False):
        # (a machine that is busy may pass over the short time between)
        until = time.monotonic() + 5
        while ran.poll() is None and catches_interrupts(ran.pid) != begins and time.monotonic() < until:
            time.sleep(0.0005)
    time.sleep(wait)
    assert ran.poll() is None
    ran.send_signal(signal.SIGINT)
    output, faults = ran.communicate(timeout=60)
    assert ran.returncode in (130, -signal.SIGINT) and (output, faults) == (b"", b""), (
        ran.returncode,
        faults,
    )


def test_an_overcommit_is_at_most_what_is_said(tmp_path: Path) -> None:
    """Half a page beyond 50 is no page: 102 MiB would be more than 101."""
    text = '[host]\nmemory = "4GiB"\n[overcommit]\nat_most = "101MiB"\n[[java]]\nmemory = "1GiB"\n'
    told = json.loads(plan(tmp_path, text, "--json")[1])
    assert (told["overcommit"], told["nr_with_overcommit"], told["nr"]) == (50, 462, 512)


def test_no_plan(tmp_path: Path) -> None:
    assert run(["plan", tmp_path / "none.toml"])[::2] == (
        2,
        f"hugetlbctl: {tmp_path}/none.toml: No such file or directory\n",
    )
    (tmp_path / "bad.toml").write_bytes(b"[host]\nmemory = '\xff'\n")
    assert run(["plan", tmp_path / "bad.toml"])[::2] == (
        2,
        f"hugetlbctl: {tmp_path}/bad.toml:2: it is not UTF-8\n",
    )


def test_units() -> None:
    """Sizes in any unit."""
    from hugetlb.sizes import NoSize, as_option, exactly, in_words, size_in_bytes

    for text, size in {
        "64GiB": 1 << 36,
        "64G": 1 << 36,
        "64 GB": 1 << 36,
        "64g": 1 << 36,
        "1.5TiB": 3 << 39,
        "2048k": 2 << 20,
        "65_536 B": 65536,
        "4096 B": 4096,
        "0": 0,
        "3 pages": 6 << 20,
        "1,024M": 1 << 30,
    }.items():
        assert size_in_bytes(text, 2 << 20) == size, text
    for wrong in ("4096", 4096, True, 1.5, "12 GiB of it", "-1GiB", ""):
        with pytest.raises(NoSize):
            size_in_bytes(wrong, 2 << 20)
    assert (in_words(3 << 39), in_words(1 << 21), in_words(100)) == ("1.5 TiB", "2 MiB", "100 bytes")
    assert (exactly(3 << 39), exactly(1 << 30), exactly(5), exactly(0)) == ("1536GiB", "1GiB", "5B", "0")
    assert (as_option(12 << 30), as_option(1 << 21), as_option(1536 << 20)) == ("12G", "2M", "1536M")


def test_order_of_starting() -> None:
    """Kinds may take turns in the file, and start in its order."""
    plan = plan_of("x", HOST + '[[java]]\nmemory = "1G"\n[[redis]]\nmemory = "1G"\n[[java]]\nmemory = "2G"\n')
    assert [(it.kind, it.pages) for it in plan.consumers] == [("java", 512), ("redis", 512), ("java", 1024)]
    assert Scale(Question(plan.consumers, ())).unit == 1


@pytest.mark.parametrize("seed", range(8))
def test_plan_by_chance(seed: int, tmp_path: Path) -> None:
    """Of programs that reserve all that they touch the answer is the sum of what they ask for, and of what
    their snapshots copy."""
    chance = random.Random(seed)
    text, pages = '[host]\nmemory = "1TiB"\n', 0
    for _ in range(chance.randrange(1, 9)):
        kind, count, size = (
            chance.choice(["postgresql", "guest", "redis", "java", "dpdk", "map"]),
            chance.randrange(1, 5),
            chance.randrange(1, 5000),
        )
        text += f"[[{kind}]]\npages = {size}\ncount = {count}\n"
        pages += count * size
        if kind == "redis" and chance.random() < 0.7:
            rewritten = chance.randrange(0, size + 1)
            text += f'snapshot = true\nrewritten = "{rewritten} pages"\n'
            pages += count * rewritten
        if kind == "guest":
            text += "".join(
                f"{key} = {chance.choice(['true', 'false'])}\n" for key in ("minimum", "share", "prealloc")
            )
        if kind == "map":
            text += f"shared = {chance.choice(['true', 'false'])}\n"
    status, output, faults = plan(tmp_path, text, "--json")
    told = json.loads(output)
    assert (status, faults, told["is_exact"]) == (0, "", told["unit_pages"] == 1 or told["is_exact"])
    assert told["nr"] == pages if told["is_exact"] else 0 <= told["nr"] - pages <= 80 * told["unit_pages"]
