"""The tool at a terminal, typed into as a person does."""
import os
import pty
import select
import signal
import sys
import time

import built
from pathlib import Path
from common import PROGRAM, TOOL, must_hold


class Terminal:
    def __init__(self, home: Path) -> None:
        pid, self.terminal = pty.fork()
        if pid == 0:
            signal.signal(signal.SIGINT, signal.SIG_DFL)
            environment = {
                "PATH": os.environ["PATH"],
                "HUGETLBD": str(PROGRAM),
                "HOME": str(home),
                "TERM": "dumb",
                "XDG_STATE_HOME": str(home),
            }
            os.execve(sys.executable, [sys.executable, str(TOOL)], environment)
        self.pid, self.seen = pid, ""

    def wait(self, text: str) -> str:
        """What was written up to this text."""
        until = time.monotonic() + built.SECONDS
        while text not in self.seen:
            assert select.select([self.terminal], [], [], max(0, until - time.monotonic()))[
                0
            ], f"{text!r} did not come at the prompt, but {self.seen!r}"
            try:
                more = os.read(self.terminal, 65536).decode(errors="replace")
            except OSError:
                more = ""
            assert more, f"the prompt ended before {text!r}, after {self.seen!r}"
            self.seen += more
        before, self.seen = self.seen.split(text, 1) if text else ("", self.seen)
        return before

    def type(self, text: str, answer: str) -> str:
        self.wait("hugetlbd> ")
        os.write(self.terminal, text.encode())
        return self.wait(answer)

    def end(self) -> int:
        return os.waitstatus_to_exitcode(os.waitpid(self.pid, 0)[1])


def test_prompts(tmp_path: Path) -> None:
    """Replies with counts, completion of commands, words and names, history of the session before, help, and
    its ends."""
    terminal = Terminal(tmp_path)
    terminal.wait("26 commands, `help` lists them")
    terminal.type("nr 4\n", "ok 4                     Total 4  Free 4  Rsvd 0  Surp 0")
    terminal.type("conn\t1 0\n", "ok                       Total 4")
    terminal.type("anon 1 2 pri\t\n", "ok 1                     Total 4  Free 4  Rsvd 2")
    terminal.type("create 0 ram-of-a-guest\n", "ok ")
    terminal.type("unlink 0 ra\t\n", "ok ")
    terminal.type("\n", "")
    terminal.type("# a comment\n", "")
    terminal.type("anon 1 4\n", "shared|private is missing")
    must_hold(terminal.type("help\n", "`quit` ends"), "store T S M I O HEX", "df S")
    must_hold(terminal.type("help map\n", "a file's name"), "maps N pages of a file from A on")
    terminal.type("quit\n", "")
    assert terminal.end() == 0
    again = Terminal(tmp_path)
    again.type(4 * "\x1b[A" + "\n", "shared|private is missing")
    again.type("\x04", "\n")
    assert again.end() == 0


def test_interrupt_keeps_the_machine(tmp_path: Path) -> None:
    """Ctrl-C at the prompt gives a new prompt, and the machine stands as it was."""
    terminal = Terminal(tmp_path)
    terminal.type("nr 3\n", "ok 3")
    # (an interrupt between the prompt and Python's wait for a key is told with the next key)
    time.sleep(0.5)
    terminal.type("\x03", "\n")
    terminal.type("connect 1 0\n", "ok                       Total 3  Free 3")
    terminal.type("quit\n", "")
    assert terminal.end() == 0
