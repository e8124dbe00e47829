"""A session: the lines that were good so far, and the run of the program that did them.

Whether a line is a command is the program's answer. One that looks bad is first shown to another
run of the program, so that of the session goes on. Where the session's run ends all the same, and
for `undo`, a new one is given the lines again: the same lines have the same replies.
"""
import contextlib
import errno
import os
import subprocess
import sys
import tempfile
from typing import Callable, Iterable

from shared import ROOT

from program import EarlyEnd, Judge, Live, Refused
from reasons import LINE_LIMIT
from swapfile import Machine, asked_by, comment_for, told_of

# bytes of a file that is loaded
MOST_LOADED = 1 << 28
NOT_DONE = "this is not done, and the session goes on before it"


class Trouble(Exception):
    """What couldn't be done, in one sentence. The session stays as it was before."""


class Ended(Trouble):
    """The program ended meanwhile."""


class BadLine(Exception):
    """A line that is no command, as bytes, and its place among those that were given."""

    def __init__(self, line: bytes, at: int):
        super().__init__(line)
        self.line, self.at = line, at


def says_nothing(line: bytes) -> bool:
    """Whether a line is empty or a comment."""
    return not line or line.startswith(b"#")


class Session:
    """The good lines, kept in steps: what was typed as one is undone as one."""

    def __init__(self, program: str, words: list[str], looks_good: Callable[[bytes], bool]):
        self.program, self.words, self.looks_good = program, words, looks_good
        self.judge = Judge(program)
        self.steps, self.live = [], None

    def start(self) -> None:
        """Starts the session's run, and gives it what was done so far."""
        if self.live:
            return
        live = Live(self.program, self.words)
        try:
            live.answers([it for it in self.lines() if not says_nothing(it)])
        except (EarlyEnd, KeyboardInterrupt):
            live.end()
            raise
        self.live = live

    def end(self) -> None:
        """Ends the run of the session."""
        if self.live:
            self.live.end()
        self.live = None

    def lines(self) -> list[bytes]:
        """All lines so far."""
        return [line for step in self.steps for line in step]

    def refuse_bad(self, lines: list[bytes]) -> None:
        """Refuses lines of which one is no command."""
        try:
            bad = self.judge.bad_of(lines)
        except Refused as why:
            raise Trouble(str(why)) from None
        for at, line in enumerate(lines):
            if line in bad:
                raise BadLine(line, at)

    def do(self, *steps: Iterable[bytes]) -> list[list[str]]:
        """Does steps, each some lines, and gives the replies to their commands. If the program ends
        meanwhile, none of them is done.
        """
        lines = [line for step in steps for line in step]
        commands = [line for line in lines if not says_nothing(line)]
        if len(lines) != 1 or not self.looks_good(lines[0]):
            self.refuse_bad(lines)
        try:
            replies = self.ask(commands)
        except Ended:
            if len(lines) == 1:
                # (it looked good, and may have been what the run ended at)
                self.refuse_bad(lines)
            raise
        self.steps += map(list, steps)
        return replies

    def ask(self, lines: Iterable[bytes]) -> list[list[str]]:
        """The replies to commands, which aren't kept. If the program ends meanwhile, or is
        interrupted, the session is as before.
        """
        try:
            self.start()
            return self.live.answers(list(lines))
        except (EarlyEnd, Refused) as why:
            self.again()
            raise Ended(f"{why}: {NOT_DONE}") from None
        except KeyboardInterrupt:
            self.again()
            raise Trouble(f"interrupted: {NOT_DONE}") from None

    def write_page(self, file: str) -> str:
        """Writes the page of the session, and gives what the view says. The run is ended before,
        since another one uses its swap files; it begins anew afterwards.
        """
        self.end()
        with tempfile.TemporaryDirectory(prefix="avsim-view-") as room:
            trace = f"{room}/session"
            with open(trace, "wb") as it:
                it.write(b"".join(line + b"\n" for line in self.lines()))
            words = [f"{ROOT}/view/run", "--program", self.program, "-o", file]
            words += [self.words[0], trace, *self.words[1:]]
            ran = subprocess.run(
                [sys.executable, "-B", *words], stdout=subprocess.PIPE, stderr=subprocess.PIPE
            )
        self.again()
        said = (ran.stderr if ran.returncode else ran.stdout).decode("utf-8", "replace")
        said = said.strip().split("\n")[-1].removeprefix("view: ")
        if ran.returncode:
            raise Trouble(said or f"the view ended with status {ran.returncode}")
        return said

    def again(self) -> None:
        """Starts the session's run anew. Where that can't be, the next command tries it again."""
        self.end()
        with contextlib.suppress(EarlyEnd, Refused, KeyboardInterrupt):
            self.start()

    def undo(self, count: int) -> list[list[bytes]]:
        """Takes back the last steps that have a command, and gives them, the last one first."""
        gone = []
        while self.steps and len(gone) < count:
            step = self.steps.pop()
            if not all(map(says_nothing, step)):
                gone.append(step)
        self.again()
        return gone

    def load(self, name: str) -> list[tuple[int, str, list[str]]]:
        """Does the lines of a file, each as a step of its own, and gives its commands: of each the
        number of its line, the line, and the reply.
        """
        try:
            with open(os.path.expanduser(name), "rb") as it:
                data = it.read(MOST_LOADED + 1)
        except OSError as error:
            raise Trouble(f"{name} can't be read: {error.strerror}") from None
        if len(data) > MOST_LOADED:
            raise Trouble(f"{name} has more than {MOST_LOADED} bytes")
        lines = data.split(b"\n")
        if not lines[-1]:
            lines.pop()
        replies = self.do(*([it] for it in lines))
        numbered = [it for it in enumerate(lines, 1) if not says_nothing(it[1])]
        return [(at, it.decode("ascii"), reply) for (at, it), reply in zip(numbered, replies)]

    def machine(self) -> str:
        """The comment that asks for the machine of this session: its frames and its swap files.
        (Where a line has no room for them, bad pages are left out.)
        """
        areas = [told_of(it) for it in self.words[1:]]
        text = comment_for(Machine(self.words[0], areas))
        if len(text) <= LINE_LIMIT:
            return text
        return comment_for(Machine(self.words[0], [(pages, []) for pages, _ in areas]))

    def machine_asked(self) -> str | None:
        """The comment of the last machine that a line asks for, as `Run it with 4 frames.`"""
        text = b"\n".join(self.lines()).decode("utf-8", "replace")
        found = asked_by(text)
        return comment_for(found[-1]) if found else None

    def save(self, name: str) -> int:
        """Writes the lines to a file. One that is there is replaced when all is written."""
        lines = self.lines()
        head = self.machine().encode()
        if self.machine_asked() != self.machine():
            lines = [head, *lines]
        data = b"".join(it + b"\n" for it in lines)
        try:
            replace(name, data)
        except OSError as error:
            raise Trouble(f"{name} can't be written: {error.strerror}") from None
        return len([it for it in lines if not says_nothing(it)])


def replace(name: str, data: bytes) -> None:
    """Writes a file, so that what stood in it before stays if this fails."""
    real = os.path.realpath(os.path.expanduser(name))
    if os.path.exists(real) and not os.path.isfile(real):
        # (a device or a pipe)
        with open(real, "wb") as it:
            it.write(data)
        return
    if os.path.exists(real) and not os.access(real, os.W_OK):
        raise PermissionError(errno.EACCES, os.strerror(errno.EACCES))
    mode = os.stat(real).st_mode if os.path.exists(real) else 0o666 & ~umask()
    handle, beside = tempfile.mkstemp(dir=os.path.dirname(real), prefix=".avsim-")
    try:
        with open(handle, "wb") as it:
            it.write(data)
        os.chmod(beside, mode & 0o7777)
        os.replace(beside, real)
    except OSError:
        with contextlib.suppress(OSError):
            os.unlink(beside)
        raise


def umask() -> int:
    """The bits of permission that new files don't get."""
    mask = os.umask(0)
    os.umask(mask)
    return mask
