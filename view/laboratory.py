"""The trace of a page that is typed into: its lines, the steps that are told of them, and the run
of the program that has done them.

All changes are one: the lines become others. What stands before the first command that differs
stays told; behind it the run begins anew (the same lines have the same replies), and the telling is
taken up at the last mark before it. Where nothing but lines at the end is new, the run goes on.
"""
import contextlib
import math
import os
import shutil
import struct
import tempfile
import threading
import time
from typing import Iterator, NamedTuple

from shared.saying import Refused

from program import EarlyEnd, Judge, Live
from reasons import LINE_LIMIT, no_command, reason_of
from reference import Reference
from session import says_nothing
from small import lines_for, without_blanks
from swapfile import MOST_FRAMES, PAGE, Machine, Unfit, asked_by, comment_for, told_of, words_of

from making import Command, commands_of
from teller import Teller, line_of, planned, steps_at_once

# commands between two marks, commands of a page, lines that are refused by name, states to undo
APART, MOST_COMMANDS, MOST_REFUSED, MOST_PAST = 64, 20_000, 20, 200
# seconds of telling before an answer goes out, and before a run that answers nothing is ended
BUDGET, PATIENCE = 0.1, 20
NOT_DONE = "this is not done, and all is as it was"


class Trouble(Exception):
    """Why something isn't done: rows of a line's number (0: none), the line, and a sentence."""

    def __init__(self, *rows: tuple[int, str, str]):
        super().__init__(rows[0][2])
        self.rows = rows


def because(why: object) -> Trouble:
    return Trouble((0, "", str(why)))


class State(NamedTuple):
    """What can be gone back to: the lines, the words behind `avsim run`, and the title."""

    lines: list[str]
    words: list[str]
    title: str


class Runner:
    """The run of the program that is asked. One that answers nothing for too long is killed, by one
    watch for all that is asked. (One for each line would cost ten times what telling does.)
    """

    def __init__(self, program: str, patience: float):
        self.program, self.patience = program, patience
        self.live: Live | None = None
        self.since, self.closed = math.inf, threading.Event()
        threading.Thread(target=self.watch, daemon=True).start()

    def watch(self) -> None:
        while not self.closed.wait(min(0.5, self.patience)):
            live = self.live
            if live and time.monotonic() - self.since > self.patience:
                live.ran.kill()

    def ask(self, lines: list[bytes]) -> list[list[str]]:
        """Puts lines to the run."""
        self.since = time.monotonic()
        try:
            return self.live.answers(lines)
        finally:
            self.since = math.inf

    def is_there(self) -> bool:
        return self.live is not None and self.live.ran.poll() is None

    def begin(self, words: list[str], lines: list[bytes]) -> None:
        """Begins the run anew, and gives it lines."""
        self.end()
        self.live = Live(self.program, words)
        try:
            self.ask(lines)
        except EarlyEnd:
            self.end()
            raise

    def end(self) -> None:
        if self.live:
            # (it does nothing more: to be ended so costs no time)
            self.live.ran.kill()
            self.live.end()
        self.live = None

    def close(self) -> None:
        self.closed.set()
        self.end()


class Laboratory:
    """The trace, what is told of it, and the states before and behind it."""

    def __init__(self, program: str, words: list[str], title: str, patience: float = PATIENCE):
        self.reference, self.judge = Reference(), Judge(program)
        # (the second is asked for replies alone)
        self.run, self.ahead = Runner(program, patience), Runner(program, patience)
        # (copies of the files that are named, and files that a trace asks for)
        self.room, self.made = tempfile.mkdtemp(prefix="avsim-page-"), 0
        files = [copied(it, f"{self.room}/named{at}.img") for at, it in enumerate(words[1:])]
        self.state, self.commands = State([], [words[0], *files], title), []
        self.version, self.replies = 0, []
        # states, each with the step that was shown when it was left
        self.past: list[tuple[State, int]] = []
        self.future: list[tuple[State, int]] = []
        self.forget()

    def close(self) -> None:
        self.run.close()
        self.ahead.close()
        shutil.rmtree(self.room, ignore_errors=True)

    # what is told

    def forget(self) -> None:
        """Nothing is told yet."""
        self.run.end()
        self.teller, self.steps = Teller(), []
        self.marks = {0: Teller().kept()}

    def back_to(self, count: int) -> None:
        """Of so many commands it stays told, or of some fewer: those of the last mark."""
        if count >= len(self.steps):
            return
        at = max(it for it in self.marks if it <= count)
        self.marks = {place: it for place, it in self.marks.items() if place <= at}
        self.teller = Teller.of(self.marks[at])
        del self.steps[at:]
        self.run.end()

    def tell(self, to: int = 0, budget: float = BUDGET) -> None:
        """Tells on: to this command, and as much more as there is time for."""
        until = time.monotonic() + budget
        self.begin_run()
        rest = self.commands[len(self.steps) :]
        goes_on = lambda: len(self.steps) + 1 < to or time.monotonic() < until
        for step in self.teller.steps(rest, self.run.ask, goes_on):
            self.add(step)

    def begin_run(self) -> None:
        """The run has done what is told."""
        if not self.run.is_there():
            done = self.commands[: len(self.steps)]
            self.run.begin(self.state.words, list(map(line_of, done)))

    def add(self, step: dict) -> None:
        self.steps.append(step)
        if len(self.steps) % APART == 0:
            self.marks[len(self.steps)] = self.teller.kept()

    def tell_rest(self) -> None:
        """Tells on, for as long as there is time. Of many commands the replies are asked before, so
        that their reports can be asked at once: that spares a wait for each.
        """
        until = time.monotonic() + BUDGET
        if len(self.commands) - len(self.steps) <= APART:
            self.tell()
            return
        self.find_replies()
        self.begin_run()
        while len(self.steps) < len(self.commands) and time.monotonic() < until:
            self.tell_at_once()

    def find_replies(self) -> None:
        """The replies to all commands, of a run that is asked for nothing else."""
        if self.replies:
            return
        self.ahead.begin(self.state.words, [])
        found = self.ahead.ask(list(map(line_of, self.commands)))
        self.replies = [[it.removeprefix(" ") for it in reply] for reply in found]
        self.ahead.end()

    def tell_at_once(self) -> None:
        """Tells the commands up to the next mark."""
        at = len(self.steps)
        to = at - at % APART + APART
        before = Teller.of(self.teller.kept()).told
        plan = planned(before, zip(self.commands[at:to], self.replies[at:to]))
        for step in steps_at_once(list(plan), self.run.ask, self.teller):
            self.add(step)

    # changes: each gives the first step that may be another

    def become(self, state: State, shown: int) -> int:
        """Another state, told up to the step that is to be shown. Where the program ends meanwhile,
        all stays as it was.
        """
        commands = commands_in(state.lines)
        before = self.state, self.commands
        same = min(same_of(self.commands, commands), len(self.steps))
        try:
            if state.words != self.state.words:
                same = 0
                self.forget()
            self.back_to(same)
            self.state, self.commands, self.replies = state, commands, []
            self.tell(min(shown, len(commands)))
        except (EarlyEnd, Refused) as why:
            self.state, self.commands = before
            self.replies = []
            self.forget()
            with contextlib.suppress(EarlyEnd, Refused):
                self.tell()
            raise because(f"{why}: {NOT_DONE}") from None
        self.version += 1
        return same

    def change(self, state: State, here: int, shown: int) -> int:
        """As `become`, and can be undone: then what is shown here is shown again."""
        before = self.state, here
        same = self.become(state, shown)
        self.past = [*self.past, before][-MOST_PAST:]
        self.future = []
        return same

    def undo(self, here: int, is_redo: bool = False) -> tuple[int, int]:
        """Takes back a change, or does it again. It gives the step to show, too."""
        source, other = (self.future, self.past) if is_redo else (self.past, self.future)
        if not source:
            raise because(f"there is nothing to {'redo' if is_redo else 'undo'}")
        before = self.state, here
        state, shown = source[-1]
        same = self.become(state, shown)
        source.pop()
        other.append(before)
        return same, shown

    def put(self, behind: int, text: str, instead: bool, here: int) -> tuple[int, int]:
        """Puts typed lines behind a command, or in its place. It gives the step to show, too."""
        new = self.lines_typed(text)
        instead = instead and behind > 0
        lines = self.state.lines
        at = self.commands[behind - 1].number if behind else self.begin_of(1)
        lines = [*lines[: at - instead], *new, *lines[at:]]
        shown = behind - instead + len(commands_in(new))
        return self.change(self.state._replace(lines=lines), here, shown), shown

    def lines_typed(self, text: str) -> list[str]:
        """The lines that typed text stands for."""
        typed = [without_blanks(it) for it in text.split("\n")]
        try:
            new = [it for line in typed for it in lines_for(line, self.reference)]
        except ValueError as why:
            raise because(why) from None
        self.refuse_bad(new)
        return new

    def begin_of(self, number: int) -> int:
        """How many lines stand before a command and the comments that go with it: those right above
        it, but for one that asks for a machine, and what stands above that.
        """
        lines = self.state.lines
        if number > len(self.commands):
            return len(lines)
        at = self.commands[number - 1].number - 1
        while at and lines[at - 1].startswith("#") and not asked_by(lines[at - 1]):
            at -= 1
        return at

    def take_out(self, number: int, here: int) -> tuple[int, int]:
        """Takes a command out, with its comments. It gives the step to show, too."""
        if not number:
            raise because("no command is shown")
        lines = self.state.lines
        rest = [*lines[: self.begin_of(number)], *lines[self.commands[number - 1].number :]]
        shown = min(number, len(self.commands) - 1)
        return self.change(self.state._replace(lines=rest), here, shown), shown

    def begin(self, text: str, asks: bool) -> None:
        """The first trace, on the machine that it asks for, or on that which is there."""
        words = self.words_asked(text) if asks else self.state.words
        self.state = self.state._replace(lines=self.lines_of(text), words=words)
        self.commands = commands_in(self.state.lines)
        self.tell()

    def open(self, text: str, title: str, here: int) -> tuple[int, int]:
        """Another trace, with the machine that it asks for. It gives the step to show, too."""
        lines = self.lines_of(text)
        shown = min(1, len(commands_in(lines)))
        return self.change(State(lines, self.words_asked(text), title), here, shown), shown

    def lines_of(self, text: str) -> list[str]:
        """The lines of a file."""
        lines = text.removesuffix("\n").split("\n") if text else []
        self.refuse_bad(lines)
        return lines

    def words_asked(self, text: str) -> list[str]:
        """The words of the first machine that a trace asks for, if it isn't the one that is there.
        (States that can be gone back to have files of their own.)
        """
        machine = next(iter(asked_by(text)), None)
        if not machine or comment_for(machine) == self.machine():
            return self.state.words
        if not 1 <= int(machine.frames) <= MOST_FRAMES:
            raise because(f"a machine has 1 to {MOST_FRAMES} frames")
        self.made += 1
        try:
            return words_of(machine, tempfile.mkdtemp(prefix=f"{self.made}-", dir=self.room))
        except (OSError, Unfit, struct.error) as why:
            raise because(f"a swap file can't be made: {why}") from None

    def machine(self) -> str:
        frames, *files = self.state.words
        return comment_for(Machine(frames, [told_of(it) for it in files]))

    def text(self) -> str:
        """The trace as it is saved: what it asks for is this machine."""
        asked = asked_by("\n".join(self.state.lines))
        head = [] if asked and comment_for(asked[0]) == self.machine() else [self.machine()]
        return "".join(f"{it}\n" for it in [*head, *self.state.lines])

    # what is refused, and what is told of commands

    def refuse_bad(self, lines: list[str]) -> None:
        """Refuses lines of which some are no commands, by the program's word."""
        given = [it.encode("utf-8", "surrogateescape") for it in lines]
        asked = (it for it in given if not says_nothing(it) or len(it) > LINE_LIMIT)
        try:
            bad = self.judge.bad_of(asked)
        except Refused as why:
            raise because(why) from None
        rows = [(at, it) for at, it in enumerate(given, 1) if it in bad][:MOST_REFUSED]
        if rows:
            shown = [(at, it.decode("utf-8", "replace")[:80], self.why(it)) for at, it in rows]
            raise Trouble(*shown)

    def why(self, line: bytes) -> str:
        text = str(reason_of(line, self.reference))
        if not text.startswith("there is no command"):
            return text
        return no_command(line.split(b" ")[0].decode("ascii"), list(self.reference.forms))

    def help(self, name: str) -> str:
        if name:
            return "\n".join(self.reference.help(name, 72)) or f"there is no command {name[:40]}"
        return "\n".join(self.overview())

    def overview(self) -> Iterator[str]:
        for form in self.reference.forms.values():
            yield f"{form.heading}\n    {self.reference.first_sentence(form.name)}"


def commands_in(lines: list[str]) -> list[Command]:
    """The commands of lines, if a page has room for them."""
    commands = commands_of("\n".join(lines))
    if len(commands) > MOST_COMMANDS:
        raise because(f"a page has at most {MOST_COMMANDS} commands")
    return commands


def same_of(commands: list[Command], others: list[Command]) -> int:
    """How many commands at the beginning are the same."""
    pairs = enumerate(zip(commands, others))
    return next((at for at, (a, b) in pairs if a != b), min(len(commands), len(others)))


def copied(file: str, to: str) -> str:
    """A copy of a swap file: its header and its length. (A run begins with nothing in it.)"""
    with open(file, "rb") as it, open(to, "wb") as copy:
        copy.write(it.read(PAGE))
        copy.truncate(os.fstat(it.fileno()).st_size)
    return to
