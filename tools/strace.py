"""Reads logs of strace: which thread calls what, what the kernel answers, and who ends.

A log has one line for each thing that happens. A call during which another thread did something
stands in two lines, `.. <unfinished ...>` and `<... NAME resumed>..`, which are brought together
here. Whatever can't be read is refused with its line.
"""
import dataclasses
import glob
import os
import re
from typing import NoReturn

from shared.saying import Refused, lines_of, name_of, printable

import chains

# the number of the thread in a log without numbers
ALONE = 0
DAY = 24 * 3600 * 10**9
# a time after all others
NEVER = 2**62

TIME = r"\d+\.\d+|\d\d:\d\d:\d\d(?:\.\d+)?"
LINE = re.compile(rf"(?:(\d+) +)?(?:({TIME}) +)?(\S.*)")
WHOLE = re.compile(r"([\w?]+)\((.*)\) += (.+)")
BEGINS = re.compile(r"([\w?]+)\((.*?),? ?<(unfinished|detached) \.\.\.>")
RESUMED = re.compile(r"<\.\.\. ([\w?]+) resumed> ?(.*)\) += (.+)")
ENDS = re.compile(r"\+\+\+ (?:exited with \d+|killed by \w+(?: \(core dumped\))?) \+\+\+")
CHANGED = re.compile(r"(execve\w*)\((.*?),? ?<pid changed to (\d+) \.\.\.>")
SUPERSEDED = re.compile(r"\+\+\+ superseded by execve in pid (\d+) \+\+\+")
SIGNAL = re.compile(r"--- .* ---")


@dataclasses.dataclass(slots=True)
class Call:
    """A call: its words as they stand between the brackets, the time at which it began, and the
    kernel's answer; none where it never returned. `chain` has the lines of those who called it.
    """

    thread: int
    name: str
    words: str
    time: int
    place: str
    answer: str = ""
    chain: list[str] = dataclasses.field(default_factory=list)

    def __str__(self):
        return f"{self.name}({self.words}) = {self.answer}"


@dataclasses.dataclass(slots=True)
class Step:
    """A line of a log: a call that `begins` and goes on, one that has an answer (`call`), a
    thread that `ends`, or one whose number another thread takes over by an execve (`superseded`).
    Times are nanoseconds, or -1.
    """

    kind: str
    thread: int
    time: int
    place: str
    text: str
    call: Call | None = None
    by: int = 0


def time_of(word: str | None) -> int:
    """A time in nanoseconds: since 1970, or since midnight."""
    if not word:
        return -1
    whole, _, part = word.partition(".")
    seconds = 0
    for it in whole.split(":"):
        seconds = seconds * 60 + int(it)
    return seconds * 10**9 + int(part[:9].ljust(9, "0"))


class Reader:
    """The lines of one file, one after the other. `thread` is whose they are where they have no
    numbers.
    """

    def __init__(self, file: str, thread: int = ALONE):
        self.file, self.name, self.thread = file, name_of(file), thread
        self.pending: dict[int, Call] = {}
        self.changed: set[tuple[int, int]] = set()
        self.days, self.last = 0, -1

    def refuse(self, number: int, why: str) -> NoReturn:
        raise Refused(f"{self.file}, line {number}: {why}")

    def steps(self) -> list[Step]:
        found: list[Step] = []
        for number, line in enumerate(lines_of(self.file), 1):
            if not chains.is_of_strace(line):
                step = self.step(number, line)
                found += [step] if step else []
            elif found and found[-1].call:
                found[-1].call.chain.append(line)
        return found

    def step(self, number: int, line: str) -> Step | None:
        """What a line says; None where it is a signal."""
        if line.startswith(("[pid ", "strace: ")):
            self.refuse(
                number,
                "this is strace's standard error, where lines of the program may stand too: "
                "record the log with -o LOG",
            )
        match = LINE.fullmatch(line)
        if not match:
            self.refuse(number, f"it is no line of strace: {printable(line)}")
        thread = int(match[1]) if match[1] else self.thread
        return self.step_of(thread, self.time(match[2]), number, match[3])

    def time(self, word: str | None) -> int:
        """A time, where those of -tt begin anew at midnight."""
        time = time_of(word)
        if word and ":" in word:
            if time + self.days * DAY < self.last - DAY // 2:
                self.days += 1
            time += self.days * DAY
        self.last = time
        return time

    def step_of(self, thread: int, time: int, number: int, text: str) -> Step | None:
        place = f"{self.name}, line {number}"
        if SIGNAL.fullmatch(text):
            return None
        if ENDS.fullmatch(text):
            self.pending.pop(thread, None)
            return Step("ends", thread, time, place, text)
        if by := SUPERSEDED.fullmatch(text):
            return self.superseded(Step("superseded", thread, time, place, text, by=int(by[1])))
        if changed := CHANGED.fullmatch(text):
            self.pending[thread] = Call(thread, changed[1], changed[2], time, place)
            to = int(changed[3])
            return self.superseded(Step("superseded", to, time, place, text, by=thread))
        if begins := BEGINS.fullmatch(text):
            self.is_free(thread, number)
            call = self.pending[thread] = Call(thread, begins[1], begins[2], time, place)
            return Step("begins", thread, time, place, text, call)
        if resumed := RESUMED.fullmatch(text):
            call = self.resumed(thread, number, resumed)
            return Step("call", thread, time, place, text, call)
        if whole := WHOLE.fullmatch(text):
            self.is_free(thread, number)
            call = Call(thread, whole[1], whole[2], time, place, whole[3])
            return Step("call", thread, time, place, text, call)
        self.refuse(number, f"it is no line of strace: {printable(text)}")

    def is_free(self, thread: int, number: int) -> None:
        """A thread that calls isn't within another call."""
        if thread in self.pending:
            before = self.pending[thread]
            self.refuse(
                number,
                f"thread {thread} calls again, and its {before.name} of {before.place} has no "
                "answer: lines are missing",
            )

    def resumed(self, thread: int, number: int, match: re.Match) -> Call:
        """The call whose second line this is. (A log that was begun while the program ran may
        have no first one: then it has no words and no answer.)
        """
        call = self.pending.pop(thread, None)
        if not call:
            return Call(thread, match[1], "", self.last, f"{self.name}, line {number}")
        if call.name != match[1]:
            self.refuse(
                number,
                f"it is the end of {match[1]}, but the call of {call.place} is {call.name}: "
                "lines are missing",
            )
        between = {"": "", ",": "", "=": " "}.get(match[2][:1], ", ")
        call.words, call.answer = call.words + between + match[2], match[3]
        return call

    def superseded(self, step: Step) -> Step | None:
        """A thread goes on as another, which is gone. (That may be told twice.)"""
        if (step.thread, step.by) in self.changed:
            return None
        self.changed.add((step.thread, step.by))
        self.pending.pop(step.thread, None)
        if step.by in self.pending:
            self.pending[step.thread] = self.pending.pop(step.by)
            self.pending[step.thread].thread = step.thread
        return step


def parts_of(log: str) -> list[tuple[int, str]]:
    """The files that strace -ff left, by thread."""
    found = [it for it in glob.glob(f"{glob.escape(log)}.*") if it[len(log) + 1 :].isdigit()]
    return sorted((int(it[len(log) + 1 :]), it) for it in found)


def read_log(log: str) -> list[Step]:
    """The steps of a log, in order: of one file, or of the files LOG.NUMBER that -ff left."""
    parts = [] if log == "-" or os.path.exists(log) else parts_of(log)
    if not parts:
        return Reader(log).steps()
    several = [Reader(file, thread).steps() for thread, file in parts]
    for steps, (_, file) in zip(several, parts):
        if any(it.time < 0 for it in steps):
            raise Refused(
                f"{file} has no times, so it can't be put in order with the others: "
                "strace -ff needs -ttt"
            )
    first = several[0][0].time if several[0] else 0
    for steps in several:
        if steps and steps[0].time < first - DAY // 2:
            for it in steps:
                it.time += DAY
                if it.call and it.call.place == it.place:
                    it.call.time += DAY
    return sorted((it for steps in several for it in steps), key=lambda it: it.time)
