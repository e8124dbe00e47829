"""Page faults as `perf script` prints them, on the clock of a log.

perf and strace have clocks of their own, which differ by a constant. The log tells it: a thread
has its faults while it lives, and touches a page after the call that mapped it began, often at
once. So the constant is the least with which most of that is so, but for the few microseconds
between a call and the first touch.
"""
import dataclasses
import re
from typing import Iterator

from shared.saying import Refused, lines_of, name_of, printable

import chains
from strace import time_of

# the first and the last line of what tools/record leaves, so that one sees whether it is whole
HEAD, TAIL = "# faults, as perf script prints them", "# end"
# the first line of accesses that were recorded with the log, so that they have its clock
ON_CLOCK = "# accesses, on the clock of the log"
# the line below it, of faults that were recorded in rounds: the number of frames below which they
# are too few
AGAIN = "# recorded in rounds: too few below "
# who runs beside the program
OTHERS = ("strace", "perf", "perf-exec", "avsim-join")
# nanoseconds from the beginning of a call to the first touch of what it mapped, at the least
AFTER = 10_000

FAULT = re.compile(
    r"\s*(?:(?P<name>\S.*?)\s+)?(?P<process>\d+)(?:/(?P<thread>\d+))?\s+(?:\[\d+\]\s+)?"
    r"(?P<time>\d+\.\d+):\s+(?:\d+\s+)?\S*page[-_]fault\S*:\s+(?P<at>.*)"
)
TOLD = re.compile(r"address=(?:0x)?([0-9a-f]+) ip=\S+ error_code=0x([0-9a-f]+)")
ADDRESS = re.compile(r"([0-9a-f]+)(?:\s.*)?")


@dataclasses.dataclass(slots=True)
class Fault:
    """A page fault. `is_write` is None where that isn't told. The time is that of perf, in
    nanoseconds, until it is set to the log's. `chain` has the functions that called.
    """

    thread: int
    time: int
    address: int
    is_write: bool | None
    place: str
    text: str
    chain: str = ""


def with_chains(lines: list[str]) -> Iterator[tuple[int, str, list[str]]]:
    """The lines that aren't of a call chain, each with its number, and with its chain."""
    last = None
    for number, line in enumerate(lines, 1):
        if last and chains.is_of_perf(line):
            last[2].append(line)
        elif line.strip() and not line.startswith("#"):
            if last:
                yield last
            last = number, line, []
    if last:
        yield last


def read_faults(file: str) -> list[Fault]:
    """The faults of a file, by time, without those of strace itself before it ran the program."""
    lines = lines_of(file)
    if lines[0] in (HEAD, ON_CLOCK) and lines[-1] != TAIL:
        raise Refused(f"{file}, line {len(lines)}: it doesn't end with {TAIL!r}, so it was cut")
    found = []
    for number, line, chain in with_chains(lines):
        match = FAULT.fullmatch(line)
        fault = fault_of(match, f"{name_of(file)}, line {number}") if match else None
        if not fault:
            raise Refused(
                f"{file}, line {number}: it is no page fault as perf script -F "
                f"comm,pid,tid,time,event,addr prints them: {printable(line)}"
            )
        if match["name"] not in OTHERS:
            fault.chain = chains.joined(chain)
            found.append(fault)
    if not found:
        raise Refused(f"{file} has no page fault")
    return sorted(found, key=lambda it: it.time)


def fault_of(match: re.Match, place: str) -> Fault | None:
    """The fault of a line; None where its address can't be read."""
    told, plain = TOLD.fullmatch(match["at"]), ADDRESS.fullmatch(match["at"])
    if not told and not plain:
        return None
    return Fault(
        int(match["thread"] or match["process"]),
        time_of(match["time"]),
        int(told[1] if told else plain[1], 16),
        bool(int(told[2], 16) & 2) if told else None,
        place,
        " ".join(match[0].split()),
    )


class Clocks:
    """What a log tells of the difference between its clock and that of its faults: what is added
    to a fault's time. `threads` are those that the log has.
    """

    def __init__(self, threads: list):
        self.threads: dict[int, list] = {}
        for it in threads:
            self.threads.setdefault(it.number, []).append(it)

    def lives(self, fault: Fault) -> Iterator[tuple[int, int]]:
        """Between which differences a fault is in the life of its thread."""
        for thread in self.threads.get(fault.thread, ()):
            yield thread.born - fault.time, thread.ended - fault.time

    def touches(self, fault: Fault) -> Iterator[tuple[int, int]]:
        """Between which differences it comes after a call that mapped its page, in a memory that
        the thread still has.
        """
        for thread in self.threads.get(fault.thread, ()):
            for stay in thread.stays:
                birth = stay.space.births.at(fault.address)
                if birth is not None:
                    last = min(stay.last, thread.ended)
                    yield max(birth, stay.first) - fault.time, last - fault.time

    def difference(self, faults: list[Fault], file: str) -> tuple[int, int]:
        """The least difference with which most is so, and the greatest that is as good."""
        ours = [it for it in faults if it.thread in self.threads]
        if not ours:
            raise Refused(f"{file} has no fault of a thread of the log: are they of one run?")
        touches = [it for fault in ours for it in self.touches(fault)]
        if not touches:
            raise Refused(
                f"{file} has no fault in what the log maps, so the clocks can't be brought together"
            )
        low, high = most_common([it for fault in ours for it in self.lives(fault)] + touches)
        live = [it for it in ours if any(a <= low <= b for a, b in self.lives(it))]
        if len(live) < len(ours) * 9 // 10:
            raise Refused(
                f"{file} doesn't fit the log: {len(ours) - len(live)} of {len(ours)} faults are of "
                "threads that don't live then: are they of one run?"
            )
        return low, high


def most_common(spans: list[tuple[int, int]]) -> tuple[int, int]:
    """The least numbers, from one to another, that most spans have."""
    ends = sorted([(low, 0) for low, _ in spans] + [(high, 1) for _, high in spans])
    count = most = low = high = 0
    is_best = False
    for at, is_end in ends:
        if is_end:
            high = at if is_best else high
            is_best, count = False, count - 1
        else:
            count += 1
            if count > most:
                is_best, most, low = True, count, at
    return low, high


def is_on_clock(file: str) -> bool:
    """Whether the times of a file are those of the log."""
    return lines_of(file)[0] == ON_CLOCK


def too_few_below(file: str) -> int:
    """For how many frames faults that were recorded in rounds are enough; 0 for others."""
    line = (*lines_of(file)[:2], "")[1]
    number = line.removeprefix(AGAIN)
    return int(number) if line.startswith(AGAIN) and number.isdigit() else 0


def on_clock_of(threads: list, faults: list[Fault], file: str) -> tuple[int, int]:
    """Sets the faults' times to those of the log. Gives the difference, and what it might be at
    most.
    """
    low, high = Clocks(threads).difference(faults, file)
    difference = low + min((high - low) // 2, AFTER)
    for it in faults:
        it.time += difference
    return difference, high
