"""Who pays: what the notes of a run count, by the mapping of their pages or by who called.

A mapping is called as a comment names it, else by its range. Callers stand in comments, which
tools/record --callers keeps. A page that goes out is its mapping's; or of whoever put it into its
frame.
"""
import collections
from typing import Iterable, Iterator

from bits import Bits
from labels import MAPPING, caller_of
from names import Names
from ranges import PAGE, up
from transcript import Step, parts_of

COLUMNS = ("zero", "new", "copied", "reused", "loaded", "written")
BY = ("mapping", "caller")
# who is meant where nobody is known
UNKNOWN = "-"

# a process, and who pays in it: the callers stand outermost first, with `;` between
Payer = tuple[str, str]


def comments_of(trace: str) -> Iterator[list[str]]:
    """The comments above each command."""
    above = []
    for line in trace.split("\n"):
        if line.startswith("#"):
            above.append(line[1:].strip())
        elif line:
            yield above
            above = []


class Payers:
    """Counts, as commands with their replies are taken one after the other."""

    def __init__(self, by: str, asks_marks: bool):
        self.by, self.caller = by, UNKNOWN
        self.bits, self.names = Bits(asks_marks), Names()
        self.counts: dict[Payer, collections.Counter] = {}
        # whose the page in a frame is, and that of a slot which a frame caches
        self.of_frame: dict[str, Payer] = {}
        self.of_slot: dict[str, Payer] = {}
        # the frames whose pages were loaded, and are at no entry yet
        self.loaded: set[str] = set()

    def take(self, above: list[str], words: list[str], answer: str, notes: list[list[str]]) -> None:
        """A command with the comments above it and its reply."""
        self.caller = next(filter(None, map(caller_of, above)), UNKNOWN)
        if words[0] == "mmap" and answer.startswith("map "):
            start = int(answer[4:], 16)
            above = [*above, f"{MAPPING}{start:x}-{start + up(int(words[2])):x}"]
        self.names.take("\n".join(above), words, [answer])
        for page in self.bits.take(words, answer, notes):
            self.add("reused", self.payer_at(words[1], page))
        for note in notes:
            self.follow(note)
        for _ in self.loaded:
            self.add("loaded", (UNKNOWN, UNKNOWN))
        self.loaded.clear()

    def payer_at(self, process: str, page: int) -> Payer:
        if self.by == "caller":
            return process, self.caller
        pages = self.names.pages.get(int(process))
        return process, (pages.at(page) if pages else None) or UNKNOWN

    def add(self, column: str, payer: Payer) -> None:
        self.counts.setdefault(payer, collections.Counter())[column] += 1

    def follow(self, note: list[str]) -> None:
        """A note, if it tells of a page, a frame or a slot that somebody pays for."""
        match note:
            case ["zero", process, at]:
                self.add("zero", self.payer_at(process, int(at, 16) // PAGE))
            case ["new" | "copy" as name, process, at, frame]:
                self.of_frame[frame] = self.payer_at(process, int(at, 16) // PAGE)
                self.add("new" if name == "new" else "copied", self.of_frame[frame])
            case ["map", process, at, frame]:
                self.of_frame[frame] = self.payer_at(process, int(at, 16) // PAGE)
                if frame in self.loaded:
                    self.loaded.remove(frame)
                    self.add("loaded", self.of_frame[frame])
            case ["load", _, frame]:
                self.loaded.add(frame)
            case ["put", frame, slot]:
                self.of_slot[slot] = self.of_frame.get(frame, (UNKNOWN, UNKNOWN))
            case ["done", slot]:
                self.add("written", self.of_slot[slot])
            case ["move", frame, to]:
                self.of_frame[to] = self.of_frame.get(frame, (UNKNOWN, UNKNOWN))


def payers_of(
    steps: Iterable[Step], trace: str, by: str, asks_marks: bool
) -> dict[Payer, collections.Counter]:
    """What each one pays in a run."""
    payers = Payers(by, asks_marks)
    for (_, _, command, reply), above in zip(steps, comments_of(trace)):
        payers.take(above, *parts_of(command, reply))
    return payers.counts


def rows_of(counts: dict[Payer, collections.Counter]) -> dict[str, dict[str, int]]:
    """What is paid in all processes, by mapping or by the function that called last, whoever pays
    most first.
    """
    found: dict[str, collections.Counter] = {}
    for (_, payer), columns in counts.items():
        found.setdefault(payer.split(";")[-1], collections.Counter()).update(columns)
    order = sorted(found, key=lambda it: (-found[it].total(), it))
    return {payer: {it: found[payer][it] for it in COLUMNS} for payer in order}


def folded(
    counts: dict[Payer, collections.Counter], column: str, names: dict[str, str]
) -> list[str]:
    """A column as lines that tools for flame graphs take: callers, outermost first, and a count."""
    found: collections.Counter = collections.Counter()
    for (process, payer), columns in counts.items():
        found[f"{names.get(process, process)};{payer}"] += columns[column]
    return [f"{stack} {count}" for stack, count in sorted(found.items()) if count]
