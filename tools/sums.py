"""What the replies of a run sum up to: for each process, and in all."""
import collections
import dataclasses
from typing import Iterable, Iterator

from bits import Bits
from held import ALL, Held
from shapes import MOST, OUT_OF_MEMORY, Command, Shape, command_of, shapes_of
from transcript import Beside

# the column that a note counts in
COLUMNS = {"zero": "zero", "new": "new", "copy": "copied"}
COLUMNS |= {"load": "loaded", "put": "put", "done": "written"}
# commands that name no process
OF_NONE = {"reclaim", "age", "complete", "swapon", "swapoff", "slot", "stat", "merge", "compact"}
NONE = "-"
ACCESSES = {"read", "write"}
# a command, its reply, and the shape of that
Told = tuple[Command, str, Shape]


@dataclasses.dataclass(slots=True)
class Sums:
    """A row of the table."""

    accesses: int = 0
    faults: int = 0
    zero: int = 0
    new: int = 0
    copied: int = 0
    reused: int = 0
    loaded: int = 0
    put: int = 0
    written: int = 0
    saved: int = 0
    oom: int = 0
    frames: int = 0

    def __add__(self, other: "Sums") -> "Sums":
        both = zip(dataclasses.astuple(self), dataclasses.astuple(other))
        return Sums(*(one + another for one, another in both))


class Counts:
    """The rows, as commands with their replies are taken one after the other."""

    def __init__(self, asks_marks: bool):
        self.rows: collections.defaultdict[str, Sums] = collections.defaultdict(Sums)
        # how often each row had a command of a name with a reply of a shape, which tells most
        self.told: collections.defaultdict[tuple[str, str, Shape], int]
        self.told = collections.defaultdict(int)
        self.bits = Bits(asks_marks)

    def take(self, command: Command, reply: str, shape: Shape) -> Sums:
        """Counts a command, and gives the row in which it is."""
        words, name = command.words, command.words[0]
        whose = NONE if name in OF_NONE else words[1]
        row = self.rows[whose]
        self.told[whose, name, shape] += 1
        # (most accesses change nothing)
        if shape.names or name not in ACCESSES or name == "write" and not shape.is_refused:
            reused = self.bits.follow(command, reply, shape)
            if reused:
                row.reused += len(reused)
                row.faults += name in ACCESSES and not shape.is_fault
        if shape.is_out_of_memory and reply.startswith(OUT_OF_MEMORY):
            row.oom += 1
        if len(self.told) == MOST:
            self.add_told()
        return row

    def add_told(self) -> None:
        """Adds what shapes tell."""
        for (whose, name, shape), count in self.told.items():
            row = self.rows[whose]
            if name in ACCESSES:
                row.accesses += count
                row.faults += count * shape.is_fault
            for note in COLUMNS.keys() & set(shape.names):
                column = COLUMNS[note]
                setattr(row, column, getattr(row, column) + count * shape.names.count(note))
        self.told.clear()

    def found(self) -> dict[str, Sums]:
        """The rows, with that of all."""
        self.add_told()
        return dict(self.rows) | {ALL: sum(self.rows.values(), Sums())}


def told_of(steps: Beside) -> Iterator[Told]:
    """What is told in a run, one after the other."""
    for text in steps.texts():
        for reply, shape in zip(text.split("\n"), shapes_of(text)):
            command = command_of(steps.commands[steps.count])
            steps.count += 1
            yield command, reply, shape


def sums_of(told: Iterable[Told], asks_marks: bool = True) -> dict[str, Sums]:
    """The rows: of each process by its number, of what belongs to none, and of all."""
    counts = Counts(asks_marks)
    held = Held(counts.bits.marks)
    for command, reply, shape in told:
        words, row = command.words, counts.take(command, reply, shape)
        if shape.names or words[0] in held.does:
            before = held.used
            held.follow(words, reply, shape)
            if words[0] == "merge":
                row.saved += before - held.used
    found = counts.found()
    for process, most in held.most.items():
        found[process].frames = most
    order = sorted((it for it in found if it.isdigit()), key=int)
    rest = [NONE, ALL] if found.get(NONE, Sums()) != Sums() else [ALL]
    return {it: found[it] for it in [*order, *rest]}
