"""The memory of a process, as far as the calls of a log made it."""
from calls import Mapped
from ranges import Range, Ranges, up


class Space:
    """What calls mapped, and the end of the heap; the rest is `execve`'s, from before the `log`,
    or of a call that is left out. `births` has the first time at which an address was mapped;
    `name` is the program's.
    """

    def __init__(self, number: int, rest: str, parent: "Space | None" = None, now: int = -1):
        self.number, self.rest, self.name = number, rest, parent.name if parent else ""
        self.ranges = Ranges(parent.ranges if parent else ())
        self.heap = parent.heap if parent else 0
        self.births = Ranges()
        for it in self.ranges:
            self.births.put(it.start, it.end, now)
        self.threads: set[int] = set()

    def map(self, start: int, end: int, mapped: Mapped, now: int) -> None:
        self.ranges.put(start, end, mapped)
        for hole in self.births.holes(start, end):
            self.births.put(*hole, now)

    def unmap(self, start: int, end: int) -> None:
        self.ranges.cut(start, end)

    def move(self, parts: list[Range], by: int, now: int) -> None:
        """Maps what was in these parts so much higher."""
        for it in parts:
            self.map(it.start + by, it.end + by, it.of, now)

    def missing(self, start: int, length: int) -> str:
        """Who mapped the rest, if a part of the range isn't mapped by calls."""
        return self.rest if self.ranges.holes(start, start + max(up(length), 1)) else ""

    def pairs(self) -> list[tuple[Range, Range]]:
        """The ranges that adjoin, two by two."""
        ranges = list(self.ranges)
        return [(one, two) for one, two in zip(ranges, ranges[1:]) if one.end == two.start]


def runs_of(ranges: list[Range]) -> list[tuple[int, int]]:
    """Ranges that adjoin as one."""
    found = []
    for it in ranges:
        if found and found[-1][1] == it.start:
            found[-1] = (found[-1][0], it.end)
        else:
            found.append((it.start, it.end))
    return found
