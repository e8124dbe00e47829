"""Ranges of addresses, each with what is known of it: kept in order, none over another."""
import bisect
import dataclasses
from typing import Any, Iterable

PAGE = 4096


def up(length: int) -> int:
    """A length in whole pages."""
    return -(-length // PAGE) * PAGE


@dataclasses.dataclass(slots=True)
class Range:
    """The addresses from start on, below end."""

    start: int
    end: int
    of: Any


class Ranges:
    """Ranges in order."""

    def __init__(self, ranges: Iterable[Range] = ()):
        self.ranges = [dataclasses.replace(it) for it in ranges]

    def __iter__(self):
        return iter(self.ranges)

    def place(self, at: int) -> int:
        """The place of the first range that begins at `at` or above."""
        return bisect.bisect_left(self.ranges, at, key=lambda it: it.start)

    def split(self, at: int) -> int:
        """Lets no range pass over `at`, and gives the place of the first one from there on."""
        place = self.place(at)
        if place and self.ranges[place - 1].end > at:
            before = self.ranges[place - 1]
            self.ranges.insert(place, dataclasses.replace(before, start=at))
            before.end = at
        return place

    def cut(self, start: int, end: int) -> list[Range]:
        """Takes the ranges between two addresses away, and gives them."""
        first, last = self.split(start), self.split(end)
        gone = self.ranges[first:last]
        del self.ranges[first:last]
        return gone

    def put(self, start: int, end: int, of: Any) -> None:
        """A range, in place of what is there."""
        self.cut(start, end)
        self.ranges.insert(self.place(start), Range(start, end, of))

    def within(self, start: int, end: int) -> list[Range]:
        """The ranges between two addresses, cut at these."""
        first = self.place(start)
        if first and self.ranges[first - 1].end > start:
            first -= 1
        found = []
        for it in self.ranges[first:]:
            if it.start >= end:
                break
            found.append(Range(max(it.start, start), min(it.end, end), it.of))
        return found

    def at(self, address: int) -> Any:
        """What is known of an address; None where it is in no range."""
        found = self.within(address, address + 1)
        return found[0].of if found else None

    def holes(self, start: int, end: int) -> list[tuple[int, int]]:
        """What is in no range between two addresses."""
        found, at = [], start
        for it in self.within(start, end):
            found += [(at, it.start)] if at < it.start else []
            at = it.end
        return found + ([(at, end)] if at < end else [])
