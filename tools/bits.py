"""The write bits of pages, told by commands with their replies.

A write goes without a fault where the entry of its page has its write bit. `new` and `copy` set it;
so does a write that finds no other entry at its frame, which has no note: the page is used again.
A fork takes the bit of each page that its child gets, and a page that comes in from its slot has
none. It goes with its page, whatever becomes of the protection. Where an entry goes, or is merged,
nothing is kept of it here: the next write to the page has a note.
"""
from __future__ import annotations

from typing import TYPE_CHECKING, Callable, Collection

from marks import Marks
from ranges import PAGE, up

if TYPE_CHECKING:
    from shapes import Command, Shape

# words of a trace for which one has to know what calls said of pages
ASKS_MARKS = ("mlock ", " dontfork", " wipeonfork")
# notes of an entry that is another then
CHANGES = {"new", "copy", "map"}
# the first words of replies to what was served in part
IN_PART = ("segv ", "bus ", "oom ")
NONE: tuple[int, ...] = ()
# the words of each note
Notes = list[list[str]]
# parts the lines of a reply: no ASCII text has room for it
MARK = "\xff"
# bytes that a `mlock` locks at most
MOST_LOCKED = 16384 * PAGE


def asks_marks(trace: str) -> bool:
    """Whether one has to know what calls said of pages."""
    return any(it in trace for it in ASKS_MARKS)


def whole(at: int, length: int) -> tuple[int, int]:
    """The pages in which a range has bytes: where they begin and end."""
    return at // PAGE * PAGE, -(-(at + length) // PAGE) * PAGE


def changed(process: str, notes: Notes) -> set[int]:
    """The pages of a process whose entries are others, by the notes."""
    found = (it for it in notes if it[0] in CHANGES and it[1:2] == [process])
    return {int(it[2], 16) // PAGE for it in found}


class Bits:
    """The pages of each process that have the bit. `asks_marks`: what calls say of pages is
    followed, too.
    """

    def __init__(self, asks_marks: bool):
        self.asks_marks = asks_marks
        self.pages: dict[str, set[int]] = {}
        self.marks: dict[str, Marks] = {}
        self.does: dict[str, Callable[[list[str], str, Notes], Collection[int]]] = {
            "write": self.write,
            "read": self.load,
            "swapoff": self.load,
            "mlock": self.mlock,
            "fork": self.fork,
            "spawn": self.spawn,
            "mremap": self.mremap,
        }
        if asks_marks:
            names = ("mmap", "munmap", "mprotect", "madvise", "munlock")
            self.does |= {it: self.mark for it in names}

    def take(self, words: list[str], answer: str, notes: Notes) -> Collection[int]:
        """A command with its reply: the pages whose bit came back without a note."""
        does = self.does.get(words[0])
        return does(words, answer, notes) if does else NONE

    def follow(self, command: Command, reply: str, shape: Shape) -> Collection[int]:
        """The same of a reply whose shape is known. Of most accesses no note needs to be read."""
        words, page = command
        if page >= 0 and shape.is_ok:
            bits = self.pages[words[1]]
            if page in bits:
                return NONE
            bits.add(page)
            return NONE if shape.changes else (page,)
        name = words[0]
        if name not in self.does or name == "read" and not shape.maps:
            return NONE
        answer, *notes = reply.split(MARK)
        return self.does[name](words, answer, [it.split(" ") for it in notes])

    def write(self, words: list[str], answer: str, notes: Notes) -> Collection[int]:
        at, end = int(words[2], 16), len(words[3]) // 2
        if answer != "ok":
            end = int(answer.split(" ")[1]) if answer.startswith(IN_PART) else 0
            if not end:
                return self.load(words, answer, notes) if notes else NONE
        first, last, bits = at // PAGE, (at + end - 1) // PAGE, self.pages[words[1]]
        if first != last:
            return self.serve(words[1], range(first, last + 1), notes)
        if first in bits:
            return NONE
        bits.add(first)
        for it in notes:
            if it[0] in CHANGES:
                return NONE
        return (first,)

    def serve(self, process: str, pages: Collection[int], notes: Notes) -> Collection[int]:
        """Pages are written to: those that have neither their bit nor a note."""
        bits, told = self.pages[process], changed(process, notes) if notes else ()
        found = [it for it in pages if it not in bits and it not in told]
        bits.difference_update(told)
        bits.update(pages)
        return found

    def load(self, _: list[str], __: str, notes: Notes) -> Collection[int]:
        """Pages that come in."""
        for it in notes:
            if it[0] == "map":
                self.pages[it[1]].discard(int(it[2], 16) // PAGE)
        return NONE

    def mlock(self, words: list[str], answer: str, notes: Notes) -> Collection[int]:
        """Pages come in, as by a write where that is allowed, up to one that doesn't."""
        process, length, marks = words[1], int(words[3]), self.marks.get(words[1])
        start, end = whole(int(words[2], 16), length)
        is_served = answer == "ok" or answer.startswith(IN_PART)
        if not (is_served or answer == "err ENOMEM") or not length or end - start > MOST_LOCKED:
            return NONE
        marks.lock(start, end)
        if not is_served:
            return NONE
        if answer != "ok":
            end = start + int(answer.split(" ")[1])
        self.load(words, answer, notes)
        parts = (it for it in marks.prots.within(start, end) if "w" in it.of)
        pages = [it for part in parts for it in range(part.start // PAGE, part.end // PAGE)]
        return self.serve(process, pages, notes)

    def fork(self, words: list[str], answer: str, _: Notes) -> Collection[int]:
        process, child = words[1:3]
        if answer == "ok":
            marks, bits = self.marks[process], self.pages[process]
            kept = [range(it.start // PAGE, it.end // PAGE) for it in marks.kept_back()]
            self.pages[process] = {page for it in kept for page in bits if page in it}
            self.pages[child] = set()
            self.marks[child] = marks.for_child() if self.asks_marks else marks
        return NONE

    def spawn(self, words: list[str], answer: str, _: Notes) -> Collection[int]:
        if answer == "ok":
            self.pages[words[1]], self.marks[words[1]] = set(), Marks()
        return NONE

    def mremap(self, words: list[str], answer: str, _: Notes) -> Collection[int]:
        if not answer.startswith("map "):
            return NONE
        process, start, to = words[1], int(words[2], 16), int(answer[4:], 16)
        old, new = up(int(words[3])), up(int(words[4]))
        marks, is_there = self.marks[process], "dontunmap" in words
        if self.asks_marks and to == start:
            marks.resize(start, old, new)
        elif self.asks_marks:
            marks.move(start, old, new, to, is_there)
        if to != start:
            bits, first, by = self.pages[process], start // PAGE, (to - start) // PAGE
            moved = {it for it in bits if first <= it < first + min(old, new) // PAGE}
            bits -= moved
            bits -= {it for it in bits if first + by <= it < first + by + new // PAGE}
            bits |= {it + by for it in moved}
        return NONE

    def mark(self, words: list[str], answer: str, _: Notes) -> Collection[int]:
        """What calls say of pages."""
        process, name = words[1], words[0]
        if name == "mmap":
            if answer.startswith("map "):
                start = int(answer[4:], 16)
                self.marks[process].map(start, start + up(int(words[2])), words[3])
            return NONE
        start, end = int(words[2], 16), int(words[2], 16) + up(int(words[3]))
        if start == end:
            return NONE
        if answer == "ok" and name == "munmap":
            self.marks[process].unmap(start, end)
        elif answer in ("ok", "err ENOMEM") and name == "mprotect":
            # (of a range that would end past the last address nothing changes)
            self.marks[process].protect(start, end if end < 2**64 else start, words[4])
        elif answer in ("ok", "err ENOMEM") and name == "madvise":
            self.marks[process].advise(start, end, words[4])
        elif answer in ("ok", "err ENOMEM") and name == "munlock":
            self.marks[process].unlock(*whole(start, int(words[3])))
        return NONE
