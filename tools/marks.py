"""What calls say of the pages of a process: their protection, what a fork does with them, and
which are locked.
"""
from ranges import Range, Ranges

# advice that says what a fork does with a page, and the word that takes it back
AT_FORK = ("dontfork", "wipeonfork")
UNSAID = {"dofork": "dontfork", "keeponfork": "wipeonfork"}


class Marks:
    """The ranges that have a protection, those that have one of the advices, and those locked."""

    def __init__(self):
        self.prots, self.locked = Ranges(), Ranges()
        self.at_fork = {it: Ranges() for it in AT_FORK}
        self.all = (self.prots, self.locked, *self.at_fork.values())

    def unmap(self, start: int, end: int) -> None:
        for it in self.all:
            it.cut(start, end)

    def map(self, start: int, end: int, prot: str) -> None:
        self.unmap(start, end)
        self.prots.put(start, end, prot)

    def before_hole(self, start: int, end: int) -> list[Range]:
        """What is mapped of a range, up to the first hole."""
        holes = self.prots.holes(start, end)
        return self.prots.within(start, holes[0][0] if holes else end)

    def protect(self, start: int, end: int, prot: str) -> None:
        for it in self.before_hole(start, end):
            self.prots.put(it.start, it.end, prot)

    def lock(self, start: int, end: int) -> None:
        for it in self.before_hole(start, end):
            self.locked.put(it.start, it.end, True)

    def unlock(self, start: int, end: int) -> None:
        for it in self.before_hole(start, end):
            self.locked.cut(it.start, it.end)

    def advise(self, start: int, end: int, word: str) -> None:
        if word in AT_FORK:
            self.at_fork[word].put(start, end, True)
        elif word in UNSAID:
            self.at_fork[UNSAID[word]].cut(start, end)

    def resize(self, start: int, old: int, new: int) -> None:
        """So many bytes become more or fewer, in place."""
        if new < old:
            self.unmap(start + new, start + old)
        for it in self.all if new > old else ():
            last = it.at(start + old - 1)
            if last is not None:
                it.put(start + old, start + new, last)

    def move(self, start: int, old: int, new: int, to: int, stays: bool) -> None:
        """They are elsewhere then. With `stays` the old ones are mapped still, and not locked."""
        kept, by = min(old, new), to - start
        parts = [it.within(start, start + kept) for it in self.all]
        if not stays:
            self.unmap(start, start + old)
        self.locked.cut(start, start + old)
        self.unmap(to, to + new)
        for ranges, found in zip(self.all, parts):
            for it in found:
                ranges.put(it.start + by, it.end + by, it.of)
        if kept < new:
            self.resize(to, kept, new)

    def kept_back(self) -> list[Range]:
        """What a child doesn't get."""
        return [it for ranges in self.at_fork.values() for it in ranges]

    def for_child(self) -> "Marks":
        found = Marks()
        for it in self.prots:
            found.prots.put(it.start, it.end, it.of)
        for it in self.at_fork["wipeonfork"]:
            found.at_fork["wipeonfork"].put(it.start, it.end, True)
        for it in self.at_fork["dontfork"]:
            found.unmap(it.start, it.end)
        return found
