"""A trace at a coarser grain: one page of it stands for 4, 8 or 16 of the program's, so that more
memory finds frames.

A page is mapped while a part of it is, with all that its parts allow; it is another page, and so
without bytes, where all of it is mapped anew. So neighbours within one page are not told apart.
Where an mremap takes pages to a place that doesn't fit the grain, those that were written are
written there.
"""
from typing import Callable, Iterator

from labels import MAPPING
from marks import Marks
from memory import Command
from ranges import PAGE, Ranges, up

# the pages of the program that one stands for, by the word that asks for it
GRAINS = {"16K": 4, "32K": 8, "64K": 16}

# a range of pages of the trace, from one on and below another
Pages = tuple[int, int]
NO_PAGES: Pages = (0, 0)


def union(prots: set[str]) -> str:
    """What any of some protections allows; empty where there is none."""
    return "".join(max(it) for it in zip(*prots))


class Process:
    """What a process has mapped: at the fine grain, and in the trace. `written` are the pages of
    the trace that it wrote to.
    """

    def __init__(self, parent: "Process | None" = None):
        self.marks = parent.marks.for_child() if parent else Marks()
        self.shown = Ranges(parent.shown if parent else ())
        self.written = set(parent.written if parent else ())


class Grain:
    """The commands of a fine trace, one after the other, and those of the coarse one."""

    def __init__(self, pages: int):
        self.pages, self.size = pages, pages * PAGE
        self.processes: dict[str, Process] = {}
        self.commands: list[Command] = []
        # the command that is taken
        self.fine: Command | None = None
        self.does: dict[str, Callable[[list[str]], None]] = {
            "spawn": self.spawn,
            "fork": self.fork,
            "exit": self.exit,
            "mmap": self.mmap,
            "munmap": self.munmap,
            "mprotect": self.mprotect,
            "mremap": self.mremap,
            "madvise": self.madvise,
            "mlock": self.lock,
            "munlock": self.lock,
            "read": self.access,
            "write": self.access,
        }

    def take(self, command: Command) -> None:
        self.fine = command
        words = command.line.split(" ")
        self.does[words[0]](words)

    def add(self, line: str, wanted: str = "ok", comment: str = "") -> None:
        it = self.fine
        self.commands.append(
            Command(line, wanted, it.place, it.origin, comment, it.missing, it.caller)
        )

    # processes

    def spawn(self, words: list[str]) -> None:
        self.processes[words[1]] = Process()
        self.add(self.fine.line, comment=self.fine.comment)

    def fork(self, words: list[str]) -> None:
        self.processes[words[2]] = Process(self.processes[words[1]])
        self.add(self.fine.line, comment=self.fine.comment)
        # (advice may have kept a part of a page from the child, and so all of it)
        for it in list(self.processes[words[2]].shown):
            self.show(words[2], (it.start, it.end))

    def exit(self, words: list[str]) -> None:
        del self.processes[words[1]]
        self.add(self.fine.line)

    # what is mapped

    def around(self, start: int, end: int) -> Pages:
        """The pages of which a range has a part."""
        return start // self.size, -(-end // self.size)

    def whole(self, process: str, start: int, end: int) -> Pages:
        """The pages of which nothing is mapped outside a range."""
        (first, past), prots = self.around(start, end), self.processes[process].marks.prots
        first += bool(prots.within(first * self.size, start))
        past -= bool(prots.within(end, past * self.size))
        return first, max(first, past)

    def parts(self, process: str, pages: Pages, cuts: set[int]) -> Iterator[tuple[int, int, str]]:
        """Ranges of pages with their protection, cut where that changes and at some places."""
        prots, size = self.processes[process].marks.prots, self.size
        for it in prots.within(pages[0] * size, pages[1] * size):
            cuts |= {it.start // size, -(-it.start // size), it.end // size, -(-it.end // size)}
        places = sorted(it for it in {*pages, *cuts} if pages[0] <= it <= pages[1])
        for first, past in zip(places, places[1:]):
            found = {it.of for it in prots.within(first * size, past * size)}
            yield first, past, union(found)

    def show(self, process: str, pages: Pages, fresh: Pages = NO_PAGES, comment: str = "") -> None:
        """Brings the trace to what is mapped now. `fresh` pages are mapped anew."""
        shown = self.processes[process].shown
        edges = {at for it in shown.within(*pages) for at in (it.start, it.end)}
        actions: list[list] = []
        for first, past, prot in self.parts(process, pages, {*fresh, *edges}):
            now, is_fresh = shown.at(first) or "", fresh[0] <= first < fresh[1]
            if prot == now and not is_fresh:
                continue
            name = "munmap" if not prot else "mmap" if is_fresh or not now else "mprotect"
            if actions and actions[-1][1] == first and actions[-1][2:] == [name, prot]:
                actions[-1][1] = past
            else:
                actions.append([first, past, name, prot])
        for first, past, name, prot in actions:
            self.act(process, (first, past), name, prot, comment)

    def act(self, process: str, pages: Pages, name: str, prot: str, comment: str) -> None:
        """A command of the trace."""
        it, (first, past) = self.processes[process], pages
        at, length = f"{first * PAGE:x}", (past - first) * PAGE
        if name != "mprotect":
            it.written -= {page for page in it.written if first <= page < past}
        if name == "munmap":
            it.shown.cut(*pages)
            self.add(f"munmap {process} {at} {length}")
            return
        it.shown.put(*pages, prot)
        if name == "mmap":
            self.add(f"mmap {process} {length} {prot} fixed {at}", f"map {at}", comment)
        else:
            self.add(f"mprotect {process} {at} {length} {prot}")

    # calls

    def mmap(self, words: list[str]) -> None:
        _, process, length, prot, _, at = words
        start, end = int(at, 16), int(at, 16) + up(int(length))
        fresh = self.whole(process, start, end)
        self.processes[process].marks.map(start, end, prot)
        comment = self.fine.comment or f"{MAPPING}{start:x}-{end:x}"
        self.show(process, self.around(start, end), fresh, comment)

    def munmap(self, words: list[str]) -> None:
        start, end = self.range_of(words)
        self.processes[words[1]].marks.unmap(start, end)
        self.show(words[1], self.around(start, end))

    def mprotect(self, words: list[str]) -> None:
        start, end = self.range_of(words)
        self.processes[words[1]].marks.protect(start, end, words[4])
        self.show(words[1], self.around(start, end))

    def range_of(self, words: list[str]) -> Pages:
        """The bytes of a range, in whole pages of the program."""
        start = int(words[2], 16)
        return start, start + up(int(words[3]))

    def mremap(self, words: list[str]) -> None:
        process, start, old, new = words[1], int(words[2], 16), up(int(words[3])), up(int(words[4]))
        to = int(words[6], 16) if len(words) > 6 else start
        it = self.processes[process]
        first, past = self.around(start, start + min(old, new))
        moved = [page for page in sorted(it.written) if first <= page < past]
        if to == start:
            it.marks.resize(start, old, new)
        else:
            it.marks.move(start, old, new, to, words[5] == "dontunmap")
        self.show(process, self.around(start, start + max(old, new)))
        self.show(process, self.around(to, to + new), comment=f"{MAPPING}{to:x}-{to + new:x}")
        places = (max(page * self.size, start) + to - start for page in moved if to != start)
        for at in places:
            if "w" in (it.shown.at(at // self.size) or ""):
                self.write(process, at)

    def madvise(self, words: list[str]) -> None:
        """Advice on all of a page."""
        process, (start, end) = words[1], self.range_of(words)
        first, past = self.whole(process, start, end)
        self.processes[process].marks.advise(start, end, words[4])
        if first < past:
            at, length = first * PAGE, (past - first) * PAGE
            self.add(f"madvise {process} {at:x} {length} {words[4]}", self.fine.wanted)

    def lock(self, words: list[str]) -> None:
        """All of a page is locked, or no more."""
        process, (start, end) = words[1], self.range_of(words)
        first, past = self.whole(process, start, end)
        if first < past:
            line = f"{words[0]} {process} {first * PAGE:x} {(past - first) * PAGE}"
            self.add(line, self.fine.wanted)

    # accesses

    def access(self, words: list[str]) -> None:
        """An access, where it is served."""
        if self.fine.wanted.startswith("segv"):
            return
        if words[0] == "write":
            self.write(words[1], int(words[2], 16))
        else:
            self.add(f"read {words[1]} {int(words[2], 16) // self.pages:x} 1", "data")

    def write(self, process: str, at: int) -> None:
        self.processes[process].written.add(at // self.size)
        self.add(f"write {process} {at // self.pages:x} 01")


def coarse(commands: list[Command], pages: int) -> list[Command]:
    """The commands at a coarser grain."""
    grain = Grain(pages)
    for it in commands:
        grain.take(it)
    return grain.commands
