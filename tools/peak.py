"""How many frames a trace holds at most, told by its lines alone.

A written page has a frame; a fork shares it, and whoever writes then gets another one. What goes
out to swap and comes back changes nothing of this: so it is also how many pages there are at once.
"""
import dataclasses
from typing import Iterator

from marks import Marks
from ranges import PAGE, up


@dataclasses.dataclass(slots=True)
class Pages:
    """What a process has: the frame of each written page, by its number, and what calls say."""

    frames: dict[int, int] = dataclasses.field(default_factory=dict)
    marks: Marks = dataclasses.field(default_factory=Marks)


class Peak:
    """The frames that the lines so far hold, and held at most."""

    def __init__(self):
        self.processes: dict[int, Pages] = {}
        # of each frame how many entries name it
        self.names: dict[int, int] = {}
        self.last = self.most = 0

    def take(self, line: str) -> None:
        """A line that is done."""
        name, *words = line.split(" ")
        method = getattr(self, f"do_{name}", None)
        if method:
            method(*words)

    def pages(self, process: str) -> Pages:
        return self.processes.setdefault(int(process), Pages())

    def drop(self, frame: int) -> None:
        self.names[frame] -= 1
        if not self.names[frame]:
            del self.names[frame]

    def hold(self, frame: int) -> int:
        self.names[frame] = self.names.get(frame, 0) + 1
        return frame

    def cut(self, pages: Pages, start: int, end: int) -> Iterator[tuple[int, int]]:
        """Takes the frames of a range away from their pages, each still named."""
        first, last = start // PAGE, end // PAGE
        few = pages.frames if len(pages.frames) < last - first else range(first, last)
        for page in [it for it in few if first <= it < last and it in pages.frames]:
            yield page, pages.frames.pop(page)

    def clear(self, pages: Pages, start: int, end: int) -> None:
        """No frame of a range stays."""
        for _, frame in self.cut(pages, start, end):
            self.drop(frame)

    def write(self, pages: Pages, first: int, past: int) -> None:
        """Each page of a range, by its number, gets a frame of its own."""
        frames = pages.frames
        for page in range(first, past):
            if self.names.get(frames.get(page, -1)) == 1:
                continue
            self.last += 1
            old, frames[page] = frames.get(page), self.hold(self.last)
            # (a page is copied while its frame is held)
            self.most = max(self.most, len(self.names))
            if old is not None:
                self.drop(old)

    # lines, by name

    def do_write(self, process: str, at: str, text: str) -> None:
        first = int(at, 16)
        last = (first + len(text) // 2 - 1) // PAGE
        self.write(self.pages(process), first // PAGE, last + 1)

    def do_mlock(self, process: str, at: str, length: str) -> None:
        """Pages that may be written come in as by a write, where the range has no hole."""
        pages, start = self.pages(process), int(at, 16)
        end, prots = start + int(length), pages.marks.prots
        if not int(length) or prots.holes(start, end):
            return
        for it in prots.within(start, end):
            if "w" in it.of:
                self.write(pages, it.start // PAGE, -(-it.end // PAGE))

    def do_fork(self, process: str, child: str) -> None:
        ours, pages = self.pages(process), self.pages(child)
        pages.marks = ours.marks.for_child()
        pages.frames = {page: self.hold(frame) for page, frame in ours.frames.items()}
        for it in ours.marks.kept_back():
            self.clear(pages, it.start, it.end)

    def do_exit(self, process: str) -> None:
        for frame in self.processes.pop(int(process), Pages()).frames.values():
            self.drop(frame)

    def do_mmap(self, process: str, length: str, prot: str, *place: str) -> None:
        if place[:1] == ("fixed",):
            pages, start = self.pages(process), int(place[1], 16)
            self.clear(pages, start, start + up(int(length)))
            pages.marks.map(start, start + up(int(length)), prot)

    def do_mprotect(self, process: str, at: str, length: str, prot: str) -> None:
        start = int(at, 16)
        self.pages(process).marks.protect(start, start + up(int(length)), prot)

    def do_munmap(self, process: str, at: str, length: str) -> None:
        pages, start = self.pages(process), int(at, 16)
        self.clear(pages, start, start + up(int(length)))
        pages.marks.unmap(start, start + up(int(length)))

    def do_mremap(self, process: str, at: str, old: str, new: str, *way: str) -> None:
        pages, start = self.pages(process), int(at, 16)
        before, after = up(int(old)), up(int(new))
        if not way:
            self.clear(pages, start + after, start + before)
            pages.marks.resize(start, before, after)
            return
        to = int(way[1], 16)
        self.clear(pages, to, to + after)
        for page, frame in list(self.cut(pages, start, start + min(before, after))):
            pages.frames[page + (to - start) // PAGE] = frame
        self.clear(pages, start, start + before)
        pages.marks.move(start, before, after, to, way[0] == "dontunmap")

    def do_madvise(self, process: str, at: str, length: str, word: str) -> None:
        pages, start = self.pages(process), int(at, 16)
        end = start + up(int(length))
        if word == "dontneed":
            self.clear(pages, start, end)
        else:
            pages.marks.advise(start, end, word)
