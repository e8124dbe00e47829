"""Which frames the entries of processes name, told by commands with their replies, and how many
are in use. An entry that names no frame isn't kept: where it gets one, a note says so.
"""
from typing import Callable

from bits import MARK, Notes
from marks import Marks
from ranges import PAGE, up
from shapes import MOST, Shape

ALL = "all"
# how many words each note has
COUNTS = {"new": 4, "copy": 4, "map": 4, "join": 4, "put": 3, "load": 3, "move": 3}
COUNTS |= {"unmap": 2, "drop": 2}
# what follows a note: it is given the words of a reply, and the place of the note's name there
Follows = Callable[[list[str], int], None]
Done = tuple[Follows, int]
# notes that stand together where a page goes out, and where one comes in: each is followed at once
OUT = ["put", "unmap", "start", "done", "drop"]
IN = ["load", "map", "drop"]


class Held:
    """The frame of each page that has one, and how many frames each process had at most. `marks`
    are what calls say of pages, by process.
    """

    def __init__(self, marks: dict[str, Marks]):
        self.marks = marks
        self.tables: dict[str, dict[int, str]] = {}
        # of each frame how many entries name it, and a page where one does, or did, with its table
        self.names: dict[str, int] = {}
        self.place_of: dict[str, tuple[dict[int, str], int]] = {}
        self.frame_at: dict[str, str] = {}
        self.slot_of: dict[str, str] = {}
        self.merged: set[str] = set()
        # how many frames are in use, and were at most
        self.used = 0
        self.most: dict[str, int] = {ALL: 0}
        self.does: dict[str, Callable[[list[str], str], None]] = {
            "spawn": self.spawn,
            "fork": self.fork,
            "exit": self.exit,
            "munmap": self.munmap,
            "mmap": self.mmap,
            "mremap": self.mremap,
            "madvise": self.madvise,
        }
        self.notes: dict[str, Follows] = {
            "new": self.enter,
            "copy": self.enter,
            "map": self.enter,
            "join": self.enter,
            "put": self.put,
            "load": self.load,
            "unmap": self.unmap,
            "drop": self.drop,
            "share": self.share,
            "move": self.renumber,
        }
        self.plans: dict[Shape, list[Done]] = {}

    def take(self, words: list[str], answer: str, notes: Notes) -> None:
        """A command with its reply."""
        does = self.does.get(words[0])
        if does:
            does(words, answer)
        for it in notes:
            if len(it) != COUNTS.get(it[0], len(it)):
                raise ValueError
            if it[0] in self.notes:
                self.notes[it[0]](it, 0)

    def follow(self, words: list[str], reply: str, shape: Shape) -> None:
        """The same of a reply whose shape is known: it is cut once, and only notes that change
        something here are looked at.
        """
        if not shape.is_even or words[0] in self.does:
            answer, *notes = reply.split(MARK)
            self.take(words, answer, [it.split(" ") for it in notes])
            return
        plan = self.plans.get(shape)
        if plan is None:
            plan = self.plan(shape)
        if plan:
            told = reply.replace(MARK, " ").split(" ")
            for does, at in plan:
                does(told, at)

    def plan(self, shape: Shape) -> list[Done]:
        """What follows a reply of a shape."""
        found, past, names = [], 0, shape.names
        for place, it in enumerate(shape.lines):
            if place < past:
                continue
            for together, does in ((OUT, self.go_out), (IN, self.come_in)):
                if names[place : place + len(together)] == together:
                    found.append((does, it.at))
                    past = place + len(together)
            if place >= past and it.name in self.notes:
                found.append((self.notes[it.name], it.at))
        if len(self.plans) == MOST:
            self.plans.clear()
        self.plans[shape] = found
        return found

    # entries

    def enter(self, told: list[str], at: int) -> None:
        """The entry of a page names a frame."""
        _, process, address, frame = told[at : at + 4]
        page, table = int(address, 16) // PAGE, self.tables[process]
        old, count = table.get(page), self.names.get(frame, 0)
        self.names[frame] = count + 1
        if not count:
            self.place_of[frame] = table, page
            if frame not in self.slot_of:
                self.use()
        if old is not None:
            self.leave(old)
        table[page] = frame
        if (old is None or self.merged) and len(table) > self.most.get(process, 0):
            self.tell(process)

    def tell(self, process: str) -> None:
        """The frames of a process are counted: they may be more than before. (Two of its pages have
        one frame only where that is merged.)
        """
        table = self.tables[process]
        count = len(set(table.values())) if self.merged else len(table)
        if count > self.most.get(process, 0):
            self.most[process] = count

    def use(self) -> None:
        self.used += 1
        if self.used > self.most[ALL]:
            self.most[ALL] = self.used

    def leave(self, frame: str) -> None:
        """An entry names a frame no more."""
        count = self.names[frame] - 1
        if count:
            self.names[frame] = count
            return
        del self.names[frame]
        if frame not in self.slot_of:
            self.free(frame)

    def free(self, frame: str) -> None:
        self.used -= 1
        self.merged.discard(frame)

    def cut(self, process: str, start: int, end: int) -> None:
        """The pages of a range have no frames any more."""
        table, first, past = self.tables[process], start // PAGE, end // PAGE
        if past - first < len(table):
            found = [(it, table[it]) for it in range(first, past) if it in table]
        else:
            found = [it for it in table.items() if first <= it[0] < past]
        for page, frame in found:
            del table[page]
            self.leave(frame)

    # notes

    def put(self, told: list[str], at: int) -> None:
        """A frame that entries name is cached, too."""
        frame, slot = told[at + 1], told[at + 2]
        self.frame_at[slot], self.slot_of[frame] = frame, slot

    def load(self, told: list[str], at: int) -> None:
        """A frame that was free is cached."""
        slot, frame = told[at + 1], told[at + 2]
        self.frame_at[slot], self.slot_of[frame] = frame, slot
        self.use()

    def share(self, told: list[str], at: int) -> None:
        self.merged.add(told[at + 1])

    def drop(self, told: list[str], at: int) -> None:
        frame = self.frame_at.pop(told[at + 1])
        del self.slot_of[frame]
        if frame not in self.names:
            self.free(frame)

    def owners(self, frame: str) -> list[tuple[dict[int, str], int]]:
        """The pages whose entries name a frame, each with the table that has it. Most often it is
        one, or the same page of each process.
        """
        table, page = self.place_of[frame]
        if self.names[frame] == 1 and table.get(page) == frame:
            return [(table, page)]
        found = [(it, page) for it in self.tables.values() if it.get(page) == frame]
        if len(found) == self.names[frame]:
            return found
        every = ((it, page) for it in self.tables.values() for page in it)
        return [(it, page) for it, page in every if it[page] == frame]

    def unmap(self, told: list[str], at: int) -> None:
        frame = told[at + 1]
        table, page = self.place_of[frame]
        if self.names[frame] == 1 and table.get(page) == frame:
            del table[page]
        else:
            for table, page in self.owners(frame):
                del table[page]
        del self.names[frame]

    def go_out(self, told: list[str], at: int) -> None:
        """The notes OUT: a frame is free, and was cached between only."""
        frame, slot = told[at + 1], told[at + 2]
        is_one = frame == told[at + 4] and slot == told[at + 6] == told[at + 8] == told[at + 10]
        if is_one and frame not in self.slot_of and slot not in self.frame_at:
            self.unmap(told, at + 3)
            self.free(frame)
        else:
            self.put(told, at)
            self.unmap(told, at + 3)
            self.drop(told, at + 9)

    def come_in(self, told: list[str], at: int) -> None:
        """The notes IN: a frame that was free is at an entry, and was cached between only."""
        slot, frame = told[at + 1], told[at + 2]
        is_one = frame == told[at + 6] and slot == told[at + 8] and slot not in self.frame_at
        if is_one and frame not in self.names and frame not in self.slot_of:
            self.enter(told, at + 3)
        else:
            self.load(told, at)
            self.enter(told, at + 3)
            self.drop(told, at + 7)

    def renumber(self, told: list[str], at: int) -> None:
        """What names a frame names another, which was free."""
        frame, to = told[at + 1], told[at + 2]
        if frame in self.names:
            for table, page in self.owners(frame):
                table[page] = to
            self.names[to] = self.names.pop(frame)
            self.place_of[to] = self.place_of[frame]
        if frame in self.slot_of:
            slot = self.slot_of[to] = self.slot_of.pop(frame)
            self.frame_at[slot] = to
        if frame in self.merged:
            self.merged.remove(frame)
            self.merged.add(to)

    # commands

    def spawn(self, words: list[str], answer: str) -> None:
        if answer == "ok":
            self.tables[words[1]] = {}

    def fork(self, words: list[str], answer: str) -> None:
        if answer != "ok":
            return
        parent, child = words[1:3]
        table, names = self.tables[parent].copy(), self.names
        self.tables[child] = table
        for frame in table.values():
            names[frame] += 1
        for it in self.marks[parent].kept_back():
            self.cut(child, it.start, it.end)
        self.tell(child)

    def exit(self, words: list[str], answer: str) -> None:
        if answer == "ok":
            table = self.tables.pop(words[1])
            for frame in table.values():
                self.leave(frame)
            table.clear()

    def munmap(self, words: list[str], answer: str) -> None:
        if answer == "ok":
            start = int(words[2], 16)
            self.cut(words[1], start, start + up(int(words[3])))

    def mmap(self, words: list[str], answer: str) -> None:
        if answer.startswith("map ") and words[4:5] == ["fixed"]:
            start = int(answer[4:], 16)
            self.cut(words[1], start, start + up(int(words[2])))

    def mremap(self, words: list[str], answer: str) -> None:
        if not answer.startswith("map "):
            return
        process, start, to = words[1], int(words[2], 16), int(answer[4:], 16)
        old, new = up(int(words[3])), up(int(words[4]))
        if to != start:
            self.cut(process, to, to + new)
            table, by = self.tables[process], (to - start) // PAGE
            first, past = start // PAGE, (start + min(old, new)) // PAGE
            for page in [it for it in table if first <= it < past]:
                frame = table[page + by] = table.pop(page)
                self.place_of[frame] = table, page + by
        if new < old:
            self.cut(process, start + new, start + old)

    def madvise(self, words: list[str], answer: str) -> None:
        """`dontneed`: refused, too, it may have done its pages that are mapped, but at a locked
        page it stops.
        """
        if words[4] != "dontneed" or words[1] not in self.tables:
            return
        start = int(words[2], 16)
        end = start + up(int(words[3]))
        if answer == "err EINVAL" and start % PAGE == 0 and end < 2**64:
            locked = self.marks[words[1]].locked.within(start, end)
            end = locked[0].start if locked else start
        elif answer not in ("ok", "err ENOMEM"):
            return
        self.cut(words[1], start, end)
