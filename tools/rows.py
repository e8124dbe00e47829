"""The rows of docs/LINUX.md by which Linux answers a line otherwise, and what brings its process to
where the model's is then.

A line that a row of `CAREFULLY` speaks of is asked of a copy of its process first. Where the model
refuses the line, that is all, and the process is as it was. Where the model does it and Linux does
otherwise, `mending` has the lines that come to the same.
"""
import functools
import resource
from typing import Callable, Iterator, NamedTuple

import check
from kernel import Kernel, text_of
from ranges import PAGE, Ranges, up
from shift import LOW, TOP

HUGE = 1 << 21
# the most pages that the model locks at once
MOST_LOCKED = 16384
LIMITS = resource.RLIMIT_AS, resource.RLIMIT_DATA


class Line:
    """A line of a trace with the first line of the model's reply, and what its process has on the
    kernel before it.
    """

    def __init__(self, kernel: Kernel, number: int, words: list[str], said: str):
        self.kernel, self.number, self.words, self.said = kernel, number, words, said
        self.name, self.process = words[0], words[1] if len(words) > 1 else ""

    @functools.cached_property
    def ranges(self) -> Ranges:
        """The areas, each with its protection."""
        return self.kernel.ranges(self.kernel.process(self.process))

    @property
    def how(self) -> str:
        """The word behind which a place is named, or what else says where pages go."""
        words = self.words[4 if self.name == "mmap" else 5 :]
        return words[0] if words else ""

    @property
    def at(self) -> int:
        """The address that the line names first."""
        return int(self.words[5 if self.name == "mmap" else 2], 16)

    @property
    def to(self) -> int:
        """The place that an `mremap` names; -1 where it names none."""
        return int(self.words[6], 16) if self.words[6:] else -1

    @property
    def old(self) -> int:
        return up(int(self.words[3]))

    @property
    def new(self) -> int:
        """The bytes that a call is to lay."""
        return up(int(self.words[2 if self.name == "mmap" else 4]))

    @property
    def place(self) -> int:
        """Where the model laid them; -1 where it refused."""
        return int(self.said[4:], 16) if self.said.startswith("map ") else -1

    @property
    def is_done(self) -> bool:
        """Whether the model laid pages, or locked some."""
        locks = self.name in ("mlock", "munlock") and self.said == "ok" and self.words[3] != "0"
        return locks or self.place >= 0

    def stays(self) -> bool:
        """Whether an `mremap` is in place."""
        return self.how in ("", "maymove") and self.new <= self.old

    def is_of_one_area(self) -> bool:
        """Whether the old range is within one area."""
        found = [(it.start, it.end) for it in self.ranges.within(self.at, self.at + self.old)]
        return found == [(self.at, self.at + self.old)]


class Row(NamedTuple):
    """A row: its section, and how it begins. Of which lines it speaks, and what Linux says then;
    and whether Linux may have changed something where both refuse.
    """

    section: str
    begin: str
    may: Callable[[Line], bool] = lambda _: False
    says: Callable[[Line, str], bool] = lambda *_: False
    changes: bool = False

    def __str__(self):
        return check.text_of((self.section, self.begin))

    def short(self) -> str:
        begin = self.begin.replace("`", "")
        return f'docs/LINUX.md, "{self.section}": {begin} .., as above'


# ---- of which lines they speak


def is_low(line: Line) -> bool:
    return line.how in ("fixed", "noreplace") and line.at < LOW and line.said == "err EPERM"


def is_low_hint(line: Line) -> bool:
    return line.how == "at" and PAGE <= line.at < LOW and line.place >= 0


def is_in_last_page(line: Line) -> bool:
    return line.how in ("fixed", "noreplace") and line.at > 2**64 - PAGE


def is_huge(line: Line) -> bool:
    """Whether the model laid whole 2 MiB where no line says."""
    if line.place < 0 or line.how in ("fixed", "noreplace") or line.to >= 0:
        return False
    return not line.new % HUGE and (line.name == "mmap" or line.place != line.at)


def is_new_above(line: Line) -> bool:
    return TOP < line.new < 2**64


def is_no_old(line: Line) -> bool:
    return line.old % 2**64 == 0


def is_as_long(line: Line) -> bool:
    return line.how == "dontunmap" and line.old == line.new and line.words[3] != line.words[4]


def meets(line: Line) -> bool:
    """Whether the old range meets [0, NEW) or, where a place is named, its tail ends above TOP."""
    if line.how == "dontunmap" and line.to < 0:
        return line.at < line.new
    return line.to >= 0 and line.new < line.old and line.at + line.old > TOP


def is_over_bounds(line: Line) -> bool:
    return not line.stays() and not line.is_of_one_area()


def is_low_target(line: Line) -> bool:
    return 0 <= line.to < LOW and line.said == "err EPERM"


def is_off_page(line: Line) -> bool:
    return not int(line.words[3]) and bool(line.at % PAGE)


def is_near_end(line: Line) -> bool:
    """Whether the sum that is rounded up to pages wraps."""
    return line.at % PAGE + int(line.words[3]) > 2**64 - PAGE


def is_long(line: Line) -> bool:
    return up(line.at % PAGE + int(line.words[3])) > MOST_LOCKED * PAGE


def has_no_access(line: Line) -> bool:
    """Whether the model locks pages, one of which can't be accessed."""
    parts = line.ranges.within(line.at, line.at + int(line.words[3]))
    return line.said == "ok" and any(it.of == "---" for it in parts)


# ---- what Linux says then


def says_lowest(line: Line, reply: str) -> bool:
    return reply in ("err EEXIST", f"map {line.at:x}")


def says_low(_, reply: str) -> bool:
    return reply.startswith("map ") and PAGE <= int(reply[4:], 16) <= LOW


def says_huge(line: Line, reply: str) -> bool:
    if not reply.startswith("map "):
        return False
    return not line.kernel.shift.there(int(reply[4:], 16)) % HUGE


def says_last(line: Line, reply: str) -> bool:
    return reply == text_of(2**64 - line.at)


def says_bounds(line: Line, reply: str) -> bool:
    if reply == "err EPERM":
        return 0 <= line.to < LOW
    return reply == "err EFAULT" or line.said == "err EFAULT" and says_target(line, reply)


def says_target(line: Line, reply: str) -> bool:
    return reply == f"map {line.to:x}"


def says_hole(_, reply: str) -> bool:
    return reply == "err ENOMEM"


def says_one_page(line: Line, reply: str) -> bool:
    """Whether Linux answers as for the page of the address."""
    return reply == ("err EINVAL" if line.at >= 2**64 - PAGE else "err ENOMEM")


def says_other(_, reply: str) -> bool:
    return reply in ("ok", "err ENOMEM", "err EAGAIN", "err EPERM")


def says_invalid(_, reply: str) -> bool:
    return reply == "err EINVAL"


def says_fault(_, reply: str) -> bool:
    return reply == "err EFAULT"


def says_no_more(line: Line, reply: str) -> bool:
    """Whether Linux goes on to its other tests."""
    is_laid = reply.startswith("map ") and line.to in (-1, int(reply[4:], 16))
    return is_laid or reply in [f"err {it}" for it in ("EFAULT", "EINVAL", "EPERM", "ENOMEM")]


LOWEST = Row(*check.LOWEST, is_low, says_lowest)
HINT = Row("mmap, munmap", "`at A`", is_low_hint, says_low)
PLACE = Row("mmap, munmap", "automatic place", is_huge, says_huge)
LAST = Row("mmap, munmap", "`fixed`, `noreplace`", is_in_last_page, says_last)
NEW = Row("mremap", "`EINVAL`: A isn't on a page", is_new_above, says_invalid)
OLD = Row("mremap", "`EINVAL`: OLD is 0", is_no_old, says_fault)
SAME_LENGTH = Row(*check.SAME_LENGTH, is_as_long, says_no_more)
WITH_B = Row("mremap", "`EINVAL`, with B", meets, says_invalid, True)
BOUNDS = Row(*check.ONE_PROTECTION, is_over_bounds, says_bounds, True)
LOW_B = Row("mremap", "`EPERM`: B is below LOW", is_low_target, says_target, True)
NO_LENGTH = Row("mlock, munlock", "LEN 0", is_off_page, says_one_page, True)
WRAPS = Row("mlock, munlock", "LEN near 2^64", is_near_end, says_other, True)
MORE = Row("mlock, munlock", "more than 16,384 pages", is_long, says_other, True)
NO_ACCESS = Row(*check.NO_ACCESS, has_no_access, says_hole)
CAREFULLY = {
    "mmap": (LOWEST, HINT, PLACE, LAST),
    "mremap": (NEW, OLD, SAME_LENGTH, WITH_B, BOUNDS, LOW_B, PLACE),
    "mlock": (NO_LENGTH, WRAPS, MORE, NO_ACCESS),
    "munlock": (NO_LENGTH, WRAPS),
}

# ---- rows that other lines show
KEYS = Row("The profile", "protection keys")
ACCOUNTING = Row("The profile", "accounting")
LIMITED = Row(*check.LIMITS)
ENTRIES = Row("spawn, fork, exit", "entries")
GROWTH = Row("Joins", "growth in place")
UNMOVED = Row("mremap", "old range after `dontunmap`")
WRITABLE = Row("mlock, munlock", "a locked page becomes writable")
ADDED = Row("mlock, munlock", "pages that `mremap` adds")
UNLOCKED = Row("mlock, munlock", "`dontunmap` of locked pages")
# ---- rows that notes alone show, where a kernel's own transcript is judged
FORCED = Row("read, write", "write to a frame that a fork left to several")
KEPT_SLOT = Row("A page comes back", "the slot is dropped")
DROPPED_LOCKED = Row("A page comes back", "a page that is locked")
JOINS_MORE = Row("merge", "what is looked at")
UNMERGED = Row("merge", "`unmergeable`")
MOVED_MERGED = Row("merge", "a page that `mremap` moves")
NOTED = {FORCED, KEPT_SLOT, DROPPED_LOCKED, JOINS_MORE, UNMERGED, MOVED_MERGED}
# all of them
ROWS = {*CAREFULLY["mmap"], *CAREFULLY["mremap"], *CAREFULLY["mlock"]} | {
    KEYS, ACCOUNTING, LIMITED, ENTRIES, GROWTH, UNMOVED, WRITABLE, ADDED, UNLOCKED
}


def careful(line: Line) -> list[Row]:
    """The rows by which a line may be answered otherwise that is asked of a copy first."""
    return [it for it in CAREFULLY.get(line.name, ()) if it.may(line)]


def setting(name: str) -> int:
    with open(f"/proc/sys/vm/{name}", encoding="ascii") as it:
        return int(it.read())


def is_tight(line: Line) -> bool:
    """Whether this machine's settings may be why the kernel has no memory to give."""
    most = setting("max_map_count") - 3
    is_limited = any(resource.getrlimit(it)[0] != resource.RLIM_INFINITY for it in LIMITS)
    return is_limited or setting("overcommit_memory") == 2 or len(line.ranges.ranges) > most


def is_limited() -> bool:
    """Whether a process may lock so many bytes alone."""
    return resource.getrlimit(resource.RLIMIT_MEMLOCK)[0] != resource.RLIM_INFINITY


def is_execute_only(line: Line, reply: str) -> bool:
    """Whether a read was stopped at a page that may only be executed."""
    match reply.split(" "):
        case ["segv", count, *_]:
            return line.ranges.at(line.at + int(count)) == "--x"
    return False


def locks_execute_only(line: Line) -> bool:
    """Whether a `mlock` is of pages that may only be executed."""
    parts = line.ranges.within(line.at // PAGE * PAGE, line.at + int(line.words[3]))
    return any(it.of == "--x" for it in parts)


def row_of(line: Line, reply: str, is_child: bool) -> Row | None:
    """The row by which a line is answered so that may be asked without care."""
    match line.name, line.said, reply:
        case "read", _, _ if is_execute_only(line, reply):
            return KEYS
        case "mlock", "ok", "err ENOMEM" if locks_execute_only(line):
            return KEYS
        case "entry", "zero", "empty" if is_child:
            return ENTRIES
        case "spawn" | "fork", _, "err EAGAIN":
            return LIMITED
        case "mmap" | "mprotect" | "mremap" | "munmap", _, "err ENOMEM" if is_tight(line):
            return ACCOUNTING
        case "madvise", _, "err EAGAIN" if is_tight(line):
            return ACCOUNTING
        case "mlock", "ok", "err ENOMEM" | "err EAGAIN" | "err EPERM" if is_limited():
            return ACCOUNTING
    return None


def other_bounds(line: Line) -> Row | None:
    """The row by which areas may have other bounds behind an `mremap` that the model did."""
    if line.name != "mremap" or line.place < 0:
        return None
    if line.how == "dontunmap":
        return UNMOVED
    if line.place != line.at or line.new <= line.old:
        return None
    mine = next((it for it in line.ranges if it.start <= line.at < it.end), None)
    adjoin = (it for it in line.ranges if mine and it.of == mine.of)
    end = line.at + line.new
    return GROWTH if any(it.end == mine.start or it.start == end for it in adjoin) else None


# ---- how a process is brought to where the model's is


def mending(line: Line) -> Iterator[list[str]]:
    """Lines that lay pages where the model laid them, or lock them range by range."""
    if line.name == "mmap":
        yield [*line.words[:4], "noreplace", f"{line.place:x}"]
    if line.name == "mlock":
        for it in line.ranges.within(line.at, line.at + int(line.words[3])):
            yield ["mlock", line.process, f"{it.start:x}", f"{it.end - it.start}"]
    if line.name in ("mmap", "mlock") or line.stays():
        # (what Linux refuses in place is so long that nothing goes)
        return
    if line.how != "dontunmap" and line.place == line.at:
        last = line.ranges.within(line.at, line.at + line.old)[-1]
        yield grown(line, last.start, last.end - last.start, line.at + line.new - last.start)
        return
    if line.to >= 0:
        yield ["munmap", line.process, f"{line.to:x}", f"{line.new}"]
    if line.new < line.old:
        tail = line.at + line.new
        yield ["munmap", line.process, f"{tail:x}", f"{line.old - line.new}"]
    yield from moved(line)


def moved(line: Line) -> Iterator[list[str]]:
    """Moves a range area by area, and lets the last one grow."""
    by, how = line.place - line.at, "dontunmap" if line.how == "dontunmap" else "fixed"
    parts = line.ranges.within(line.at, line.at + min(line.old, line.new))
    for it in parts:
        length = f"{it.end - it.start}"
        to = f"{it.start + by:x}"
        yield ["mremap", line.process, f"{it.start:x}", length, length, how, to]
    if line.new > line.old:
        length = parts[-1].end - parts[-1].start
        yield grown(line, parts[-1].start + by, length, length + line.new - line.old)


def grown(line: Line, at: int, old: int, new: int) -> list[str]:
    return ["mremap", line.process, f"{at:x}", f"{old}", f"{new}"]
