"""What processes have that run already, as the calls and accesses that would make it.

They stand still meanwhile. Areas become calls of mmap, and pages writes. Pages that parent and
child share come before the fork, and what is otherwise in the child behind it.
"""
import bisect
import ctypes
import dataclasses
import functools
import mmap
import os
import re
from typing import IO, Iterable, Iterator, NamedTuple

from faults import AFTER
from proc import SWAPPED, THERE, Pagemap, code_of
from ranges import PAGE, Range, Ranges

ROW = re.compile(
    r"([0-9a-f]+)-([0-9a-f]+) ([r-][w-][x-])([ps]) [0-9a-f]+ [0-9a-f:]+ (\d+) *(.*)"
)
# areas that no call may map
KERNELS = re.compile(r"\[(vsyscall|vdso|vvar.*|uprobes)\]")
# an entry of pagemap says so where a page is of a file, or shared
OF_FILE = 1 << 61
# pages that are looked through at a time
BLOCK = 1 << 15
HEAP = "[heap]"
# so many microseconds a call comes behind an access
BEFORE_CALL = 30
PROTECTIONS = {"r": "PROT_READ", "w": "PROT_WRITE", "x": "PROT_EXEC"}
THREAD = "CLONE_VM|CLONE_FS|CLONE_FILES|CLONE_SIGHAND|CLONE_THREAD"


class Kind(NamedTuple):
    """What is mapped: protection, whether it is shared, and the file's name or one that the kernel
    gives; `has_file` tells these apart.
    """

    prot: str
    is_shared: bool
    has_file: bool
    name: str


@dataclasses.dataclass
class Process:
    """A process that stands still: its areas by address, its pages with their frames or slots, and
    its children.
    """

    pid: int
    threads: list[int]
    program: str
    areas: Ranges
    pages: dict[int, int]
    children: list["Process"] = dataclasses.field(default_factory=list)

    @functools.cached_property
    def order(self) -> list[int]:
        """The numbers of its pages, the highest first: so they begin in the area that was mapped
        last, and the log and its faults tell how their clocks differ.
        """
        return sorted(self.pages, reverse=True)

    def family(self) -> Iterator["Process"]:
        yield self
        for it in self.children:
            yield from it.family()


class Line(NamedTuple):
    """A call as strace prints it, or a write or read of a page, with the thread that does it."""

    thread: int
    text: str = ""
    page: int = 0
    is_write: bool = True


# ---- what there is


def zero_frame() -> int:
    """The entry of the page of zeros; 0 where frames aren't shown."""
    with mmap.mmap(-1, PAGE, mmap.MAP_PRIVATE | mmap.MAP_ANONYMOUS) as room:
        sum(room[:])
        first = ctypes.c_char.from_buffer(room)
        with Pagemap(os.getpid()) as pagemap:
            entry = pagemap.entry(ctypes.addressof(first))
        del first
    return entry


def areas_of(pid: int) -> Ranges:
    """The areas of a process that calls may have mapped."""
    found = Ranges()
    with open(f"/proc/{pid}/maps", encoding="utf-8", errors="backslashreplace") as rows:
        for row in filter(None, map(ROW.fullmatch, rows.read().split("\n"))):
            if not KERNELS.fullmatch(row[6]):
                kind = Kind(row[3], row[4] == "s", row[5] != "0", row[6])
                found.put(int(row[1], 16), int(row[2], 16), kind)
    return found


def pages_of(pid: int, areas: Ranges) -> dict[int, int]:
    """The anonymous pages of a process, with their frames or slots."""
    found = {}
    with Pagemap(pid) as pagemap:
        for area in (it for it in areas if not it.of.is_shared):
            for first in range(area.start // PAGE, area.end // PAGE, BLOCK):
                count = min(BLOCK, area.end // PAGE - first)
                found |= block_of(pagemap, first, count)
    return found


def block_of(pagemap: Pagemap, first: int, count: int) -> dict[int, int]:
    """The pages of a block, of which most are empty."""
    raw = os.pread(pagemap.file, 8 * count, 8 * first)
    if raw.count(0) == len(raw):
        return {}
    entries = enumerate(memoryview(raw).cast("Q"), first)
    return {at: code_of(it) for at, it in entries if it & (THERE | SWAPPED) and not it & OF_FILE}


def process_of(pid: int) -> Process:
    """A process, without its children."""
    threads = sorted(map(int, os.listdir(f"/proc/{pid}/task")))
    areas = areas_of(pid)
    program = os.readlink(f"/proc/{pid}/exe")
    return Process(pid, threads, program, areas, pages_of(pid, areas))


# ---- what would make it


def protection(prot: str) -> str:
    words = [word for letter, word in PROTECTIONS.items() if letter in prot]
    return "|".join(words) or "PROT_NONE"


class Making:
    """The lines that make a family, in order."""

    def __init__(self, zero: int):
        self.zero = zero
        self.lines: list[Line] = []

    def call(self, process: Process, text: str) -> None:
        self.lines.append(Line(process.pid, text))

    def map(self, process: Process, start: int, end: int, kind: Kind) -> None:
        flags = f"{'MAP_SHARED' if kind.is_shared else 'MAP_PRIVATE'}|MAP_FIXED"
        flags += "" if kind.has_file else "|MAP_ANONYMOUS"
        file = f"3<{kind.name}>" if kind.has_file else "-1"
        words = f"{start:#x}, {end - start}, {protection(kind.prot)}, {flags}, {file}, 0"
        self.call(process, f"mmap({words}) = {start:#x}")

    def protect(self, process: Process, start: int, end: int, prot: str) -> None:
        self.call(process, f"mprotect({start:#x}, {end - start}, {protection(prot)}) = 0")

    def write(self, process: Process, pages: Iterable[int]) -> None:
        for it in pages:
            is_write = process.pages[it] != self.zero
            self.lines.append(Line(process.pid, page=it, is_write=is_write))

    def root(self, process: Process) -> None:
        """A process that has no parent here."""
        self.call(process, f'execve("{process.program}", [..], 0x0 /* 0 vars */) = 0')
        loose = Ranges()
        for it in process.areas:
            is_loose = must_be_loose(process, it)
            kind = it.of._replace(prot="rw-") if is_loose else it.of
            self.map(process, it.start, it.end, kind)
            if is_loose:
                loose.put(it.start, it.end, None)
            if it.of.name == HEAP:
                self.call(process, f"brk(NULL) = {it.end:#x}")
        self.fill(process, {}, loose)

    def fill(self, process: Process, given: dict[int, int], loose: Ranges) -> None:
        """A process has its areas, and these pages by its parent. Those that may be written only
        because they have pages get their protection in the end.
        """
        for it in process.threads:
            if it != process.pid:
                self.call(process, f"clone3({{flags={THREAD}}}, 88) = {it}")
        shared = shared_pages(process)
        early = [it for it in shared if given.get(it) != process.pages[it]]
        self.write(process, early)
        handed = given | {it: process.pages[it] for it in early}
        for child in process.children:
            self.fork(process, child, handed, loose)
        own = (it for it in process.order if handed.get(it) != process.pages[it])
        self.write(process, own)
        for it in loose:
            for part in process.areas.within(it.start, it.end):
                self.protect(process, part.start, part.end, part.of.prot)

    def loosen(self, process: Process, loose: Ranges) -> None:
        """Areas that may not be written, but have pages, may be for a while."""
        for it in process.areas:
            if must_be_loose(process, it):
                self.protect(process, it.start, it.end, "rw-")
                loose.put(it.start, it.end, None)

    def fork(self, parent: Process, child: Process, given: dict[int, int], loose: Ranges) -> None:
        """A child gets what its parent has, and then what is otherwise in it."""
        self.call(parent, f"fork() = {child.pid}")
        for start, end, kind in changes(parent.areas, child.areas):
            if kind:
                self.map(child, start, end, kind)
            else:
                self.call(child, f"munmap({start:#x}, {end - start}) = 0")
        kept = {page: it for page, it in given.items() if is_same(parent, child, page)}
        gone = sorted(it for it in kept if it not in child.pages)
        for first, count in runs_of_pages(gone):
            words = f"{first * PAGE:#x}, {count * PAGE}, MADV_DONTNEED"
            self.call(child, f"madvise({words}) = 0")
        inherited = Ranges(it for it in loose)
        self.loosen(child, inherited)
        self.fill(child, kept, inherited)


def is_same(parent: Process, child: Process, page: int) -> bool:
    """Whether a page's area is the parent's."""
    return parent.areas.at(page * PAGE) == child.areas.at(page * PAGE)


def has_pages(process: Process, start: int, end: int) -> bool:
    pages = process.order
    at = bisect.bisect_right(pages, -(end // PAGE), key=lambda it: -it)
    return at < len(pages) and pages[at] >= start // PAGE


def must_be_loose(process: Process, area: Range) -> bool:
    """Whether an area has pages, and may not be written."""
    may_be_written = "w" in area.of.prot or area.of.is_shared
    return not may_be_written and has_pages(process, area.start, area.end)


def runs_of_pages(pages: list[int]) -> Iterator[tuple[int, int]]:
    """Pages in a row, as the first one and how many there are."""
    first = count = 0
    for it in pages:
        if count and it == first + count:
            count += 1
            continue
        if count:
            yield first, count
        first, count = it, 1
    if count:
        yield first, count


def shared_pages(process: Process) -> list[int]:
    """The pages of which a descendant has the same frame or slot."""
    found = set()
    for child in process.children:
        for it in child.family():
            found |= process.pages.items() & it.pages.items()
    return sorted((page for page, code in found if code), reverse=True)


def changes(before: Ranges, after: Ranges) -> Iterator[tuple[int, int, Kind | None]]:
    """Where areas are others than before, each with what is there: None where nothing is."""
    ends = {it for ranges in (before, after) for area in ranges for it in (area.start, area.end)}
    places = sorted(ends)
    for start, end in zip(places, places[1:]):
        kind = after.at(start)
        if before.at(start) != kind:
            yield start, end, kind


# ---- as a log, and faults


def times_of(lines: list[Line], now: int) -> Iterator[int]:
    """When each line was, in microseconds, so that the last one was before now. Behind a call the
    first access comes as soon as is usual, and a call so late that accesses stay before it, where
    the clocks are brought together otherwise.
    """
    before = [True, *(bool(it.text) for it in lines)]
    access = {True: AFTER // 1000, False: 1}
    gaps = [BEFORE_CALL if it.text else access[was] for it, was in zip(lines, before)]
    time = now - sum(gaps) - BEFORE_CALL
    for it in gaps:
        time += it
        yield time


def write_down(lines: list[Line], log: IO, faults: IO, now: tuple[int, int], name: str) -> None:
    """Writes the lines as a log of strace and as faults of perf. `now` is the time on their clocks,
    in microseconds.
    """
    for it, time in zip(lines, times_of(lines, now[0])):
        if it.text:
            print(f"{it.thread} {seconds(time)} {it.text}", file=log)
            continue
        time, code = time + now[1] - now[0], "0x6" if it.is_write else "0x4"
        print(
            f"{name} {it.thread}/{it.thread} {seconds(time)}: "
            f"exceptions:page_fault_user: address={it.page * PAGE:#x} ip=0x0 error_code={code}",
            file=faults,
        )


def seconds(time: int) -> str:
    return f"{time // 10**6}.{time % 10**6:06}"
