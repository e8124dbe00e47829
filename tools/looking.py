"""What the kernel shows of frames: all entries of a process at a time, how many entries have a
frame, and what the kernel marks it as.

An entry is a number here: above 0 the frame, 0 the page of zeros, below 0 a slot.
"""
import contextlib
import ctypes
import errno
import fcntl
import os
import signal
import struct
import sys
from typing import Iterator

from shared.saying import Refused

from proc import FRAME, SWAPPED, THERE, Pagemap, areas_of
from ranges import PAGE

# a request of pagemap, from Linux 6.7 on: the ranges of pages of some kinds
SCAN, ASKED, RANGE, ROOM = 0xC0606610, struct.Struct("12Q"), struct.Struct("3Q"), 4096
IS_THERE, IS_SWAPPED, IS_ZERO = 1 << 3, 1 << 4, 1 << 5
# without it so many pages of a process are looked at, at most
MOST_PAGES = 1 << 20
TOO_LARGE = f"a process maps more than {MOST_PAGES * PAGE >> 30} GiB, and there is no PAGEMAP_SCAN"
# what /proc/kpageflags says of a frame
WRITEBACK, MAPPED, IN_SWAP_CACHE, MERGED = 1 << 8, 1 << 11, 1 << 13, 1 << 21
MIGRATE_PAGES = 256

Entries = dict[int, int]


class Cut(Exception):
    """Why the transcript can't go on: a sentence."""


def slot_of(entry: int) -> tuple[int, int]:
    """The swap area and the page that a slot's entry names."""
    return (-entry - 1) & 31, (-entry - 1) >> 5


def drain(pid: int) -> bool:
    """Has each CPU give up the pages that it keeps aside, each with a reference of its own: the
    kernel does so before it moves pages from one node to another, here from node 0 to node 0.
    """
    node, libc = ctypes.c_ulong(1), ctypes.CDLL(None, use_errno=True)
    return libc.syscall(MIGRATE_PAGES, pid, 64, ctypes.byref(node), ctypes.byref(node)) >= 0


@contextlib.contextmanager
def alone(file: str, what: str) -> Iterator[None]:
    """No other run does what there may be one of at a time, by a lock on a file."""
    with open(file, "rb") as lock:
        try:
            fcntl.flock(lock, fcntl.LOCK_EX | fcntl.LOCK_NB)
        except OSError:
            tool = os.path.basename(sys.argv[0])
            print(f"{tool}: waits for another run that {what}", file=sys.stderr, flush=True)
            fcntl.flock(lock, fcntl.LOCK_EX)
        yield


@contextlib.contextmanager
def unbroken() -> Iterator[None]:
    """No signal ends this part: what was set is put back whole."""
    ends = {signal.SIGINT, signal.SIGTERM, signal.SIGHUP}
    before = signal.pthread_sigmask(signal.SIG_BLOCK, ends)
    try:
        yield
    finally:
        signal.pthread_sigmask(signal.SIG_SETMASK, before)


class Looker:
    """Looks at the frames of processes. `zero` is the entry of pagemap for the page of zeros."""

    def __init__(self, zero: int):
        self.zero = zero & FRAME
        self.room = ctypes.create_string_buffer(ROOM * RANGE.size)
        self.can_scan = True
        self.counts = self.flags_file = -1
        try:
            self.counts = os.open("/proc/kpagecount", os.O_RDONLY)
            self.flags_file = os.open("/proc/kpageflags", os.O_RDONLY)
        except OSError as error:
            self.close()
            raise Refused(f"{error.filename} can't be read: {error.strerror}") from None

    def close(self) -> None:
        for it in (self.counts, self.flags_file):
            if it >= 0:
                os.close(it)

    def entries(self, pid: int, end: int) -> Entries:
        """Those of a process below an address."""
        found: Entries = {}
        with Pagemap(pid) as pagemap:
            for first, last in self.ranges(pid, pagemap, end):
                page = first // PAGE
                for at, raw in enumerate(pagemap.entries(page, last // PAGE - page), page):
                    if raw & (THERE | SWAPPED):
                        found[at * PAGE] = self.entry_of(raw)
        return found

    def entry_of(self, raw: int) -> int:
        if raw & SWAPPED:
            return -(raw & FRAME) - 1
        return 0 if raw & FRAME == self.zero else raw & FRAME

    def ranges(self, pid: int, pagemap: Pagemap, end: int) -> list[tuple[int, int]]:
        """Ranges in which all entries lie."""
        if self.can_scan:
            try:
                return self.scanned(pagemap.file, end)
            except OSError as error:
                if error.errno not in (errno.ENOTTY, errno.EINVAL):
                    raise
                self.can_scan = False
        found = [(it.start, it.end) for it in areas_of(pid) if it.start < end]
        if sum(last - first for first, last in found) > MOST_PAGES * PAGE:
            raise Cut(TOO_LARGE)
        return found

    def scanned(self, pagemap: int, end: int) -> list[tuple[int, int]]:
        found, at, kinds = [], 0, IS_THERE | IS_SWAPPED
        room = ctypes.addressof(self.room)
        while at < end:
            asked = [ASKED.size, 0, at, end, 0, room, ROOM, 0, 0, 0, kinds, kinds | IS_ZERO]
            given = bytearray(ASKED.pack(*asked))
            for it in range(fcntl.ioctl(pagemap, SCAN, given, True)):
                found.append(RANGE.unpack_from(self.room, it * RANGE.size)[:2])
            walked = ASKED.unpack(given)[4]
            if walked <= at:
                break
            at = walked
        return found

    def word(self, file: int, frame: int) -> int:
        return struct.unpack("Q", os.pread(file, 8, 8 * frame))[0]

    def count(self, frame: int) -> int:
        """How many entries have a frame, in any process."""
        return self.word(self.counts, frame)

    def flags(self, frame: int) -> int:
        return self.word(self.flags_file, frame)
