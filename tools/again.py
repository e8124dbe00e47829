"""Has the kernel tell later accesses to a page, too, and not the first one alone.

In rounds all processes of the program stand still, their anonymous pages are sent to a swap file,
and they go on: so the next access to each page is a fault, which perf sees. A round begins when so
many pages were mapped since the one before. So an access to a page is told once for so many others.

A page that a read brings in may be changed later without a fault. But the next round writes it to
the swap file, and none that wasn't changed: so the read becomes a write.
"""
import array
import ctypes
import errno
import os
import re
import shutil
import signal
import statistics
import subprocess
import tempfile
import time
from typing import Callable, Iterator, NamedTuple

from shared.saying import Refused, count_of

from faults import AGAIN, FAULT, TOLD
from groups import JOINS, Group
from keeper import Keeper
from looking import drain
from proc import FRAME, THERE, Area, areas_of
from ranges import PAGE
from strace import time_of
from swapfile import header

PROCESS_MADVISE, PAGEOUT = 440, 21
# an entry of pagemap says so where a page is of a file, or shared
OF_FILE = 1 << 61
# how often it is looked whether a round is due, and after how many seconds it is in any case
PAUSE, LONGEST = 0.002, 1
# pages of the swap file at most, and how much of the disk's room is left to others
SWAP_PAGES, SHARE = 262_144, 2
# where files may be swap areas, as they can't be where folders are kept in memory
ROOM = "/var/tmp"
# the order in which the kernel fills swap areas: before those that have none
PREFER, ORDER = 0x8000, 100
# the file whose lock says that swap areas are somebody's
SWAPS = "/proc/swaps"
# pages of the buffers of a perf that must lose nothing
BUFFER = "4096"
# the event of a page that is written, by the names that it has and had
WRITES = ("vmscan:mm_vmscan_write_folio", "vmscan:mm_vmscan_writepage")
WRITTEN = re.compile(r"\s*(\d+\.\d+):.*\bpfn=0x([0-9a-f]+) .*ANON.*")


class Vector(ctypes.Structure):
    """A range, as process_madvise takes it."""

    _fields_ = [("start", ctypes.c_void_p), ("length", ctypes.c_size_t)]


class Page(NamedTuple):
    """A page of a process."""

    process: int
    number: int


def check_rights() -> None:
    """Refuses where something is missing."""
    if os.geteuid():
        raise Refused("--again is for root: it sends pages out, and has a cgroup")
    if not shutil.which("perf"):
        raise Refused("--again takes perf (Debian: apt-get install linux-perf)")
    libc = ctypes.CDLL(None, use_errno=True)
    libc.syscall(PROCESS_MADVISE, -1, 0, 0, PAGEOUT, 0)
    if ctypes.get_errno() == errno.ENOSYS:
        raise Refused("--again takes process_madvise, which Linux has from 5.10 on")


def swap_on(keeper: Keeper, folder: str) -> None:
    """A swap file in a folder, which is on until the end."""
    file = f"{folder}/swap.img"
    disk = os.statvfs(folder)
    pages = min(SWAP_PAGES, disk.f_bavail * disk.f_frsize // PAGE // SHARE)
    keeper.tell("remove", file)
    try:
        with open(os.open(file, os.O_CREAT | os.O_EXCL | os.O_WRONLY, 0o600), "wb") as it:
            it.write(header(pages, []))
            it.flush()
            os.posix_fallocate(it.fileno(), 0, pages * PAGE)
    except OSError as error:
        raise Refused(f"a swap file can't be made in {folder}: {error.strerror}") from None
    keeper.tell("turn off", file)
    libc = ctypes.CDLL(None, use_errno=True)
    if libc.swapon(file.encode(), PREFER | ORDER):
        why = os.strerror(ctypes.get_errno())
        raise Refused(f"no file of {ROOM} can be turned on as swap: {why}")


def room_of(keeper: Keeper) -> str:
    """A folder on a disk, until the end."""
    room = tempfile.mkdtemp(prefix="avsim-again-", dir=ROOM)
    keeper.tell("rmdir", room)
    return room


# ---- perf beside


class Watcher:
    """A perf that records from the time on at which it is told to, until its end."""

    def __init__(self, words: list[str], data: str):
        asks, self.control = os.pipe()
        self.answers, tells = os.pipe()
        command = ["perf", "record", "-q", "-o", data, "-k", "CLOCK_MONOTONIC", "-c", "1"]
        command += ["-D", "-1", f"--control=fd:{asks},{tells}", *words]
        self.ran = subprocess.Popen(  # pylint: disable=consider-using-with
            command, pass_fds=[asks, tells], stderr=subprocess.DEVNULL, start_new_session=True
        )
        os.close(asks)
        os.close(tells)

    def begin(self) -> bool:
        """Whether it records from here on."""
        os.write(self.control, b"enable\n")
        return os.read(self.answers, 100).startswith(b"ack")

    def end(self) -> None:
        if self.ran.poll() is None:
            self.ran.send_signal(signal.SIGINT)
        self.ran.wait()
        os.close(self.control)
        os.close(self.answers)


def watch_writes(data: str) -> Watcher:
    """A perf that records which pages this process has the kernel write."""
    for event in WRITES:
        found = Watcher(["-i", "-m", BUFFER, "-e", event, "-p", f"{os.getpid()}"], data)
        if found.begin():
            return found
        found.end()
    raise Refused("perf may not record vmscan:mm_vmscan_write_folio here")


def script_of(data: str, fields: str) -> Iterator[str]:
    """What perf recorded, as text."""
    words = ["perf", "script", "-i", data, "--ns", "--show-lost-events", "-F", fields]
    how = {"stdout": subprocess.PIPE, "stderr": subprocess.DEVNULL, "text": True}
    with subprocess.Popen(words, encoding="ascii", errors="backslashreplace", **how) as ran:
        for line in ran.stdout:
            yield line.rstrip("\n")


# ---- rounds


def areas_with_pages(pid: int) -> list[Area]:
    """The areas that have anonymous pages, but for the stack, which no trace has, and for what of
    a file can't be written any more.
    """
    try:
        areas = areas_of(pid)
    except Refused:
        return []
    private = [it for it in areas if not it.is_shared and not it.name.startswith(("[stack", "[v"))]
    return [it for it in private if "w" in it.prot or not it.name.startswith("/")]


def anonymous_of(pid: int) -> int:
    """About how many anonymous pages of a process are mapped."""
    try:
        with open(f"/proc/{pid}/statm", encoding="ascii") as it:
            words = it.read().split()
        return int(words[1]) - int(words[2])
    except (OSError, IndexError):
        return 0


class Notes:
    """Which frame each page had before each round, in a file."""

    def __init__(self, file: str):
        self.file = open(file, "w+b")  # pylint: disable=consider-using-with
        # the frames of this round, and whether one is there twice
        self.frames: set[int] = set()
        self.is_shared = False

    def add(self, process: int, first: int, entries: memoryview) -> None:
        """The pages of a block that have frames of their own."""
        pairs = enumerate(entries, first)
        found = [(it & FRAME, at) for at, it in pairs if it & THERE and not it & OF_FILE]
        whole = (word for frame, page in found for word in (frame, process, page))
        array.array("Q", whole).tofile(self.file)
        frames = {frame for frame, _ in found}
        self.is_shared = self.is_shared or not frames.isdisjoint(self.frames)
        self.frames |= frames

    def begin(self) -> None:
        """A round: of it the time is told, in place of a frame."""
        array.array("Q", (time.monotonic_ns(), 0, 0)).tofile(self.file)
        self.frames, self.is_shared = set(), False

    def rounds(self) -> Iterator[tuple[int, dict[int, list[Page]]]]:
        """Each round's time, with the pages of each frame."""
        self.file.seek(0)
        began, frames = 0, {}
        while block := self.file.read(24 << 12):
            of = memoryview(block).cast("Q").tolist()
            for frame, process, page in zip(of[::3], of[1::3], of[2::3]):
                if process:
                    frames.setdefault(frame, []).append(Page(process, page))
                else:
                    yield began, frames
                    began, frames = frame, {}
        yield began, frames

    def close(self) -> None:
        self.file.close()


class Rounds:
    """Sends the pages of a program out, whenever so many are mapped again."""

    def __init__(self, keeper: Keeper, pages: int, folder: str):
        self.pages, self.folder, self.room = pages, folder, room_of(keeper)
        swap_on(keeper, self.room)
        self.group, self.keeper = Group(keeper), keeper
        self.group.prefer_anonymous()
        self.libc = ctypes.CDLL(None, use_errno=True)
        self.left, self.last = 0, time.monotonic()
        # how many pages were mapped again at each round
        self.counts: list[int] = []
        self.notes = Notes(f"{folder}/rounds")
        self.watcher = watch_writes(f"{folder}/writes.data")

    def joining(self, command: list[str]) -> list[str]:
        """The words that have a program join the cgroup."""
        return self.group.joining(command, self.room, self.keeper)

    def follow(self, program: subprocess.Popen) -> int:
        """Makes rounds until the program has ended: its status."""
        while program.poll() is None:
            processes = self.group.processes()
            again = sum(map(anonymous_of, processes)) - self.left
            is_due = again >= self.pages or time.monotonic() - self.last > LONGEST
            if is_due and again > 0:
                self.counts.append(again)
                self.make_round()
            time.sleep(PAUSE)
        self.watcher.end()
        cut_joining(f"{self.folder}/log")
        return program.returncode

    def make_round(self) -> None:
        """All stand still, and their pages go out. What is mapped then is counted before they go
        on: else it would seem as if less came back.
        """
        try:
            if self.group.freeze():
                self.send_out(self.group.processes())
        finally:
            self.group.thaw()
        self.last = time.monotonic()

    def send_out(self, processes: list[int]) -> None:
        self.notes.begin()
        for it in processes:
            self.note(it)
        # (a page that a CPU keeps aside would go out, but not be written)
        drain(os.getpid())
        for it in processes:
            self.page_out(it)
        if self.notes.is_shared:
            # (MADV_PAGEOUT passes over pages that two processes share)
            self.group.send_out()
        self.left = sum(map(anonymous_of, processes))

    def note(self, pid: int) -> None:
        """Notes the frames of a process."""
        try:
            with open(f"/proc/{pid}/pagemap", "rb", buffering=0) as it:
                for area in areas_with_pages(pid):
                    self.note_area(pid, it.fileno(), area)
        except OSError:
            # (it has ended)
            pass

    def note_area(self, pid: int, pagemap: int, area: Area) -> None:
        step = 1 << 15
        for first in range(area.start // PAGE, area.end // PAGE, step):
            count = min(step, area.end // PAGE - first)
            raw = os.pread(pagemap, 8 * count, 8 * first)
            if raw.count(0) < len(raw):
                self.notes.add(pid, first, memoryview(raw[: len(raw) // 8 * 8]).cast("Q"))

    def page_out(self, pid: int) -> None:
        """Sends the pages of a process out, area by area: one that can't be advised would end a
        call that names several.
        """
        try:
            process = os.pidfd_open(pid)
        except OSError:
            return
        for it in areas_with_pages(pid):
            vector = Vector(it.start, it.end - it.start)
            where = ctypes.byref(vector)
            one, none = ctypes.c_ulong(1), ctypes.c_ulong(0)
            self.libc.syscall(PROCESS_MADVISE, process, where, one, PAGEOUT, none)
        os.close(process)

    # what came of it

    def too_low_below(self) -> int:
        """Numbers of frames below this are told too low: twice as many as were accessed between
        two rounds, nine times in ten.
        """
        ordered = sorted(self.counts) or [self.pages]
        usual = max(self.pages, ordered[len(ordered) * 9 // 10])
        step = 10 ** max(len(str(usual)) - 2, 0)
        return -(-2 * usual // step) * step

    def head(self) -> str:
        """The comment in the head of the faults that says so."""
        return f"{AGAIN}{self.too_low_below()}"

    def tell(self, say: Callable[[str], None]) -> None:
        """How often pages were sent out, and what can be read from that."""
        if not self.counts:
            say(f"fewer than {self.pages} pages were mapped: no page was sent out")
            return
        usual, most = int(statistics.median(self.counts)), max(self.counts)
        say(
            f"{count_of(len(self.counts), 'round')}, with {usual} pages accessed between two, and "
            f"{most} at most: numbers of frames below {self.too_low_below()} are told too low"
        )

    def written(self) -> Iterator[tuple[int, Page]]:
        """When each page was written that was changed since it came in, by time."""
        rounds = self.notes.rounds()
        _, frames = next(rounds)
        following = next(rounds, None)
        for line in script_of(f"{self.folder}/writes.data", "time,event,trace"):
            if match := WRITTEN.fullmatch(line):
                at = time_of(match[1])
                while following and following[0] <= at:
                    frames, following = following[1], next(rounds, None)
                for it in frames.get(int(match[2], 16), ()):
                    yield at, it

    def end(self, lines: list[str]) -> list[str]:
        """The faults, of which reads that came before a change are writes. What was noted goes."""
        found = with_writes(lines, self.written())
        self.notes.close()
        for it in ("rounds", "writes.data"):
            os.remove(f"{self.folder}/{it}")
        return found


def cut_joining(log: str) -> None:
    """Takes away from a log what came before the program: a shell that joined the cgroup."""
    with open(log, encoding="ascii", errors="surrogateescape") as it:
        lines = it.readlines()
    if not lines or f"/{JOINS}\"" not in lines[0]:
        return
    thread = lines[0].split(" ")[0]
    first = (
        at
        for at, it in enumerate(lines[1:], 1)
        if it.split(" ")[0] == thread and " execve(" in it and it.endswith(" = 0\n")
    )
    with open(log, "w", encoding="ascii", errors="surrogateescape") as it:
        it.writelines(lines[next(first, len(lines)) :])


def with_writes(lines: list[str], written: Iterator[tuple[int, Page]]) -> list[str]:
    """Faults as perf tells them, by time. Behind a read the page was changed, where it is written
    before its next fault: then that is a write.
    """
    found, last = list(lines), {}
    coming = next(written, None)
    for at, line in enumerate(lines):
        match = FAULT.fullmatch(line)
        told = match and TOLD.fullmatch(match["at"])
        while coming and told and coming[0] < time_of(match["time"]):
            change(found, last.get(coming[1]))
            coming = next(written, None)
        if told:
            last[Page(int(match["process"]), int(told[1], 16) // PAGE)] = at
    while coming:
        change(found, last.get(coming[1]))
        coming = next(written, None)
    return found


def change(lines: list[str], at: int | None) -> None:
    """The fault in a line is a write."""
    if at is not None:
        is_so = lambda it: f"error_code={int(it[1], 16) | 2:#x}"
        lines[at] = re.sub(r"error_code=(0x[0-9a-f]+)", is_so, lines[at])
