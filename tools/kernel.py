"""The running kernel as a trace sees it: each command as a system call, a load or a store of a real
process, and what came of it as a reply.

A command that is one call has a function in `CALLS`, which says how the call is asked for. Others
have a method of `Kernel`, in `DOES`.
"""
import contextlib
import errno
import os
import signal
from typing import Callable, Iterator

from shared.saying import Refused

from proc import Area, Pagemap, areas_of, row_of
from ranges import PAGE, Range, Ranges, up
from shift import GAP, SPLIT, TOP, NotAsked, Shift
from stubs import ANONYMOUS, FIXED, MADVISE, MMAP, MUNMAP, NORESERVE, PRIVATE
from stubs import Gone, Mother, Stub

NOREPLACE, MAYMOVE, TO_PLACE, DONTUNMAP = 0x100000, 1, 2, 4
MPROTECT, MREMAP, MLOCK, MUNLOCK, GETPID = 10, 25, 149, 150, 39
# the numbers of what madvise says
ADVICE = {"dontneed": 4, "dontfork": 10, "dofork": 11, "wipeonfork": 18, "keeponfork": 19}
ADVICE |= {"mergeable": 12, "unmergeable": 13}
# a file descriptor that is none
NONE = 2**64 - 1
# where the kernel tells of merging, if it has it
KSM = "/sys/kernel/mm/ksm"
# the most pages of a process that are looked through for a frame
MOST_PAGES = 1 << 20

ALONE = "no call stands for it"
NOBODY = "its process isn't there to make a call, or is there already"
NO_FRAMES = "frames are shown to CAP_SYS_ADMIN alone"
TOO_MANY = f"its processes have more than {MOST_PAGES} pages to look through"
AT_TOP = "it moves what is above TOP, where the kernel has something"
MOST_LOCKED = 1 << 28
TOO_LONG = f"it would bring in more than {MOST_LOCKED >> 20} MiB"
NO_KSM = "this kernel merges no pages"

Call = tuple[int, ...]


def prot_of(word: str) -> int:
    """A protection as a call has it."""
    return sum(bit for bit, letter in zip((1, 2, 4), word) if letter != "-")


def is_error(result: int) -> bool:
    return -4096 < result < 0


def text_of(error: int) -> str:
    """A reply for a number of errno."""
    return f"err {errno.errorcode.get(error, error)}"


def mmap(shift: Shift, words: list[str]) -> Call:
    length, flags = int(words[2]), PRIVATE | ANONYMOUS | NORESERVE
    match words[4:]:
        case ["at", at]:
            address = shift.there(int(at, 16))
        case [how, at]:
            address, length = shift.range_there(int(at, 16), length)
            flags |= FIXED if how == "fixed" else NOREPLACE
        case _:
            address = 0
    return MMAP, address, length, prot_of(words[3]), flags, NONE, 0


def munmap(shift: Shift, words: list[str]) -> Call:
    return MUNMAP, *shift.range_there(int(words[2], 16), int(words[3]))


def mprotect(shift: Shift, words: list[str]) -> Call:
    return MPROTECT, *shift.range_there(int(words[2], 16), int(words[3])), prot_of(words[4])


def mremap(shift: Shift, words: list[str]) -> Call:
    at, old, new, mode = int(words[2], 16), int(words[3]), int(words[4]), words[5:]
    address, old_there = shift.range_there(at, old)
    moves = mode[:1] in (["fixed"], ["dontunmap"])
    if moves and SPLIT <= at < TOP < at + up(old):
        # (what is mapped there on the kernel alone might move, too)
        raise NotAsked(AT_TOP)
    flags = (MAYMOVE if mode else 0) | (DONTUNMAP if "dontunmap" in mode else 0)
    new_there, target = new, 0
    if not moves and up(new) > up(old) and at + up(old) > TOP:
        # (it isn't within one area there, and as long as it is, it isn't to be cut)
        old_there = old
    if mode[1:]:
        target, new_there = shift.range_there(int(mode[1], 16), new)
        flags |= TO_PLACE
    elif not moves and (up(new) <= up(old) or not mode and at + up(new) <= TOP):
        new_there = shift.range_there(at, new)[1]
    if moves and (new_there < new or old_there != old):
        raise NotAsked(GAP)
    return MREMAP, address, old_there, new_there, flags, target


def madvise(shift: Shift, words: list[str]) -> Call:
    address, length = shift.range_there(int(words[2], 16), int(words[3]))
    if address < shift.base < address + up(length) < 2**64:
        # (it would go on behind the hole, over what the kernel has there)
        length = shift.base + PAGE - address
    return MADVISE, address, length, ADVICE[words[4]]


def mlock(shift: Shift, words: list[str]) -> Call:
    return MLOCK, *shift.range_there(int(words[2], 16), int(words[3]))


def munlock(shift: Shift, words: list[str]) -> Call:
    return MUNLOCK, *shift.range_there(int(words[2], 16), int(words[3]))


# the calls that commands stand for: what each is asked with
CALLS: dict[str, Callable[[Shift, list[str]], Call]] = {
    "mmap": mmap,
    "munmap": munmap,
    "mprotect": mprotect,
    "mremap": mremap,
    "madvise": madvise,
    "mlock": mlock,
    "munlock": munlock,
}


class Kernel:
    """The processes of a trace, on the running kernel."""

    def __init__(self, mother: Mother):
        self.mother, self.shift = mother, Shift(mother.base, mother.is_wide)
        self.live: dict[str, Stub] = {}
        # the numbers of frames, in the order in which they are shown
        self.frames: dict[int, int] = {}

    def process(self, number: str) -> Stub:
        if number not in self.live:
            raise NotAsked(NOBODY)
        return self.live[number]

    def answer(self, words: list[str], said: str) -> list[str]:
        """The reply to a command, of whose reply in the model the first line is `said`."""
        name, of = words[0], words[1:]
        try:
            if name in CALLS:
                return [self.call(self.process(of[0]), words, said)]
            if name not in DOES:
                raise NotAsked(ALONE)
            return DOES[name](self, *of)
        except Gone:
            raise Refused(f"process {of[0]} of the trace was killed") from None

    def close(self) -> None:
        """Ends all processes."""
        while self.live:
            self.live.popitem()[1].end()

    # ---- processes

    def begin(self, number: str, parent: Stub) -> list[str]:
        if number in self.live:
            raise NotAsked(NOBODY)
        child = parent.fork()
        if isinstance(child, int):
            return [text_of(-child)]
        self.live[number] = child
        # (who answers is there as a whole, and does nothing more of the fork meanwhile; who is gone
        # is met at the next line)
        with contextlib.suppress(Gone):
            child.call(GETPID)
        return ["ok"]

    def spawn(self, number: str) -> list[str]:
        return self.begin(number, self.mother)

    def fork(self, parent: str, number: str) -> list[str]:
        return self.begin(number, self.process(parent))

    def exit(self, number: str) -> list[str]:
        self.process(number).end()
        del self.live[number]
        return ["ok"]

    # ---- calls

    def call(self, process: Stub, words: list[str], said: str) -> str:
        """What a process's call comes to, as the first line of a reply."""
        if words[4:] in (["mergeable"], ["unmergeable"]) and not os.path.exists(KSM):
            raise NotAsked(NO_KSM)
        asked = CALLS[words[0]](self.shift, words)
        if said.startswith("map ") and self.is_laid_over_gap(words, int(said[4:], 16)):
            raise NotAsked(GAP)
        if words[0] == "mlock" and self.is_too_long(process, words):
            raise NotAsked(TOO_LONG)
        with self.hole_at_top(process, asked):
            result = process.call(*asked)
        if is_error(result):
            return text_of(-result)
        return f"map {self.shift.here(result):x}" if words[0] in ("mmap", "mremap") else "ok"

    @contextlib.contextmanager
    def hole_at_top(self, process: Stub, asked: Call) -> Iterator[None]:
        """Lets a call that goes on above TOP find a hole there, as it does in the model. (Those
        that aren't named get no further than TOP.)
        """
        number, address, length = asked[:3]
        base = self.shift.base
        goes_on = number in (MPROTECT, MADVISE, MLOCK, MUNLOCK)
        is_needed = goes_on and address < base < up(address + length)
        if is_needed:
            process.call(MUNMAP, base, PAGE)
        yield
        if is_needed:
            process.occupy(base, base + PAGE)

    def is_laid_over_gap(self, words: list[str], place: int) -> bool:
        """Whether the model laid pages where the kernel hasn't as many addresses."""
        if words[0] == "mmap":
            is_named = words[4:5] in (["fixed"], ["noreplace"])
            return not is_named and self.shift.crosses(place, up(int(words[2])))
        at, old, new = int(words[2], 16), up(int(words[3])), up(int(words[4]))
        may_move = words[5:] == ["maymove"] and new > old or words[5:] == ["dontunmap"]
        return may_move and any(self.shift.crosses(it, new) for it in (place, at))

    def is_too_long(self, process: Stub, words: list[str]) -> bool:
        """Whether a `mlock` would bring in more than a test may."""
        at, length = int(words[2], 16), int(words[3])
        parts = self.ranges(process).within(at, at + length)
        return sum(it.end - it.start for it in parts) > MOST_LOCKED

    # ---- loads and stores

    def read(self, number: str, at: str, count: str, with_keys: bool = False) -> list[str]:
        address, wanted = int(at, 16), int(count)
        if self.shift.crosses(address, wanted):
            raise NotAsked(GAP)
        process = self.process(number)
        data, stopped = process.read(self.shift.there(address), wanted, with_keys)
        if len(data) == wanted:
            return [f"data {data.hex()}"]
        return [f"{name_of(stopped)} {len(data)} {data.hex()}".rstrip()]

    def write(self, number: str, at: str, digits: str) -> list[str]:
        address, data = int(at, 16), bytes.fromhex(digits)
        if self.shift.crosses(address, len(data)):
            raise NotAsked(GAP)
        count, stopped = self.process(number).write(self.shift.there(address), data)
        return ["ok" if count == len(data) else f"{name_of(stopped)} {count}"]

    # ---- reports

    def areas(self, process: Stub, file: str = "maps") -> list[Area]:
        """The areas of a process, at the addresses of the trace."""
        shift = self.shift
        return [
            it._replace(start=shift.here(it.start), end=shift.end_here(it.end))
            for it in areas_of(process.pid, file)
            if it.start < shift.base
        ]

    def ranges(self, process: Stub) -> Ranges:
        """The same, each with its protection."""
        return Ranges(Range(it.start, it.end, it.prot) for it in self.areas(process))

    def maps(self, number: str) -> list[str]:
        return maps_of(self.areas(self.process(number)))

    def areas_shown(self, number: str) -> list[str]:
        file = "smaps" if os.path.exists("/proc/self/smaps") else "maps"
        rows = list(map(row_of, self.areas(self.process(number), file)))
        return [f"areas {len(rows)}", *rows]

    def code(self, number: str, at: str) -> int | None:
        """The entry of a page, as a number; None where it isn't mapped."""
        process, address = self.process(number), int(at, 16)
        if not self.mother.zero:
            raise NotAsked(NO_FRAMES)
        if not self.ranges(process).within(address, address + 1):
            return None
        with Pagemap(process.pid) as pagemap:
            return pagemap.entry(self.shift.there(address))

    def frame(self, code: int) -> str:
        return f"frame {self.frames.setdefault(code, len(self.frames))}"

    def entry(self, number: str, at: str) -> list[str]:
        match self.code(number, at):
            case None:
                return [text_of(errno.EFAULT)]
            case 0:
                return ["empty"]
            case self.mother.zero:
                return ["zero"]
            case code:
                return [self.frame(code)]

    def rmap(self, number: str, at: str) -> list[str]:
        code = self.code(number, at)
        if code is None:
            return [text_of(errno.EFAULT)]
        if code in (0, self.mother.zero):
            return ["none"]
        rows = [
            f"{other} {self.shift.here(place):x}"
            for other in sorted(self.live, key=int)
            for place in self.places_of(self.live[other], code)
        ]
        return [f"{self.frame(code)} maps {len(rows)}", *rows]

    def places_of(self, process: Stub, code: int) -> list[int]:
        """The addresses of a process, on the kernel, whose entry is this one."""
        areas = [it for it in areas_of(process.pid) if it.start < self.shift.base]
        if sum(it.end - it.start for it in areas) > MOST_PAGES * PAGE:
            raise NotAsked(TOO_MANY)
        with Pagemap(process.pid) as pagemap:
            return [at for area in areas for at in pagemap.places_of(code, area)]


def name_of(stopped: int) -> str:
    return "bus" if stopped == signal.SIGBUS else "segv"


def maps_of(areas: list[Area]) -> list[str]:
    """Areas as `maps` shows them."""
    runs: list[list] = []
    for it in areas:
        if runs and runs[-1][1:] == [it.start, it.prot]:
            runs[-1][1] = it.end
        else:
            runs.append([it.start, it.end, it.prot])
    return [f"runs {len(runs)}", *(f"{start:x}-{end:x} {prot}" for start, end, prot in runs)]


# commands that are no call, or that show something
DOES: dict[str, Callable[..., list[str]]] = {
    "spawn": Kernel.spawn,
    "fork": Kernel.fork,
    "exit": Kernel.exit,
    "read": Kernel.read,
    "write": Kernel.write,
    "maps": Kernel.maps,
    "areas": Kernel.areas_shown,
    "entry": Kernel.entry,
    "rmap": Kernel.rmap,
}
