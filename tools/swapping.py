"""`reclaim` by MADV_PAGEOUT, over a swap file that is on for so long: what went out, as notes.

The definitions send out what wasn't seen, and no file shows that of a kernel. So each frame is read
first and kept as one that was seen, all are aged, those that the kernel leaves where they are get
read again, and the others go out: `reclaim N` is told as a reclaim of all, an age of all, those
reads, the reclaim of N, and the end of its writes.
"""
from __future__ import annotations

import contextlib
import ctypes
import errno
import os
import tempfile
import time
from typing import TYPE_CHECKING, Iterable, Iterator

from shared.saying import Refused

import swapfile
from frames import BY_ITSELF, Frames, slot_text
from looking import WRITEBACK, Cut, alone, slot_of, unbroken
from proc import Area
from ranges import PAGE
from shift import NotAsked
from stubs import MADVISE

if TYPE_CHECKING:
    from telling import Telling

PAGEOUT, PREFER, FIRST = 21, 0x8000, 32767
# pages of the swap file, and how long the writes of a pass may take
PAGES, PATIENCE = 1024, 20
UNREADABLE = "no process can read one of its frames, which so can't be kept as seen"
NOTHING = "there is no frame to send out"
OTHER_AREA = "pages went to another swap area"
OTHERS_FILL = "pages of others fill the machine's swap, so that any read may drop a slot"


def libc_call(name: str, *of: object) -> None:
    libc = ctypes.CDLL(None, use_errno=True)
    if getattr(libc, name)(*of):
        number = ctypes.get_errno()
        raise Refused(f"{name}: {os.strerror(number)} ({errno.errorcode.get(number, number)})")


@contextlib.contextmanager
def area(folder: str | None = None) -> Iterator[str]:
    """A swap file that is on, before all others; off and gone in the end. (There is one at a time:
    of two the pages might go to either.)
    """
    with contextlib.ExitStack() as stack:
        stack.enter_context(alone("/proc/swaps", "swaps"))
        room = stack.enter_context(
            tempfile.TemporaryDirectory(prefix="avsim-swap-", dir=folder)
        )
        file = f"{room}/swap.img"
        swapfile.make(file, PAGES)
        os.chmod(file, 0o600)
        with open(file, "r+b") as it:
            # (a file with holes can't be a swap area)
            it.seek(PAGE)
            it.write(bytes((PAGES - 1) * PAGE))
        name = file.encode()
        with unbroken():
            libc_call("swapon", name, PREFER | FIRST)
            stack.callback(turn_off, name)
        yield file


def turn_off(name: bytes) -> None:
    with unbroken():
        libc_call("swapoff", name)


def swap_of_machine() -> tuple[int, int]:
    """How much swap is free, and how much there is, over all areas."""
    with open("/proc/meminfo", encoding="ascii") as it:
        said = dict(line.split(":") for line in it)
    return int(said["SwapFree"].split()[0]), int(said["SwapTotal"].split()[0])


class Swapping:
    """Does `reclaim`."""

    def __init__(self) -> None:
        # which of the kernel's areas the file is, once a page went out
        self.kind = -1

    @staticmethod
    def begin() -> tuple[list[str], list[str]]:
        """The line that turns the area on, which stands before all others, and its reply."""
        return ["swapon", "0"], [f"on {PAGES - 1} 0"]

    @staticmethod
    def shown(frames: Frames, slot: int) -> str:
        cached = frames.cached.get(slot)
        return f"slot {slot_text(slot)}" + (f" cached {frames.numbers[cached]}" if cached else "")

    def take(self, telling: Telling, words: list[str]) -> None:
        frames: Frames = telling.frames
        mapped = set(frames.mapped())
        if not mapped:
            raise NotAsked(NOTHING)
        locked = locked_frames(telling)
        kept = {frames.numbers[it]: "locked" for it in locked}
        kept = {frames.numbers[it]: "ksm" for it in mapped if frames.is_merged(it)} | kept
        self.age_unmapped(telling, {frames.numbers[it] for it in mapped})
        for frame in sorted(mapped):
            touch(telling, frame)
        by_number = {number: frame for frame, number in frames.numbers.items()}
        order = [it for it in [*frames.inactive, *frames.active] if by_number[it] in mapped]
        last = order[-int(words[1]) :]
        victims = {by_number[it] for it in last if it not in kept}
        out = self.send_out(telling, victims, mapped)
        self.tell_ages(telling, order, kept)
        for frame in sorted(victims - set(out)):
            touch(telling, frame)
        self.tell(telling, list(reversed(last)), by_number, kept, out)

    # ---- what the kernel does

    def send_out(self, telling: Telling, victims: set[int], mapped: set[int]) -> dict[int, int]:
        """Which frames went out, each with its slot."""
        frames, shift = telling.frames, telling.kernel.shift
        for number, stub in telling.kernel.live.items():
            for page, it in sorted(frames.now[number].items()):
                if it in victims:
                    stub.call(MADVISE, shift.there(page), PAGE, PAGEOUT)
        until, flags = time.monotonic() + PATIENCE, frames.looker.flags
        while any(flags(it) & WRITEBACK for it in mapped) and time.monotonic() < until:
            time.sleep(0.005)
        self.after = telling.look()
        pairs = [
            (was, self.after[number].get(page, 0))
            for number, entries in frames.now.items()
            for page, was in entries.items()
            if was > 0
        ]
        out = {was: it for was, it in pairs if it < 0}
        for was, it in pairs:
            if it != out.get(was, was):
                raise Cut("a frame went out in part, or moved meanwhile")
        if set(out) - victims:
            raise Cut(BY_ITSELF)
        self.check_area(out.values())
        return out

    def check_full(self, frames: Frames) -> None:
        """Whether swap counts as full for others' pages."""
        free, all_ = swap_of_machine()
        own = len(frames.slots() | set(frames.cached))
        if 2 * free < all_ and 2 * (PAGES - 1 - own) >= PAGES - 1:
            raise Cut(OTHERS_FILL)

    def check_area(self, slots: Iterable[int]) -> None:
        """Whether it is the file where pages went. (Others may swap, too, and fill it.)"""
        kinds = {slot_of(it)[0] for it in slots} | {self.kind} - {-1}
        if len(kinds) > 1 or any(slot_of(it)[1] >= PAGES for it in slots):
            raise Cut(OTHER_AREA)
        self.kind = max(kinds, default=-1)

    # ---- what is told of it

    def age_unmapped(self, telling: Telling, mapped: set[int]) -> None:
        """Where the swap cache alone has an active frame, all age: a reclaim comes to it then."""
        frames = telling.frames
        if set(frames.active) - mapped:
            ages = [f"age {it}" for it in frames.active[::-1]]
            telling.add(["age", f"{len(ages)}"], ["ok", *ages], True)
            frames.active, frames.inactive = [], frames.active + frames.inactive

    def tell_ages(self, telling: Telling, order: list[int], kept: dict[int, str]) -> None:
        """All frames are kept, and age. (They were read, so that each counts as seen.) Those that
        the swap cache alone has are free then.
        """
        frames = telling.frames
        alone = {frames.numbers[frame]: slot for slot, frame in frames.cached.items()}
        notes = ["ok"]
        for it in frames.inactive[::-1]:
            if it in order:
                notes.append(f"keep {it} {kept.get(it, 'referenced')}")
            else:
                notes.append(f"drop {slot_text(alone[it])}")
                del frames.cached[alone[it]]
        if frames.inactive:
            telling.add(["reclaim", f"{len(frames.inactive)}"], notes, True)
        ages = [f"age {it}" for it in order[::-1]]
        telling.add(["age", f"{len(order)}"], ["ok", *ages], True)
        frames.active, frames.inactive = [], order

    def tell(self, telling: Telling, last: list[int], by_number: dict[int, int], kept, out) -> None:
        """The frames that went out, and those that the kernel left where they were."""
        frames, notes, begun = telling.frames, ["ok"], []
        frames.counts["out"] += len(out)
        for it in last:
            frame = by_number[it]
            frames.inactive.remove(it)
            if frame not in out:
                notes.append(f"keep {it} {kept.get(it, 'referenced')}")
                frames.active.insert(0, it)
            elif frames.slot_of(frame):
                notes += self.dropped(frames, it, frame, out[frame])
            else:
                name = slot_text(out[frame])
                notes += [f"put {it} {name}", f"unmap {it}", f"start {name}", f"keep {it} started"]
                frames.cached[out[frame]] = frame
                begun.append((it, name))
        telling.add(["reclaim", f"{len(last)}"], notes)
        frames.now = self.after
        # (its write has ended, so a frame is at the tail)
        frames.inactive += [it for it, _ in begun]
        if begun:
            done = [f"done {name}" for _, name in begun]
            telling.add(["complete", f"{len(begun)}"], ["ok", *done], True)
        frames.prune()
        for number in sorted(self.after, key=int):
            telling.ask_pages(number, sorted(self.after[number]))

    def dropped(self, frames: Frames, number: int, frame: int, slot: int) -> list[str]:
        """How a frame goes out that is as its slot is: nothing is written."""
        if frames.slot_of(frame) != slot:
            raise Cut("a frame that the swap cache had went to another slot")
        del frames.cached[slot]
        return [f"unmap {number}", f"drop {slot_text(slot)}"]


def touch(telling: Telling, frame: int) -> None:
    """Reads a byte of a frame, so that it was seen."""
    for number, page in telling.frames.walk(frame):
        words = ["read", number, f"{page:x}", "1"]
        reply = telling.kernel.answer(words, "")
        if reply[0].startswith("data "):
            telling.add(words, reply, True)
            return
    raise NotAsked(UNREADABLE)


def locked_frames(telling: Telling) -> set[int]:
    """The frames of locked pages."""
    found = set()
    for number, stub in telling.kernel.live.items():
        areas: list[Area] = telling.kernel.areas(stub, "smaps")
        locked = [it for it in areas if "lo" in it.flags]
        for page, it in telling.frames.now[number].items():
            if it > 0 and any(of.start <= page < of.end for of in locked):
                found.add(it)
    return found
