"""`merge` by the kernel's thread ksmd: what it did, as notes. Its settings are put back."""
from __future__ import annotations

import contextlib
import mmap
import os
import time
from typing import TYPE_CHECKING, Iterator

from frames import All, Frames
from kernel import KSM
from looking import Cut, alone, unbroken
from ranges import PAGE
from swapping import locked_frames

if TYPE_CHECKING:
    from telling import Telling

# a page is merged at the second scan that finds its bytes the same, so some are needed
SCANS, PATIENCE = 5, 60
SETTINGS = {"pages_to_scan": "10000", "sleep_millisecs": "1", "smart_scan": "0"}
SETTINGS |= {"use_zero_pages": "0"}


def get(name: str) -> str:
    with open(f"{KSM}/{name}", encoding="ascii") as it:
        return it.read().strip()


def put(name: str, value: str) -> None:
    with open(f"{KSM}/{name}", "w", encoding="ascii") as it:
        it.write(value)


@contextlib.contextmanager
def settings() -> Iterator[None]:
    """Has ksmd look at all pages at once, and puts its settings back."""
    old = {it: get(it) for it in ("run", *SETTINGS) if os.path.exists(f"{KSM}/{it}")}
    try:
        for name in filter(old.__contains__, SETTINGS):
            put(name, SETTINGS[name])
        yield
    finally:
        with unbroken():
            for name, value in reversed(old.items()):
                put(name, value)


@contextlib.contextmanager
def quiet() -> Iterator[None]:
    """ksmd does nothing by itself meanwhile, and nothing for another run of this tool: equal pages
    of both would share a frame.
    """
    with alone(f"{KSM}/run", "merges"):
        run = get("run")
        try:
            put("run", "0")
            yield
        finally:
            with unbroken():
                put("run", run)


@contextlib.contextmanager
def own_page() -> Iterator[None]:
    """A page that ksmd looks at, and that is equal to none: where nobody asks for merges it doesn't
    scan.
    """
    with mmap.mmap(-1, PAGE, mmap.MAP_PRIVATE | mmap.MAP_ANONYMOUS) as page:
        page.madvise(mmap.MADV_MERGEABLE)
        page.write(os.urandom(PAGE))
        yield


class Merging:
    """Does `merge`. `joined` are the frames that took part the last time, by their numbers."""

    def __init__(self) -> None:
        self.joined: set[int] = set()

    def scan(self) -> None:
        """Has ksmd scan all pages some times."""
        until = time.monotonic() + PATIENCE
        with settings(), own_page():
            last = int(get("full_scans")) + SCANS
            put("run", "1")
            while int(get("full_scans")) < last:
                if time.monotonic() > until:
                    raise Cut(f"ksmd didn't end {SCANS} scans in {PATIENCE} seconds")
                time.sleep(0.01)
            put("run", "0")

    def take(self, telling: Telling, words: list[str]) -> None:
        frames = telling.frames
        merged = set(filter(frames.is_merged, frames.mapped()))
        self.scan()
        after = telling.look()
        others = locked_frames(telling) | set(frames.cached.values())
        looked_at = {frames.numbers[it] for it in frames.mapped() if it not in others}
        notes = self.notes(frames, merged, after)
        if any(it not in looked_at for it in self.joined):
            telling.joined_more.add(telling.line)
        frames.now = after
        frames.prune()
        telling.add(words, ["ok", *notes])
        for number in sorted(after, key=int):
            telling.ask_pages(number, sorted(after[number]))

    def notes(self, frames: Frames, merged: set[int], after: All) -> list[str]:
        """The notes of what joined. A merged frame has the number of the first page that came to
        it; one that moved meanwhile keeps its own.
        """
        notes, first, numbers = [], {}, dict(frames.numbers)
        self.joined = set()
        shared = {it: frames.numbers[it] for it in merged}
        for number, page, it in entries_of(after):
            was = frames.now[number].get(page, 0)
            if it <= 0 or was <= 0:
                continue
            own = numbers[it] = frames.numbers[was]
            if not frames.is_merged(it) or it not in shared and first.setdefault(it, own) == own:
                continue
            if it not in shared:
                shared[it] = first[it]
                notes.append(f"share {first[it]}")
            numbers[it] = shared[it]
            if own != shared[it]:
                notes.append(f"join {number} {page:x} {shared[it]}")
                self.joined |= {own, shared[it]}
        frames.counts.update(it.split(" ")[0] for it in notes)
        frames.numbers = numbers
        return notes


def entries_of(all_: All) -> Iterator[tuple[str, int, int]]:
    """All entries, by process and address."""
    for number in sorted(all_, key=int):
        for page, it in sorted(all_[number].items()):
            yield number, page, it


def can_merge() -> bool:
    """Whether ksmd can be told when to scan."""
    return os.access(f"{KSM}/run", os.W_OK)
