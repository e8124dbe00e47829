"""What /proc tells of a process: its areas, and the frames of its pages."""
import os
import re
import struct
from typing import Iterator, NamedTuple

from shared.saying import Refused

PAGE = 4096
ROW = re.compile(r"([0-9a-f]+)-([0-9a-f]+) ([r-][w-][x-])([ps]) [0-9a-f]+ [0-9a-f:]+ \d+ *(.*)")
# an entry of pagemap: whether a page is there or swapped out, and which frame or slot it is
THERE, SWAPPED, FRAME = 1 << 63, 1 << 62, (1 << 55) - 1
# pages that are looked through at a time
BLOCK = 1 << 15
# the flags of an area that have a word in its row of `areas`, by their names in smaps
FLAGS = {"dc": "dontfork", "wf": "wipeonfork", "lo": "locked", "mg": "mergeable"}


class Area(NamedTuple):
    """A row of /proc/PID/maps. `flags` are the VmFlags of smaps, where that was read."""

    start: int
    end: int
    prot: str
    is_shared: bool
    name: str
    flags: tuple[str, ...] = ()


def lines_of(pid: int, file: str) -> list[str]:
    try:
        with open(f"/proc/{pid}/{file}", encoding="utf-8", errors="replace") as it:
            return it.read().split("\n")
    except OSError as error:
        raise Refused(f"/proc/{pid}/{file} can't be read: {error.strerror}") from None


def areas_of(pid: int, file: str = "maps") -> list[Area]:
    """The areas of a process, by rising address; with their flags where the file is smaps."""
    found: list[Area] = []
    for line in lines_of(pid, file):
        if line[:1].isupper() and not line.startswith("VmFlags:"):
            continue
        if row := ROW.fullmatch(line):
            start, end = int(row[1], 16), int(row[2], 16)
            found.append(Area(start, end, row[3], row[4] == "s", row[5]))
        elif line.startswith("VmFlags:") and found:
            found[-1] = found[-1]._replace(flags=tuple(line.split()[1:]))
    return found


def row_of(area: Area) -> str:
    """An area as `areas` shows it, but for its offset and anon_vmas, which Linux doesn't show."""
    words = [word for flag, word in FLAGS.items() if flag in area.flags]
    return " ".join([f"{area.start:x}-{area.end:x}", area.prot, *words])


class Pagemap:
    """The entries of a process's page table, each as a number: 0 for none. Who may not see frames
    sees 0 in their place.
    """

    def __init__(self, pid: int):
        try:
            self.file = os.open(f"/proc/{pid}/pagemap", os.O_RDONLY)
        except OSError as error:
            raise Refused(f"/proc/{pid}/pagemap can't be read: {error.strerror}") from None

    def __enter__(self):
        return self

    def __exit__(self, *_):
        os.close(self.file)

    def entries(self, first: int, count: int) -> tuple[int, ...]:
        """Those of so many pages from page number `first` on."""
        read = os.pread(self.file, 8 * count, 8 * first)
        return struct.unpack(f"{len(read) // 8}Q", read)

    def entry(self, address: int) -> int:
        return code_of(self.entries(address // PAGE, 1)[0])

    def places_of(self, code: int, area: Area) -> Iterator[int]:
        """The addresses in an area whose entry is this one."""
        for first in range(area.start // PAGE, area.end // PAGE, BLOCK):
            entries = self.entries(first, min(BLOCK, area.end // PAGE - first))
            for at, it in enumerate(entries, first):
                if it and code_of(it) == code:
                    yield at * PAGE


def code_of(entry: int) -> int:
    """An entry of pagemap as far as it says which frame or slot: 0 where there is neither."""
    is_swapped = bool(entry & SWAPPED)
    return (entry & FRAME) | is_swapped << 55 if entry & (THERE | SWAPPED) else 0
