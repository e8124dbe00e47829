"""Swap files: the header that makes one, and the machine that the comments of a trace ask for."""
import argparse
import collections
import itertools
import os
import re
import stat
import struct
from typing import Sequence

from shared.saying import Refused

PAGE = 4096
# where the fields of the header stand, and the words that end its page
VERSION, LAST, COUNT, BAD = 1024, 1028, 1032, 1536
SIGNATURE = b"SWAPSPACE2"
# bad pages that have room in a header, and pages of an area that are used
MOST_BAD, MOST_PAGES = 637, 1_048_576
# frames and swap files that a machine has at most
MOST_FRAMES, MOST_FILES = 16384, 8
# a swap file in the words of a comment, and the machine that it speaks of
AREA = r" of (\d{1,9}) pages?(?:, of which ([\d, to and]+) (?:is|are) bad)?"
MACHINE = re.compile(
    r"^#.*\bRun it with (\d{1,9}) frames?"
    rf"( and a swap file{AREA}(?:,? and one{AREA}){{0,{MOST_FILES - 1}}})?\.",
    re.M,
)

# the frames as they stand in a comment; of each swap file its pages, and which of them are bad
Machine = collections.namedtuple("Machine", "frames areas")


class Unfit(Exception):
    """Why a file isn't made, in one sentence."""


def header(pages: int, bad: Sequence[int] = ()) -> bytes:
    """The first page of an area of so many pages, as mkswap of a little-endian machine writes it,
    but without a UUID.
    """
    page = bytearray(PAGE)
    struct.pack_into("<III", page, VERSION, 1, pages - 1, len(bad))
    struct.pack_into(f"<{len(bad)}I", page, BAD, *bad)
    page[-len(SIGNATURE) :] = SIGNATURE
    return bytes(page)


def is_swap_file(file: str) -> bool:
    """Whether a regular file has the signature of a swap area."""
    if not stat.S_ISREG(os.stat(file).st_mode):
        return False
    with open(file, "rb") as it:
        return it.read(PAGE)[-len(SIGNATURE) :] == SIGNATURE


def make(file: str, pages: int, bad: Sequence[int] = ()) -> None:
    """Makes a swap file: the header, and zeros that take no room on most disks. One that was there
    goes; any other file stays.
    """
    if os.path.lexists(file) and not is_swap_file(file):
        raise Unfit(f"{file} is there, and is no swap file")
    with open(file, "wb") as it:
        it.write(header(pages, bad))
        it.truncate(pages * PAGE)


def pages_in(text: str) -> list[int]:
    """The pages of `3, 5 and 8 to 11`. (Of more than a header has room for, the first ones.)"""
    pairs = re.findall(r"(\d+)(?: to (\d+))?", text)
    pages = (it for first, last in pairs for it in range(int(first), int(last or first) + 1))
    return list(itertools.islice(pages, MOST_BAD + 1))


def asked_by(trace: str) -> list[Machine]:
    """The machine that each comment of a trace asks for that says `Run it with ..`."""
    return [Machine(it[1], areas_in(it[2] or "")) for it in MACHINE.finditer(trace)]


def areas_in(text: str) -> list[tuple[int, list[int]]]:
    """The swap files of a comment: of each its pages, and which of them are bad."""
    return [(int(pages), pages_in(bad)) for pages, bad in re.findall(AREA, text)]


def told_of(file: str) -> tuple[int, list[int]]:
    """How many pages a swap file has by its header, and which are bad. Of one whose header isn't
    that of `header` its size tells the pages.
    """
    try:
        with open(file, "rb") as it:
            page, size = it.read(PAGE), os.fstat(it.fileno()).st_size
    except OSError:
        return 0, []
    if len(page) < PAGE or not page.endswith(SIGNATURE):
        return size // PAGE, []
    version, last, count = struct.unpack_from("<III", page, VERSION)
    if version != 1 or count > MOST_BAD:
        return size // PAGE, []
    return last + 1, list(struct.unpack_from(f"<{count}I", page, BAD))


def comment_for(machine: Machine) -> str:
    """The comment that asks for a machine, as `asked_by` reads it."""
    text = f"# Run it with {machine.frames} frame{'s' * (machine.frames != '1')}"
    is_before = False
    for at, area in enumerate(machine.areas):
        text += f"{',' * is_before} and {'one' if at else 'a swap file'}{text_for(*area)}"
        is_before = bool(area[1])
    return f"{text}."


def text_for(pages: int, bad: list[int]) -> str:
    """A swap file in the words of a comment."""
    text = f" of {pages} page{'s' * (pages != 1)}"
    if not bad:
        return text
    *some, last = ranges_of(bad)
    text += f", of which {' and '.join([', '.join(some), last] if some else [last])} "
    return text + ("is bad" if len(bad) == 1 else "are bad")


def ranges_of(pages: list[int]) -> list[str]:
    """Pages in words: `3`, or `8 to 11`."""
    found = []
    for page in sorted(set(pages)):
        if found and found[-1][1] + 1 == page:
            found[-1][1] = page
        else:
            found.append([page, page])
    return [f"{first} to {last}" if first < last else f"{first}" for first, last in found]


def frames_of(word: str) -> int:
    """The frames that a word of a command line asks for."""
    if not re.fullmatch(r"[1-9][0-9]{0,4}", word) or int(word) > MOST_FRAMES:
        raise argparse.ArgumentTypeError(f"it is 1 to {MOST_FRAMES}, and {word!r} isn't")
    return int(word)


def files_for(count: int) -> list[str]:
    """The names of so many swap files: `swap.img`, `swap1.img`, .."""
    return [f"swap{it or ''}.img" for it in range(count)]


def words_for(trace: str, room: str) -> list[str]:
    """The words behind `run` that a trace asks for. Its swap files are made in a folder."""
    return words_of(asked_by(trace)[0], room)


def words_of(machine: Machine, room: str) -> list[str]:
    """The words behind `run` of a machine, whose swap files are made in a folder."""
    files = [os.path.join(room, it) for it in files_for(len(machine.areas))]
    for file, area in zip(files, machine.areas):
        make(file, *area)
    return [machine.frames, *files]


def words_by_head(trace: str, room: str) -> list[str]:
    """The words behind `run` of the machine that a trace asks for, or of one with all the frames
    that there can be. Its swap files are made in a folder.
    """
    try:
        return words_for(trace, room) if asked_by(trace) else [str(MOST_FRAMES)]
    except (OSError, Unfit) as why:
        raise Refused(f"a swap file can't be made: {why}") from None
