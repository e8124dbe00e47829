"""`show` of a session: what each page of each area is, and who has each frame. It asks by reports,
which change nothing: so they are no lines of the session.
"""
from typing import Callable, Iterable, Iterator

Ask = Callable[[Iterable[bytes]], list[list[str]]]
Page = tuple[int, int]

# what is shown at most: areas of a process, pages of an area, frames, and entries of a frame
MOST_AREAS, MOST_PAGES, MOST_FRAMES, MOST_OWNERS = 64, 32, 256, 8


def processes_in(lines: Iterable[bytes]) -> list[int]:
    """The processes that lines of a trace have begun."""
    begun = (it.split() for it in lines if it.startswith((b"spawn ", b"fork ")))
    return sorted({int(it[-1]) for it in begun})


def word_for(entry: str) -> str:
    """What `entry` says, in a word: `.` is none, `3` a frame that was seen, `~3` one that wasn't,
    `3@0:1` one that is cached at a slot, `0:1` a slot, and `0:1@3` one that is cached at a frame.
    """
    words = entry.split(" ")
    cached = f"@{words[-1]}" if "cached" in words else ""
    if words[0] == "frame":
        return "~" * (words[2] == "old") + words[1] + cached
    return words[1] + cached if words[0] == "slot" else {"empty": "."}.get(entry, entry)


def frame_of(entry: str) -> int | None:
    """The frame that an entry names, or that its slot is cached at."""
    words = entry.split(" ")
    if words[0] == "frame":
        return int(words[1])
    return int(words[3]) if words[2:3] == ["cached"] else None


def pages_of(process: int, row: str) -> tuple[list[Page], int]:
    """The pages of an area that are shown, and how many are left out."""
    first, end = (int(it, 16) >> 12 for it in row.split()[0].split("-"))
    shown = range(first, min(end, first + MOST_PAGES))
    return [(process, it) for it in shown], end - shown.stop


def entries_of(ask: Ask, areas: dict[int, list[str]]) -> dict[Page, str]:
    """What `entry` says of each page that is shown."""
    rows = [(number, it) for number, rows in areas.items() for it in rows[:MOST_AREAS]]
    pages = [it for number, row in rows for it in pages_of(number, row)[0]]
    replies = ask(b"entry %d %x" % (number, page << 12) for number, page in pages)
    return {page: reply[0] for page, reply in zip(pages, replies)}


def area_lines(areas: dict[int, list[str]], entries: dict[Page, str]) -> Iterator[str]:
    """Each process with its areas."""
    for number, rows in areas.items():
        yield f"process {number}" + ": no memory" * (not rows)
        for row in rows[:MOST_AREAS]:
            pages, more = pages_of(number, row)
            cells = [word_for(entries[it]) for it in pages] + [f"and {more} more"] * (more > 0)
            yield f"  {row.strip()}: {' '.join(cells)}"
        if len(rows) > MOST_AREAS:
            yield f"  and {len(rows) - MOST_AREAS} more areas"


def frame_lines(ask: Ask, entries: dict[Page, str]) -> Iterator[str]:
    """Each frame of the pages that are shown, with all entries that name it, and its slot."""
    pages: dict[int, Page] = {}
    slots: dict[int, str] = {}
    for page, entry in entries.items():
        frame = frame_of(entry)
        if frame is None:
            continue
        if entry.startswith("frame"):
            pages.setdefault(frame, page)
        if "cached" in entry:
            words = entry.split(" ")
            slots[frame] = words[4] if words[0] == "frame" else words[1]
    frames = sorted(pages.keys() | slots.keys())
    merged = {frame_of(it) for it in entries.values() if it.endswith(" ksm")}
    asked = [it for it in frames[:MOST_FRAMES] if it in pages]
    replies = ask(b"rmap %d %x" % (pages[it][0], pages[it][1] << 12) for it in asked)
    owners = {it: [row.strip() for row in reply[1:]] for it, reply in zip(asked, replies)}
    for frame in frames[:MOST_FRAMES]:
        is_merged = ", merged" * (frame in merged)
        yield f"frame {frame}{is_merged}: {words_of_frame(owners.get(frame, []), slots.get(frame))}"
    if len(frames) > MOST_FRAMES:
        yield f"and {len(frames) - MOST_FRAMES} more frames"


def words_of_frame(owners: list[str], slot: str | None) -> str:
    """Who has a frame, and the slot that it is cached at."""
    words = owners[:MOST_OWNERS]
    more = len(owners) - len(words)
    words += [f"and {more} more"] * (more > 0)
    return ", ".join([*words, f"cached at {slot}"] if slot else words)


def lines_of_show(ask: Ask, numbers: list[int]) -> Iterator[str]:
    """All that is shown of those of the processes that live."""
    replies = ask(b"areas %d" % it for it in numbers)
    living = [it for it in zip(numbers, replies) if not it[1][0].startswith("err ")]
    areas = {number: reply[1:] for number, reply in living}
    entries = entries_of(ask, areas)
    yield from area_lines(areas, entries)
    yield from frame_lines(ask, entries)
    yield ask([b"stat"])[0][0]
