"""The running kernel's own transcript, with notes: what each line of a trace comes to there.

Between the lines more is asked, as far as a kernel shows it: what stands for the pages that a line
speaks of, who has their frames, the areas, and bytes. Where frames aren't shown there are no notes.
"""
import collections
import os
from typing import Iterator, NamedTuple

from frames import All, Frames, TooMany, may_touch
from kernel import CALLS, NO_FRAMES, Kernel
from looking import Cut, Looker, drain
from merging import Merging
from proc import Area, row_of
from ranges import PAGE, up
from shift import LOW, TOP, NotAsked
from stubs import Gone
from swapping import Swapping, locked_frames

# commands that change areas
CHANGES = ("fork", *CALLS)
# those before which the CPUs' lists are drained
MAY_COPY = ("read", "write", "mlock", "mprotect")
# pages of a process that are asked for behind one line, and in the end
MOST_ASKED, MOST_IN_THE_END = 24, 200
# how often frames are looked at, of which one may be about to move
TRIES = 3
LISTS = "no file shows a kernel's lists; a reclaim is told with an age and a complete of its own"
AREA = "the kernel's swap area is another one"
UNTOLD = {
    "stat": "a kernel's counts are those of the machine",
    "age": LISTS,
    "complete": LISTS,
    "swapon": AREA,
    "swapoff": AREA,
    "slot": AREA,
    "compact": "no call says which frames are to move",
}
SEEN = "told as rmap: no file shows whether an entry was seen"
NO_KSMD = "nobody but root tells ksmd when to scan, or this kernel has none"
NO_SWAP = "no swap area is turned on (--swap does)"
GONE = "the kernel ended process {}"


class Told(NamedTuple):
    """A command with its reply. `line` is the number of the line for whose sake it stands there,
    and `before` what the areas of its process were.
    """

    line: int
    words: list[str]
    reply: list[str]
    is_added: bool
    before: list[Area]

    def trace(self) -> str:
        return f"{' '.join(self.words)}\n"

    def text(self) -> str:
        return "\n ".join(self.reply) + "\n"


class Telling:
    """Does the lines of a trace, and keeps what is told."""

    def __init__(self, kernel: Kernel, looker: Looker | None, most: int = 16384):
        self.kernel, self.most = kernel, most
        self.frames = Frames(looker, most) if looker else None
        self.told: list[Told] = []
        # the lines that aren't told, by the reason and the command
        self.passed: dict[str, collections.Counter[str]] = {}
        self.counts: collections.Counter[str] = collections.Counter()
        self.line, self.cut = 0, ""
        # whether the notes of the last reply are wanting
        self.is_unsure = False
        self.swapping: Swapping | None = None
        self.merging: Merging | None = None
        # lines at which ksmd merged what the definitions don't look at
        self.joined_more: set[int] = set()
        # how many pages of locked frames came in at a line at which a slot was dropped
        self.came_locked: collections.Counter[int] = collections.Counter()
        # whether the CPUs' lists are drained before an access that may copy, and whether a child
        # gets the entries of the page of zeros that the kernel didn't give it
        self.drains = self.mends = True

    def take_all(self, lines: list[tuple[int, list[str]]]) -> None:
        """Does the lines, up to where the transcript can't go on."""
        try:
            for number, words in lines:
                self.take(number, words)
            self.show_all()
        except Cut as why:
            self.cut = str(why)
        except Gone:
            self.cut = GONE.format("of the trace")

    def take(self, number: int, words: list[str]) -> None:
        """Does a line."""
        self.line = number
        try:
            self.does(words)
        except NotAsked as why:
            self.pass_over(str(why), words)

    def pass_over(self, why: str, words: list[str]) -> None:
        self.passed.setdefault(why, collections.Counter())[words[0]] += 1

    def does(self, words: list[str]) -> None:
        match words[0]:
            case name if name in UNTOLD:
                raise NotAsked(UNTOLD[name])
            case "merge" | "reclaim":
                self.does_by_itself(words)
            case "areas":
                self.add(words, self.areas(words[1]))
            case "maps":
                self.add(words, self.kernel.maps(words[1]))
            case "entry" | "rmap":
                self.show(words)
            case _:
                self.call(words)

    # ---- what a process does

    def call(self, words: list[str]) -> None:
        before = self.before(words)
        said = self.place_said(words)
        self.drain_for(words)
        reply = self.kernel.answer(words, said)
        self.check_killed()
        if self.swapping:
            self.swapping.check_full(self.frames)
        was = self.frames.now if self.frames else {}
        try:
            notes = self.frames.take(words, reply[0], self.look()) if self.frames else []
        except TooMany:
            # (what it says may be a row's all the same)
            self.told.append(Told(self.line, words, reply, False, before))
            self.is_unsure = True
            raise
        self.told.append(Told(self.line, words, reply + notes, False, before))
        if any(it.startswith("drop ") for it in notes):
            self.count_locked(notes)
        if words[0] == "fork" and reply == ["ok"] and self.frames and self.mends:
            self.mend(was.get(words[1], {}), words[2])
        self.ask(words, reply[0], was)

    def count_locked(self, notes: list[str]) -> None:
        """Of the pages that came in how many are locked, or have a frame that is in another process.
        """
        locked = {f"{self.frames.numbers[it]}" for it in locked_frames(self)}
        for number, at, frame in (it.split(" ")[1:] for it in notes if it.startswith("map ")):
            areas = self.kernel.areas(self.kernel.live[number], "smaps")
            own = (it for it in areas if it.start <= int(at, 16) < it.end)
            is_locked = frame in locked or any("lo" in it.flags for it in own)
            self.came_locked[self.line] += is_locked

    def before(self, words: list[str]) -> list[Area]:
        """The areas of a process, as they are."""
        if words[0] == "spawn" or words[1] not in self.kernel.live:
            return []
        return self.kernel.areas(self.kernel.live[words[1]], "smaps")

    def check_killed(self) -> None:
        for number, stub in self.kernel.live.items():
            if not os.path.exists(f"/proc/{stub.pid}/pagemap"):
                raise Cut(GONE.format(number))

    def look(self) -> All:
        """All entries, at the addresses of the trace."""
        shift = self.kernel.shift
        looker = self.frames.looker
        return {
            number: {shift.here(at): it for at, it in looker.entries(stub.pid, shift.base).items()}
            for number, stub in self.kernel.live.items()
        }

    def drain_for(self, words: list[str]) -> None:
        """Drains the CPUs' lists before a line that may write to a frame which was shared, or is in
        the swap cache: who holds one aside has a reference, for which the kernel copies.
        """
        if not self.frames or not self.drains or words[0] not in MAY_COPY:
            return
        entries = self.frames.now.get(words[1], {}).items()
        touched = {it for page, it in entries if it and may_touch(words, words[1], page)}
        held = self.frames.shared | set(self.frames.cached.values())
        if touched & held or any(it < 0 for it in touched):
            done = drain(self.kernel.live[words[1]].pid)
            self.counts["drained" if done else "not drained"] += 1

    def place_said(self, words: list[str]) -> str:
        """`map` with the place that the definitions give a mapping; empty where the line names one
        or gets none. (The kernel may have fewer addresses there, and then it isn't asked.)
        """
        match words:
            case ["mmap", number, length, _] | ["mmap", number, length, _, "at", _]:
                hint = int(words[5], 16) // PAGE * PAGE if words[5:] else -1
            case ["mremap", number, _, _, length, "maymove" | "dontunmap"]:
                hint = -1
            case _:
                return ""
        process, size = self.kernel.process(number), up(int(length))
        holes = list(holes_of(self.kernel.areas(process)))
        if any(start <= hint and hint + size <= end for start, end in holes):
            return f"map {hint:x}"
        place = next((end - size for start, end in reversed(holes) if size <= end - start), -1)
        return f"map {place:x}" if place >= 0 and size else ""

    def mend(self, parent: dict[int, int], child: str) -> None:
        """Has a child read where the parent has the page of zeros, and no entry was copied."""
        stub = self.kernel.live[child]
        mine = self.frames.now[child]
        missing = [page for page, it in parent.items() if it == 0 and page not in mine]
        areas = self.kernel.areas(stub, "smaps") if missing else []
        for page in missing:
            area = next((it for it in areas if it.start <= page < it.end), None)
            if area and "wf" not in area.flags:
                stopped = stub.read(self.kernel.shift.there(page), 1)[1]
                self.counts["unmended" if stopped else "mended"] += 1
        if missing:
            self.frames.now = self.look()

    def does_by_itself(self, words: list[str]) -> None:
        """A line that the kernel does in its own time."""
        by = self.merging if words[0] == "merge" else self.swapping
        if not self.frames:
            raise NotAsked(NO_FRAMES)
        if not by:
            raise NotAsked(NO_KSMD if words[0] == "merge" else NO_SWAP)
        by.take(self, words)

    # ---- what is asked

    def add(self, words: list[str], reply: list[str], is_added: bool = False) -> None:
        self.told.append(Told(self.line, words, reply, is_added, []))

    def areas(self, number: str) -> list[str]:
        """The reply to `areas`. What no file shows may be anything."""
        rows = []
        for it in self.kernel.areas(self.kernel.process(number), "smaps"):
            words = row_of(it).split(" ")
            rows.append(" ".join([*words[:2], "off=0", "own=-", "chain=-", *words[2:]]))
        return [f"areas {len(rows)}", *rows]

    def show(self, words: list[str]) -> None:
        """What a line asks of a page."""
        if not self.frames:
            raise NotAsked(NO_FRAMES)
        number, page = words[1], int(words[2], 16) // PAGE * PAGE
        if not self.kernel.ranges(self.kernel.process(number)).within(page, page + 1):
            self.add(words, ["err EFAULT"])
            return
        it = self.entry(number, page)
        if it > 0:
            self.counts["seen"] += words[0] == "entry"
            self.add(["rmap", *words[1:]], self.walk(it))
        else:
            said = "none" if words[0] == "rmap" else self.word_of(number, page)
            self.add(words, [said])

    def word_of(self, number: str, page: int) -> str:
        """What `entry` says of a page without a frame."""
        it = self.frames.now[number].get(page)
        if it is None:
            return "empty"
        return "zero" if it == 0 else Swapping.shown(self.frames, it)

    def entry(self, number: str, page: int) -> int:
        """What stands for a page. A frame has as many entries as the kernel itself counts: where it
        hasn't, something changed behind the line, and is told as it is now.
        """
        frames = self.frames
        for _ in range(TRIES):
            it = frames.now[number].get(page, 0)
            if it <= 0:
                return it
            walked, count = len(frames.walk(it)), frames.looker.count(it)
            # (a merged frame may be that of a process beside the trace, too)
            if count == walked or count > walked and frames.is_merged(it):
                return it
            frames.look_again(self.look())
        raise Cut(
            f"/proc/kpagecount names {count} entries of frame {frames.numbers[it]}, and the "
            f"processes of the trace have {walked}"
        )

    def walk(self, frame: int) -> list[str]:
        """The reply to `rmap`."""
        rows = self.frames.walk(frame)
        head = f"frame {self.frames.numbers[frame]} maps {len(rows)}"
        return [head, *(f"{number} {page:x}" for number, page in rows)]

    def question(self, number: str, page: int, is_mapped: bool) -> None:
        it = self.entry(number, page)
        where = [number, f"{page:x}"]
        if it > 0:
            self.add(["rmap", *where], self.walk(it), True)
        else:
            said = self.word_of(number, page) if is_mapped else "err EFAULT"
            self.add(["entry", *where], [said], True)

    def ask(self, words: list[str], reply: str, was: All) -> None:
        """Asks for what a line may have changed."""
        pages = self.pages_of(words, reply)
        if words[0] == "fork" and reply == "ok":
            pages[words[2]].update(was.get(words[1], {}))
        if self.frames:
            for number, entries in self.frames.now.items():
                old = was.get(number, {})
                changed = {it for it in {*entries, *old} if entries.get(it) != old.get(it)}
                pages.setdefault(number, set()).update(changed)
        for number in sorted(filter(self.kernel.live.__contains__, pages), key=int):
            if self.frames:
                self.ask_pages(number, sorted(pages[number])[:MOST_ASKED])
            if words[0] in CHANGES and number in words[1:]:
                self.add(["areas", number], self.areas(number), True)
        self.read_back(words, reply, pages)

    def ask_pages(self, number: str, pages: list[int]) -> None:
        ranges = self.kernel.ranges(self.kernel.process(number))
        for page in pages:
            if page < TOP:
                self.question(number, page, bool(ranges.within(page, page + 1)))

    def read_back(self, words: list[str], reply: str, pages: dict[str, set[int]]) -> None:
        """Reads bytes that a line wrote or moved."""
        if not self.frames:
            return
        number = words[2] if words[0] == "fork" else words[1]
        is_moved = words[0] in ("mremap", "fork") and not reply.startswith("err ")
        if (words[0] == "write" or is_moved) and number in self.kernel.live:
            for page in sorted(pages.get(number, ()))[:4]:
                self.read_whole(number, page)

    def read_whole(self, number: str, page: int) -> None:
        """Reads a page that has a frame, which no fault comes of."""
        if self.frames.now[number].get(page, 0) > 0:
            words = ["read", number, f"{page:x}", f"{PAGE}"]
            self.add(words, self.kernel.answer(words, ""), True)

    def pages_of(self, words: list[str], reply: str) -> dict[str, set[int]]:
        """Some of the pages that a line speaks of: the first ones, and the last."""
        name, pages, spans = words[0], set(), []
        if name in ("read", "write"):
            count = int(words[3]) if name == "read" else len(words[3]) // 2
            spans.append((int(words[2], 16), count))
        elif name in CALLS and name != "mmap":
            spans.append((int(words[2], 16), int(words[3])))
        if reply.startswith("map "):
            spans.append((int(reply[4:], 16), int(words[2 if name == "mmap" else 4])))
        for at, length in spans:
            first = at // PAGE * PAGE
            pages.update(range(first, min(at + length, first + 6 * PAGE, TOP), PAGE))
            if length:
                pages.add((at + length - 1) // PAGE * PAGE)
        return {words[-1] if name == "fork" else words[1]: {it for it in pages if it < TOP}}

    def show_all(self) -> None:
        """Shows and reads all that is left."""
        for number in sorted(self.kernel.live, key=int):
            self.add(["areas", number], self.areas(number), True)
            self.add(["maps", number], self.kernel.maps(number), True)
            pages = sorted(self.frames.now[number])[:MOST_IN_THE_END] if self.frames else []
            self.ask_pages(number, pages)
            for page in pages:
                self.read_whole(number, page)


def holes_of(areas: list[Area]) -> Iterator[tuple[int, int]]:
    """What is free between LOW and TOP."""
    end = LOW
    for it in areas:
        if end < it.start:
            yield end, it.start
        end = max(end, it.end)
    if end < TOP:
        yield end, TOP

