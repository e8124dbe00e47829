"""What became of frames at a command, as avsim's notes say it: from all entries before and after.

A frame of the kernel has a number as long as an entry names it, or the swap cache has it for a slot
that one names. Frames are in two lists, as the definitions have them, from the head on.
"""
import collections

from looking import IN_SWAP_CACHE, MAPPED, MERGED, Cut, Entries, Looker, slot_of
from ranges import PAGE, up

# stands, with what is above, for frames that only the swap cache can have
UNSEEN = 1 << 60
BY_ITSELF = "a page went to swap by itself"
# all entries: of each process, by the address
All = dict[str, Entries]


class TooMany(Cut):
    """There are more frames than the machine of the transcript has."""


def slot_text(entry: int) -> str:
    return f"0:{slot_of(entry)[1]}"


def span_of(words: list[str]) -> tuple[int, int]:
    """The addresses whose pages a command may bring in or copy, from one up to another."""
    at = int(words[2], 16)
    match words[0]:
        case "read" | "mlock" | "mprotect":
            return at, at + int(words[3])
        case "write":
            return at, at + len(words[3]) // 2
        case "mremap":
            return 0, 2**64
        case "madvise" if words[4] == "unmergeable":
            return at, at + up(int(words[3]))
    return 0, 0


def may_touch(words: list[str], number: str, page: int) -> bool:
    if len(words) < 3 or words[0] == "fork" or words[1] != number:
        return False
    start, end = span_of(words)
    return page < end and page + PAGE > start


class Frames:
    """The entries of all processes, as they were last looked at, with the numbers of frames."""

    def __init__(self, looker: Looker, most: int):
        self.looker, self.most = looker, most
        self.now: All = {}
        self.numbers: dict[int, int] = {}
        self.free = iter(range(most))
        # how many frames weren't seen, and the slots of which nobody knows when they were dropped
        self.unseen, self.doubtful = 0, set[int]()
        # which frame the swap cache has for a slot, as far as the notes say
        self.cached: dict[int, int] = {}
        self.active: list[int] = []
        self.inactive: list[int] = []
        # frames that several entries named at once
        self.shared: set[int] = set()
        self.counts: collections.Counter[str] = collections.Counter()

    def walk(self, frame: int) -> list[tuple[str, int]]:
        """The processes and pages that have a frame, in avsim's order."""
        return [
            (number, page)
            for number in sorted(self.now, key=int)
            for page, it in sorted(self.now[number].items())
            if it == frame
        ]

    def fresh(self, frame: int) -> int:
        """A number for a frame, the least that none has."""
        if frame in self.numbers:
            self.give_up(frame)
        number = next(self.free, None)
        if number is None:
            raise TooMany(f"the kernel has more than {self.most} frames in use")
        self.numbers[frame] = number
        self.inactive.insert(0, number)
        return number

    def give_up(self, frame: int) -> None:
        """A frame that no entry names isn't that of its slot any more, and nobody saw it go."""
        self.unseen += 1
        self.doubtful.add(self.slot_of(frame))
        self.rename({frame: UNSEEN + self.unseen})

    def mapped(self) -> list[int]:
        """The frames that entries name."""
        return sorted({it for entries in self.now.values() for it in entries.values() if it > 0})

    def slot_of(self, frame: int) -> int:
        """The slot that a frame is cached for; 0 for none."""
        return next((it for it, of in self.cached.items() if of == frame), 0)

    def is_merged(self, frame: int) -> bool:
        return bool(self.looker.flags(frame) & MERGED)

    def lost_slots(self, after: All) -> set[int]:
        """The slots that the swap cache may not have any more."""
        named = {it for entries in after.values() for it in entries.values()}
        return {
            slot
            for slot, frame in self.cached.items()
            if not self.is_in_swap_cache(frame, frame in named)
        }

    def is_in_swap_cache(self, frame: int, is_named: bool = True) -> bool:
        """Whether a frame is that of a slot still. (A free one may be mapped by others by now, who
        swap as well.)
        """
        flags = self.looker.flags(frame) if frame < UNSEEN else 0
        return bool(flags & IN_SWAP_CACHE) and (is_named or not flags & MAPPED)

    def take(self, words: list[str], reply: str, after: All) -> list[str]:
        """The notes of a command, from what is there after it."""
        self.follow_moves(words, after)
        notes = Story(self, words, reply, after).tell()
        self.now = after
        self.prune()
        return notes

    def prune(self) -> None:
        """Forgets frames that are free."""
        named = collections.Counter(it for all_ in self.now.values() for it in all_.values())
        used = {it for it in named if it > 0} | set(self.cached.values())
        if lacks := [it for it in used if it not in self.numbers]:
            raise Cut(f"{len(lacks)} frames came without a note")
        self.numbers = {frame: it for frame, it in self.numbers.items() if frame in used}
        live = set(self.numbers.values())
        self.free = (it for it in range(self.most) if it not in live)
        self.active = [it for it in self.active if it in live]
        self.inactive = [it for it in self.inactive if it in live]
        several = {it for it, count in named.items() if it > 0 and count > 1}
        self.shared = (self.shared & used) | several

    def follow_moves(self, words: list[str], after: All) -> None:
        """Frames that the kernel moved meanwhile, as compaction does, keep their numbers: each
        entry of the one names the other, of pages that the command doesn't touch.
        """
        moved, stay = {}, set()
        for number, entries in after.items():
            for page, it in entries.items():
                was = self.now.get(number, {}).get(page) or 0
                if was > 0 and it == was:
                    stay.add(was)
                elif was > 0 and it > 0 and not may_touch(words, number, page):
                    moved[was] = it
        moved = {was: it for was, it in moved.items() if was not in stay}
        self.counts["moved"] += len(moved)
        self.rename(moved)

    def look_again(self, after: All) -> None:
        """What changed with no line. (No note says how a frame came, so the auditor won't know it.)
        """
        self.follow_moves([], after)
        entries = {it for all_ in after.values() for it in all_.values()}
        if any(it not in self.slots() for it in entries if it < 0):
            raise Cut(BY_ITSELF)
        for it in entries - {*self.numbers, 0}:
            if it > 0:
                self.fresh(it)
        self.now = after
        self.prune()

    def slots(self) -> set[int]:
        """The slots that entries name."""
        return {it for all_ in self.now.values() for it in all_.values() if it < 0}

    def rename(self, moved: dict[int, int]) -> None:
        """Gives other frames the numbers and entries of some."""
        numbers = {frame: it for frame, it in self.numbers.items() if frame not in moved}
        self.numbers = numbers | {to: self.numbers[it] for it, to in moved.items()}
        self.cached = {slot: moved.get(it, it) for slot, it in self.cached.items()}
        self.shared = {moved.get(it, it) for it in self.shared}
        self.now = {
            number: {page: moved.get(it, it) for page, it in entries.items()}
            for number, entries in self.now.items()
        }


class Story:
    """What became of the entries at one command, told page by page."""

    def __init__(self, frames: Frames, words: list[str], reply: str, after: All):
        self.frames, self.words, self.reply, self.after = frames, words, reply, after
        self.state: All = {number: dict(it) for number, it in frames.now.items()}
        self.lost = frames.lost_slots(after)
        self.notes: list[str] = []
        # frames that stay where they are, so that no page can take them anew
        self.stay = {
            it
            for number, entries in after.items()
            for page, it in entries.items()
            if it > 0 and self.state.get(number, {}).get(page) == it
        }

    def tell(self) -> list[str]:
        self.begin()
        for number in sorted({*self.state, *self.after}, key=int):
            state = self.state.setdefault(number, {})
            for page in sorted({*state, *self.after.get(number, {})}):
                self.page(number, page)
        return self.notes

    def begin(self) -> None:
        """Brings the entries to where a fork or a move leaves them."""
        words = self.words
        if words[0] == "fork" and self.reply == "ok":
            kept = self.after.get(words[2], {})
            parent = self.state[words[1]]
            self.state[words[2]] = {page: it for page, it in parent.items() if page in kept}
        if words[0] == "mremap" and self.reply.startswith("map "):
            at, old, new = int(words[2], 16), up(int(words[3])), up(int(words[4]))
            self.move(words[1], at, int(self.reply[4:], 16), old, new)

    def move(self, number: str, at: int, to: int, old: int, new: int) -> None:
        entries = self.state[number]
        if at == to:
            return
        for page in sorted(it for it in entries if to <= it < to + new):
            self.gone(number, page)
        for page in sorted(it for it in entries if at + new <= it < at + old):
            self.gone(number, page)
        moved = [it for it in entries if at <= it < at + min(old, new)]
        entries |= {to + page - at: it for page, it in [(it, entries.pop(it)) for it in moved]}

    # ---- one page

    def page(self, number: str, page: int) -> None:
        state = self.state[number]
        was, it = state.get(page), self.after.get(number, {}).get(page)
        if was == it and not self.is_dropped_by_write(number, page, it):
            return
        if it is None:
            self.gone(number, page)
            return
        if it < 0:
            self.stayed(number, page, it)
            return
        if it == 0:
            self.note("zero", number, page)
        elif not was:
            self.note("new", number, page, self.number(it))
        else:
            self.served(number, page, was, it)
        state[page] = it

    def stayed(self, number: str, page: int, slot: int) -> None:
        """A page in swap that a move should have taken, and didn't. (That isn't legal.)"""
        if self.frames.now.get(number, {}).get(page) != slot:
            raise Cut(BY_ITSELF)
        self.state[number][page] = slot

    def served(self, number: str, page: int, was: int, it: int) -> None:
        """A page that had a frame or a slot, and has a frame."""
        frame = was if was > 0 else self.brought(number, page, was, it)
        if frame != it:
            self.note("copy", number, page, self.number(it))
        self.state[number][page] = it
        slot = self.frames.slot_of(frame)
        if self.words[0] == "read" and slot in self.frames.doubtful:
            return
        if slot in self.lost and not self.names(slot, 0):
            self.drop(slot)

    def brought(self, number: str, page: int, slot: int, it: int) -> int:
        """The frame that a slot's page comes in with."""
        frames = self.frames
        if slot in frames.cached and slot in self.lost:
            self.read_again(slot, it)
        if slot not in frames.cached:
            if it in frames.numbers and it in self.stay:
                raise Cut("a page came from swap over a frame in use")
            frame = it
            if not frames.is_in_swap_cache(it):
                self.lost.add(slot)
                if self.is_shared(slot):
                    # (what came in was copied at once, and isn't seen)
                    frames.unseen += 1
                    frame = UNSEEN + frames.unseen
                    frames.doubtful.add(slot)
            frames.cached[slot] = frame
            self.notes.append(f"load {slot_text(slot)} {frames.fresh(frame)}")
            frames.counts["load"] += 1
        frame = frames.cached[slot]
        self.note("map", number, page, frames.numbers[frame])
        return frame

    def read_again(self, slot: int, it: int) -> None:
        """The cache gave up a slot's frame, and read the slot anew: what came in is the page's, or
        was copied at once and isn't seen.
        """
        frames = self.frames
        old = frames.cached[slot]
        if old == it or self.names(0, old) or it in frames.numbers:
            return
        if frames.is_in_swap_cache(it):
            self.lost.remove(slot)
            frames.rename({old: it})
        elif not self.is_shared(slot):
            frames.rename({old: it})
        elif old < UNSEEN:
            frames.give_up(old)

    def gone(self, number: str, page: int) -> None:
        was = self.state[number].pop(page)
        slot = was if was < 0 else self.frames.slot_of(was)
        if slot in self.frames.cached and slot in self.lost:
            if not self.names(slot, self.frames.cached[slot]):
                self.drop(slot)

    def is_dropped_by_write(self, number: str, page: int, it: int | None) -> bool:
        if self.words[0] != "write" or not it or it < 0:
            return False
        return self.frames.slot_of(it) in self.lost and may_touch(self.words, number, page)

    # ---- frames and slots

    def number(self, frame: int) -> int:
        """The number of a frame that a page gets. (One that others keep isn't free, and the auditor
        will say so.)
        """
        frames = self.frames
        return frames.numbers[frame] if frame in self.stay else frames.fresh(frame)

    def names(self, slot: int, frame: int) -> bool:
        """Whether an entry names one of the two; 0 for none."""
        wanted = {slot, frame} - {0}
        return any(it in wanted for entries in self.state.values() for it in entries.values())

    def is_shared(self, slot: int) -> bool:
        """Whether several entries name a slot."""
        named = [it for entries in self.state.values() for it in entries.values()]
        return named.count(slot) > 1

    def drop(self, slot: int) -> None:
        self.notes.append(f"drop {slot_text(slot)}")
        del self.frames.cached[slot]
        self.lost.discard(slot)
        self.frames.doubtful.discard(slot)
        self.frames.counts["drop"] += 1

    def note(self, kind: str, number: str, page: int, *frame: int) -> None:
        self.notes.append(" ".join(map(str, [kind, number, f"{page:x}", *frame])))
        self.frames.counts[kind] += 1
