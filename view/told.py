"""What the lines of a trace, with their replies and notes, tell of memory.

`Told` is no second model of memory. It takes what the program's own words say: a note names an
entry and what it becomes. Three things are told by a command as a whole, and are copies that no
note repeats: a fork gives the child its parent's entries, unseen, but those of areas that say
otherwise; an `mremap` takes the entries along to the new range; what is unmapped, mapped anew or
needed no more has no entry. A note also says where a
frame goes in the lists, by the rule of its kind: `new`, `copy`, `load` and `age` to the head of
inactive, `done` to its tail, `keep` to the head of the list that its cause names, and `move` to
the place of another. What areas are locked and which may not be accessed is known by the areas that
were last shown. Whatever else a line may do is not known, and is said to be so.

An entry is kept as a code: `z` the page of zeros, `F7` frame 7 and seen, `f7` frame 7 and old,
`s0:3` slot 0:3, `-` none, `?` not known. A page without a code has no entry, but of a process in
`dim`, where it isn't known.

Each change is also an operation, a list that a page applies (view/state.js):

    p P             process P lives, without memory
    x P             it ended
    f P Q           Q lives, with the entries of P, unseen
    e P N C         the entry of page number N of P is C
    d P N K         of K pages from N on no entry is known
    m P N T K       K pages from N on take their entries to T
    u P             of P's entries nothing is known
    a P [N] [ROW]   areas that begin at pages N are gone, and these rows of `areas` are there
    c S F           slot S is cached in frame F (-1: in none)
    k S TEXT        what `slot` says of S (none: nothing is drawn)
    l F L N         frame F is in the list L (0 none, 1 inactive, 2 active) at the place N
    w S N           the write of slot S is in flight at the place N (0: it isn't)
    g F N           frame F is merged (0: it isn't any more)
    v F T           all that names frame F names T, which has its place in the lists
    o IS            the lists and what is in flight are known, or aren't
    t K TEXT        swap area K is on: its priority, how many of its slots are free, and whether
                    it gives the next one (none: it is off)
    s TEXT          what `stat` says
"""
import dataclasses
from collections import OrderedDict

# the lists
INACTIVE, ACTIVE = 1, 2
# commands that change nothing
REPORTS = {"maps", "areas", "entry", "rmap", "slot", "stat"}
# commands that notes tell all of, but for a seen bit
BY_NOTES = {"read", "write", "reclaim", "age", "complete", "swapon", "swapoff", "merge", "compact"}
# commands that change which areas there are
BY_RANGE = {"mmap", "munmap", "mprotect", "mremap", "madvise", "mlock", "munlock"}
# those of them that change areas where they are refused, too
MIDWAY = {"mprotect", "madvise", "mlock", "munlock"}
# the flags of an area whose entries a child doesn't get
KEPT_BACK = {"dontfork", "wipeonfork"}
# the causes by which reclaim keeps a frame in use
TO_ACTIVE = {"locked", "ksm", "referenced", "noslot"}


def page_of(address: int) -> int:
    return address >> 12


def pages_of(length: int) -> int:
    return (length + 4095) >> 12


def area_of(slot: str) -> int:
    return int(slot.split(":")[0])


def code_of(reply: str) -> str:
    """The code of a reply to `entry`; none where the page isn't mapped."""
    match reply.split(" "):
        case ["frame", frame, seen, *_]:
            return ("F" if seen == "seen" else "f") + frame
        case ["slot", slot, *_]:
            return f"s{slot}"
        case [word]:
            return {"empty": "-", "zero": "z"}.get(word, "")
    return ""


def frame_of(code: str) -> int:
    """The frame that an entry names, or -1."""
    return int(code[1:]) if code[:1] in ("f", "F") else -1


@dataclasses.dataclass
class Area:
    """A swap area that is on: its priority and usable slots, how many of these are in use, and what
    the last operation said of it.
    """

    priority: int
    slots: int
    used: int = 0
    text: str = ""


class Told:
    """The entries of each process as far as they are told, with what goes with them."""

    def __init__(self):
        self.tables: dict[int, dict[int, str]] = {}
        self.dim: set[int] = set()
        self.owners: dict[int, set[tuple[int, int]]] = {}
        self.frame_at: dict[str, int] = {}
        self.slot_of: dict[int, str] = {}
        # the frames of each list with their places (tail first, so the greatest place is the
        # head's), slots in flight with theirs, how many entries name a slot, and which slots an
        # entry or the cache names
        self.lists = {INACTIVE: OrderedDict(), ACTIVE: OrderedDict()}
        self.flight: dict[str, int] = {}
        # the frames that are merged, and where the last command moved frames
        self.merged: set[int] = set()
        self.moves: dict[int, int] = {}
        self.named: dict[str, int] = {}
        self.used: set[str] = set()
        # the swap areas that are on
        self.areas_on: dict[int, Area] = {}
        self.head = self.tail = self.last = 0
        self.counts: dict[str, str] = {}
        self.rows: dict[int, list[str]] = {}
        # processes whose areas got flags since they were last shown
        self.unshown: set[int] = set()
        self.numbers, self.lists_known = "", True
        self.touched: set[str] = set()
        self.lost, self.forgotten = False, []
        self.ops: list[list] = []

    # entries

    def link(self, process: int, page: int, code: str) -> None:
        frame = frame_of(code)
        if frame >= 0:
            self.owners.setdefault(frame, set()).add((process, page))
        elif code[:1] == "s":
            self.touched.add(code[1:])
            self.named[code[1:]] = self.named.get(code[1:], 0) + 1
            self.use_slot(code[1:])

    def unlink(self, process: int, page: int, code: str) -> None:
        frame = frame_of(code)
        if frame >= 0:
            owners = self.owners[frame]
            owners.discard((process, page))
            if not owners:
                del self.owners[frame]
                self.leave(frame)
            if frame in self.slot_of:
                self.touched.add(self.slot_of[frame])
        elif code[:1] == "s":
            self.touched.add(code[1:])
            self.named[code[1:]] -= 1
            if not self.named[code[1:]]:
                del self.named[code[1:]]
                self.leave_slot(code[1:])

    def leave(self, frame: int) -> None:
        """A frame that nothing names any more is in no list, and not merged."""
        if frame in self.owners or frame in self.slot_of:
            return
        self.merge(frame, False)
        if any([it.pop(frame, None) is not None for it in self.lists.values()]):
            self.ops.append(["l", frame, 0, 0])

    def use_slot(self, slot: str) -> None:
        """A slot that something names is in use."""
        if slot not in self.used:
            self.used.add(slot)
            self.count_slot(slot, 1)

    def leave_slot(self, slot: str) -> None:
        """A slot that nothing names any more is free."""
        if slot in self.used and slot not in self.named and slot not in self.frame_at:
            self.used.discard(slot)
            self.count_slot(slot, -1)

    def count_slot(self, slot: str, change: int) -> None:
        area = self.areas_on.get(area_of(slot))
        if area:
            area.used += change

    def enlist(self, frame: int, which: int, is_tail: bool = False) -> None:
        """A frame goes to the head of a list, or to its tail."""
        self.head, self.tail = self.head + (not is_tail), self.tail - is_tail
        for it in self.lists.values():
            it.pop(frame, None)
        self.lists[which][frame] = self.tail if is_tail else self.head
        self.lists[which].move_to_end(frame, last=not is_tail)
        self.ops.append(["l", frame, which, self.lists[which][frame]])

    def put(self, process: int, page: int, code: str) -> None:
        """The entry of a page is this."""
        if process not in self.tables:
            return
        table = self.tables[process]
        old = table.get(page, "?" if process in self.dim else "-")
        if old == code:
            return
        if frame_of(old) < 0 or frame_of(old) != frame_of(code):
            self.link(process, page, code)
            self.unlink(process, page, old)
        table[page] = code
        if code == "-" and process not in self.dim:
            del table[page]
        self.ops.append(["e", process, page, code])

    def drop(self, process: int, first: int, count: int) -> None:
        """No entry of these pages is known (in most processes: there is none)."""
        table = self.tables.get(process, {})
        if count < len(table):
            pages = [it for it in range(first, first + count) if it in table]
        else:
            pages = [it for it in table if first <= it < first + count]
        for page in pages:
            self.unlink(process, page, table.pop(page))
        if pages:
            self.ops.append(["d", process, first, count])

    def move(self, process: int, first: int, to: int, count: int) -> None:
        table = self.tables.get(process, {})
        pages = [it for it in table if first <= it < first + count]
        codes = [table.pop(it) for it in pages]
        for page, code in zip(pages, codes):
            self.link(process, page - first + to, code)
            self.unlink(process, page, code)
            table[page - first + to] = code
        if pages:
            self.ops.append(["m", process, first, to, count])

    def merge(self, frame: int, is_merged: bool) -> None:
        if is_merged == (frame in self.merged):
            return
        (self.merged.add if is_merged else self.merged.discard)(frame)
        self.ops.append(["g", frame, int(is_merged)])

    def renumber(self, frame: int, to: int) -> None:
        """What names a frame names another, which was free."""
        owners = self.owners.pop(frame, set())
        for process, page in owners:
            self.tables[process][page] = f"{self.tables[process][page][0]}{to}"
        if owners:
            # (where something was told otherwise than it is, some may have that frame)
            self.owners.setdefault(to, set()).update(owners)
        if frame in self.slot_of:
            slot = self.slot_of[to] = self.slot_of.pop(frame)
            self.frame_at[slot] = to
            self.touched.add(slot)
        if frame in self.merged:
            self.merged.remove(frame)
            self.merged.add(to)
        self.moves[frame] = to
        self.ops.append(["v", frame, to])

    def rename_listed(self) -> None:
        """Frames that moved keep their places in the lists."""
        for which, places in self.lists.items():
            named = ((self.moves.get(frame, frame), place) for frame, place in places.items())
            self.lists[which] = OrderedDict(named)
        self.moves.clear()

    # commands

    def spawn(self, process: int) -> None:
        self.tables[process], self.rows[process] = {}, []
        self.dim.discard(process)
        self.ops.append(["p", process])

    def fork(self, process: int, child: int) -> None:
        if process not in self.tables:
            self.spawn(child)
            self.dim.add(child)
            self.ops.append(["u", child])
            return
        kept_back = self.kept_back(process)
        self.tables[child] = {
            page: "f" + code[1:] if code[0] == "F" else code
            for page, code in self.tables[process].items()
            if not any(page in it for it in kept_back)
        }
        self.rows[child] = []
        (self.dim.add if process in self.dim else self.dim.discard)(child)
        for page, code in self.tables[child].items():
            self.link(child, page, code)
        self.ops.append(["f", process, child])
        for it in kept_back:
            self.ops.append(["d", child, it.start, len(it)])

    def kept_back(self, process: int) -> list[range]:
        """The pages whose entries a child doesn't get."""
        return self.areas_with(process, KEPT_BACK)

    def areas_with(self, process: int, words: set[str]) -> list[range]:
        """The pages of areas with one of these words, by the areas that were last shown."""
        rows = [it.split(" ") for it in self.rows.get(process, [])]
        bounds = [it[0].split("-") for it in rows if words.intersection(it)]
        return [range(page_of(int(it[0], 16)), page_of(int(it[1], 16))) for it in bounds]

    def exit(self, process: int) -> None:
        if process not in self.tables:
            return
        for page, code in self.tables.pop(process).items():
            self.unlink(process, page, code)
        del self.rows[process]
        self.dim.discard(process)
        self.ops.append(["x", process])

    def mremap(self, words: list[str], place: int) -> None:
        process, first = int(words[1]), page_of(int(words[2], 16))
        old, new = pages_of(int(words[3])), pages_of(int(words[4]))
        if place != first:
            self.drop(process, place, new)
            self.move(process, first, place, min(old, new))
        if new < old:
            self.drop(process, first + new, old - new)

    def give_up(self, words: list[str], reply: str) -> None:
        """`madvise P A LEN dontneed`: refused, too, it may have done its pages that are mapped, but
        at a locked page it stops.
        """
        process, at, count = int(words[1]), int(words[2], 16), pages_of(int(words[3]))
        first = page_of(at)
        if reply == "err EINVAL" and not at % 4096 and first + count < 2**52:
            locked = [it for it in self.areas_with(process, {"locked"}) if it.stop > first]
            count = min([max(it.start - first, 0) for it in locked], default=0)
        elif reply not in ("ok", "err ENOMEM"):
            return
        self.drop(process, first, count)

    def lock(self, words: list[str], reply: str) -> None:
        """`mlock P A LEN`: the pages that were served are accessed, up to one that wasn't."""
        process, at, length = int(words[1]), int(words[2], 16), int(words[3])
        if reply.startswith("err ") or not length:
            return
        first, last = page_of(at), page_of(at + length - 1)
        if reply != "ok":
            last = first + page_of(int(reply.split(" ")[1])) - 1
        barred = self.areas_with(process, {"---"})
        table = self.tables.get(process, {})
        for page in range(first, last + 1):
            code = table.get(page, "-")
            if code[0] == "f" and not any(page in it for it in barred):
                self.put(process, page, f"F{frame_of(code)}")

    def forget(self) -> None:
        """A line of which it isn't told what it changed: nothing is known of any entry."""
        self.lost = True
        for process, table in self.tables.items():
            for page, code in table.items():
                self.unlink(process, page, code)
                self.forgotten.append((process, page))
                # (it may be asked for again, if that is forgotten too)
                table[page] = "?"
            self.dim.add(process)
            self.ops.append(["u", process])

    # swap areas

    def swapon(self, words: list[str], slots: int) -> None:
        """`swapon K`, `swapon K prio N`: the area's priority without one is -1."""
        number, *rest = words[1:]
        used = sum(area_of(it) == int(number) for it in self.used)
        self.areas_on[int(number)] = Area(int(rest[1]) if rest else -1, slots, used)

    def swapoff(self, number: int) -> None:
        if self.areas_on.pop(number, None):
            self.ops.append(["t", number, ""])

    def giving(self) -> int | None:
        """The area that gives the next slot: of those with a free one that with the greatest
        priority, and of equal ones that with the least number.
        """
        can = [(-it.priority, number) for number, it in self.areas_on.items() if it.used < it.slots]
        return min(can)[1] if can else None

    def area_text(self, number: int) -> str:
        """What is said of an area. (Where entries aren't known, it isn't known what is free.)"""
        area = self.areas_on[number]
        free = "?" if self.dim else area.slots - area.used
        gives = not self.dim and self.giving() == number
        slots = f"{area.slots} slot{'s' * (area.slots != 1)}"
        return f"priority {area.priority}, {free} of {slots} free{', gives next' * gives}"

    def tell_of_areas(self) -> None:
        """The operations for areas of which another thing is to be said."""
        for number, area in sorted(self.areas_on.items()):
            text = self.area_text(number)
            if text != area.text:
                area.text = text
                self.ops.append(["t", number, text])

    # notes

    def cache(self, slot: str, frame: int) -> None:
        self.uncache(slot)
        self.frame_at[slot], self.slot_of[frame] = frame, slot
        self.use_slot(slot)
        self.touched.add(slot)
        self.ops.append(["c", slot, frame])

    def uncache(self, slot: str) -> None:
        frame = self.frame_at.pop(slot, -1)
        self.touched.add(slot)
        if frame >= 0:
            del self.slot_of[frame]
            self.ops.append(["c", slot, -1])
            self.leave(frame)
            self.leave_slot(slot)

    def fly(self, slot: str, is_on: bool) -> None:
        self.touched.add(slot)
        if is_on:
            self.last += 1
            self.flight[slot] = self.last
        elif self.flight.pop(slot, 0) == 0:
            return
        self.ops.append(["w", slot, self.flight.get(slot, 0)])

    def clear_seen(self, frame: int) -> None:
        for process, page in sorted(self.owners.get(frame, ())):
            self.put(process, page, f"f{frame}")

    def unmap(self, frame: int) -> None:
        for process, page in sorted(self.owners.get(frame, ())):
            self.put(process, page, f"s{self.slot_of[frame]}")

    def keep(self, frame: int, cause: str) -> None:
        if cause == "referenced":
            self.clear_seen(frame)
        self.enlist(frame, ACTIVE if cause in TO_ACTIVE else INACTIVE)

    def age(self, frame: int) -> None:
        self.clear_seen(frame)
        self.enlist(frame, INACTIVE)

    def done(self, slot: str) -> None:
        self.fly(slot, False)
        if slot in self.frame_at:
            self.enlist(self.frame_at[slot], INACTIVE, is_tail=True)

    def note(self, words: list[str]) -> bool:
        """What a note says; False where it can't be read."""
        try:
            return self.take_note(words)
        except ValueError:
            return False

    def take_note(self, words: list[str]) -> bool:
        match words:
            case ["zero", process, at]:
                self.put(int(process), page_of(int(at, 16)), "z")
            case ["new" | "copy", process, at, frame]:
                self.enlist(int(frame), INACTIVE)
                self.put(int(process), page_of(int(at, 16)), f"F{frame}")
            case ["map" | "join", process, at, frame]:
                self.put(int(process), page_of(int(at, 16)), f"f{frame}")
            case ["load", slot, frame]:
                self.enlist(int(frame), INACTIVE)
                self.cache(slot, int(frame))
            case ["put", frame, slot]:
                self.cache(slot, int(frame))
            case ["unmap", frame] if int(frame) in self.slot_of:
                self.unmap(int(frame))
            case ["keep", frame, cause]:
                self.keep(int(frame), cause)
            case ["age", frame]:
                self.age(int(frame))
            case ["start", slot]:
                self.fly(slot, True)
            case ["done", slot]:
                self.done(slot)
            case ["fail", slot]:
                self.fly(slot, False)
            case ["drop", slot]:
                self.uncache(slot)
            case ["share", frame]:
                self.merge(int(frame), True)
            case ["move", frame, to]:
                self.renumber(int(frame), int(to))
            case _:
                return False
        return True

    def tell(self, words: list[str], reply: list[str]) -> None:
        """A command with its reply. `touched` are then the slots whose count may be another, and
        `lost` says that not all of what it did is told: then the pages of `forgotten` had entries.
        """
        self.touched, self.lost, self.forgotten = set(), False, []
        name, is_done = words[0], not reply[0].startswith("err ")
        if name in REPORTS:
            return
        if name == "spawn" and is_done:
            self.spawn(int(words[1]))
        elif name == "fork" and is_done:
            self.fork(int(words[1]), int(words[2]))
        elif name == "exit" and is_done:
            self.exit(int(words[1]))
        elif name == "munmap" and is_done:
            self.drop(int(words[1]), page_of(int(words[2], 16)), pages_of(int(words[3])))
        elif name == "mmap" and is_done:
            self.drop(int(words[1]), page_of(int(reply[0][4:], 16)), pages_of(int(words[2])))
        elif name == "mremap" and is_done:
            self.mremap(words, page_of(int(reply[0][4:], 16)))
        elif name == "madvise" and words[4] == "dontneed":
            self.give_up(words, reply[0])
        elif name == "swapon" and reply[0].startswith("on "):
            self.swapon(words, int(reply[0].split(" ")[1]))
        elif name not in BY_NOTES | BY_RANGE | {"spawn", "fork", "exit"}:
            self.forget()
            return
        if not all([self.note(it.split()) for it in reply[1:]]):
            self.forget()
        if self.moves:
            self.rename_listed()
        if name == "swapoff" and is_done:
            self.swapoff(int(words[1]))
        if name == "mlock":
            self.lock(words, reply[0])
        if name in ("mlock", "munlock") or name == "madvise" and words[4] != "dontneed":
            self.unshown.add(int(words[1]))
        if name == "fork" and is_done and int(words[1]) in self.unshown:
            self.unshown.add(int(words[2]))

    # answers

    def answer_entry(self, process: int, page: int, reply: str) -> bool:
        """What `entry` answers of a page; False where something else was told."""
        code = code_of(reply)
        if process not in self.tables or not code:
            return True
        known = self.tables[process].get(page, "?" if process in self.dim else "-")
        self.put(process, page, code)
        is_merged, was_merged = reply.endswith(" ksm"), frame_of(code) in self.merged
        if frame_of(code) >= 0:
            self.merge(frame_of(code), is_merged)
        same = known[:1].lower() + known[1:] == code[:1].lower() + code[1:]
        return same and is_merged == was_merged or known == "?"

    def answer_areas(self, process: int, rows: list[str]) -> None:
        """What `areas` answers: the operation has the rows that are gone or new."""
        old = self.rows.get(process, [])
        self.unshown.discard(process)
        if process not in self.tables or rows == old:
            return
        gone, new = set(old).difference(rows), set(rows).difference(old)
        starts = [page_of(int(it[: it.index("-")], 16)) for it in sorted(gone)]
        self.rows[process] = rows
        self.ops.append(["a", process, starts, sorted(new)])

    def answer_slot(self, slot: str, text: str) -> None:
        """What `slot` answers; an empty text where the area is off, `?` where nobody asked."""
        if self.counts.get(slot, "") != text:
            self.counts[slot] = text
            if not text:
                del self.counts[slot]
            self.ops.append(["k", slot, text])

    def answer_stat(self, text: str) -> None:
        """What `stat` answers. Where its numbers aren't those of the lists that notes told of, it
        isn't known which frames are in which.
        """
        if text != self.numbers:
            self.numbers = text
            self.ops.append(["s", text])
        numbers = dict(it.split("=", 1) for it in text.split(" ") if "=" in it)
        told = {
            "active": len(self.lists[ACTIVE]),
            "inactive": len(self.lists[INACTIVE]),
            "flight": len(self.flight),
        }
        known = all(numbers.get(key) == str(it) for key, it in told.items())
        if known != self.lists_known:
            self.lists_known = known
            self.ops.append(["o", int(known)])

    # all of it

    def all_ops(self) -> list[list]:
        """Operations that lead from nothing to what is known now."""
        ops: list[list] = []
        for process, table in sorted(self.tables.items()):
            ops.append(["p", process])
            ops += [["u", process]] if process in self.dim else []
            if self.rows.get(process):
                ops.append(["a", process, [], self.rows[process]])
            ops += [["e", process, page, code] for page, code in sorted(table.items())]
        ops += [["t", number, it.text] for number, it in sorted(self.areas_on.items())]
        ops += [["c", slot, frame] for slot, frame in sorted(self.frame_at.items())]
        ops += [["k", slot, text] for slot, text in sorted(self.counts.items())]
        for which, frames in self.lists.items():
            ops += [["l", frame, which, place] for frame, place in frames.items()]
        ops += [["w", slot, place] for slot, place in self.flight.items()]
        ops += [["g", frame, 1] for frame in sorted(self.merged)]
        ops += [] if self.lists_known else [["o", 0]]
        return ops + ([["s", self.numbers]] if self.numbers else [])

    def entry_text(self, process: int, page: int) -> str:
        """What `entry` would answer, as far as it is known; `?` where it isn't."""
        code = self.tables[process].get(page, "?" if process in self.dim else "-")
        frame = frame_of(code)
        if frame >= 0:
            text = f"frame {frame} {'seen' if code[0] == 'F' else 'old'}"
            text += f" cached {self.slot_of[frame]}" if frame in self.slot_of else ""
            return text + " ksm" * (frame in self.merged)
        if code[0] == "s":
            at = self.frame_at.get(code[1:], -1)
            return f"slot {code[1:]}" + (f" cached {at}" if at >= 0 else "")
        return {"-": "empty", "z": "zero"}.get(code, "?")

    def slot_text(self, slot: str) -> str:
        """What `slot` would answer of a slot that isn't bad, without its name; `?` where entries
        aren't known.
        """
        frame = self.frame_at.get(slot, -1)
        count = self.named.get(slot, 0) + (frame >= 0)
        cached = f" cached {frame}" if frame >= 0 else ""
        return f"count {'?' if self.dim else count}{cached}"
