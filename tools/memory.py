"""What the calls of memory become in a trace.

Addresses are the kernel's own answers. Private file mappings are taken as anonymous ones, or are
left out; shared ones keep their place, as `---`, so that no page of theirs is ever accessed.
"""
import collections
import dataclasses
import re
from typing import NoReturn

from shared.saying import Refused, name_of, printable

import chains
from calls import (
    ADVICE,
    ANSWER,
    FAILURE,
    FORMS,
    MAPS_TOO,
    PASSED_OVER,
    WITHOUT,
    Mapped,
    address_of,
    kind_of,
    protection_of,
)
from labels import MAPPING
from ranges import PAGE, Range, up
from spaces import Space, runs_of
from strace import Call

# calls that lock pages, and unlock them
LOCKS = ("mlock", "mlock2", "munlock")
# the name of what brk maps
HEAP = "[heap]"
# kinds of what is left out
SHARED = "shared (its place is kept, as ---)"
OF_FILE = "of a file"


@dataclasses.dataclass(slots=True)
class Command:
    """A line of the trace, and how a reply begins that agrees with the kernel. `missing` says who
    may have mapped it, where no call that is kept mapped a part of the range: `execve`, calls
    before the `log`, or a call that is left out. `caller` has the functions that called when it was
    done, outermost first.
    """

    line: str
    wanted: str
    place: str
    origin: str
    comment: str = ""
    missing: str = ""
    caller: str = ""


class Tally:
    """How many calls and accesses are in the trace, and how many of each kind aren't."""

    def __init__(self):
        self.kept = collections.Counter()
        self.left_out = collections.Counter()
        self.failed = collections.Counter()
        self.others = collections.Counter()
        self.flags = collections.Counter()
        self.accesses = collections.Counter()
        self.no_accesses = collections.Counter()
        # pairs of areas that Linux keeps apart, and the model may join
        self.pairs = 0


class Memory:
    """Calls of memory, one after the other."""

    def __init__(self, anonymous_only: bool, touch: int):
        self.anonymous_only, self.touch_pages = anonymous_only, touch
        self.tally, self.commands = Tally(), []
        self.place, self.origin, self.caller, self.call = "", "", "", None

    def at(self, place: str, origin: str, caller: str = "") -> None:
        """The line of the log that the next commands come from, and who called there."""
        self.place, self.origin, self.caller = place, origin, caller

    def add(self, line: str, wanted: str, comment: str = "", missing: str = "") -> None:
        self.commands.append(
            Command(line, wanted, self.place, self.origin, comment, missing, self.caller)
        )

    def has(self, kind: str) -> bool:
        """Whether pages of such a range are in the trace."""
        return kind == "anonymous" or kind == "file" and not self.anonymous_only

    def refuse(self, what: str) -> NoReturn:
        raise Refused(f"{self.place}: {what}: {printable(self.origin)}")

    def do(self, space: Space, call: Call) -> None:
        """A call, whatever it is."""
        self.call = call
        self.at(call.place, str(call), chains.joined(call.chain))
        if call.name in WITHOUT:
            self.tally.left_out[call.name] += 1
            space.rest = call.name if call.name in MAPS_TOO else space.rest
        elif call.name not in FORMS:
            self.tally.others[call.name] += 1
        elif not call.answer or call.answer.startswith("?"):
            self.tally.left_out[f"{call.name} without an answer"] += 1
        else:
            try:
                self.do_memory(space)
            except ValueError as error:
                self.refuse(f"no such protection or flags ({printable(str(error))})")

    def words(self) -> re.Match:
        match = re.fullmatch(FORMS[self.call.name], self.call.words)
        return match or self.refuse("words that no such call has")

    def do_memory(self, space: Space) -> None:
        """A call of memory that returned."""
        if failure := FAILURE.fullmatch(self.call.answer):
            self.fail(space, failure[1])
            return
        answer, name = ANSWER.fullmatch(self.call.answer), self.call.name.removeprefix("pkey_")
        number = int(answer[1], 0) if answer else -1
        if number < 0 or number > 0 and name not in ("mmap", "mremap", "brk"):
            self.refuse("an answer that no such call has")
        getattr(self, name)(space, self.words(), number)

    def fail(self, space: Space, error: str) -> None:
        """A call that failed; a mprotect, mlock or munlock that met a hole changed the pages before
        it, and a madvise all that are mapped. (Other mlocks that failed so met the limit.)
        """
        if self.call.name == "mprotect" and error == "ENOMEM":
            self.protect(space, self.words(), f"err {error}")
        elif self.call.name == "madvise" and error == "ENOMEM":
            self.advise(space, self.words(), f"err {error}")
        elif self.call.name in LOCKS and error == "ENOMEM" and self.is_met(space, self.words()):
            self.lock(space, self.words(), f"err {error}")
        else:
            self.tally.failed[f"{self.call.name} {error}"] += 1

    # calls, by name

    def mmap(self, space: Space, words: re.Match, at: int) -> None:
        length, prot, flags = int(words[2]), protection_of(words[3]), words[4].split("|")
        kind, end = kind_of(flags, words[5]), at + up(length)
        if "MAP_FIXED" in flags and at != address_of(words[1]) or at % PAGE or not length:
            self.refuse("an answer that no such call has")
        for flag in set(flags) & set(PASSED_OVER):
            self.tally.flags[flag] += 1
        name = name_of(words[6] or "")
        if kind == "shared":
            self.tally.left_out[f"mmap, {SHARED}"] += 1
            self.map(space, at, length, "---", name)
        elif not self.has(kind):
            self.tally.left_out[f"mmap {OF_FILE}"] += 1
            self.clear(space, at, length)
        else:
            self.tally.kept[f"mmap {OF_FILE}" if kind == "file" else "mmap"] += 1
            self.map(space, at, length, prot, name)
        space.map(at, end, Mapped(prot, kind), self.call.time)
        self.touch(space, at, end)

    def map(self, space: Space, at: int, length: int, prot: str, name: str = "") -> None:
        line = f"mmap {space.number} {length} {prot} fixed {at:x}"
        self.add(line, f"map {at:x}", f"{MAPPING}{name}" if name else "")

    def clear(self, space: Space, at: int, length: int) -> None:
        """Something comes that isn't in the trace: what it replaces goes."""
        if any(self.has(it.of.kind) for it in space.ranges.within(at, at + up(length))):
            self.add(f"munmap {space.number} {at:x} {length}", "ok")

    def munmap(self, space: Space, words: re.Match, _answer: int) -> None:
        start, length = address_of(words[1]), int(words[2])
        self.tally.kept["munmap"] += 1
        self.add(f"munmap {space.number} {start:x} {length}", "ok")
        space.unmap(start, start + up(length))

    def mprotect(self, space: Space, words: re.Match, _answer: int) -> None:
        if self.call.name == "pkey_mprotect" and int(words[4]) > 0:
            self.tally.flags["key of pkey_mprotect"] += 1
        self.protect(space, words, "ok")

    def protect(self, space: Space, words: re.Match, wanted: str) -> None:
        """The pages that the trace has in a range get a protection."""
        start, length, prot = address_of(words[1]), int(words[2]), protection_of(words[3])
        parts = space.ranges.within(start, start + up(length))
        ours = [it for it in parts if self.has(it.of.kind)]
        if "PROT_GROWS" in words[3] or parts and not ours:
            what = words[3] if "PROT_GROWS" in words[3] else "of mappings that are left out"
            self.tally.left_out[f"{self.call.name} {what}"] += 1
            return
        self.tally.kept[self.call.name] += 1
        if len(ours) == len(parts):
            line = f"mprotect {space.number} {start:x} {length} {prot}"
            self.add(line, wanted, missing=space.missing(start, length))
        for at, end in runs_of(ours) if len(ours) < len(parts) else ():
            self.add(f"mprotect {space.number} {at:x} {end - at} {prot}", "ok")
        # (a call that failed ended at the first hole)
        last = 2**64 if wanted == "ok" else runs_of(ours)[0][1] if ours else 0
        for it in [it for it in ours if it.end <= last]:
            space.ranges.put(it.start, it.end, Mapped(prot, it.of.kind))
            if "w" not in it.of.prot:
                self.touch(space, it.start, it.end)

    def mremap(self, space: Space, words: re.Match, to: int) -> None:
        start, old, new = address_of(words[1]), int(words[2]), int(words[3])
        flags = words[4].split("|")
        if "MREMAP_FIXED" in flags and to != address_of(words[5]) or to % PAGE:
            self.refuse("an answer that no such call has")
        parts = space.ranges.within(start, start + min(up(old) or up(new), up(new)))
        is_file = bool(parts) and parts[0].of.kind == "file"
        if is_file and self.anonymous_only:
            self.tally.left_out[f"mremap {OF_FILE}"] += 1
            if to != start:
                self.clear(space, to, new)
        elif not old:
            # (a second mapping of the same shared pages)
            self.tally.left_out[f"mremap, {SHARED}"] += 1
            self.map(space, to, new, "---")
            parts = [Range(start, start + up(new), Mapped("---", "shared"))]
        else:
            self.add_mremap(space, words, to, "MREMAP_DONTUNMAP" in flags)
        if old and "MREMAP_DONTUNMAP" not in flags:
            space.unmap(start, start + up(old))
        if to != start:
            space.unmap(to, to + up(new))
        space.move(parts, to - start, self.call.time)
        if parts and 0 < up(old) < up(new):
            space.map(to + up(old), to + up(new), parts[-1].of, self.call.time)

    def add_mremap(self, space: Space, words: re.Match, to: int, is_left: bool) -> None:
        """The command of a mremap that moved or resized what the trace has."""
        start, old, new = address_of(words[1]), int(words[2]), int(words[3])
        self.tally.kept["mremap"] += 1
        way = f" dontunmap {to:x}" if is_left else f" fixed {to:x}" if to != start else ""
        is_in_place = not way and up(new) <= up(old)
        self.add(
            f"mremap {space.number} {start:x} {old} {new}{way}",
            f"map {to:x}",
            missing=space.missing(start, 1 if is_in_place else old),
        )

    def madvise(self, space: Space, words: re.Match, _answer: int) -> None:
        self.advise(space, words, "ok")

    def advise(self, space: Space, words: re.Match, wanted: str) -> None:
        """The pages that the trace has in a range are advised."""
        start, length, word = address_of(words[1]), int(words[2]), ADVICE.get(words[3])
        parts = space.ranges.within(start, start + up(length))
        ours = [it for it in parts if self.has(it.of.kind)]
        if not word or parts and not ours:
            what = "of mappings that are left out" if word else printable(words[3])
            self.tally.left_out[f"madvise {what}"] += 1
            return
        self.tally.kept["madvise"] += 1
        if len(ours) == len(parts):
            line = f"madvise {space.number} {start:x} {length} {word}"
            self.add(line, wanted, missing=space.missing(start, length))
        for at, end in runs_of(ours) if len(ours) < len(parts) else ():
            self.add(f"madvise {space.number} {at:x} {end - at} {word}", "ok")

    def mlock(self, space: Space, words: re.Match, _answer: int) -> None:
        self.lock(space, words, "ok")

    mlock2 = munlock = mlock

    def is_met(self, space: Space, words: re.Match) -> bool:
        """Whether a range has a hole, or a page that can't be accessed and so not come in."""
        start, end = address_of(words[1]), address_of(words[1]) + int(words[2])
        parts = space.ranges.within(start, end)
        return bool(space.ranges.holes(start, end)) or any(it.of.prot == "---" for it in parts)

    def lock(self, space: Space, words: re.Match, wanted: str) -> None:
        """The pages that the trace has in a range are locked, or are no more."""
        name, start, length = self.call.name, address_of(words[1]), int(words[2])
        parts = space.ranges.within(start, start + length)
        ours = [it for it in parts if self.has(it.of.kind)]
        is_on_fault = name == "mlock2" and words[3] != "0"
        if is_on_fault or parts and not ours:
            what = words[3] if is_on_fault else "of mappings that are left out"
            self.tally.left_out[f"{name} {what}"] += 1
            return
        self.tally.kept[name] += 1
        command = f"{name.removesuffix('2')} {space.number}"
        if len(ours) == len(parts):
            missing = space.rest if space.ranges.holes(start, start + length) else ""
            self.add(f"{command} {start:x} {length}", wanted, missing=missing)
        for at, end in runs_of(ours) if len(ours) < len(parts) else ():
            self.add(f"{command} {at:x} {end - at}", "ok")

    def brk(self, space: Space, _words: re.Match, to: int) -> None:
        """The heap is a mapping of its own, from the first break on."""
        old, new = space.heap, up(to)
        space.heap = new
        if not old or new == old:
            return
        self.tally.kept["brk"] += 1
        if new > old:
            self.map(space, old, new - old, "rw-", HEAP)
            space.map(old, new, Mapped("rw-", "anonymous"), self.call.time)
            self.touch(space, old, new)
        else:
            self.add(f"munmap {space.number} {new:x} {old - new}", "ok")
            space.unmap(new, old)

    def touch(self, space: Space, start: int, end: int) -> None:
        """Writes to the first pages of what may be written from now on."""
        mapped = space.ranges.at(start)
        if "w" not in mapped.prot or not self.has(mapped.kind):
            return
        for at in range(start, min(end, start + self.touch_pages * PAGE), PAGE):
            self.tally.accesses["write"] += 1
            self.add(f"write {space.number} {at:x} 01", "ok")

    def end(self, space: Space) -> None:
        """A process ends. Areas that adjoin with one protection, one of them of a file, are two in
        Linux, and may be one in the model.
        """
        for one, two in space.pairs():
            kinds = one.of.kind, two.of.kind
            if one.of.prot == two.of.prot and "file" in kinds and all(map(self.has, kinds)):
                self.tally.pairs += 1
