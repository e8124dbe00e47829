"""Random traces with `entry` and `maps` behind each step: what tools/held.py and tools/bits.py say
of frames and write bits is what these replies say.

The write bit is in no reply. `Written` works it out from entries alone: a page has it from a write
that was served on, until its entry names no frame or a merged one, comes from its slot, or goes to
a child too.
"""
import random
import re
from typing import Iterator

from common import replies_of, run

from drawn import random_trace

from bits import Bits
from held import Held
from ranges import PAGE, up
from transcript import MARK, parts_of

# pages that are asked for, beside those that are told of
WINDOW = range(0x1C, 0x3C)

Key = tuple[str, int]


class Step:
    """A command with its reply, who lives then, and what both tools know."""

    def __init__(self, command: str, reply: str, bits: Bits, held: Held):
        self.words, self.answer, self.notes = parts_of(command, reply)
        reused = bits.take(self.words, self.answer, self.notes)
        held.take(self.words, self.answer, self.notes)
        self.reused = {(self.words[1], it) for it in reused}
        self.processes = list(held.tables)
        self.frames = {(p, page): frame for p, table in held.tables.items()
                       for page, frame in table.items()}
        self.bits = {(p, page) for p in self.processes for page in bits.pages[p]}
        pages = {*WINDOW, *(page for _, page in self.frames)}
        self.asked = [(p, page) for p in self.processes for page in sorted(pages)]

    def reports(self) -> list[str]:
        entries = [f"entry {process} {page * PAGE:x}" for process, page in self.asked]
        return [f"maps {it}" for it in self.processes] + entries


class Written:
    """The pages with a write bit, by entries and protections."""

    def __init__(self):
        self.entries: dict[Key, str] = {}
        self.pages: set[Key] = set()
        self.prots: dict[Key, str] = {}

    def take(self, step: Step, entries: dict[Key, str], prots: dict[Key, str]) -> set[Key]:
        """A step with what is shown behind it: the pages that a write found alone."""
        before, old = dict(self.entries), set(self.pages)
        if step.words[0] == "mremap" and step.answer.startswith("map "):
            before, old = self.moved(step)
        moves = {it[1]: it[2] for it in step.notes if it[0] == "move"}
        same = {key for key, entry in entries.items() if entry.startswith("frame ")
                and moved_by(moves, before.get(key, "")) == frame_of(entry)}
        mapped = {(it[1], int(it[2], 16) // PAGE) for it in step.notes if it[0] in ("map", "join")}
        kept = {key for key in old & same - mapped if not entries[key].endswith(" ksm")}
        if step.words[0] == "fork" and step.answer == "ok":
            parent, child = step.words[1:3]
            kept = {(p, page) for p, page in kept
                    if p != parent or not entries.get((child, page), "").startswith("frame ")}
            kept = {(p, page) for p, page in kept if p != child}
        written = set(self.written(step, entries, prots))
        # (a frame that is used again may go out for the next page)
        out = {it[1] for it in step.notes if it[0] == "unmap"}
        gone = {key for key, it in before.items() if frame_of(it) in out and key not in old}
        found = written & ((same - kept) | gone) - mapped
        self.entries, self.pages = entries, kept | written
        return found

    def moved(self, step: Step) -> tuple[dict[Key, str], set[Key]]:
        """Entries and bits where an mremap takes them."""
        process, first = step.words[1], int(step.words[2], 16) // PAGE
        count = min(up(int(it)) for it in step.words[3:5]) // PAGE
        by = int(step.answer[4:], 16) // PAGE - first
        to = {(process, page): (process, page + by) for page in range(first, first + count)}
        gone = {*to, *to.values()}
        entries = {key: it for key, it in self.entries.items() if key not in gone}
        entries |= {to[key]: it for key, it in self.entries.items() if key in to}
        return entries, {it for it in self.pages if it not in gone} | {
            to[it] for it in self.pages if it in to}

    def written(self, step: Step, entries: dict[Key, str], prots: dict[Key, str]) -> Iterator[Key]:
        """The pages that the step was done to as by a write."""
        if step.words[0] not in ("write", "mlock") or step.answer.startswith("err "):
            return
        process, at = step.words[1], int(step.words[2], 16)
        count = len(step.words[3]) // 2 if step.words[0] == "write" else int(step.words[3])
        if step.answer != "ok":
            count = int(step.answer.split(" ")[1])
            at = at if step.words[0] == "write" else at // PAGE * PAGE
        for page in range(at // PAGE, (at + count - 1) // PAGE + 1) if count else ():
            if "w" in prots.get((process, page), ""):
                yield process, page


def frame_of(entry: str) -> str:
    return entry.split(" ")[1] if entry.startswith("frame ") else ""


def moved_by(moves: dict[str, str], entry: str) -> str:
    """The frame of an entry behind a compaction."""
    return moves.get(frame_of(entry), frame_of(entry))


def shared(entries: dict[Key, str]) -> set[str]:
    """The frames that two entries name, or that are cached at a slot that one names."""
    frames = [frame_of(it) for it in entries.values() if frame_of(it)]
    slots = [re.fullmatch(r"slot \S+ cached (\d+)", it) for it in entries.values()]
    return {it for it in frames if frames.count(it) > 1} | {it[1] for it in slots if it}


def prots_of(step: Step, replies: list[str]) -> dict[Key, str]:
    """The protection of each page that is asked for."""
    found = {}
    for process, reply in zip(step.processes, replies):
        rows = re.findall(r"^ (\w+)-(\w+) (\S+)$", reply, re.M)
        runs = [(int(start, 16) // PAGE, int(end, 16) // PAGE, prot) for start, end, prot in rows]
        for _, page in (it for it in step.asked if it[0] == process):
            found |= {(process, page): prot for a, b, prot in runs if a <= page < b}
    return found


def compare(program: str, words: list[str], lines: list[str]) -> tuple[list[str], int]:
    """What is wrong of a trace, and how many pages were used again."""
    trace = "".join(f"{it}\n" for it in lines)
    given = replies_of(run(program, ["run", *words], trace.encode())[1])
    bits = Bits(True)
    held = Held(bits.marks)
    texts = [it.rstrip("\n").replace("\n ", MARK) for it in given]
    steps = [Step(line, text, bits, held) for line, text in zip(lines, texts)]
    asked = "".join("\n".join([line, *it.reports(), ""]) for line, it in zip(lines, steps))
    answers = iter(replies_of(run(program, ["run", *words], asked.encode())[1]))
    wrong, written = [], Written()
    for number, (line, step) in enumerate(zip(lines, steps), 1):
        next(answers)
        maps = [next(answers) for _ in step.processes]
        entries = {key: next(answers).rstrip("\n") for key in step.asked}
        found = written.take(step, entries, prots_of(step, maps))
        frames = {key: frame_of(it) for key, it in entries.items() if frame_of(it)}
        plain = {key for key in frames if not entries[key].endswith(" ksm")}
        both = shared(entries)
        for what, said, wanted in (
            ("frames", step.frames, frames),
            ("bits", step.bits & plain, written.pages & plain),
            ("reused", step.reused, found),
            ("a bit over a frame of two", {it for it in step.bits & plain if frames[it] in both},
             set()),
        ):
            if said != wanted:
                wrong.append(f"line {number}, {line}: {what}: {said} said, {wanted} by entries")
    return wrong, sum(len(it.reused) for it in steps)


def lines_of(seed: int, count: int) -> list[str]:
    """A random trace."""
    swap = "swapon 0 prio 5 swapoff reclaim age complete slot"
    return list(random_trace(seed, count, swap * (seed % 4 > 0), 1 + seed % 2))


def machine_of(seed: int) -> tuple[str, list[int]]:
    """How many frames, and the pages of the swap files."""
    pick = random.Random(seed)
    return str(pick.choice([3, 6, 12, 64])), [pick.choice([6, 12, 40]) for _ in range(1 + seed % 2)]
