"""A trace on the running kernel beside the model: which replies are the same, and by which row of
docs/LINUX.md others aren't.
"""
import collections
import enum
import re
from typing import Iterator, NamedTuple

from shared.saying import Refused

import making
from kernel import NO_KSM, NOBODY, Kernel, maps_of
from proc import Area
from rows import ADDED, BOUNDS, KEYS, UNLOCKED, WRITABLE, Line, Row
from rows import careful, mending, other_bounds, row_of
from shift import GAP, WIDE, NotAsked
from stubs import Gone, Stub

IN_SWAP = "the model has the page in a slot"
NO_FRAME = "the model has no frame for it, or its device failed"
MERGED = "the model has merged pages, which Linux does in its own time"
LIMIT = "the model has as many processes as it takes"
LOST = "its process went another way before, in line {}"
SHARED = "a process that went another way has the frame, too; the other entries are the same"
CHANGES = "and other pages are mapped then"
# commands that may have done a part where they are refused
MIDWAY = ("mprotect", "madvise", "mlock", "munlock")
# the flag of an area whose pages a copy doesn't get, in smaps
LEFT_OUT = "dc"
# how often frames are looked at, which the kernel may move meanwhile
TRIES = 3


class Kind(enum.Enum):
    """How a reply compares."""

    EQUAL = "equal"
    NAMED = "as docs/LINUX.md says"
    OTHER = "otherwise"


class Asked(NamedTuple):
    """A command of a trace with the model's reply. `entry` is what stands for the page of an
    `rmap`.
    """

    number: int
    words: list[str]
    reply: list[str]
    entry: str


class Difference(NamedTuple):
    """A line that Linux answers otherwise; `row` is why, where there is one, and `then` what is
    otherwise though the replies are the same.
    """

    line: Line
    model: list[str]
    linux: list[str]
    row: Row | None
    then: str = ""


def kind_of(difference: Difference | None) -> Kind:
    if not difference:
        return Kind.EQUAL
    return Kind.NAMED if difference.row else Kind.OTHER


def model_of(program: str, machine: list[str], trace: str) -> list[Asked]:
    """The commands of a trace as the model answers them. It is asked for more, which changes
    nothing: the entry of the page of each `rmap`.
    """
    lines = []
    for it in making.commands_of(trace):
        lines.append(it)
        if it.line.startswith("rmap "):
            lines.append(it._replace(comment=None, line=f"entry {it.line[5:]}"))
    found = making.Run(program, machine, lines)
    if len(found) < len(lines):
        raise Refused(found.said)
    asked: list[Asked] = []
    for it, reply in zip(lines, found.replies):
        if it.comment is None:
            asked[-1] = asked[-1]._replace(entry=reply[0])
        else:
            asked.append(Asked(it.number, it.line.split(" "), reply, ""))
    return asked


def transcript_of(kernel: Kernel, lines: list[Asked]) -> Iterator[str]:
    """What the kernel itself answers, line by line; `-` where it isn't asked."""
    for it in lines:
        try:
            yield "\n ".join(kernel.answer(it.words, it.reply[0]))
        except NotAsked:
            yield "-"


def shown(words: list[str], reply: list[str]) -> list[str]:
    """What a kernel shows of a reply."""
    first, *rows = reply
    match words[0]:
        case "areas":
            gone = ("off=", "own=", "chain=")
            cut = [[it for it in row.split(" ") if not it.startswith(gone)] for row in rows]
            return [first, *map(" ".join, cut)]
        case "rmap" if rows:
            return [f"frame maps {len(rows)}", *rows]
        case "entry" if first.startswith(("frame", "slot")):
            return ["frame"]
        case "maps":
            return reply
    return [first]


def is_alike(words: list[str], model: list[str], linux: list[str], in_part: bool) -> bool:
    """Whether the kernel's reply is the model's, as far as it shows. Of a frame that is cached the
    model may tell a part of the entries: others name its slot.
    """
    if words[0] == "rmap" and in_part:
        return set(model[1:]) <= set(linux[1:])
    return shown(words, model) == shown(words, linux)


def runs_of(areas: list[str]) -> list[str]:
    """The runs of pages of one protection that a reply of `areas` has, whatever their bounds."""
    rows = [re.fullmatch(r"(\w+)-(\w+) (...).*", it) for it in areas[1:]]
    return maps_of([Area(int(it[1], 16), int(it[2], 16), it[3], False, "") for it in rows])


def locks_of(areas: list[str]) -> list[str]:
    """The runs of locked pages that a reply of `areas` has."""
    return runs_of([areas[0], *(it for it in areas[1:] if "locked" in it.split(" "))])


def as_far_as(words: list[str], said: str) -> tuple[list[str], str]:
    """An access up to where the model's frames or device end it, and the reply to that; any other
    line as it is.
    """
    match said.split(" "):
        case ["oom" | "bus", "0", *_]:
            raise NotAsked(NO_FRAME)
        case ["oom" | "bus", count, *more] if words[0] == "read":
            return [*words[:3], count], f"data {more[-1]}"
        case ["oom" | "bus", count, *_]:
            return [*words[:3], words[3][: 2 * int(count)]], "ok"
    return words, said


class Beside:
    """The lines of a trace, one after the other, with what was found."""

    def __init__(self, kernel: Kernel):
        self.kernel = kernel
        self.found: collections.Counter[Kind] = collections.Counter()
        # the lines that weren't compared, by the reason and the command
        self.passed: dict[str, collections.Counter[str]] = {}
        # processes that aren't where the model's are, with the line that led there; those whose
        # areas may have other bounds, by which row; and those that a fork began
        self.lost: dict[str, int] = {}
        self.bounds: dict[str, Row] = {}
        self.children: set[str] = set()
        # processes that locked something; those where the kernel may have brought pages in since,
        # by which row, or unlocked some
        self.locked: set[str] = set()
        self.brought: dict[str, Row] = {}
        self.unlocked: set[str] = set()
        # whether the model merged pages
        self.is_merged = False

    def take(self, asked: Asked) -> Difference | None:
        """Does a line."""
        line = Line(self.kernel, asked.number, asked.words, asked.reply[0])
        difference, bounds = None, None
        try:
            if line.process in self.lost:
                raise NotAsked(LOST.format(self.lost[line.process]))
            if line.process in self.kernel.live:
                bounds = other_bounds(line)
            difference = self.compare(line, asked)
            self.found[kind_of(difference)] += 1
        except NotAsked as why:
            self.pass_over(line, str(why))
        if bounds:
            self.bounds.setdefault(line.process, bounds)
        self.is_merged |= line.name == "merge" and len(asked.reply) > 1
        self.follow_locks(line)
        self.follow(line)
        return difference

    # ---- asking

    def compare(self, line: Line, asked: Asked) -> Difference | None:
        if line.name == "mlock" and line.said.startswith(("oom", "bus")):
            self.lost[line.process] = line.number
            raise NotAsked(NO_FRAME)
        rows = careful(line) if line.process in self.kernel.live else []
        if rows:
            return self.ask_carefully(line, rows)
        if line.name in ("spawn", "fork") and line.said != "ok":
            raise NotAsked(LIMIT if line.said == "err EAGAIN" else NOBODY)
        if line.name == "rmap" and asked.entry.startswith("slot"):
            raise NotAsked(IN_SWAP)
        if line.name == "rmap" and self.is_merged:
            raise NotAsked(MERGED)
        words, said = as_far_as(line.words, line.said)
        model, in_part = [said, *asked.reply[1:]], "cached" in asked.entry
        for _ in range(TRIES if line.name in ("entry", "rmap") else 1):
            linux = self.kernel.answer(words, said)
            rows = [self.rows_known(line, it) for it in (model, linux)]
            if is_alike(words, *rows, in_part):
                if words != line.words:
                    raise NotAsked(NO_FRAME)
                if rows != [model, linux]:
                    raise NotAsked(SHARED)
                return None
        if line.name in ("mlock", "munlock", "madvise"):
            self.lost[line.process] = line.number
        return Difference(line, asked.reply, linux, self.row_of(line, model, linux))

    def rows_known(self, line: Line, reply: list[str]) -> list[str]:
        """A reply, of an `rmap` without the rows of processes that went another way."""
        if line.name != "rmap":
            return reply
        return [reply[0], *(it for it in reply[1:] if it.split(" ")[0] not in self.lost)]

    def row_of(self, line: Line, model: list[str], linux: list[str]) -> Row | None:
        """The row by which a line was answered so."""
        if line.name == "areas" and locks_of(model) != locks_of(linux):
            return UNLOCKED if line.process in self.unlocked else None
        if line.name == "areas":
            # (an area whose pages came in has an anon_vma, which keeps it from joining)
            why = self.bounds.get(line.process) or self.brought.get(line.process)
            return why if runs_of(model) == runs_of(linux) else None
        if line.name == "madvise" and line.process in self.unlocked:
            return UNLOCKED
        row = row_of(line, linux[0], line.process in self.children)
        if not row and line.name in ("entry", "rmap"):
            others = self.brought.values() if line.name == "rmap" else ()
            row = self.brought.get(line.process) or next(iter(others), None)
        if row is KEYS and line.name == "read":
            with_keys = self.kernel.read(*line.words[1:], with_keys=True)
            return row if with_keys == model[:1] else None
        return row

    def ask_carefully(self, line: Line, rows: list[Row]) -> Difference | None:
        """A line that Linux may answer otherwise: of a copy of its process first."""
        process = self.kernel.process(line.process)
        if any(LEFT_OUT in it.flags for it in self.kernel.areas(process, "smaps")):
            return self.ask_itself(process, line, rows)
        linux, changes = self.ask_copy(process, line)
        if linux != line.said:
            row = next((it for it in rows if it.says(line, linux)), None)
            if line.is_done:
                self.mend(line, process, row)
            return Difference(line, [line.said], [linux], row)
        if not line.is_done:
            row = next((it for it in rows if it.changes), None)
            return Difference(line, [line.said], [linux], row, CHANGES) if changes else None
        linux = self.kernel.call(process, line.words, line.said)
        return None if linux == line.said else Difference(line, [line.said], [linux], None)

    def ask_itself(self, process: Stub, line: Line, rows: list[Row]) -> Difference | None:
        """A line of a process of which a copy wouldn't have all pages. Where Linux answers
        otherwise, or may have changed something, it goes another way from then on.
        """
        linux = self.kernel.call(process, line.words, line.said)
        row = next((it for it in rows if it.says(line, linux)), None)
        if linux != line.said and line.is_done and linux.startswith("err "):
            self.mend(line, process, row)
        elif linux != line.said or not line.is_done and any(it.changes for it in rows):
            self.lost[line.process] = line.number
        return Difference(line, [line.said], [linux], row) if linux != line.said else None

    def ask_copy(self, process: Stub, line: Line) -> tuple[str, bool]:
        """What a copy of a process answers, and whether other pages are mapped then."""
        copy = process.fork()
        if isinstance(copy, int):
            raise Refused(f"a process can't be forked: error {-copy} (see ulimit -u)")
        before = maps_of(self.kernel.areas(copy))
        try:
            linux = self.kernel.call(copy, line.words, line.said)
            return linux, maps_of(self.kernel.areas(copy)) != before
        except Gone:
            return "killed", False
        finally:
            copy.end()

    def mend(self, line: Line, process: Stub, row: Row | None) -> None:
        """Brings the process to where the model's is, as far as that goes. (A page that can't be
        accessed is locked by a call that fails.)
        """
        answers = [self.kernel.call(process, it, "") for it in mending(line)]
        if any(it.startswith("err") for it in answers) and line.name != "mlock":
            self.lost[line.process] = line.number
        if row is BOUNDS:
            self.bounds.setdefault(line.process, row)

    # ---- what holds behind a line

    def pass_over(self, line: Line, why: str) -> None:
        self.passed.setdefault(why, collections.Counter())[line.name] += 1
        changes = line.name in ("write", "mmap", "mremap", "munmap", *MIDWAY)
        is_refused = line.said.startswith("err ") and line.name not in MIDWAY
        if why in (GAP, WIDE, NO_KSM) and changes and not is_refused:
            self.lost[line.process] = line.number

    def follow_locks(self, line: Line) -> None:
        """Keeps what is known of locked pages."""
        process = line.process
        if line.name == "mlock":
            self.locked.add(process)
        elif process not in self.locked:
            return
        elif line.name == "mprotect" and "w" in line.words[4]:
            self.brought.setdefault(process, WRITABLE)
        elif line.name == "mremap" and line.place >= 0 and line.how == "dontunmap":
            self.unlocked.add(process)
        elif line.name == "mremap" and line.place >= 0 and line.new > line.old:
            self.brought.setdefault(process, ADDED)

    def follow(self, line: Line) -> None:
        """Keeps what is known of processes."""
        if line.said != "ok" or line.name not in ("spawn", "fork", "exit"):
            return
        number = line.words[-1]
        if line.name == "exit" and number in self.kernel.live:
            # (it went another way, so it wasn't asked)
            self.kernel.exit(number)
        self.locked.discard(number)
        self.unlocked.discard(number)
        for known in (self.lost, self.bounds, self.brought):
            known.pop(number, None)
            if line.name == "fork" and line.process in known:
                known[number] = known[line.process]
        self.children.discard(number)
        if line.name == "fork":
            self.children.add(number)
        if line.name != "exit" and number not in self.kernel.live:
            self.lost.setdefault(number, line.number)
