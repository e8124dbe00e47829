"""The row of docs/LINUX.md by which a reply of the kernel isn't legal: from its line, from what the
line's process had before it, and from what the kernel shows.

It is one of `rows` where the first line of the reply is another one. Where that is the same, Linux
did something that the notes show, or a question behind the line.
"""
from __future__ import annotations

from typing import TYPE_CHECKING, NamedTuple

from kernel import Kernel
from ranges import PAGE, Range, Ranges
from rows import ADDED, DROPPED_LOCKED, ENTRIES, FORCED, JOINS_MORE, KEPT_SLOT, MOVED_MERGED
from rows import UNLOCKED, UNMERGED, WRITABLE, Line, Row, careful, row_of


if TYPE_CHECKING:
    from telling import Telling, Told


# the notes that say how a page is served
SERVED = ("new ", "copy ", "zero ", "map ")


class Shown(NamedTuple):
    """A reply that isn't legal, that to the line for whose sake it stands there, and the model's
    replies to both.
    """

    told: Told
    main: Told
    model: list[str]
    main_model: list[str]


class LineBefore(Line):
    """A line with the areas that its process had."""

    def __init__(self, kernel: Kernel, main: Told, said: str):
        super().__init__(kernel, main.line, main.words, said)
        self.before = main.before
        self.ranges = Ranges(Range(it.start, it.end, it.prot) for it in main.before)

    def has(self, flag: str) -> bool:
        """Whether a page that the line names is in an area with this flag."""
        end = self.at + int(self.words[3])
        return any(flag in it.flags and it.start < end and self.at < it.end for it in self.before)


def notes_of(reply: list[str], kind: str) -> list[str]:
    return [it for it in reply[1:] if it.startswith(f"{kind} ")]


def places_of(reply: list[str], kinds: tuple[str, ...]) -> list[list[str]]:
    """The notes of some kinds, each as far as it says where."""
    return [it.split(" ")[:3] for it in reply[1:] if it.startswith(kinds)]


def keeps_slot(telling: Telling, line: LineBefore, linux: list[str], model: list[str]) -> bool:
    """Whether the kernel did all but drop the slots of pages that reads brought in."""
    kept = len(notes_of(model, "drop")) - len(notes_of(linux, "drop"))
    if kept <= 0 or places_of(linux, SERVED) != places_of(model, SERVED):
        return False
    came = {
        place[2]
        for it in telling.told
        if it.words[0] == "read" and it.line < line.number
        for place in places_of(it.reply, ("map ",))
        if place[1] == line.process
    }
    end = line.at + (len(line.words[3]) // 2 if line.name == "write" else int(line.words[3]))
    return kept <= sum(line.at // PAGE * PAGE <= int(it, 16) < end for it in came)


def drops_locked(telling: Telling, line: LineBefore, linux: list[str], model: list[str]) -> bool:
    """Whether the kernel did all, and dropped the slots of locked pages, too."""
    more = len(notes_of(linux, "drop")) - len(notes_of(model, "drop"))
    is_served = places_of(linux, SERVED) == places_of(model, SERVED)
    return is_served and 0 < more <= telling.came_locked[line.number]


def row_for(telling: Telling, shown: Shown) -> Row | None:
    """The row that explains a reply; None where none does."""
    main, said = shown.main, shown.main_model[0]
    line = LineBefore(telling.kernel, main, said)
    linux = main.reply[0]
    if shown.told is main and linux != said:
        found = [it for it in careful(line) if it.says(line, linux)]
        return found[0] if found else row_of(line, linux, False)
    changes = said.startswith("err ") or line.name in ("mlock", "munlock")
    found = [it for it in careful(line) if changes and it.changes and linux == said]
    return found[0] if found else row_of_notes(telling, line, shown)


def row_of_notes(telling: Telling, line: LineBefore, shown: Shown) -> Row | None:
    """The row by which Linux did more than it says, or less."""
    linux, model = shown.main.reply, shown.main_model
    more = len(linux) > len(model)
    match line.name:
        case "mprotect" if more and "w" in line.words[4] and line.has("lo"):
            return WRITABLE
        case "mremap" if line.how == "dontunmap" and line.has("lo"):
            return UNLOCKED
        case "mremap" if more and line.new > line.old and line.has("lo"):
            return ADDED
        case "mremap" | "madvise" if notes_of(linux, "copy") and line.has("mg"):
            return MOVED_MERGED if line.name == "mremap" else UNMERGED
        case "write" | "mlock" if keeps_slot(telling, line, linux, model):
            return KEPT_SLOT
        case "read" | "write" | "mlock" if drops_locked(telling, line, linux, model):
            return DROPPED_LOCKED
        case "write" | "mlock" if len(notes_of(linux, "copy")) > len(notes_of(model, "copy")):
            return FORCED if not telling.drains or telling.counts["not drained"] else None
        case "merge" if line.number in telling.joined_more:
            return JOINS_MORE
        case "fork" if shown.told.reply == ["empty"] and shown.model == ["zero"]:
            return ENTRIES
    return None
