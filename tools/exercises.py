"""Exercises: short traces by topic, drawn until the program's replies show what the topic promises.

A topic is a way to draw a trace, what it promises in words, and whether a run keeps that.
"""
import io
import random
import re
import subprocess
import tempfile
from typing import Callable, Iterable, NamedTuple

from shared.saying import Refused

from swapfile import Machine, words_of
from transcript import MARK, replies_of

PAGE = 4096
# the first page that is mapped, and the first behind all that can be
FIRST, TOP = 0x20, 0x7FFFFFFFF
# replies of lines that did nothing, or not all that they ask
UNDONE = re.compile("err|segv|bus|oom|none")
# commands that do nothing where they have no notes
PASSES = ("reclaim", "age", "complete", "merge", "compact")
# drafts that are tried, where a few are enough for most seeds
MOST_TRIES = 1000


class Step(NamedTuple):
    """A command with the first line of its reply, and its notes or rows."""

    command: str
    answer: str
    notes: list[str]

    def has(self, *names: str) -> bool:
        """Whether it is one of these commands."""
        return self.command.split(" ")[0] in names


class Draft:
    """A trace as it is drawn: the machine, the lines, and the pages that processes have."""

    def __init__(self, chance: random.Random, frames: int, *areas: int):
        self.chance = chance
        self.machine = Machine(str(frames), [(pages, []) for pages in areas])
        self.lines = [f"swapon {area}" for area in range(len(areas))]
        self.pages: dict[int, dict[int, str]] = {}

    def say(self, name: str, *words: object) -> None:
        """A line more."""
        self.lines.append(" ".join([name, *map(str, words)]))

    def begin(self, process: int, count: int) -> None:
        """A process with so many pages."""
        self.say("spawn", process)
        self.pages[process] = {}
        self.map(process, range(FIRST, FIRST + count))

    def map(self, process: int, pages: range, prot: str = "rw-") -> None:
        """Pages more, in a row."""
        self.say("mmap", process, len(pages) * PAGE, prot, "fixed", address(pages[0]))
        self.pages[process] |= dict.fromkeys(pages, prot)

    def fork(self, parent: int, child: int) -> None:
        """A child."""
        self.say("fork", parent, child)
        self.pages[child] = dict(self.pages[parent])

    def exit(self, process: int) -> None:
        """A process ends."""
        self.say("exit", process)
        del self.pages[process]

    def take_away(self, process: int, page: int) -> None:
        """A page goes."""
        self.say("munmap", process, address(page), PAGE)
        del self.pages[process][page]

    def any_page(self) -> tuple[int, int]:
        """A process and one of its pages."""
        process = self.chance.choice(sorted(self.pages))
        return process, self.chance.choice(sorted(self.pages[process]))

    def write(self, process: int, page: int) -> None:
        """A byte goes to a page, or one to its end and one to the next page."""
        is_over = page + 1 in self.pages[process] and self.chance.random() < 0.2
        at = PAGE - 1 if is_over else self.chance.choice((0, 5, 16))
        values = (f"{self.chance.randint(1, 255):02x}" for _ in range(1 + is_over))
        self.say("write", process, address(page, at), "".join(values))

    def read(self, process: int, page: int) -> None:
        """Some bytes of a page are read."""
        self.say("read", process, address(page, self.chance.choice((0, 4))), 2)

    def ask(self, name: str, process: int, page: int) -> None:
        """A report on a page."""
        self.say(name, process, address(page))

    def some(self, name: str) -> None:
        """A command for some frames or writes."""
        self.say(name, self.chance.randint(1, 3))

    def move(self, names: str) -> None:
        """One of these things, by the names of methods and reports, with blanks between."""
        name = self.chance.choice(names.split())
        if name in ("read", "write"):
            getattr(self, name)(*self.any_page())
        elif name in ("entry", "rmap"):
            self.ask(name, *self.any_page())
        elif name == "areas":
            self.say(name, self.any_page()[0])
        elif name in ("merge", "compact"):
            self.say(name)
        else:
            self.some(name)

    def moves(self, count: int, names: str) -> None:
        """So many of these things."""
        for _ in range(count):
            self.move(names)


def address(page: int, at: int = 0) -> str:
    """A byte of a page, as a command names it."""
    return f"{page * PAGE + at:x}"


def notes_of(steps: Iterable[Step], name: str) -> list[str]:
    """All notes of a name."""
    return [note for step in steps for note in step.notes if note.split(" ")[0] == name]


def are(steps: Iterable[Step], least: dict[str, int]) -> bool:
    """Whether there are as many notes of each name, or more."""
    steps = list(steps)
    return all(len(notes_of(steps, name)) >= count for name, count in least.items())


def behind(steps: list[Step], name: str) -> list[Step]:
    """The steps behind the first that has a note of this name, or is this command."""
    found = (at for at, it in enumerate(steps) if notes_of([it], name) or it.has(name))
    return steps[next(found, len(steps)) + 1 :]


def is_done(steps: list[Step]) -> bool:
    """Whether each line does something: none is refused, none is a pass that finds nothing, none
    says again what the one before it said, and no write stores again what it stored before.
    """
    lines = [it.command for it in steps]
    return not any(
        UNDONE.match(it.answer)
        or is_idle(it)
        or it.command in lines[max(0, at - 1) : at]
        or it.has("write") and not it.notes and it.command in lines[:at]
        for at, it in enumerate(steps)
    )


def is_idle(step: Step) -> bool:
    """Whether it is a pass that finds nothing."""
    return step.has(*PASSES) and not step.notes


# ---- topics: how a trace is drawn, and whether a run shows what is promised


def draw_first_touch(chance: random.Random) -> Draft:
    draft = Draft(chance, 8)
    draft.begin(1, chance.randint(3, 5))
    draft.moves(chance.randint(10, 12), "read read read write write write entry")
    return draft


def shows_first_touch(steps: list[Step]) -> bool:
    zeros = {it.split(" ")[2] for it in notes_of(steps, "zero")}
    news = {it.split(" ")[2] for it in notes_of(behind(steps, "zero"), "new")}
    quiet = [it for it in steps if it.has("read", "write") and not it.notes]
    return are(steps, {"zero": 2, "new": 2}) and bool(zeros & news) and bool(quiet)


def draw_fork_and_copy(chance: random.Random) -> Draft:
    draft = Draft(chance, 12)
    draft.begin(1, 3)
    draft.moves(3, "write")
    draft.fork(1, 2)
    draft.moves(4, "write write write rmap read")
    draft.fork(chance.choice((1, 2)), 3)
    draft.moves(6, "write write write rmap read")
    return draft


def shows_fork_and_copy(steps: list[Step]) -> bool:
    later = behind(steps, "fork")
    quiet = [it for it in later if it.has("write") and not it.notes]
    return are(steps, {"copy": 3}) and bool(quiet)


def change_area(draft: Draft) -> None:
    """Some pages in a row are mapped anew, go, or get another protection."""
    pages, count = draft.pages[1], draft.chance.randint(1, 3)
    start = FIRST + draft.chance.randint(0, 6 - count)
    run = range(start, start + count)
    if not all(it in pages for it in run):
        draft.map(1, run)
    elif draft.chance.random() < 0.2 and len(pages) > count:
        draft.say("munmap", 1, address(start), count * PAGE)
        draft.pages[1] = {it: prot for it, prot in pages.items() if it not in run}
    else:
        prot = "r--" if pages[start] == "rw-" else "rw-"
        draft.say("mprotect", 1, address(start), count * PAGE, prot)
        pages |= dict.fromkeys(run, prot)


def draw_areas_join(chance: random.Random) -> Draft:
    draft = Draft(chance, 8)
    draft.begin(1, chance.randint(4, 6))
    draft.moves(chance.randint(0, 1), "write")
    draft.say("areas", 1)
    for _ in range(chance.randint(6, 7)):
        change_area(draft)
        draft.say("areas", 1)
    return draft


def shows_areas_join(steps: list[Step]) -> bool:
    shown = [it for it in steps if it.has("areas")]
    changes = [it for it in steps if not it.has("areas")][-len(shown) + 1 :]
    counts = [len(it.notes) for it in shown]
    triples = list(zip(changes, counts, counts[1:]))
    joins = [it for it, last, now in triples if now < last and not it.has("munmap")]
    splits = [it for it, last, now in triples if now > last]
    is_changed = all(one != other for one, other in zip(shown, shown[1:]))
    return is_changed and len(joins) >= 2 and len(splits) >= 2


def draw_chains(chance: random.Random) -> Draft:
    draft = Draft(chance, 16)
    draft.begin(1, 2)
    draft.moves(2, "write")
    draft.fork(1, 2)
    draft.moves(chance.randint(1, 2), "write rmap areas")
    draft.fork(2, 3)
    draft.moves(5, "write rmap rmap")
    draft.say("areas", 3)
    draft.exit(chance.choice((1, 2)))
    draft.moves(2, "rmap areas")
    return draft


def shows_chains(steps: list[Step]) -> bool:
    walks = {it.answer.split(" ")[-1] for it in steps if it.has("rmap")}
    rows = [row for it in steps if it.has("areas") for row in it.notes]
    is_long = any(re.search(r" chain=\d+,\d+,\d", it) for it in rows)
    return is_long and "1" in walks and len(walks) >= 2


def highest(pages: Iterable[int], count: int) -> int:
    """The highest page from which so many are free."""
    at, held = TOP - count, set(pages)
    while held & set(range(at, at + count)):
        at -= 1
    return at


class Range(NamedTuple):
    """Pages in a row: the first one, and how many."""

    start: int
    count: int

    def pages(self) -> range:
        """All of them."""
        return range(self.start, self.start + self.count)


def remap(draft: Draft, old: Range, kind: str) -> Range:
    """A range grows, shrinks or moves; where it is then."""
    pages = draft.pages[1]
    words, new, is_kept = "", old, False
    if kind == "shrink" and old.count > 1:
        new = Range(old.start, old.count - 1)
    elif kind == "fixed":
        new, words = Range(0x40 + 8 * draft.chance.randint(0, 5), old.count), "fixed"
    elif kind == "dontunmap":
        new, words, is_kept = Range(highest(pages, old.count), old.count), "dontunmap", True
    elif old.start + old.count in pages or old.start + old.count == TOP:
        new, words = Range(highest(pages, old.count + 1), old.count + 1), "maymove"
    else:
        new = Range(old.start, old.count + 1)
    place = [address(new.start)] if words == "fixed" else []
    lengths = old.count * PAGE, new.count * PAGE
    draft.say("mremap", 1, address(old.start), *lengths, *filter(None, [words]), *place)
    gone = [] if is_kept else old.pages()
    kept = {it: prot for it, prot in pages.items() if it not in gone}
    draft.pages[1] = kept | dict.fromkeys(new.pages(), "rw-")
    return new


def draw_mremap(chance: random.Random) -> Draft:
    draft = Draft(chance, 8)
    draft.begin(1, chance.randint(2, 3))
    now = Range(FIRST, len(draft.pages[1]))
    draft.moves(2, "write")
    if chance.random() < 0.5:
        draft.map(1, range(FIRST + now.count, FIRST + now.count + 1), "r--")
    for _ in range(chance.randint(3, 4)):
        now = remap(draft, now, chance.choice(("grow", "grow", "shrink", "fixed", "dontunmap")))
        page = chance.choice(sorted(now.pages()))
        chance.choice((draft.read, draft.read, draft.write))(1, page)
    draft.say("maps", 1)
    return draft


def shows_mremap(steps: list[Step]) -> bool:
    pairs = [(it.command.split(" ")[2], it.answer) for it in steps if it.has("mremap")]
    stays = [answer == f"map {place}" for place, answer in pairs]
    later = behind(steps, "mremap")
    reads = [it.answer for it in later if it.has("read") and it.answer != "data 0000"]
    return len(stays) >= 3 and any(stays) and not all(stays) and bool(reads)


def draw_reclaim(chance: random.Random) -> Draft:
    draft = Draft(chance, 6, 8)
    draft.begin(1, 4)
    draft.moves(3, "write")
    for name in ("reclaim", "age", "reclaim", "complete", "reclaim"):
        draft.some(name)
        draft.move("read write entry")
    draft.moves(2, "reclaim complete read entry")
    return draft


def shows_reclaim(steps: list[Step]) -> bool:
    kept = {it.split(" ")[2] for it in notes_of(steps, "keep")}
    needed = {"put": 1, "start": 1, "done": 1, "drop": 1}
    return are(steps, needed) and {"referenced", "started"} <= kept and len(steps) >= 12


def draw_swap(chance: random.Random) -> Draft:
    draft = Draft(chance, 3, 4, 6)
    draft.begin(1, 5)
    for page in chance.sample(range(FIRST, FIRST + 5), 5):
        draft.write(1, page)
    draft.moves(4, "write read read entry")
    draft.say("swapoff", 0)
    draft.moves(2, "read entry")
    return draft


def shows_swap(steps: list[Step]) -> bool:
    accesses = [it for it in steps if it.has("read", "write")]
    off = [it for it in steps if it.has("swapoff") and it.notes]
    return are(accesses, {"put": 2, "load": 2}) and bool(off)


def draw_locks(chance: random.Random) -> Draft:
    draft = Draft(chance, 5, 8)
    draft.begin(1, 4)
    draft.moves(chance.randint(1, 2), "write")
    page = FIRST + chance.randint(0, 2)
    draft.say("mlock", 1, address(page), 2 * PAGE)
    draft.moves(5, "reclaim reclaim age read write")
    draft.say("munlock", 1, address(page + chance.randint(0, 1)), PAGE)
    draft.moves(5, "reclaim reclaim age complete read")
    draft.say("areas", 1)
    return draft


def shows_locks(steps: list[Step]) -> bool:
    locks = [it for it in steps if it.has("mlock") and it.notes]
    kept = [it for it in notes_of(steps, "keep") if it.endswith(" locked")]
    out = notes_of(behind(steps, "munlock"), "unmap")
    return bool(locks) and bool(kept) and bool(out)


def write_equal(draft: Draft) -> None:
    """One of two bytes goes to the beginning of a page."""
    process, page = draft.any_page()
    draft.say("write", process, address(page), draft.chance.choice(("41", "42")))


def draw_merge(chance: random.Random) -> Draft:
    draft = Draft(chance, 8)
    for process in (1, 2):
        draft.begin(process, 2)
    for _ in range(4):
        write_equal(draft)
    for process in (1, 2):
        draft.say("madvise", process, address(FIRST), 2 * PAGE, "mergeable")
    draft.say("merge")
    for names in ("rmap entry", "rmap entry read", "merge"):
        write_equal(draft)
        draft.move(names)
    draft.moves(2, "rmap entry")
    return draft


def shows_merge(steps: list[Step]) -> bool:
    return are(steps, {"share": 1, "join": 2}) and are(behind(steps, "share"), {"copy": 1})


def draw_compact(chance: random.Random) -> Draft:
    draft = Draft(chance, 8)
    for process in (1, 2):
        draft.begin(process, 3)
    places = [(process, page) for process in (1, 2) for page in draft.pages[process]]
    *written, last = chance.sample(places, 6)
    for place in written:
        draft.write(*place)
    for gone, names in zip(chance.sample(written, 2), ("entry rmap", "entry write")):
        draft.take_away(*gone)
        draft.say("compact")
        draft.move(names)
    draft.write(*last)
    draft.moves(2, "entry rmap write")
    return draft


def shows_compact(steps: list[Step]) -> bool:
    later = behind(steps, "move")
    seen = [it for it in later if it.has("entry", "rmap") and it.answer.startswith("frame")]
    return are(steps, {"move": 2}) and are(later, {"new": 1}) and bool(seen)


class Topic(NamedTuple):
    """What a topic promises, and its two functions."""

    promise: str
    draw: Callable[[random.Random], Draft]
    shows: Callable[[list[Step]], bool]


TOPICS = {
    "first-touch": Topic(
        "two pages of zeros and two new frames, one of them behind the page of zeros",
        draw_first_touch,
        shows_first_touch,
    ),
    "fork-and-copy": Topic(
        "three copies, and a write to a frame that is its page's alone",
        draw_fork_and_copy,
        shows_fork_and_copy,
    ),
    "areas-join": Topic(
        "two calls that join areas and two that split them; each changes `areas`",
        draw_areas_join,
        shows_areas_join,
    ),
    "chains": Topic(
        "a chain of three anon_vmas; walks to one entry and to several",
        draw_chains,
        shows_chains,
    ),
    "mremap": Topic(
        "three calls, one that moves pages and one that doesn't; a byte read afterwards",
        draw_mremap,
        shows_mremap,
    ),
    "reclaim": Topic(
        "a page on its way out: put, started, done, dropped; a frame kept as referenced",
        draw_reclaim,
        shows_reclaim,
    ),
    "swap": Topic(
        "two pages driven out by an access, two loaded; an area that is emptied",
        draw_swap,
        shows_swap,
    ),
    "locks": Topic(
        "a lock that brings pages in, a locked frame kept, a page out behind the unlock",
        draw_locks,
        shows_locks,
    ),
    "merge": Topic(
        "a merged frame that two entries join, and a copy at a write behind it",
        draw_merge,
        shows_merge,
    ),
    "compact": Topic(
        "two frames that move, a look at one in use and a new frame behind that",
        draw_compact,
        shows_compact,
    ),
}


# ---- the program's part


def answer(program: str, draft: Draft) -> list[Step]:
    """The commands of a draft with the program's replies."""
    with tempfile.TemporaryDirectory(prefix="avsim-exercise-") as room:
        words = [program, "run", *words_of(draft.machine, room)]
        given = "".join(f"{it}\n" for it in draft.lines).encode()
        try:
            ran = subprocess.run(words, input=given, capture_output=True, check=False)
        except OSError as error:
            hint = "./avsim build makes the program"
            raise Refused(f"avsim can't be run ({error.strerror}): {hint}") from None
    if ran.returncode:
        said = ran.stderr.decode("ascii", "backslashreplace").strip() or "it says nothing"
        raise Refused(f"avsim ended with status {ran.returncode}: {said}")
    replies = (it.split(MARK) for it in replies_of(io.BytesIO(ran.stdout)))
    return [Step(line, *(it[0], it[1:])) for line, it in zip(draft.lines, replies)]


def tried(program: str, topic: Topic, chance: random.Random) -> tuple[Machine, list[Step]] | None:
    """A draft without its idle passes, with the replies; None where it keeps no promise."""
    draft = topic.draw(chance)
    steps = answer(program, draft)
    if any(map(is_idle, steps)):
        draft.lines = [it.command for it in steps if not is_idle(it)]
        steps = answer(program, draft)
    return (draft.machine, steps) if is_done(steps) and topic.shows(steps) else None


def exercise(program: str, name: str, seed: int) -> tuple[Machine, list[Step]]:
    """The exercise of a topic and a seed: the machine, and the commands with their replies."""
    chance = random.Random(f"{name}:{seed}")
    for _ in range(MOST_TRIES):
        found = tried(program, TOPICS[name], chance)
        if found:
            return found
    raise Refused(f"no draft of {name} {seed} keeps its promise: that is a fault, please tell")
