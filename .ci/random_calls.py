"""Random traces for a real kernel: calls of a few processes that share pages, most of them good,
over a few pages at three places, with what `maps`, `areas`, `entry` and `rmap` show behind them.
Of other kinds are those whose ranges end where addresses do, and those whose pages go to swap and
come back.

Called as `.ci/random_calls.py SEED` it prints the trace of a seed, whose comment says with which
machine it is run; with `ends` or `swaps` behind it that of another kind. The same seed makes the
same trace.
"""
import random
import sys
from typing import Iterator

PAGE, HUGE, TOP = 4096, 1 << 21, 0x7FFFFFFFF000
# where the pages are: low, in the middle, and where automatic places are; each with how many
PLACES = ((0x20000, 14), (0x555555554000, 6), (TOP - 20 * PAGE, 20))
PROTS = ["rw-"] * 12 + ["r--"] * 3 + ["rwx", "r-x", "-w-", "---", "--x"]
# (a process with pages that are left out can't be copied, and then fewer lines are tried)
ADVICE = ["dontneed"] * 4 + ["wipeonfork"] * 3 + ["keeponfork", "dofork", "dofork", "dontfork"]
ADVICE += ["mergeable"] * 2 + ["unmergeable"]
# what a range may be that is refused, or at a border
ODD_PLACES = (0, 1, 0xF000, 0x10000, 0x20001, TOP - PAGE, TOP, 2**47, 2**63, 2**64 - PAGE)
ODD_LENGTHS = (0, 1, PAGE + 1, TOP - 0x10000, TOP, 2**47, 2**63, 2**64 - PAGE, 2**64 - 1)
# kinds of lines, each with how often it is drawn
KINDS = {
    "mmap": 10,
    "munmap": 5,
    "mprotect": 7,
    "mremap": 14,
    "madvise": 5,
    "mlock": 4,
    "munlock": 2,
    "read": 10,
    "write": 18,
    "fork": 5,
    "exit": 2,
    "spawn": 1,
    "entry": 3,
    "rmap": 4,
    "swap": 4,
}
MACHINES = (
    "16384 frames",
    "64 frames",
    "12 frames and a swap file of 40 pages",
    "6 frames and a swap file of 12 pages and one of 9 pages",
)

# where ranges end that are tried by themselves, each with how far beside it they do
ENDS, BESIDE = (TOP, TOP, 2**47, 2**63, 2**64, 2**64), (-PAGE, -1, 0, 0, 0, 1, PAGE)
# a page that on-linux has no place for: who maps it goes another way from then on
NO_PLACE = 0x380000000000
KINDS_OF_ENDS = {
    "mmap": 4,
    "munmap": 3,
    "mprotect": 5,
    "mremap": 4,
    "madvise": 8,
    "mlock": 8,
    "munlock": 6,
    "write": 12,
    "fork": 8,
    "exit": 1,
    "rmap": 12,
    "leave": 2,
}
KINDS_OF_SWAPS = {
    "mmap": 3,
    "munmap": 3,
    "mprotect": 3,
    "mremap": 5,
    "madvise": 5,
    "mlock": 2,
    "munlock": 1,
    "read": 16,
    "write": 18,
    "fork": 5,
    "exit": 3,
    "entry": 3,
    "rmap": 3,
    "swap": 16,
}


class Trace:
    """The lines of a trace, as they are drawn."""

    kinds = KINDS

    def __init__(self, seed: int):
        self.pick, self.machine = random.Random(seed), MACHINES[seed % len(MACHINES)]
        self.live, self.areas = {1}, self.machine.count(" pages")
        # (areas behind a dontunmap are otherwise on Linux, so two traces of three have none)
        self.modes = ["", " maymove", " fixed", " fixed", " dontunmap", " dontunmap to"]
        self.modes = self.modes[: 6 if seed % 3 == 0 else 4]

    def page(self) -> int:
        """A page of one of the places, low ones most often."""
        first, count = self.pick.choices(PLACES, (3, 1, 1))[0]
        return first + PAGE * self.pick.randrange(count)

    def range(self) -> str:
        """A range, as two words."""
        if self.pick.random() < 0.04:
            at = self.pick.choice([self.page(), self.pick.choice(ODD_PLACES)])
            return f"{at:x} {self.pick.choice(ODD_LENGTHS)}"
        return f"{self.page():x} {self.length()}"

    def length(self) -> int:
        pages = self.pick.choice([1, 1, 1, 2, 2, 3, 4, 6])
        return pages * PAGE - self.pick.choice([0] * 9 + [1, 4095])

    def process(self) -> int:
        """A process, most often one that lives."""
        return self.pick.choice(sorted(self.live)) if self.pick.random() < 0.98 else 6

    def mmap(self) -> str:
        how = self.pick.choice(["", " fixed", " fixed", " fixed", " noreplace", " at"])
        length = self.length() if how or self.pick.random() < 0.9 else HUGE
        begin = f"mmap {self.process()} {length} {self.pick.choice(PROTS)}"
        place = self.page() if self.pick.random() < 0.95 else self.pick.choice(ODD_PLACES)
        if how == " at":
            place += self.pick.choice([0, 5])
        return f"{begin}{how} {place:x}" if how else begin

    def munmap(self) -> str:
        return f"munmap {self.process()} {self.range()}"

    def mprotect(self) -> str:
        return f"mprotect {self.process()} {self.range()} {self.pick.choice(PROTS)}"

    def mremap(self) -> str:
        at, old = self.range().split(" ")
        new = self.pick.choice([old, self.length(), self.length()])
        how = self.pick.choice(self.modes)
        if "dontunmap" in how:
            new = old if self.pick.random() < 0.95 else self.length()
        to = f"{self.page() if self.pick.random() < 0.97 else self.pick.choice(ODD_PLACES):x}"
        how = f"{how.removesuffix(' to')} {to}" if how in (" fixed", " dontunmap to") else how
        return f"mremap {self.process()} {at} {old} {new}{how}"

    def madvise(self) -> str:
        return f"madvise {self.process()} {self.range()} {self.pick.choice(ADVICE)}"

    def lock_range(self) -> str:
        """A range that may begin anywhere in a page."""
        at, length = self.range().split(" ")
        return f"{int(at, 16) + self.pick.choice([0, 0, 0, 5, 4095]):x} {length}"

    def mlock(self) -> str:
        return f"mlock {self.process()} {self.lock_range()}"

    def munlock(self) -> str:
        return f"munlock {self.process()} {self.lock_range()}"

    def access(self) -> str:
        """An address, often just before a border of pages, and a number of bytes."""
        at = self.page() + self.pick.choice([0, 0, 5, PAGE - 1, PAGE - 2])
        return f"{self.process()} {at:x}", self.pick.choice([1, 2, 3, 8, 8, 60])

    def read(self) -> str:
        return " ".join(map(str, ["read", *self.access()]))

    def write(self) -> str:
        at, count = self.access()
        return f"write {at} {self.pick.randbytes(count).hex()}"

    def fork(self) -> str:
        parent, child = self.process(), self.pick.randint(1, 5)
        if parent in self.live:
            self.live.add(child)
        return f"fork {parent} {child}"

    def exit(self) -> str:
        process = self.process()
        if self.live == {process}:
            return self.spawn()
        self.live.discard(process)
        return f"exit {process}"

    def spawn(self) -> str:
        process = self.pick.randint(1, 5)
        self.live.add(process)
        return f"spawn {process}"

    def entry(self) -> str:
        return f"entry {self.process()} {self.page():x}"

    def rmap(self) -> str:
        return f"rmap {self.process()} {self.page():x}"

    def swap(self) -> str:
        """What the model alone does."""
        words = ["reclaim 4", "reclaim 2", "age 4", "complete 3", "stat"]
        words += [f"swapoff {it}" for it in range(self.areas)]
        words += [f"swapon {it}" for it in range(self.areas)]
        return self.pick.choice(words)

    def lines(self, count: int) -> Iterator[str]:
        yield f"# Random calls. Run it with {self.machine}."
        yield from (f"swapon {it}" for it in range(self.areas))
        yield from ("spawn 1", "mmap 1 57344 rw- fixed 20000", "mmap 1 8192 rw-")
        kinds, weights = zip(*self.kinds.items())
        for _ in range(count):
            kind = self.pick.choices(kinds, weights)[0]
            line = getattr(self, kind)()
            yield line
            process = line.split(" ")[1] if kind not in ("swap", "entry", "rmap") else ""
            if process and self.pick.random() < 0.4:
                yield f"{self.pick.choice(['maps', 'areas', 'areas'])} {process}"
        for process in sorted(self.live):
            yield from (f"maps {process}", f"areas {process}")
            yield from (f"{it} {process} 20000" for it in ("rmap", "entry"))


class Ends(Trace):
    """Lines whose ranges end at TOP, at 2^64 and about there, and in the page that they begin in;
    some processes leave for where the kernel isn't asked.
    """

    kinds = KINDS_OF_ENDS

    def __init__(self, seed: int):
        super().__init__(seed)
        self.machine, self.areas = MACHINES[0], 0

    def page(self) -> int:
        return self.pick.choice([0x20000, TOP]) + PAGE * self.pick.choice([-3, -2, -1, -1, 0, 1])

    def range(self) -> str:
        at = self.page()
        if self.pick.random() < 0.5:
            return f"{at:x} {self.length()}"
        return f"{at:x} {(self.pick.choice(ENDS) + self.pick.choice(BESIDE) - at) % 2**64}"

    def lock_range(self) -> str:
        at, length = self.range().split(" ")
        within = self.pick.choice([0, 1, 4095])
        return f"{int(at, 16) + within:x} {self.pick.choice([int(length), 1, PAGE - within])}"

    def leave(self) -> str:
        return f"mmap {self.process()} {PAGE} rw- fixed {NO_PLACE:x}"


class Swaps(Trace):
    """Lines of a few pages that go to swap, and come back."""

    kinds = KINDS_OF_SWAPS

    def __init__(self, seed: int):
        super().__init__(seed)
        self.machine, self.areas = "16384 frames and a swap file of 1024 pages", 1

    def page(self) -> int:
        first, count = PLACES[0]
        return first + PAGE * self.pick.randrange(count)

    def swap(self) -> str:
        return f"reclaim {self.pick.choice([1, 2, 3, 4, 6, 8, 12, 20])}"

    def lines(self, count: int) -> Iterator[str]:
        """Behind the first mapping most of its pages get frames."""
        first, pages = PLACES[0]
        for it in super().lines(count):
            yield it
            if it == "mmap 1 8192 rw-":
                yield from (f"write 1 {first + PAGE * at:x} {at:02x}" for at in range(pages - 4))


def trace_of(seed: int, count: int = 150) -> str:
    """The trace of a seed, with so many drawn lines and reports between."""
    return "".join(f"{it}\n" for it in Trace(seed).lines(count))


def ends_of(seed: int, count: int = 100) -> str:
    """That of a seed whose ranges end where addresses do."""
    return "".join(f"{it}\n" for it in Ends(seed).lines(count))


def swaps_of(seed: int, count: int = 80) -> str:
    """That of a seed whose pages go to swap."""
    return "".join(f"{it}\n" for it in Swaps(seed).lines(count))


if __name__ == "__main__":
    make = {"ends": ends_of, "swaps": swaps_of}.get("".join(sys.argv[2:]), trace_of)
    print(make(int(sys.argv[1])), end="")
