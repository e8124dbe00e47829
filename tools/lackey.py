"""A program under valgrind's lackey, which tells each load, store and call: as a log of strace, and
as faults, which are then every access to a page that isn't one of the last few.

Both have one clock, which counts what is written. What the kernel stores for a `read` is told by
the call. Instructions are left out: they are read from files, which take no frame in the model.
Which thread does what isn't told, so all of it is one thread's.
"""
import collections
import contextlib
import os
import re
from typing import Iterator, TextIO

from faults import ON_CLOCK, TAIL
from ranges import PAGE, Ranges, up

# so many pages are remembered, where nobody says otherwise: an access to one of them isn't told
# again, until it has made way
NEAR = 8
CALL = re.compile(
    r"SYSCALL\[\d+,(\d+)\]\( *(\d+)\) (?:sys_)?(\w+) \( ?(.*?) ?\)"
    r"(?: -->)? ?\[(\w+(?:-\w+)?)\](?: -->)?(?: Success\(0x([0-9a-f]+)\))?.*"
)
RETURNS = re.compile(
    r"SYSCALL\[\d+,(\d+)\]\( *\d+\) \.\.\. \[async\] --> Success\(0x([0-9a-f]+)\).*"
)
PATH = re.compile(r"0x[0-9a-f]+\((.*)\), \S+(?:, \S+)?")
PROTECTIONS = {1: "PROT_READ", 2: "PROT_WRITE", 4: "PROT_EXEC"}
MAP = {1: "MAP_SHARED", 2: "MAP_PRIVATE", 16: "MAP_FIXED", 32: "MAP_ANONYMOUS"}
MREMAP = {1: "MREMAP_MAYMOVE", 2: "MREMAP_FIXED", 4: "MREMAP_DONTUNMAP"}
MADVISE = {4: "MADV_DONTNEED", 10: "MADV_DONTFORK", 11: "MADV_DOFORK"}
MADVISE |= {12: "MADV_MERGEABLE", 13: "MADV_UNMERGEABLE"}
MADVISE |= {18: "MADV_WIPEONFORK", 19: "MADV_KEEPONFORK"}
CLONE_VM = 0x100


def names_of(bits: int, names: dict[int, str]) -> str:
    """Flags by their names, as strace prints them."""
    return "|".join(name for bit, name in names.items() if bits & bit)


class Lackey:
    """What lackey tells, line by line, as it goes to a log and a file of faults, which are closed
    where it is left.
    """

    def __init__(self, program: str, log: str, faults: str, most_near: int):
        self.program, self.most_near, self.files_left = program, most_near, contextlib.ExitStack()
        self.log, self.faults = self.opened(log), self.opened(faults)
        self.time = self.accesses = self.forks = 0
        self.mapped, self.heap = Ranges(), 0
        # the pages that were told last, each with whether it was written, and those that no call
        # mapped
        self.near: collections.OrderedDict[int, bool] = collections.OrderedDict()
        self.outside: set[int] = set()
        self.files: dict[int, str] = {}
        self.pending: dict[str, tuple[str, str]] = {}

    def opened(self, file: str) -> TextIO:
        return self.files_left.enter_context(open(file, "w", encoding="ascii"))

    def __enter__(self) -> "Lackey":
        return self

    def __exit__(self, *_: object) -> None:
        self.files_left.close()

    def take(self, lines: Iterator[str]) -> None:
        """The whole of it. (A line begins with the kind of an access, or tells a call.)"""
        self.tell(f'execve("{self.program}", [..], 0x0 /* 0 vars */) = 0')
        last = ""
        print(ON_CLOCK, file=self.faults)
        for line in lines:
            kind = line[:2].strip()
            if kind in ("L", "S", "M"):
                # (page and kind of most accesses are those of the one before)
                here = kind + line[3:].split(",")[0][:-3]
                if here != last:
                    at, _, size = line[3:].partition(",")
                    self.access(int(at, 16), int(size), kind in ("S", "M"))
                    last = here
            elif line.startswith("SYSCALL"):
                self.call(line)
                last = ""

    def end(self, how: str) -> None:
        self.tell(f"+++ {how} +++")
        print(TAIL, file=self.faults)

    def tell(self, text: str) -> None:
        """A line of the log."""
        print(f"1 {self.now()} {text}", file=self.log)

    def now(self) -> str:
        """The next time."""
        self.time += 1
        return f"{self.time // 1000}.{self.time % 1000:03}000"

    def access(self, at: int, size: int, is_write: bool) -> None:
        """An access, by its pages."""
        for page in range(at // PAGE, (at + max(size, 1) - 1) // PAGE + 1):
            self.touch(page, at if page == at // PAGE else page * PAGE, is_write)

    def touch(self, page: int, at: int, is_write: bool) -> None:
        if page in self.outside:
            return
        if page in self.near and self.near[page] >= is_write:
            return
        if self.mapped.at(page * PAGE) is None:
            self.outside.add(page)
            return
        self.near[page] = self.near.pop(page, False) or is_write
        if len(self.near) > self.most_near:
            self.near.popitem(last=False)
        code = 6 if is_write else 4
        event = f"exceptions:page_fault_user: address=0x{at:x} ip=0x0 error_code=0x{code:x}"
        print(f"{os.path.basename(self.program)} 1/1 {self.now()}: {event}", file=self.faults)
        self.accesses += 1

    # calls

    def call(self, line: str) -> None:
        """A call that is done; of one that isn't yet, its words are kept."""
        if returns := RETURNS.fullmatch(line):
            name, words = self.pending.pop(returns[1], ("", ""))
            self.do(name, words, int(returns[2], 16))
            return
        match = CALL.fullmatch(line)
        if match and match[5] == "async":
            self.pending[match[1]] = (match[3], match[4])
        elif match and match[6]:
            self.do(match[3], match[4], int(match[6], 16))

    def do(self, name: str, text: str, answer: int) -> None:
        """A call that was done well."""
        method = getattr(self, f"do_{name}", None)
        if method:
            method(text, [number_of(it) for it in text.split(", ")], answer)

    def remember(self) -> None:
        """What is mapped is another now: so the next access to any page is told."""
        self.near.clear()
        self.outside.clear()

    def do_openat(self, text: str, _: list[int], answer: int) -> None:
        path = PATH.search(text)
        self.files[answer] = path[1] if path else "?"

    do_open = do_openat

    def do_read(self, _: str, words: list[int], answer: int) -> None:
        """The kernel stores what it read."""
        if answer:
            self.access(words[1], answer, True)

    do_pread64 = do_read

    def do_mmap(self, _: str, words: list[int], answer: int) -> None:
        at, length, prot, flags, number, offset = words
        file = "-1" if flags & 32 else f"{number}<{self.files.get(number, '?')}>"
        how = f"{names_of(prot, PROTECTIONS) or 'PROT_NONE'}, {names_of(flags, MAP)}"
        self.tell(f"mmap({at:#x}, {length}, {how}, {file}, {offset:#x}) = {answer:#x}")
        self.mapped.put(answer, answer + up(length), True)
        self.remember()

    def do_munmap(self, _: str, words: list[int], __: int) -> None:
        self.tell(f"munmap({words[0]:#x}, {words[1]}) = 0")
        self.mapped.cut(words[0], words[0] + up(words[1]))
        self.remember()

    def do_mprotect(self, _: str, words: list[int], __: int) -> None:
        prot = names_of(words[2], PROTECTIONS) or "PROT_NONE"
        self.tell(f"mprotect({words[0]:#x}, {words[1]}, {prot}) = 0")
        self.remember()

    def do_mremap(self, _: str, words: list[int], answer: int) -> None:
        at, old, new, flags = words[:4]
        to = f", {words[4]:#x}" if flags & 2 else ""
        how = names_of(flags, MREMAP) or "0"
        self.tell(f"mremap({at:#x}, {old}, {new}, {how}{to}) = {answer:#x}")
        self.mapped.cut(at, at + up(old))
        self.mapped.put(answer, answer + up(new), True)
        self.remember()

    def do_madvise(self, _: str, words: list[int], __: int) -> None:
        advice = MADVISE.get(words[2], str(words[2]))
        self.tell(f"madvise({words[0]:#x}, {words[1]}, {advice}) = 0")
        self.remember()

    def do_mlock(self, name: str, words: list[int], __: int) -> None:
        self.tell(f"{name}({words[0]:#x}, {words[1]}) = 0")
        self.remember()

    do_munlock = do_mlock

    def do_brk(self, _: str, words: list[int], answer: int) -> None:
        self.tell(f"brk({words[0]:#x}) = {answer:#x}" if words[0] else f"brk(NULL) = {answer:#x}")
        old, self.heap = self.heap, up(answer)
        if old and self.heap > old:
            self.mapped.put(old, self.heap, True)
        elif old:
            self.mapped.cut(self.heap, old)
        self.remember()

    def do_clone(self, _: str, words: list[int], __: int) -> None:
        self.forks += not words[0] & CLONE_VM

    def do_fork(self, *_) -> None:
        self.forks += 1


def number_of(word: str) -> int:
    """A word of a call, as valgrind prints it: 0 where it is no number."""
    match = re.match(r"0x([0-9a-f]+)|(-?\d+)$", word)
    if not match:
        return 0
    return int(match[1], 16) if match[1] else int(match[2])
