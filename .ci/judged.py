"""What `.ci/linux` has judged: wrong kernels, each an edit of tools/stub.c, and which examples of
docs/LINUX.md a kernel's own transcript doesn't show; and what became of traces, in numbers.
"""
import collections
from typing import NamedTuple

from judging import Verdict, lines_of
from rows import Row

CALL = "        answer.result = call(of[0], of[1], of[2], of[3], of[4], of[5], of[6]);\n"
WRITE = "        answer.result = of[1] - copy((char *)of[0], asked.bytes, of[1]);\n"
CHILD = "        call(__NR_dup2, channel, 0, 0, 0, 0, 0);\n"
PAGE = "word page = of[0] & ~4095ul"

# examples whose row is legal by itself, or is mended: bounds of areas are free, all protection keys
# are taken, and a child reads what it didn't get
LEGAL = {"growth", "old_range", "protection_keys", "lock_execute_only", "fork_entries"}

BEGIN = "spawn 1\nmmap 1 8192 rw- fixed 20000\nwrite 1 20000 01\n"


class Tally:
    """What became of traces that were judged: how many there were, and the lines that rows of
    docs/LINUX.md left out.
    """

    def __init__(self) -> None:
        self.counts: collections.Counter[str] = collections.Counter()
        self.rows: collections.Counter[Row] = collections.Counter()

    def add(self, trace: str, verdict: Verdict) -> None:
        is_once = not (verdict.illegal or verdict.left_out or verdict.telling.cut)
        self.counts["traces"] += 1
        self.counts["lines"] += len(lines_of(trace))
        self.counts["replies judged"] += len(verdict.telling.told)
        self.counts["legal at once"] += is_once
        self.counts["told in part"] += bool(verdict.telling.cut)
        self.counts["not legal"] += bool(verdict.illegal)
        self.counts["tried again"] += verdict.again
        self.rows.update(it.row for it in verdict.left_out if it.row)

    def __str__(self):
        counts = [f"{count} {what}" for what, count in self.counts.items()]
        rows = [f"  {count} by {it.section}: {it.begin}" for it, count in self.rows.most_common()]
        head = f"{', '.join(counts)}, {self.rows.total()} lines left out"
        return "\n".join([head, *rows])


class Wrong(NamedTuple):
    """A wrong kernel: what the stub does instead, for a trace of which the last line is the one
    whose reply isn't legal; or, where `asked` says so, what is asked behind it.
    """

    place: str
    instead: str
    trace: str
    asked: str = ""


WRONG = {
    "a shared page is written without a copy": Wrong(
        CHILD,
        f"{{{CHILD} call(__NR_madvise, 0x20000, 4096, 22, 0, 0, 0);}}\n",
        f"{BEGIN}fork 1 2\nwrite 2 20000 02\n",
    ),
    "a child gets zeros": Wrong(
        CHILD,
        f"{{{CHILD} call(__NR_madvise, 0x20000, 4096, 4, 0, 0, 0);}}\n",
        f"{BEGIN}fork 1 2\n",
        "entry 2 20000",
    ),
    "bytes stay behind dontneed": Wrong(
        CALL,
        f"if (of[0] == __NR_madvise && of[3] == 4) of[2] = 0;\n{CALL}",
        f"{BEGIN}madvise 1 20000 4096 dontneed\n",
        "rmap 1 20000",
    ),
    "a page isn't cleared": Wrong(
        WRITE,
        f'{WRITE}copy((char *)((of[0] & ~4095ul) + 4064), "wrong", 5);\n',
        BEGIN,
        "read 1 20000 4096",
    ),
    "a write shows in the parent": Wrong(
        WRITE,
        f"{WRITE}{{struct iovec from = {{asked.bytes, of[1]}}, to = {{(void *)of[0], of[1]}};\n"
        "word parent = call(__NR_getppid, 0, 0, 0, 0, 0, 0);\n"
        "call(__NR_process_vm_writev, parent, (word)&from, 1, (word)&to, 1, 0);}\n",
        f"{BEGIN}fork 1 2\nwrite 2 20000 02\nread 1 20000 1\n",
    ),
    "mremap loses a page": Wrong(
        CALL,
        f"{CALL}if (of[0] == __NR_mremap) call(__NR_madvise, answer.result, 4096, 4, 0, 0, 0);\n",
        f"{BEGIN}mremap 1 20000 4096 4096 fixed 30000\n",
        "entry 1 30000",
    ),
    "a write in place goes to another frame": Wrong(
        WRITE,
        f"{WRITE}{{{PAGE}, other = call(__NR_mmap, 0, 4096, 3, 0x4022, -1ul, 0);\n"
        "copy((char *)other, (char *)page, 4096);\n"
        "call(__NR_mremap, other, 4096, 4096, 3, page, 0);}\n",
        f"{BEGIN}write 1 20000 02\n",
    ),
}
# a shared page that is written is one of a mapping that is shared
SHARED = ("a shared page is written without a copy", f"if (of[0] == __NR_mmap) of[4] ^= 3;\n{CALL}")


def stub_with(text: str, name: str) -> str:
    """The stub of a wrong kernel; without a change where the place isn't there once."""
    wrong = WRONG[name]
    changes = [(wrong.place, wrong.instead)] + [(CALL, SHARED[1])] * (name == SHARED[0])
    for old, new in changes:
        if text.count(old) != 1:
            return ""
        text = text.replace(old, new)
    return text
