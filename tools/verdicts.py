"""What `tools/on-linux --judge` tells: the verdict, what it rests on, and what it can't see."""
import os

from shared.saying import Refused, count_of, printable

from check import NONE
from judging import Finding, Verdict, files_of
from looking import MOST_PAGES
from ranges import PAGE
from rows import Row
from swapping import PAGES

# lines of a reply that are shown at most
MOST_ROWS = 8
# the status where all that was told is legal, and the trace was cut short
IN_PART = 3
COUNTS = {
    "moved": "kept their numbers: {} frames that the kernel moved meanwhile, as compaction does",
    "mended": "read: {} pages of zeros that a fork didn't give the child (docs/LINUX.md, "
    '"spawn, fork, exit": entries)',
    "not drained": "not drained: the CPUs' lists, {} times, so that any write may copy",
    "seen": "told as rmap: {} entry: no file shows whether an entry was seen",
}
NO_SCAN = (
    "this kernel has no PAGEMAP_SCAN, which came with 6.7: all is judged, up to where a process "
    f"maps more than {MOST_PAGES * PAGE >> 30} GiB"
)
NO_FRAMES = (
    "frames are shown to CAP_SYS_ADMIN alone: judged are replies, bytes, maps and areas, with "
    "avsim's own notes; which frame a page has, and whether a write copied it, isn't seen"
)


def tell_finding(finding: Finding, told: set[Row]) -> None:
    """A reply that isn't legal, beside avsim's, with its row."""
    it, row = finding.told, finding.row
    what = " (asked behind it)" if it.is_added else ""
    print(f"line {it.line}: {printable(' '.join(it.words))}{what}")
    for name, reply in (("avsim", finding.model), ("Linux", it.reply)):
        rows = reply[1 : MOST_ROWS + 1] + ["..."] * (len(reply) > MOST_ROWS + 1)
        print(f"  {name}: {printable(reply[0])}", *rows, sep="\n    ")
    print(f"  {NONE if not row else row.short() if row in told else row}", flush=True)
    if row:
        told.add(row)


def tell(verdict: Verdict, has_frames: bool, out: str) -> int:
    """Tells a verdict, writes the files, and gives the status."""
    telling, told = verdict.telling, set()
    for finding in verdict.left_out + [verdict.illegal] * bool(verdict.illegal):
        tell_finding(finding, told)
    lines = {it.line for it in telling.told if not it.is_added}
    what = f"{count_of(len(telling.told), 'reply', 'replies')} to {count_of(len(lines), 'line')}"
    print(f"Linux {os.uname().release}: {what} judged: {word_for(verdict)}")
    if verdict.left_out:
        print(f"left out, and begun anew: {count_of(len(verdict.left_out), 'line')}, by these rows")
    if verdict.again:
        again = count_of(verdict.again, "time")
        print(f"tried again: {again}: no row explained a reply, or the trace was cut short")
    for why, names in telling.passed.items():
        print(f"not told: {', '.join(f'{names[it]} {it}' for it in names)}: {why}")
    for name, text in COUNTS.items():
        frames = telling.frames.counts[name] if telling.frames else 0
        if number := telling.counts[name] + frames:
            print(text.format(number))
    if telling.cut:
        print(f"not told from line {telling.line} on: {telling.cut}")
    if not has_frames:
        print(NO_FRAMES)
    elif telling.frames and not telling.frames.looker.can_scan:
        print(NO_SCAN)
    if out:
        write(verdict, out)
    if verdict.illegal:
        return 1
    return IN_PART if telling.cut else 0


def word_for(verdict: Verdict) -> str:
    if verdict.illegal:
        return "not legal"
    return "legal, as far as it was told" if verdict.telling.cut else "legal"


def write(verdict: Verdict, out: str) -> None:
    """Writes what was judged as a trace and a transcript."""
    telling = verdict.telling
    machine = f"{telling.most} frames"
    if telling.swapping:
        machine += f" and a swap file of {PAGES} pages"
    trace, transcript = files_of(telling.told)
    head = (
        f"# What Linux {os.uname().release} did, with what was asked between.\n"
        f"# Run it with {machine}.\n"
    )
    try:
        for end, text in (("trace", head + trace), ("transcript", transcript)):
            with open(f"{out}.{end}", "w", encoding="ascii") as it:
                it.write(text)
    except OSError as error:
        raise Refused(f"{out}.{end} can't be written: {error.strerror}") from None


