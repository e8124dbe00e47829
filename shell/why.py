"""`avsim why < TRACE`: each line of a trace that is no command, with its reason."""
import itertools
import sys
from typing import BinaryIO, Iterator

from program import Judge, Refused, lines_from
from reasons import LINE_LIMIT, Reason, reason_of
from reference import Reference

# lines that are judged together
BATCH = 8192
# bytes of a line that are kept: enough to be too long
KEPT = LINE_LIMIT + 1


def lines_of(file: BinaryIO) -> Iterator[bytes]:
    """The lines of a trace, without their newlines; of one that is too long only its beginning."""
    pieces = lines_from(file, KEPT + 1)
    for line in pieces:
        cut = line
        while not cut.endswith(b"\n") and (cut := next(pieces, b"\n")):
            pass
        yield line[:-1] if line.endswith(b"\n") else line[:KEPT]


def lines_with_reasons(
    judge: Judge, reference: Reference, file: BinaryIO
) -> Iterator[tuple[int, Reason | None]]:
    """The number of each line, with the reason of one that is no command."""
    lines = enumerate(lines_of(file), 1)
    while batch := list(itertools.islice(lines, BATCH)):
        bad = judge.bad_of(line for _, line in batch)
        reasons = {line: reason_of(line, reference) for line in bad}
        for number, line in batch:
            yield number, reasons.get(line)


def why(program: str, words: list[str]) -> int:
    """Tells the bad lines of standard input. The status is 0 if there is none, else 3."""
    if words:
        raise Refused("a trace comes on standard input: avsim why < my.trace", 2)
    count = bad = 0
    for count, reason in lines_with_reasons(Judge(program), Reference(), sys.stdin.buffer):
        if reason:
            bad += 1
            print(f"line {count}: {reason}")
    sys.stdout.flush()
    if sys.stderr.isatty():
        print(f"avsim why: {bad} of {count} lines are no commands", file=sys.stderr)
    return 3 if bad else 0
