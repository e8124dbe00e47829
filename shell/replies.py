"""Traces and transcripts cut into commands and replies, and a reply shown beside another one."""
import itertools
from typing import BinaryIO, Iterator, NamedTuple, Sequence

from shared.saying import count_of, printable

from session import says_nothing

# bytes that are read at once, lines that are shown of a reply, and characters of each
BLOCK, MOST_LINES, MOST_SHOWN = 1 << 16, 12, 72
# lines that are shown before something
AROUND = 3


class Command(NamedTuple):
    """A command of a trace, with the number of its line, and where the line ends in the file."""

    line: int
    text: bytes
    end: int


class Reply(NamedTuple):
    """A reply as a transcript has it: its lines with their newlines, and the first one's number."""

    line: int
    lines: list[bytes]


def lines_in(file: BinaryIO) -> Iterator[bytes]:
    """The lines of a file from its beginning, each with its newline, if it has one; one that is
    very long comes in pieces.
    """
    file.seek(0)
    while line := file.readline(BLOCK):
        yield line


def commands_in(trace: BinaryIO) -> Iterator[Command]:
    """The commands of a trace."""
    end = 0
    for number, line in enumerate(lines_in(trace), 1):
        end += len(line)
        if not says_nothing(line.removesuffix(b"\n")):
            yield Command(number, line.removesuffix(b"\n"), end)


def replies_in(transcript: BinaryIO) -> Iterator[Reply]:
    """The replies of a transcript: a line, and all behind it that begin with a space."""
    number, lines, is_whole = 1, [], True
    for piece in lines_in(transcript):
        if not is_whole:
            lines[-1] += piece
        elif lines and not piece.startswith(b" "):
            yield Reply(number, lines)
            number, lines = number + len(lines), [piece]
        else:
            lines.append(piece)
        is_whole = piece.endswith(b"\n")
    if lines:
        yield Reply(number, lines)


def difference(one: Sequence, other: Sequence) -> int:
    """Where two lines, or two replies, differ first."""
    pairs = enumerate(zip(one, other))
    return next((at for at, (a, b) in pairs if a != b), min(len(one), len(other)))


def shown(line: bytes, at: int = 0) -> str:
    """A line as it can be shown; of a long one what stands around this place."""
    line = line.removesuffix(b"\n")
    first = max(0, at - MOST_SHOWN // 2) if len(line) > MOST_SHOWN else 0
    return ".." * (first > 0) + printable(line[first:], MOST_SHOWN)


def row(number: int | None, text: str, sign: str = " ") -> str:
    """A line that is shown, with its number where it has one."""
    return f"  {sign} {'' if number is None else number:>6}  {text}".rstrip()


def rows_before(replies: Sequence[Reply]) -> list[str]:
    """The last lines of replies."""
    lines = [(it.line + at, line) for it in replies for at, line in enumerate(it.lines)]
    return [row(number, shown(line)) for number, line in lines[-AROUND:]]


def rows_of(reply: Reply, other: Sequence[bytes], sign: str = "") -> Iterator[str]:
    """The lines of a reply around where it differs first from another one. With a sign, which marks
    what differs, they have their numbers.
    """
    at = difference(reply.lines, other)
    first = max(0, min(at - AROUND, len(reply.lines) - MOST_LINES))
    if first:
        yield row(None, f"({count_of(first, 'line')} before)")
    for place, line in itertools.islice(enumerate(reply.lines), first, first + MOST_LINES):
        beside = other[place] if place < len(other) else b""
        text = shown(line, difference(line, beside) if beside and line != beside else 0)
        is_marked = sign and line != beside
        yield row(reply.line + place if sign else None, text, sign if is_marked else " ")
    if (more := len(reply.lines) - first - MOST_LINES) > 0:
        yield row(None, f"({count_of(more, 'line')} more)")
