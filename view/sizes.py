"""Runs a trace with several numbers of frames, and draws what that costs: page faults over frames.

Pages that find no frame go to a swap file, which is made for each run and is large enough; where
the trace turns no area on, `swapon 0` is put in front.

An access is a `read` or `write`. It is a fault where its reply has a note `zero`, `new`, `copy` or
`map`, or a page gets its write bit back, and else a hit. Loaded are pages that come from the swap
file, written those that go there.
"""
import argparse
import concurrent.futures
import html
import os
import re
import tempfile
import textwrap
from typing import Callable, NamedTuple

from shared.saying import Refused

import making
from bits import MARK, asks_marks
from labels import said_of_accesses
from shapes import command_of, shapes_of
from sums import ALL, Counts, Sums
from swapfile import MOST_FILES, MOST_FRAMES, MOST_PAGES, Machine, words_of

# sizes of one picture at most
MOST_SIZES = 64
# the picture, and its space for the axes
WIDTH, HEIGHT, LEFT, RIGHT, TOP, BOTTOM = 640, 400, 70, 80, 50, 60
# the names of lines are so far apart at least
APART = 16
# what is drawn: its column, and its colour
LINES = (("faults", "#1864ab"), ("loaded", "#2a7f3b"), ("written", "#c2410c"))


class Size(NamedTuple):
    """A number of frames, and what a run with them sums up to."""

    frames: int
    sums: Sums


def sizes_of(word: str) -> list[int]:
    """The numbers of frames of --sizes, rising."""
    numbers = word.split(",")
    wrong = [it for it in numbers if not re.fullmatch(r"[1-9][0-9]{0,4}", it)]
    if wrong or max(map(int, numbers)) > MOST_FRAMES or len(numbers) > MOST_SIZES:
        raise argparse.ArgumentTypeError(
            f"it is up to {MOST_SIZES} numbers from 1 to {MOST_FRAMES}, as in 4,8,16, and "
            f"{word!r} isn't"
        )
    return sorted(set(map(int, numbers)))


def lines_of(commands: list[making.Command]) -> tuple[list[str], int]:
    """The lines of a trace, and how many swap files it turns on: at least one."""
    lines = [it.line for it in commands]
    areas = re.findall(r"^swapon (\d+)\b", "\n".join(lines), re.M)
    if not areas:
        return ["swapon 0", *lines], 1
    return lines, min(max(map(int, areas)) + 1, MOST_FILES)


def pages_written(lines: list[str]) -> int:
    """So many pages are there at most."""
    texts = (it.split(" ")[3] for it in lines if it.startswith("write ") and it.count(" ") == 3)
    return sum(len(it) // 8192 + 2 for it in texts)


class Sizes:
    """Runs a trace on machines of several sizes."""

    def __init__(self, program: str, lines: list[str], areas: int):
        self.program, self.texts, self.areas = program, lines, areas
        self.lines = list(map(command_of, lines))
        self.asks_marks = asks_marks("\n".join(lines))
        self.pages = pages_written(lines)

    def all(self, sizes: list[int]) -> list[Size]:
        """The runs, as many side by side as there are processors for this program."""
        with concurrent.futures.ThreadPoolExecutor(len(os.sched_getaffinity(0))) as pool:
            return list(pool.map(self.size, sizes))

    def size(self, frames: int) -> Size:
        """The run with a number of frames."""
        pages = min(self.pages + frames + 1, MOST_PAGES)
        with tempfile.TemporaryDirectory() as room:
            words = words_of(Machine(str(frames), [(pages, [])] * self.areas), room)
            transcript, status, said = making.run_plainly(self.program, words, self.texts)
        text = transcript.removesuffix("\n").replace("\n ", MARK)
        if status or text.count("\n") + 1 != len(self.lines):
            raise Refused(f"with {frames} frames avsim ended early, with status {status}: {said}")
        return Size(frames, self.sums(text))

    def sums(self, text: str) -> Sums:
        """What all replies sum up to. Most are hits: reads without a note, and writes to a page
        that has its write bit. These are counted at once.
        """
        counts, hits = Counts(self.asks_marks), 0
        bits = counts.bits.pages
        told = zip(self.lines, text.split("\n"), shapes_of(text))
        for command, reply, shape in told:
            is_read = reply[:5] == "data " and MARK not in reply
            is_write = reply == "ok" and command.page >= 0
            if is_read or is_write and command.page in bits.get(command.words[1], ()):
                hits += 1
                continue
            counts.take(command, reply, shape)
        found = counts.found()[ALL]
        found.accesses += hits
        return found


def table_of(sizes: list[Size]) -> list[str]:
    """A row for each size."""
    heads = ["frames", "accesses", "hits", "faults", "loaded", "written", "oom"]
    rows = [heads]
    for frames, it in sizes:
        hits = it.accesses - it.faults
        cells = (frames, it.accesses, hits, it.faults, it.loaded, it.written, it.oom)
        rows.append(list(map(str, cells)))
    widths = [max(len(row[at]) for row in rows) for at in range(len(heads))]
    return ["  ".join(f"{it:>{width}}" for it, width in zip(row, widths)) for row in rows]


def step_of(most: int) -> int:
    """The distance of the marks of an axis: 1, 2 or 5 by a power of ten, at most eight of them."""
    power = 1
    while True:
        for it in (1, 2, 5):
            if it * power * 8 >= most:
                return it * power
        power *= 10


def text_at(x: float, y: float, text: str, how: str = "") -> str:
    return f'<text x="{x:.1f}" y="{y:.1f}"{how}>{html.escape(text)}</text>'


def axes(title: str, across: Callable, up: Callable, most: tuple[int, int]) -> list[str]:
    """The axes with their marks."""
    found = [text_at(LEFT, 24, title, ' font-size="16" font-weight="bold"')]
    for value in range(0, most[0] + 1, step_of(most[0])):
        x = across(value)
        found.append(f'<path d="M{x:.1f} {up(0):.1f}v5" stroke="#5b6472"/>')
        found.append(text_at(x, up(0) + 20, str(value), ' text-anchor="middle"'))
    for value in range(0, most[1] + 1, step_of(most[1])):
        y = up(value)
        found.append(f'<path d="M{LEFT} {y:.1f}H{WIDTH - RIGHT}" stroke="#e3e7ee"/>')
        found.append(text_at(LEFT - 8, y + 4, f"{value:,}", ' text-anchor="end"'))
    found.append(text_at(across(most[0] / 2), HEIGHT - 14, "frames", ' text-anchor="middle"'))
    frame = f"M{LEFT} {TOP}V{up(0):.1f}H{WIDTH - RIGHT}"
    found.append(f'<path d="{frame}" fill="none" stroke="#14181f"/>')
    return found


def beside(ends: list[float]) -> list[float]:
    """How high the names of lines stand that end so high: beside them, and where the ends are near
    each other, the upper one's above the other's.
    """
    places, below = [0.0] * len(ends), float("inf")
    for at in sorted(range(len(ends)), key=lambda it: (-ends[it], -it)):
        places[at] = below = min(ends[at], below - APART)
    return places


def line_of(column: str, colour: str, y: float, points: list[tuple[float, float]]) -> list[str]:
    """A column as a line, with a point for each size and its name at the right, so high."""
    path = " ".join(f"{x:.1f},{y:.1f}" for x, y in points)
    found = [f'<polyline points="{path}" fill="none" stroke="{colour}" stroke-width="2"/>']
    found += [f'<circle cx="{x:.1f}" cy="{y:.1f}" r="3.5" fill="{colour}"/>' for x, y in points]
    return [*found, text_at(WIDTH - RIGHT + 10, y + 4, column, f' fill="{colour}"')]


def svg_of(title: str, sizes: list[Size], below: str) -> str:
    """The picture, with a sentence below its title."""
    most = max(it.frames for it in sizes), max(max(it.sums.faults for it in sizes), 1)
    across = lambda value: LEFT + value * (WIDTH - LEFT - RIGHT) / most[0]
    up = lambda value: HEIGHT - BOTTOM - value * (HEIGHT - BOTTOM - TOP) / most[1]
    parts = axes(title, across, up, most)
    for at, text in enumerate(textwrap.wrap(below, 95)):
        parts.append(text_at(LEFT, 38 + 11 * at, text, ' font-size="10.5" fill="#c2410c"'))
    points = [
        [(across(it.frames), up(min(getattr(it.sums, column), most[1]))) for it in sizes]
        for column, _ in LINES
    ]
    for line, y, their in zip(LINES, beside([it[-1][1] for it in points]), points):
        parts += line_of(*line, y, their)
    return "\n".join(
        [
            f'<svg xmlns="http://www.w3.org/2000/svg" width="{WIDTH}" height="{HEIGHT}" '
            f'viewBox="0 0 {WIDTH} {HEIGHT}" font-family="sans-serif" font-size="13" '
            'fill="#14181f">',
            f"<title>{html.escape(title)}</title>",
            f'<rect width="{WIDTH}" height="{HEIGHT}" fill="#fff"/>',
            *parts,
            "</svg>",
            "",
        ]
    )


def write(words: argparse.Namespace, commands: list[making.Command], to: str) -> None:
    """Runs the sizes, tells them, and writes the picture."""
    lines, areas = lines_of(commands)
    sizes = Sizes(words.program, lines, areas).all(words.sizes)
    print("\n".join(table_of(sizes)))
    has_gone_out = any(it.sums.put for it in sizes)
    said = said_of_accesses(making.head_of(commands), has_gone_out, words.sizes[0])
    if said:
        print(said)
    name = "trace" if words.trace == "-" else os.path.basename(words.trace)
    picture = svg_of(f"{name}: page faults over frames", sizes, said)
    if to == "-":
        print(picture, end="", flush=True)
        return
    try:
        with open(to, "w", encoding="utf-8") as it:
            it.write(picture)
    except OSError as error:
        raise Refused(f"{to} can't be written: {error.strerror}") from None
    print(f"{to}: {len(sizes)} sizes", flush=True)
