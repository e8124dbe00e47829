"""What docs/REFERENCE.md says, as far as the shell needs it: the form of each command, and the
pages that `help` shows.

The forms are read from the headings, as `### mmap P LEN PROT [at A | fixed A | noreplace A]`. So a
command that gets its section there is known here, too.
"""
import os
import re
import textwrap
from typing import Iterator

from program import Refused

FILE = os.path.join(os.path.dirname(os.path.realpath(__file__)), "..", "docs", "REFERENCE.md")


class Form:
    """The words of a command: its name, the kinds of the words behind it (P, A, LEN ..), and the
    ways in which it may end, each a list of words.
    """

    def __init__(self, heading: str):
        found = re.fullmatch(r"([a-z]+)((?: [A-Z]+)*)(?: \[(.*)\])?", heading)
        self.heading = heading
        self.name = heading.split(" ")[0]
        # (a form of another shape is known by its name alone)
        self.is_known = bool(found)
        self.kinds = found[2].split() if found else []
        self.ways = list(ways_of(found[3])) if found and found[3] else []


def ways_of(text: str) -> Iterator[list[str]]:
    """The ways of `maymove | fixed B | dontunmap [B]`: what may be left out gives two of them."""
    for way in text.split(" | "):
        words, _, more = way.partition(" [")
        yield words.split(" ")
        if more:
            yield [*words.split(" "), *more.rstrip("]").split(" ")]


class Reference:
    """The reference, cut into its sections."""

    def __init__(self, file: str = FILE):
        try:
            with open(file, encoding="utf-8") as it:
                self.text = it.read()
        except OSError as error:
            raise Refused(f"docs/REFERENCE.md can't be read: {error.strerror}") from None
        commands = self.section("## Commands").split("\n")
        self.headings = [it[4:] for it in commands if it.startswith("### ")]
        self.forms = {it.name: it for it in map(Form, self.headings)}

    def section(self, heading: str) -> str:
        """The text of a section, from its heading to the next one of its level or above."""
        level = heading.split(" ")[0]
        pattern = rf"^{re.escape(heading)}\b.*?(?=^#{{1,{len(level)}}} |\Z)"
        found = re.search(pattern, self.text, re.M | re.S)
        return found[0] if found else ""

    def first_sentence(self, name: str) -> str:
        """What a command does, in a sentence."""
        paragraphs = self.section(f"### {name}").split("\n\n")
        return plain(re.split(r"(?<=[.]) ", paragraphs[1])[0]) if len(paragraphs) > 1 else ""

    def help(self, name: str, width: int) -> list[str]:
        """The section of a command, as lines of plain text."""
        section = self.section(("### " if name in self.forms else "## ") + name)
        return list(lines_of(section, width)) if section else []


def plain(text: str) -> str:
    """Text without the signs of Markdown."""
    return re.sub(r"\[([^][]*)\]\([^()]*\)|\*\*(.*?)\*\*|`(.*?)`", r"\1\2\3", text).strip()


def lines_of(section: str, width: int) -> Iterator[str]:
    """A section of Markdown as lines of at most so many characters, where words allow that."""
    for paragraph in re.split(r"\n\n+", section.strip()):
        rows = paragraph.split("\n")
        if rows[0].startswith("|"):
            yield from table_lines(rows, width)
        elif rows[0].startswith("    "):
            yield from rows
        else:
            for row in rows:
                row = row.lstrip("#").strip()
                begin = " " * len(re.match(r"(- |\d+\. )?", row)[0])
                yield from textwrap.wrap(plain(row), width, subsequent_indent=begin)
        yield ""


def table_lines(rows: list[str], width: int) -> Iterator[str]:
    """A table: the first column beside the others."""
    cells = [[plain(it) for it in re.split(r" \| | \|$|^\| ", row)[1:-1]] for row in rows]
    del cells[1]
    first = min(max(len(it[0]) for it in cells), width // 2)
    for row in cells:
        others = "; ".join(it for it in row[1:] if it)
        begin = f"  {row[0]:<{first}}  "
        yield from textwrap.wrap(
            begin + others, width, subsequent_indent=" " * (first + 4), drop_whitespace=True
        )
