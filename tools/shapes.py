"""The shapes of replies: a reply without its decimal digits.

Replies of one shape differ in numbers alone, and a run has few shapes: so what notes there are and
what they do is worked out once for each, and a reply costs a look into a table. All replies of a
text lose their digits at once.
"""
import functools
import re
from typing import NamedTuple

from ranges import PAGE
from transcript import MARK, forms

DIGITS, LETTERS = b"0123456789", b"abcdefghijklmnopqrstuvwxyz"
# what an address or a cause is without its digits; a slot is a colon, and other fields nothing
LEFT = {"address": re.compile("[a-f]*"), "cause": re.compile("[a-z]+"), "slot": re.compile(":")}
NOTHING = re.compile("")
# a line of a reply whose first word has digits and other letters than those of an address: without
# its digits it might be taken for a note or an answer
MIXED = re.compile(b"\xff(?![a-z]+ |[0-9a-f]+[ -])")
MIXED_ANSWER = re.compile(b"\n(?![a-z]+(?:[ \xff\n]|$))")
# the letters of an address: in a note or a line of a walk, and in the answers that most accesses
# and mappings have
ADDRESS = re.compile("(\xff(?:zero |new |copy |map |join |) )[a-f]+(?=[ \xff]|$)")
OF_ANSWER = re.compile("^(data|map) [a-f]+(?=\xff|$)")
# the fields of a line of a walk: its first word is all digits
WALK = ["address"]
# so many shapes are kept at once
MOST = 1 << 13

# notes by which an entry changes at an access, and those of them that set the write bit or take it
AT_FAULTS = {"zero", "new", "copy", "map"}
CHANGES = {"new", "copy", "map"}
OUT_OF_MEMORY = ("oom ", "err ENOMEM pinned=")


class Command(NamedTuple):
    """The words of a command, and the page that it writes to, if it is a write to one page alone:
    else -1.
    """

    words: list[str]
    page: int


@functools.lru_cache(1 << 12)
def command_of(text: str) -> Command:
    """A command. (Programs access the same pages again and again, so some are kept.)"""
    words = text.split(" ")
    try:
        first, length = int(words[2], 16), len(words[3]) // 2
        if words[0] != "write" or first % PAGE + length > PAGE or not length:
            return Command(words, -1)
        return Command(words, first // PAGE)
    except (IndexError, ValueError):
        return Command(words, -1)


class Line(NamedTuple):
    """A note of a shape: where it begins among the words of the reply, and the fields behind its
    name, by these of the reference. A line of the walk of `rmap` has no name.
    """

    name: str
    at: int
    fields: list[str]


class Shape:
    """What replies of one shape have in common. One is `even` if each line below its first is a
    note as the reference has it, or a line of a walk: then `lines` has these. `names` are the first
    words of these lines in any case, and `count` is how many words a reply has.
    """

    __slots__ = ("answer", "names", "count", "lines", "is_even", "is_ok", "is_refused")
    __slots__ += ("is_out_of_memory", "is_fault", "changes", "maps")

    def __init__(self, answer: str, others: list[str], lines: list[Line] | None):
        self.answer, self.names = answer, [it.split(" ", 1)[0] for it in others]
        self.count = sum(it.count(" ") + 1 for it in (answer, *others))
        self.lines, self.is_even, kinds = lines or [], lines is not None, set(self.names)
        self.is_ok, self.is_refused = answer == "ok", answer.startswith("err ")
        self.is_out_of_memory = answer.startswith(OUT_OF_MEMORY)
        self.is_fault = not kinds.isdisjoint(AT_FAULTS)
        self.changes, self.maps = not kinds.isdisjoint(CHANGES), "map" in kinds


@functools.lru_cache(MOST)
def fields_of(line: str) -> tuple[str, list[str]] | None:
    """The name and the fields of a line without digits, if it is a note or one of a walk."""
    name, *words = line.split(" ")
    fields = forms().get(name) if name else WALK
    if fields is None or len(fields) != len(words):
        return None
    is_so = all(LEFT.get(field, NOTHING).fullmatch(it) for field, it in zip(fields, words))
    return (name, fields) if is_so else None


def shape_of(text: str, has_digits: bool) -> Shape:
    """The shape of a reply. One with its digits is never even."""
    answer, *others = text.split(MARK)
    if has_digits:
        return Shape(answer, others, None)
    lines, at = [], answer.count(" ") + 1
    for it in others:
        found = fields_of(it)
        if not found:
            return Shape(answer, others, None)
        lines.append(Line(found[0], at, found[1]))
        at += len(found[1]) + 1
    return Shape(answer, others, lines)


class Shapes(dict):
    """The shapes that were seen, by their text. One stands for all replies that differ from it in
    the letters of addresses alone.
    """

    def __init__(self) -> None:
        super().__init__()
        self.plain: dict[str, Shape] = {}

    def __missing__(self, key: bytes) -> Shape:
        text = ADDRESS.sub(r"\1", OF_ANSWER.sub(r"\1 ", key.decode("latin-1"), 1))
        if len(self.plain) == MOST:
            self.plain.clear()
        shape = self.plain.get(text) or self.plain.setdefault(text, shape_of(text, False))
        if len(self) == MOST:
            self.clear()
        self[key] = shape
        return shape


SHAPES = Shapes()


def shapes_of(text: str) -> list[Shape]:
    """The shape of each reply of a text."""
    data = text.encode("latin-1")
    others = data.translate(None, LETTERS)
    # (most texts have notes alone, whose names go with the letters: that is counted sooner)
    may_be = others.count(b"\xff ") < others.count(b"\xff")
    if may_be and MIXED.search(data) or MIXED_ANSWER.search(b"\n" + data):
        return [shape_of(it, True) for it in text.split("\n")]
    return list(map(SHAPES.__getitem__, data.translate(None, DIGITS).split(b"\n")))
