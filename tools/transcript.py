"""A trace beside its transcript: each command with its reply, and what the notes say in fields.

The forms of notes are those of docs/REFERENCE.md, "Replies": a note that gets its row there is
known here, too.
"""
import functools
import io
import os
import re
import sys
from typing import Any, Iterator

from shared.saying import Refused, count_of, name_of, read

from bits import MARK, asks_marks
from labels import said_of_accesses

REFERENCE = os.path.join(os.path.dirname(os.path.realpath(__file__)), "..", "docs", "REFERENCE.md")
# what the letters of a form stand for; any other word behind a note's name is a cause
FIELDS = {"P": "process", "Q": "process", "A": "address", "B": "address", "K:M": "slot"}
FIELDS |= {"f": "frame", "g": "frame"}
NUMBERS = ("process", "frame", "to", "at", "count", "slots", "bad")
# what stands behind the first word of a reply
ANSWERS = {
    "map": ("address",),
    "data": ("bytes",),
    "err": ("error",),
    "segv": ("at", "bytes"),
    "bus": ("at", "bytes"),
    "oom": ("at", "bytes"),
    "on": ("slots", "bad"),
    "runs": ("count",),
    "areas": ("count",),
}


# a command: its number from 1, its line of the trace, its text, and its reply, whose lines MARK
# parts
Step = tuple[int, int, str, str]
# what goes wrong where a reply is none to its command
MISFITS = (IndexError, KeyError, TypeError, ValueError)


def commands_of(text: str) -> tuple[list[int], list[str]]:
    """The numbers of the lines of a trace that are commands, and these."""
    lines = text.split("\n")
    numbers = [at for at, it in enumerate(lines, 1) if it and it[0] != "#"]
    return numbers, [lines[at - 1] for at in numbers]


def texts_of(transcript: io.BufferedIOBase) -> Iterator[str]:
    """A transcript in texts of whole replies, without the last newline, as they come."""
    rest = ""
    while block := transcript.read1(1 << 18):
        text = (rest + block.decode("ascii", "backslashreplace")).replace("\n ", MARK)
        # (a reply is whole where the next one begins)
        end = text.rfind("\n", 0, -1)
        if end >= 0:
            yield text[:end]
        rest = text[end + 1 :]
    if rest:
        yield rest.removesuffix("\n")


def replies_of(transcript: io.BufferedIOBase) -> Iterator[str]:
    """The replies of a transcript, as they come."""
    for text in texts_of(transcript):
        yield from text.split("\n")


def parts_of(command: str, reply: str) -> tuple[list[str], str, list[list[str]]]:
    """The words of a command, the first line of its reply, and the words of the others."""
    if MARK not in reply:
        return command.split(" "), reply, []
    answer, *notes = reply.split(MARK)
    return command.split(" "), answer, [it.split(" ") for it in notes]


class Beside:
    """The steps of a trace and a transcript, one after the other. `asks_marks` says whether one has
    to know what its calls say of pages.
    """

    def __init__(self, trace: str, transcript: str):
        self.trace, self.transcript, self.count = trace, transcript, 0
        self.text = read(trace)
        self.lines, self.commands = commands_of(self.text)
        self.asks_marks = asks_marks(self.text)

    def texts(self) -> Iterator[str]:
        """The transcript in texts of whole replies. Whoever takes one counts its replies."""
        try:
            with sys.stdin.buffer if self.transcript == "-" else open(self.transcript, "rb") as it:
                for text in texts_of(it):
                    left = len(self.commands) - self.count
                    if text.count("\n") < left:
                        yield text
                        continue
                    if left:
                        yield "\n".join(text.split("\n")[:left])
                    raise Refused(
                        f"{name_of(self.transcript)} has more replies than {self.trace} has "
                        f"commands ({len(self.commands)}): are they of one run?"
                    )
        except OSError as error:
            raise Refused(f"{self.transcript} can't be read: {error.strerror}") from None

    def __iter__(self) -> Iterator[Step]:
        for text in self.texts():
            for reply in text.split("\n"):
                at = self.count
                self.count += 1
                yield self.count, self.lines[at], self.commands[at], reply

    def refused(self) -> Refused:
        """The reply can't be one to its command."""
        return Refused(
            f"reply {self.count} of {name_of(self.transcript)} is none to line "
            f"{self.lines[self.count - 1]} of {self.trace}: are they of one run?"
        )

    def end(self, tool: str, has_gone_out: bool) -> None:
        """What a tool says in the end: that the trace has first accesses alone, where a page has
        gone out, and where the transcript ends before the trace does.
        """
        sys.stdout.flush()
        head = [it[2:] for it in self.text[:4096].split("\n") if it.startswith("# ")]
        said = said_of_accesses(head, has_gone_out)
        if said:
            print(f"{tool}: {said}", file=sys.stderr)
        if self.count < len(self.commands):
            raise Refused(
                f"{name_of(self.transcript)} ends before line {self.lines[self.count]} of "
                f"{self.trace}: it has {count_of(self.count, 'reply', 'replies')}, and the trace "
                f"{count_of(len(self.commands), 'command')}",
                3,
            )


@functools.cache
def forms() -> dict[str, list[str]]:
    """The fields of each note, by its first word."""
    found: dict[str, list[str]] = {}
    with open(REFERENCE, encoding="utf-8") as it:
        section = re.search(r"^## Replies$.*?(?=^## )", it.read(), re.M | re.S)
    for name, words in re.findall(r"^\| ` ([a-z]+)((?: [^` ]+)*)` \|", section[0], re.M):
        fields = [FIELDS.get(word, "cause") for word in words.split()]
        # (a note of two frames: from one to another)
        again = [field if field not in fields[:at] else "to" for at, field in enumerate(fields)]
        found.setdefault(name, again)
    return found


def typed(name: str, word: str) -> int | str:
    """A field's value: decimal numbers as such, all else as it stands."""
    return int(word) if name in NUMBERS and word.isdigit() else word


def note_of(text: str) -> dict[str, Any] | None:
    """A note in fields; None where it is a row, or a note without a form in the reference."""
    name, *words = text.split(" ")
    fields = forms().get(name)
    if fields is None or len(fields) != len(words):
        return None
    return {"what": name, **{field: typed(field, word) for field, word in zip(fields, words)}}


def row_of(text: str) -> dict[str, Any]:
    """A row of a report in fields: of `maps` or `areas`, or of the walk of `rmap`."""
    first, *words = text.split(" ")
    start, dash, end = first.partition("-")
    if not dash:
        return {"process": typed("process", first), "address": " ".join(words)}
    pairs = [it.split("=", 1) for it in words[1:] if "=" in it]
    flags = [it for it in words[1:] if "=" not in it]
    row = {"start": start, "end": end, "prot": words[0] if words else "", **dict(pairs)}
    return row | ({"flags": flags} if flags else {})


def answer_of(text: str) -> dict[str, Any]:
    """The first line of a reply in fields; `words` has what has no name there."""
    name, *words = text.split(" ")
    found: dict[str, Any] = {"what": name}
    plain = [it for it in words if "=" not in it]
    names = ANSWERS.get(name, ())
    found |= {field: typed(field, word) for field, word in zip(names, plain)}
    if plain[len(names) :]:
        found["words"] = plain[len(names) :]
    pairs = (it.split("=", 1) for it in words if "=" in it)
    return found | {key: int(value) if value.isdigit() else value for key, value in pairs}
