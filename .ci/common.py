"""What the gate's own checks share: the program, a run of it, what documents show, and how a
failure is told.

The program is the proved one that `rt ci` left, unless another is named.
"""
import argparse
import difflib
import os
import re
import subprocess
import sys
import tempfile
import unittest
from typing import Any, Callable, Iterable, Iterator, TypeVar

from shared import ROOT

import swapfile

# the crates that have worked examples of definitions
WITH_EXAMPLES = ("av_laws", "av_examples", "av_round_laws")
# what a run ended with: status, standard output and standard error
Ran = tuple[int, str, str]
# what a check looks at
T = TypeVar("T")
# a change of a file: its name, the old text and the new one
Change = tuple[str, str, str]


class Case(unittest.TestCase):
    """A case of a check: a function, run in a folder of its own or at the top of the repository."""

    def __init__(self, check: "Check", does: Callable[..., None]):
        super().__init__()
        self.check, self.does = check, does

    def id(self) -> str:
        return f"{self.check.name}.{self.does.__name__}"

    def runTest(self) -> None:
        self.check.running = self
        with tempfile.TemporaryDirectory() as room:
            os.chmod(room, 0o755)
            os.chdir(room if self.check.in_room else ROOT)
            try:
                self.does(*[room][: self.does.__code__.co_argcount])
            finally:
                os.chdir(ROOT)


class Check:
    """A check: its cases, a line for each thing that failed, and how many passed.

    It is called as `.ci/NAME [PROGRAM] [-k PART] [-l]`: -k runs the cases that have PART in their
    names, -l lists all. With `in_room` each case is run in a folder of its own, which one that has
    a parameter is told.
    """

    def __init__(
        self, name: str, needs_program: bool = True, in_room: bool = False, more: Iterable[str] = ()
    ):
        self.name, self.in_room, self.passed, self.failed = name, in_room, 0, 0
        self.cases: list[Case] = []
        self.running: Case | None = None
        parser = argparse.ArgumentParser(prog=f".ci/{name}")
        parser.add_argument("program", nargs="?", default=f"{ROOT}/crates/avsim/out/avsim")
        for word in more:
            parser.add_argument(word, nargs="?")
        parser.add_argument("-k", dest="parts", metavar="PART", action="append", default=[])
        parser.add_argument("-l", dest="lists", action="store_true")
        self.words = parser.parse_args()
        self.program = os.path.abspath(self.words.program)
        os.chdir(ROOT)
        if needs_program and not self.words.lists and not os.access(self.program, os.X_OK):
            print(
                f"{name}: FAILED: there is no program {self.program}: "
                "`rt ci` or `./avsim build` makes it"
            )
            sys.exit(1)

    def case(self, does: Callable[..., None]) -> Callable[..., None]:
        """Makes a function a case; cases run in the order in which they stand."""
        self.cases.append(Case(self, does))
        return does

    def expect(self, what: str, given: object, wanted: object) -> None:
        """Passes where the two are equal; else shows where they differ, and the case goes on."""
        assert self.running
        with self.running.subTest(what):
            if given == wanted:
                self.passed += 1
                return
            self.failed += 1
            print(f"{self.name}: FAILED: {what}")
            lines = [it if isinstance(it, str) else repr(it) for it in (wanted, given)]
            for line in difflib.unified_diff(
                *(it.splitlines() for it in lines), "wanted", "given", lineterm="", n=2
            ):
                print(f"    {line}")
            if lines[0].splitlines() == lines[1].splitlines():
                print("    they differ only in how a line ends")
            self.running.fail(what)

    def skip(self, why: str) -> None:
        """Ends a case that can't be run here."""
        raise unittest.SkipTest(why)

    def skip_unproved(self, why: str) -> None:
        """Ends a case that a program of `rt try`, with all that this looks at as it runs, can't
        do.
        """
        with open(self.program, "rb") as it:
            if b"AddressSanitizer" in it.read():
                self.skip(f"an unproved program {why}")

    def expect_none(
        self, what: str, things: Iterable[T], tells: Callable[[T], str | bool], wrong: T
    ) -> None:
        """Passes where nothing is found wrong with any of the things; else each that is wrong is
        shown on a line of its own: what `tells` says of it, or itself. To find nothing says
        something only of what can find: so there must be things, and `wrong`, which is, is found.
        """
        things = list(things)
        if not things:
            found = ["there is nothing to look at"]
        elif not tells(wrong):
            found = [f"what is wrong isn't found: {wrong}"]
        else:
            told = [(it, tells(it)) for it in things]
            found = [said if isinstance(said, str) else f"{it}" for it, said in told if said]
        self.expect(what, "\n".join(found), "")

    def end(self) -> None:
        """Runs the cases, says how it went, and ends the check."""
        parts = self.words.parts or [""]
        chosen = [it for it in self.cases if any(part in it.does.__name__ for part in parts)]
        if self.words.lists:
            for case in chosen:
                print(case.does.__name__, "-", (case.does.__doc__ or "").strip().split("\n")[0])
            sys.exit(0)
        result = unittest.TestResult()
        unittest.TestSuite(chosen).run(result)
        for case, why in result.skipped:
            print(f"{case.id()} is passed over: {why}")
        for case, why in result.errors:
            print(f"{self.name}: FAILED: {case.id()}\n{why}")
        failed = self.failed + len(result.errors)
        print(f"{self.name}: {self.passed} passed, {failed} failed")
        sys.exit(1 if failed or not self.passed else 0)


def run(program: str, words: list, given: bytes = b"", **how: Any) -> Ran:
    """Runs the program: its status, standard output and standard error. `given` are the bytes of
    standard input.
    """
    how.setdefault("stdout", subprocess.PIPE)
    if "stdin" not in how:
        how["input"] = given
    ran = subprocess.run([program, *words], stderr=subprocess.PIPE, timeout=120, **how)
    text = lambda it: (it or b"").decode(errors="replace")
    return ran.returncode, text(ran.stdout), text(ran.stderr)


def replies_of(transcript: str) -> list[str]:
    """A transcript cut into replies: each begins with the line that has no space in front."""
    return re.findall(r"^(?! ).*\n(?:^ .*\n)*", transcript, re.M)


def bytes_of(shown: str) -> bytes:
    """A line whose invisible bytes are shown."""
    shown = shown.replace(r"\s", " ").replace(r"\r", "\r").replace(r"\t", "\t").encode()
    return re.sub(rb"\\x([0-9a-f]{2})", lambda it: bytes([int(it[1], 16)]), shown)


def built(_folder: str, names: list[str]) -> set[str]:
    """What a copy of crates leaves out of a folder: what was built, if it is a crate's own. (A
    folder of proofs may be named `out`, too.)
    """
    return {"out"} if "src" in names else set()


def edit_of(file: str) -> tuple[list[Change], dict[str, list[str]]]:
    """What an edit says: its changes, each with its file, the old text and the new one; and what
    its other lines say, by their first word. Lines of one kind in a row are lines of one text.
    """
    changes, others, place, kind = [], {}, "", ""
    with open(file, encoding="utf-8") as it:
        lines = it.read().splitlines()
    for line in lines:
        before, (kind, _, text) = kind, line.partition(":")
        text = text[1:]
        if kind == "file":
            place = text
        elif kind == "old" and before != "old":
            changes.append((place, [text], []))
        elif kind in ("old", "new"):
            changes[-1][1 if kind == "old" else 2].append(text)
        else:
            others.setdefault(kind, []).append(text)
    return [(place, "\n".join(old), "\n".join(new)) for place, old, new in changes], others


def file_of_definition(place: str) -> str:
    """The file below crates/ that an edit of a definition names: one of `av_plain`, unless the name
    begins with a crate's.
    """
    return place if place.startswith("av_") else f"av_plain/{place}"


class Session:
    """A session as the documents show it, in a block of code: `$ avsim run FRAMES`, lines behind
    `> `, and each one's reply below it. Where swap files are named, a `$ tools/make-swap` of each
    stands before that, in the block or earlier in the document: `swaps` has its words, none where
    there is no such line.

    A later block that begins with `> ` goes on with it.
    """

    def __init__(self, frames: str, place: str, swaps: Iterable[list[str]] = ()):
        self.frames, self.place, self.swaps = frames, place, list(swaps)
        self.lines, self.text = [], ""

    def trace(self) -> str:
        return "".join(f"{it}\n" for it in self.lines)

    def add(self, block: list[str]) -> None:
        for line in block:
            if line.startswith("> "):
                self.lines.append(line[2:])
            else:
                self.text += f"{line}\n"

    def words(self, room: str) -> list[str]:
        """The words behind `run`. The swap files are made in a folder."""
        files = [os.path.join(room, it) for it in swapfile.files_for(len(self.swaps))]
        words = [it for area, file in zip(self.swaps, files) for it in (*area, file)]
        make = [f"{ROOT}/tools/make-swap", *words]
        if files and subprocess.run(make, stdout=subprocess.DEVNULL, check=False).returncode:
            files = ["no-such-swap-file"]
        return [self.frames, *files]


def blocks_of(text: str) -> Iterator[tuple[int, list[str]]]:
    """The indented blocks of code of a Markdown text, each with the number of its first line."""
    block, first = [], 0
    for number, line in enumerate([*text.split("\n"), "end"], 1):
        if line.startswith("    "):
            block.append(line[4:])
            first = first or number
        elif block and not line.strip():
            block.append("")
        elif block:
            yield first, "\n".join(block).rstrip("\n").split("\n")
            block, first = [], 0


def swaps_made(line: str) -> list[tuple[list[str], str]]:
    """The swap files that a line of a document makes by `$ tools/make-swap`: the words before the
    name of each, and the name.
    """
    made = re.fullmatch(r"\$ (?:\./)?tools/make-swap ((?:\d[\d -]* [^\s\d-]\S*(?: |$))+)", line)
    return [
        (words.split(" "), name)
        for words, name in re.findall(r"(\d[\d -]*) ([^\s\d-]\S*)", made[1] if made else "")
    ]


def sessions_of(file: str) -> list[Session]:
    """The sessions that a document shows."""
    found, swaps = [], {}
    with open(f"{ROOT}/{file}", encoding="utf-8") as it:
        text = it.read()
    for number, block in blocks_of(text):
        for at, line in enumerate(block):
            swaps.update((name, words) for words, name in swaps_made(line))
            begins = re.fullmatch(r"\$ (?:\./)?avsim run (\d+)((?: [^<|\s]+)*)", line)
            if begins:
                named = [swaps.get(it, []) for it in begins[2].split()]
                found.append(Session(begins[1], f"{file}, line {number + at}", named))
                found[-1].add(block[at + 1 :])
                break
        if block[0].startswith("> ") and found:
            found[-1].add(block)
    return found
