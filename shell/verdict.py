"""`avsim check TRACE TRANSCRIPT [FRAMES [SWAP..]]`: whether a transcript is legal for a trace, by
`avsim audit`; and where it isn't, the reply and its command, and what avsim itself answers there.
"""
import collections
import contextlib
import itertools
import os
import re
import subprocess
import sys
import tempfile
from typing import BinaryIO, Iterable, Iterator, NamedTuple

from shared.saying import count_of, name_of

from program import Refused, start, why_ended
from replay import machine_in
from replies import AROUND, BLOCK, Command, Reply
from replies import commands_in, lines_in, replies_in, row, rows_before, rows_of, shown
from swapfile import PAGE

# statuses of `avsim audit`, as docs/REFERENCE.md has them
BAD_LINE, ILLEGAL = 3, 9
# the line between trace and transcript
MARK = b"%%"


class Told(NamedTuple):
    """What the program ended with: its status, and what it said."""

    status: int
    said: str

    def number(self) -> int:
        """The number that it says."""
        found = re.search(r"\b(\d+): not ", self.said)
        return int(found[1]) if found else 0


class Found(NamedTuple):
    """A reply that isn't legal, as far as it is there, beside avsim's own: the last replies before
    it, the one behind it, and the number of the first that avsim gives otherwise, 0 for none.
    """

    reply: Reply
    own: Reply
    before: list[Reply]
    behind: list[Reply]
    parted: int


# ---- files


def opened(name: str, stack: contextlib.ExitStack) -> BinaryIO:
    """A file that can be read more than once: what can't is copied."""
    try:
        file = sys.stdin.buffer if name == "-" else stack.enter_context(open(name, "rb"))
        if file.seekable():
            return file
        copy = stack.enter_context(tempfile.TemporaryFile())
        while block := file.read(BLOCK):
            copy.write(block)
        return copy
    except OSError as error:
        raise Refused(f"{name_of(name)} can't be read: {error.strerror}", 4) from None


def bytes_in(file: BinaryIO, most: int = sys.maxsize) -> Iterator[bytes]:
    """What a file has from its beginning, or so many bytes of it."""
    file.seek(0)
    while block := file.read(min(BLOCK, most)):
        most -= len(block)
        yield block


def joined(trace: BinaryIO, transcript: BinaryIO) -> Iterator[bytes]:
    """A trace, the mark and a transcript. (Where a line of the trace looks like the mark, which is
    no command, another one that is none stands for it.)
    """
    line = b"\n"
    for line in lines_in(trace):
        yield line.replace(MARK, b"%") if line.removesuffix(b"\n") == MARK else line
    yield (b"" if line.endswith(b"\n") else b"\n") + MARK + b"\n"
    yield from bytes_in(transcript)


def copies_of(files: list[str], room: str) -> Iterator[str]:
    """Swap files with the headers and sizes of these, for a run to write to. (Of other pages it
    reads none but what it wrote.)
    """
    for number, name in enumerate(files):
        copy = f"{room}/{number}"
        with open(name, "rb") as it, open(copy, "wb") as to:
            to.write(it.read(PAGE))
            to.truncate(it.seek(0, os.SEEK_END))
        yield copy


# ---- the program


def tell(words: list[str], given: Iterable[bytes], out: BinaryIO | int) -> Told:
    """Runs the program on what it is given, and has it write there."""
    with tempfile.TemporaryFile() as said:
        ran = start(words, stdin=subprocess.PIPE, stdout=out, stderr=said)
        # (where it ends before it has read all, its status says why)
        with contextlib.suppress(BrokenPipeError):
            ran.stdin.writelines(given)
        with contextlib.suppress(BrokenPipeError):
            ran.stdin.close()
        status = ran.wait()
        said.seek(0)
        return Told(status, said.read().decode(errors="replace"))


class Machine:
    """The program with the words of a machine: its frames and swap files."""

    def __init__(self, program: str, words: list[str]):
        self.program, self.words = program, words

    def audit(self, trace: BinaryIO, transcript: BinaryIO) -> Told:
        """Judges a transcript, and writes what the program writes of it."""
        with tempfile.TemporaryFile() as out:
            told = self.judge(joined(trace, transcript), out)
            print(b"".join(bytes_in(out)).decode(errors="replace"), end="", flush=True)
        print(told.said, end="", file=sys.stderr, flush=True)
        if told.status < 0:
            raise Refused(why_ended(*told))
        return told

    def judge(self, given: Iterable[bytes], out: BinaryIO | int = subprocess.DEVNULL) -> Told:
        """Judges a transcript behind its trace and the mark."""
        return tell([self.program, "audit", *self.words], given, out)

    def answer(self, trace: BinaryIO, end: int, out: BinaryIO) -> Told:
        """Answers a trace up to there."""
        frames, *files = self.words
        with tempfile.TemporaryDirectory() as room:
            words = [self.program, "run", frames, *copies_of(files, room)]
            return tell(words, bytes_in(trace, end), out)


# ---- what is shown


def found_at(number: int, transcript: BinaryIO, answers: BinaryIO) -> Found:
    """The reply of this number beside that which avsim gives."""
    replies, own = replies_in(transcript), replies_in(answers)
    before: collections.deque[Reply] = collections.deque(maxlen=AROUND)
    line, parted = 1, 0
    for at in range(1, number):
        reply, answer = next(replies, None), next(own, None)
        if not reply:
            break
        if answer and not parted and reply.lines != answer.lines:
            parted = at
        before.append(reply)
        line = reply.line + len(reply.lines)
    reply, answer = next(replies, Reply(line, [])), next(own, Reply(1, []))
    return Found(reply, answer, list(before), list(itertools.islice(replies, 1)), parted)


def fault_of(found: Found, number: int, command: Command | None, names: list[str]) -> str:
    """What is wrong with a reply, as far as that is seen without its meaning."""
    trace, transcript = names
    if not found.reply.lines:
        return f"{transcript} ends before reply {number}"
    if not command:
        return f"{trace} has {count_of(number - 1, 'command')}, so reply {number} is one too many"
    if not found.reply.lines[-1].endswith(b"\n"):
        return f"reply {number} has no newline at its end"
    return f"reply {number} isn't legal"


def sentences_of(found: Found, why: str) -> Iterator[str]:
    """What is said of avsim's own reply."""
    is_same = found.own.lines == found.reply.lines
    if why:
        yield f"avsim itself gives no reply there: {why}."
    elif is_same and found.parted:
        yield "That is the same reply, and legal behind avsim's own replies before it alone."
    elif is_same:
        yield "That is the same reply: so it is a fault of avsim, please tell."
    if found.parted:
        yield (
            f"Reply {found.parted} is the first that avsim gives otherwise, and legal, too: so "
            "frames and slots may be others from there on."
        )
    elif found.before:
        yield "All replies before it are those that avsim gives."


def sections_of(
    found: Found, command: Command | None, names: list[str], why: str
) -> Iterator[list[str]]:
    """What is shown below the first line: the command, the replies, and what is said of them."""
    if command:
        yield [f"Its command in {names[0]}:", row(command.line, shown(command.text))]
    lines = [*rows_before(found.before), *rows_of(found.reply, found.own.lines, ">")]
    lines += [row(it.line, shown(it.lines[0])) for it in found.behind]
    if lines:
        yield [f"{names[1]} has:", *lines]
    if command and found.own.lines:
        yield ["avsim itself answers:", *rows_of(found.own, found.reply.lines)]
    said = list(sentences_of(found, why)) if command else []
    if said:
        yield said


def explain(number: int, files: list[BinaryIO], names: list[str], machine: Machine) -> None:
    """Shows the reply that isn't legal, with its command, and avsim's own."""
    trace, transcript = files
    command = command_at(number, trace)
    with tempfile.TemporaryFile() as answers:
        told = machine.answer(trace, command.end, answers) if command else Told(0, "")
        why = why_ended(*told) if told.status else ""
        found = found_at(number, transcript, answers)
    print(f"{fault_of(found, number, command, names)}.")
    for lines in sections_of(found, command, names, why):
        print("", *lines, sep="\n")


def command_at(number: int, trace: BinaryIO) -> Command | None:
    """The command of this number."""
    return next(itertools.islice(commands_in(trace), number - 1, None), None)


def hint_of(told: Told, name: str) -> str:
    """What is said behind the program's own line, if something is."""
    if told.status != BAD_LINE:
        return ""
    if name == "-":
        return "nothing is judged: ./avsim why says why the line is none"
    number = told.number()
    before = f"; head -n {number - 1} {name} is the trace up to it" if number > 1 else ""
    return f"nothing is judged: ./avsim why < {name} says why the line is none{before}"


def check(program: str, words: list[str]) -> int:
    """Tells whether a transcript is legal, and shows the first reply that isn't. The status is that
    of `avsim audit`.
    """
    if len(words) < 2:
        raise Refused("TRACE and TRANSCRIPT are wanted: avsim check my.trace my.transcript", 2)
    if words[:2] == ["-", "-"]:
        raise Refused("one of TRACE and TRANSCRIPT may come on standard input, not both", 2)
    with contextlib.ExitStack() as stack:
        files = [opened(it, stack) for it in words[:2]]
        names = [name_of(it) for it in words[:2]]
        room = stack.enter_context(tempfile.TemporaryDirectory(prefix="avsim-check-"))
        machine = Machine(program, words[2:] or machine_in(files[0], room))
        told = machine.audit(*files)
        if told.status == ILLEGAL:
            explain(told.number(), files, names, machine)
        elif hint := hint_of(told, words[0]):
            print(f"avsim: {hint}", file=sys.stderr)
    return told.status
