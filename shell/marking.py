"""`avsim check --marks TRACE FILLED [FRAMES [SWAP..]]`: which replies that someone filled in are
right. Each is judged behind avsim's own replies before it, so a wrong one spoils none behind it.
"""
import contextlib
import itertools
import tempfile
from typing import BinaryIO, Iterator

from shared.saying import count_of, name_of, printable

from program import Refused, why_ended
from replay import machine_in
from replies import Command, commands_in, lines_in, replies_in
from verdict import ILLEGAL, MARK, Machine, Told, hint_of, opened

# the sign before a command in an exercise, as in the sessions of the documents
SIGN = b">"
# a reply as it is compared: its lines, one blank between words, and none at the ends
Reply = list[bytes]


def plain(line: bytes) -> bytes:
    """A line with one blank between words, and none at its ends."""
    return b" ".join(line.split())


def filled_in(file: BinaryIO, commands: list[Command]) -> list[Reply]:
    """The replies that someone filled in: below commands, or as a transcript."""
    lines = [it.rstrip() for it in lines_in(file) if not it.startswith(b"#")]
    if any(it.lstrip().startswith(SIGN) for it in lines):
        return below_commands(lines, commands)
    found = list(in_a_row(lines))
    while found and not found[-1]:
        found.pop()
    return found


def below_commands(lines: list[bytes], commands: list[Command]) -> list[Reply]:
    """The replies that stand below commands; none below one that was left out."""
    wanted = [plain(it.text) for it in commands]
    found: list[Reply] = [[] for _ in commands]
    at = -1
    for line in map(plain, lines):
        if line.startswith(SIGN):
            at = place_of(plain(line.removeprefix(SIGN)), wanted, at + 1)
        elif line:
            if at < 0:
                raise Refused(f"a reply stands before the first command: {printable(line)}", 4)
            found[at].append(line)
    return found


def place_of(command: bytes, wanted: list[bytes], first: int) -> int:
    """Where a command stands in the trace, from there on."""
    if command not in wanted[first:]:
        raise Refused(f"no such command is next in the trace: {printable(command)}", 4)
    return wanted.index(command, first)


def in_a_row(lines: list[bytes]) -> Iterator[Reply]:
    """The replies of a transcript; an empty line is an empty reply."""
    reply: Reply | None = None
    for line in lines:
        if reply is not None and line[:1].isspace():
            reply.append(plain(line))
            continue
        if reply is not None:
            yield reply
        reply = [plain(line)] if line else []
    if reply is not None:
        yield reply


def shown(reply: Reply) -> str:
    """A reply on one line."""
    return printable(b" / ".join(reply), 400)


def ended(told: Told, hint: str = "") -> Refused:
    """The program ended early: what the user is told."""
    return Refused(hint or why_ended(*told), told.status if told.status > 0 else 125)


class Marker:
    """Judges replies one by one, behind the program's own."""

    def __init__(self, machine: Machine, trace: BinaryIO, name: str):
        trace.seek(0)
        self.machine, self.data = machine, trace.read()
        self.commands = list(commands_in(trace))
        self.own = self.own_replies(trace, name)

    def own_replies(self, trace: BinaryIO, name: str) -> list[Reply]:
        """The program's replies to all commands."""
        with tempfile.TemporaryFile() as answers:
            told = self.machine.answer(trace, len(self.data), answers)
            if told.status:
                raise ended(told, hint_of(told, name))
            return [[plain(line) for line in it.lines] for it in replies_in(answers)]

    def is_right(self, at: int, reply: Reply) -> bool:
        """Whether a reply may be given there. What `areas` shows is asked for as avsim has it: of
        it the auditor leaves open what there is to learn, cuts and chains.
        """
        if reply == self.own[at]:
            return True
        is_shown = self.commands[at].text.startswith(b"areas ")
        return not is_shown and self.is_legal(at, reply)

    def is_legal(self, at: int, reply: Reply) -> bool:
        """Whether the auditor takes a reply behind the program's own before it."""
        replies = [*self.own[:at], reply]
        texts = (b"\n ".join(it) + b"\n" for it in replies)
        trace = self.data[: self.commands[at].end].removesuffix(b"\n")
        told = self.machine.judge([trace, b"\n", MARK, b"\n", *texts])
        if told.status not in (0, ILLEGAL):
            raise ended(told)
        return not told.status

    def mark(self, at: int, reply: Reply) -> tuple[bool, str]:
        """Whether a reply is right, and what is said of it."""
        own = shown(self.own[at])
        if not reply:
            return False, f"wrong: nothing stands here; right is {own}"
        if not self.is_right(at, reply):
            return False, f"wrong: here stands {shown(reply)}; right is {own}"
        return True, "ok" if reply == self.own[at] else f"ok; avsim itself has {own}"


def tell(marker: Marker, replies: list[Reply]) -> int:
    """Tells of each reply whether it is right, and then how many are."""
    right, count = 0, len(marker.commands)
    for at, reply in enumerate(itertools.islice(itertools.chain(replies, empty()), count)):
        is_right, said = marker.mark(at, reply)
        right += is_right
        print(f"{at + 1} {said}")
    print(f"{right} of {count} right", flush=True)
    return 0 if right == count else ILLEGAL


def empty() -> Iterator[Reply]:
    """Replies where nothing stands."""
    return itertools.repeat([])


def marks(program: str, words: list[str]) -> int:
    """Marks a filled file. The status is 0 where all is right, 9 where something isn't."""
    if len(words) < 2 or words[:2] == ["-", "-"]:
        raise Refused("TRACE and FILLED are wanted, and one may be -: avsim check --marks", 2)
    with contextlib.ExitStack() as stack:
        trace, filled = (opened(it, stack) for it in words[:2])
        room = stack.enter_context(tempfile.TemporaryDirectory(prefix="avsim-marks-"))
        machine = Machine(program, words[2:] or machine_in(trace, room))
        marker = Marker(machine, trace, words[0])
        replies, count = filled_in(filled, marker.commands), len(marker.commands)
        if len(replies) > count:
            more = f"{len(replies)} replies, and the trace {count_of(count, 'command')}"
            raise Refused(f"{name_of(words[1])} has {more}", 4)
        return tell(marker, replies)
