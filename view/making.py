"""Runs avsim on a trace, and says which reports tell the rest of what a command changed."""
import collections
import os
import re
import subprocess

from shared.saying import Refused

from labels import is_label
from told import BY_RANGE, MIDWAY, Told, page_of

# rows of a reply that a page shows at most
MOST_ROWS = 64
# reports that are asked behind one command at most
MOST_ASKED = 4096


Command = collections.namedtuple("Command", "number comment line")


def commands_of(text: str) -> list[Command]:
    """The commands of a trace, each with the number of its line and the comments above it."""
    comment, found = [], []
    for number, line in enumerate(text.split("\n"), 1):
        if line.startswith("#"):
            comment.append(line[1:].strip())
        elif line:
            found.append(Command(number, "\n".join(comment).strip("\n"), line))
            comment = []
        else:
            comment.append("")
    return found


def head_of(commands: list[Command]) -> list[str]:
    """The comments in the head of a trace."""
    return commands[0].comment.split("\n") if commands else []


def replies_of(transcript: str) -> list[list[str]]:
    """The replies, each a list of lines. A line that begins with a space belongs to the reply
    above it.
    """
    whole = re.split(r"\n(?! )", transcript.removesuffix("\n")) if transcript else []
    return [[it.removeprefix(" ") for it in reply.split("\n")] for reply in whole]


def cannot_run(program: str, error: OSError) -> Refused:
    return Refused(
        f"{os.path.relpath(program)} can't be run ({error.strerror}): "
        "./avsim build makes the program"
    )


def run_plainly(program: str, words: list[str], lines: list[str]) -> tuple[str, int, str]:
    """The transcript of a trace, with the status and what standard error said."""
    text = "".join(f"{it}\n" for it in lines)
    try:
        ran = subprocess.run(
            [program, "run", *words],
            input=text.encode(errors="surrogateescape"),
            stdout=subprocess.PIPE,
            stderr=subprocess.PIPE,
            check=False,
        )
    except OSError as error:
        raise cannot_run(program, error) from None
    said = ran.stderr.decode(errors="replace").strip()
    return ran.stdout.decode(errors="replace"), ran.returncode, said


class Run:
    """A trace as avsim answers it. `said` is why it ended early, if it did, and `has_bad_line`
    whether that was at a line that is no command.
    """

    def __init__(self, program: str, words: list[str], commands: list[Command]):
        self.program, self.words, self.commands = program, words, commands
        transcript, status, said = run_plainly(program, words, [it.line for it in commands])
        self.replies, self.said = replies_of(transcript), said
        if status == 2 or not self.replies and commands and status not in (0, 3):
            raise Refused(f"avsim ended with status {status}: {said or 'it says nothing'}")
        self.has_bad_line = status == 3
        # (the program counts the lines that it was given, and here those without a command are
        # left out)
        if status == 3:
            at = commands[len(self.replies)]
            self.said = (
                f"line {at.number} of the trace is no command, so the run ends before it: "
                f"{ascii(at.line[:80])} (./avsim why < TRACE says why)"
            )
        elif status:
            self.said = said or f"avsim ended with status {status}"

    def __len__(self):
        return len(self.replies)

    def has_note(self, name: str) -> bool:
        return any(it.startswith(f"{name} ") for reply in self.replies for it in reply[1:])


def pages_named(words: list[str]) -> range:
    """The pages of a read, write, entry or rmap."""
    count = 1
    if words[0] == "read":
        count = int(words[3])
    elif words[0] == "write":
        count = len(words[3]) // 2
    first = int(words[2], 16)
    return range(page_of(first), page_of(min(first + count, 2**64) - 1) + 1)


def asks_areas(words: list[str], reply: list[str]) -> list[int]:
    """The processes whose areas a command may have changed."""
    is_done = not reply[0].startswith("err ")
    if words[0] in BY_RANGE and (is_done or words[0] in MIDWAY):
        return [int(words[1])]
    if words[0] in ("read", "write") and any(it.startswith("new ") for it in reply[1:]):
        return [int(words[1])]
    if words[0] == "fork" and is_done:
        return [int(words[2])]
    return []


def reports(told: Told, words: list[str], reply: list[str]) -> list[str]:
    """The reports to put behind a command, in order. `told` is what was told up to it; afterwards
    the command is told, too.
    """
    told.tell(words, reply)
    asked = [f"areas {it}" for it in asks_areas(words, reply)]
    if words[0] in ("read", "write", "entry", "rmap"):
        asked += [f"entry {words[1]} {it << 12:x}" for it in pages_named(words)]
    if told.lost:
        asked += [f"areas {it}" for it in told.tables]
        asked += [f"entry {process} {page << 12:x}" for process, page in told.forgotten]
    asked += [f"slot {it.replace(':', ' ')}" for it in sorted(told.touched)]
    return [*asked[:MOST_ASKED], "stat"]


def take(told: Told, ask: str, answer: str) -> bool:
    """Takes in what a report answers; False where something else was told."""
    kind, *of = ask.split(" ")
    is_there = not answer.startswith("err")
    if kind == "areas":
        if is_there:
            told.answer_areas(int(of[0]), answer.split("\n ")[1:])
    elif kind == "entry":
        return told.answer_entry(int(of[0]), page_of(int(of[1], 16)), answer)
    elif kind == "slot":
        text = answer.split(" ", 2)[2] if is_there else ""
        told.answer_slot(":".join(of), text)
        known = told.slot_text(":".join(of))
        return text in ("", "bad", known) or "?" in known
    elif is_there:
        told.answer_stat(answer[5:])
    return True


def step_of(command: Command, reply: list[str], ops: list[list]) -> dict:
    """A step as it stands in the page."""
    step = {"n": command.number, "c": command.line, "r": reply[:MOST_ROWS], "o": ops}
    if len(reply) > MOST_ROWS:
        step["more"] = len(reply) - MOST_ROWS
    # (a comment that names something speaks of its own command alone, and ends the one before it)
    lines = command.comment.split("\n") if command.comment else []
    caption, label = ("\n".join(it for it in lines if is_label(it) == of) for of in (False, True))
    if caption:
        step["t"] = caption
    if label:
        step["l"] = label
    return step


def told_at(run: Run):
    """What is told up to each command, and whether that is more than before it. (For a terminal,
    where nothing is asked.)
    """
    told = Told()
    for command, reply in zip(run.commands, run.replies):
        words = command.line.split(" ")
        told.tell(words, reply)
        is_by_flags = words[0] == "fork" or words[4:] == ["dontneed"] and reply[0] == "err EINVAL"
        if is_by_flags and int(words[1]) in told.unshown:
            told.forget()
        # (nobody asks which list a frame is in, or what entries there are)
        told.lists_known = told.lists_known and not told.lost
        told.tell_of_areas()
        yield told, bool(told.ops)
        told.ops.clear()


def used_in(stat: str) -> int:
    """The frames that are in use, by what `stat` says."""
    numbers = dict(it.split("=") for it in stat.split())
    return int(numbers.get("frames", 0)) - int(numbers.get("free", 0))
