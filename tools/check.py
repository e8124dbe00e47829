"""Where the model answers a trace otherwise than the kernel answered the program, and which rule
of docs/LINUX.md explains it.
"""
import re
import tempfile
from typing import Iterator

from shared import ROOT
from shared.saying import Refused, count_of

import making
from memory import Command
from swapfile import Machine, words_of

# a rule is a section of docs/LINUX.md and the beginning of a row in it
SPAWN = ("The calls", "`spawn P`")
LOWEST = ("The profile", "lowest address of `fixed`")
LIMITS = ("The profile", "limits")
ONE_PROTECTION = ("mremap", "`EFAULT`, else")
SAME_LENGTH = ("mremap", "`EINVAL`: `dontunmap`, and OLD isn't NEW")
NO_ACCESS = ("mlock, munlock", "a page with `---`")
RULES = (SPAWN, LOWEST, LIMITS, ONE_PROTECTION, SAME_LENGTH, NO_ACCESS)
NONE = "no rule of docs/LINUX.md explains it"


def run(program: str, machine: Machine, commands: list[Command]) -> list[list[str]]:
    """The replies of the model on a machine, each a list of lines."""
    on = [f"swapon {area}" for area in range(len(machine.areas))]
    texts = [*on, *(it.line for it in commands)]
    lines = [making.Command(number, "", it) for number, it in enumerate(texts, 1)]
    try:
        with tempfile.TemporaryDirectory() as room:
            found = making.Run(program, words_of(machine, room), lines)
    except OSError as why:
        raise Refused(str(why)) from None
    if len(found) < len(lines):
        raise Refused(f"the model ends early: {found.said}")
    return found.replies[len(on) :]


def rows_of(text: str) -> Iterator[tuple[list[str], list[str]]]:
    """The rows of the tables of a text: the heads of the columns, and the cells."""
    heads: list[str] = []
    for line in text.split("\n"):
        cells = [it.strip() for it in line.strip()[1:-1].split("|")]
        if not line.startswith("|"):
            heads = []
        elif not heads:
            heads = cells
        elif set(line) - set("|-"):
            yield heads, cells


def text_of(rule: tuple[str, str]) -> str:
    """A row of docs/LINUX.md, without the signs of Markdown."""
    section, begin = rule
    with open(f"{ROOT}/docs/LINUX.md", encoding="utf-8") as it:
        found = re.search(rf"^## {section}$(.*?)(?=^## |\Z)", it.read(), re.M | re.S)
    for heads, cells in rows_of(found[1] if found else ""):
        if cells[0].startswith(begin):
            sides = [it for it in zip(heads[1:], cells[1:]) if re.match("avsim|Linux", it[0])]
            named = [f"{head}: {cell}" for head, cell in sides if cell]
            return f'docs/LINUX.md, "{section}": {"; ".join([cells[0], *named])}'.replace("`", "")
    raise Refused(f"docs/LINUX.md has no row {begin!r} under {section!r}")


def rule_of(command: Command, reply: str) -> tuple[str, str] | None:
    """The rule that explains a reply; None where there is none."""
    words, error = command.line.split(" "), reply.removeprefix("err ")
    match words[0], error:
        case "mprotect" | "madvise" | "mlock" | "munlock", "ENOMEM":
            return SPAWN if command.missing == "execve" else None
        case "mremap", "EFAULT" if command.missing:
            return SPAWN if command.missing == "execve" else None
        case "mremap", "EFAULT":
            return ONE_PROTECTION
        case "mremap", "EINVAL" if "dontunmap" in words and words[3] != words[4]:
            return SAME_LENGTH
        case "mmap" | "mremap", "EPERM":
            return LOWEST
        case "spawn" | "fork", "EAGAIN":
            return LIMITS
        case "read" | "write" | "mlock", _ if reply.startswith("oom"):
            return LIMITS
        case "mlock", "ok":
            return NO_ACCESS
    return None


class Differences:
    """The replies that aren't what the kernel's answers are, by the reason."""

    def __init__(self):
        self.found: dict[str, list[str]] = {}
        # where a process first lost what the kernel gave it
        self.lost: dict[str, str] = {}

    def why(self, command: Command, reply: str) -> str:
        """A rule, or the word that there is none."""
        rule, process = rule_of(command, reply), command.line.split(" ")[1]
        if rule:
            return text_of(rule)
        if command.missing == "log":
            return "the log was begun when a part of the range was mapped already"
        if command.missing not in ("", "execve"):
            return f"the trace has no {command.missing}, which may have mapped a part of the range"
        if process in self.lost:
            return f"it follows from {self.lost[process]}"
        return NONE

    def take(self, command: Command, reply: str) -> None:
        """A command with the first line of its reply."""
        words, wanted = command.line.split(" "), command.wanted.split(" ")
        agrees = reply.split(" ")[: len(wanted)] == wanted
        if not agrees:
            told = f"{command.place}: {command.origin}\n    {command.line}: {reply}"
            self.found.setdefault(self.why(command, reply), []).append(told)
        if words[0] == "fork" and words[1] in self.lost:
            self.lost.setdefault(words[2], self.lost[words[1]])
        if not agrees and words[0] in ("spawn", "fork", "mmap", "mremap"):
            self.lost.setdefault(words[2 if words[0] == "fork" else 1], command.place)
        if words[0] == "exit":
            self.lost.pop(words[1], None)


def check(found, program: str) -> int:
    """Tells the differences, and how many there are; 3 where one isn't explained."""
    commands, differences = found.memory.commands, Differences()
    for command, reply in zip(commands, run(program, found.machine(), commands)):
        differences.take(command, reply[0])
    for why, told in differences.found.items():
        print(why, *told, sep="\n  ")
    count = sum(map(len, differences.found.values()))
    not_explained = len(differences.found.get(NONE, ()))
    print(
        f"{count_of(count, 'reply', 'replies')} of {len(commands)} "
        f"{'differs' if count == 1 else 'differ'} from the kernel's answers: "
        f"{count - not_explained} explained, {not_explained} not"
    )
    return 3 if not_explained else 0
