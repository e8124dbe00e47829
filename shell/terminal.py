"""What the shell shows where it is at a terminal: colours, editing of lines, and completion."""
import contextlib
import glob
import os
import re
import sys
from typing import Iterable

from reasons import ADVICE, WORDS_OF_TALK
from reference import Form, Reference

COLOURS = {"good": "32", "bad": "31", "note": "36", "sent": "2", "own": "33"}
REFUSALS = ("err", "segv", "oom", "bus")
# what may stand where a word of a kind is wanted
OF_KIND = {"PROT": [f"{r}{w}{x}" for r in "r-" for w in "w-" for x in "x-"], "ADVICE": [*ADVICE]}
# words that mostly stand alone
ALONE = ("stat", "show", "view", "undo", "help", "quit")
# the words that stand behind one of the shell's
OWN_KINDS = {"touch": ["P", "A", "LEN"], "show": ["P"]}
# lines that are remembered over sessions
MOST_LINES = 1000
# addresses and processes that are remembered for completion
MOST_NAMES = 1000


def is_terminal() -> bool:
    """Whether a person sits there."""
    return sys.stdin.isatty() and sys.stdout.isatty()


def has_colours() -> bool:
    """Whether the terminal shall have colours: NO_COLOR says no, and so does one that has none."""
    unwanted = os.environ.get("NO_COLOR") or os.environ.get("TERM", "dumb") == "dumb"
    return sys.stdout.isatty() and not unwanted


def is_refusal(reply: list[str]) -> bool:
    """Whether a reply says that the command, or what is left of it, isn't done."""
    return reply[0].split(" ")[0] in REFUSALS


class Screen:
    """Writes lines, each with its colour."""

    def __init__(self):
        self.is_coloured = has_colours()

    def show(self, text: str, kind: str) -> None:
        """Writes a line."""
        print(f"\x1b[{COLOURS[kind]}m{text}\x1b[0m" if self.is_coloured else text)

    def reply(self, lines: list[str]) -> None:
        """Writes a reply."""
        self.show(lines[0], "bad" if is_refusal(lines) else "good")
        for line in lines[1:]:
            self.show(line, "note")

    def own(self, text: str) -> None:
        """Writes what the shell itself says: behind `#`, so that it is no reply."""
        for line in text.split("\n"):
            self.show(f"# {line}" if line else "#", "own")


class Names:
    """The addresses and processes that the session has named."""

    def __init__(self):
        self.of = {"A": {}, "P": {}}

    def see(self, line: str, form: Form | None, reply: list[str]) -> None:
        """Remembers what stands in a line of the trace and in its reply."""
        kinds = {"P": "P", "Q": "P", "A": "A", "B": "A"}
        for kind, word in zip(form.kinds if form else (), line.split(" ")[1:]):
            if kind in kinds:
                self.add(kinds[kind], word)
        for address in re.findall(r"\bmap ([0-9a-f]+)$", reply[0]):
            self.add("A", address)
        for row in reply[1:]:
            for address in re.findall("^ ([0-9a-f]+)-", row):
                self.add("A", address)

    def add(self, kind: str, word: str) -> None:
        """Remembers one; the oldest goes where they are too many."""
        words = self.of[kind]
        words.pop(word, None)
        words[word] = True
        if len(words) > MOST_NAMES:
            del words[next(iter(words))]


class Completion:
    """What a word that was begun may become."""

    def __init__(self, reference: Reference, names: Names):
        self.reference, self.names, self.found = reference, names, []

    def complete(self, text: str, state: int) -> str | None:
        """The function that readline calls, with 0, 1, 2 .. until there are no more."""
        import readline

        if not state:
            before = readline.get_line_buffer()[: readline.get_begidx()].split(" ")[:-1]
            self.found = self.words(before, text)
        return self.found[state] if state < len(self.found) else None

    def words(self, before: list[str], text: str) -> list[str]:
        """The words that may stand behind others and begin so, with a space if more must follow."""
        if not before:
            words = with_prefix([*self.reference.forms, *WORDS_OF_TALK], text)
            return [it if it in ALONE else f"{it} " for it in words]
        if before[0] in ("save", "load", "view"):
            files = sorted(glob.glob(glob.escape(text) + "*"))
            return [it + "/" * os.path.isdir(it) for it in files]
        if before[0] == "help":
            return with_prefix([*self.reference.forms, *WORDS_OF_TALK], text)
        if before[0] in OWN_KINDS:
            kinds, ways = OWN_KINDS[before[0]], []
        elif before[0] in self.reference.forms:
            form = self.reference.forms[before[0]]
            kinds, ways = form.kinds, form.ways
        else:
            return []
        at = len(before) - 1
        more = " " * (at + 1 < len(kinds))
        return [it + more for it in with_prefix(self.choices(before[1:], kinds, ways), text)]

    def choices(self, before: list[str], kinds: list[str], ways: list[list[str]]) -> list[str]:
        """All words that may stand behind the words of a command."""
        if len(before) < len(kinds):
            kind = kinds[len(before)]
        else:
            rest = before[len(kinds) :]
            going_on = [it for it in ways if it[: len(rest)] == rest and len(it) > len(rest)]
            if not rest:
                return list(dict.fromkeys(it[0] for it in going_on))
            kind = going_on[0][len(rest)] if going_on else ""
        if kind in ("A", "B"):
            return sorted(self.names.of["A"])
        if kind in ("P", "Q"):
            return sorted(self.names.of["P"], key=lambda it: (len(it), it))
        return OF_KIND.get(kind, [])


def with_prefix(words: Iterable[str], text: str) -> list[str]:
    """The words that begin with a text."""
    return [it for it in words if it.startswith(text)]


def history_file() -> str:
    """Where lines are remembered over sessions."""
    home = os.environ.get("XDG_STATE_HOME") or os.path.expanduser("~/.local/state")
    return os.path.join(home, "avsim", "history")


class History:
    """The lines of earlier sessions, where Python has readline and a file can be read and written:
    where not, a session has its own lines alone.
    """

    def __init__(self):
        self.lines, self.had = None, 0
        with contextlib.suppress(ImportError):
            import readline

            self.lines = readline
            readline.set_history_length(MOST_LINES)
            with contextlib.suppress(OSError):
                readline.read_history_file(history_file())
            self.had = readline.get_current_history_length()

    def save(self) -> None:
        """Adds the lines of this session. (Another one may have added its own meanwhile.)"""
        new = self.lines.get_current_history_length() - self.had if self.lines else 0
        if new <= 0:
            return
        with contextlib.suppress(OSError):
            os.makedirs(os.path.dirname(history_file()), mode=0o700, exist_ok=True)
            with open(history_file(), "a", encoding="utf-8"):
                pass
            self.lines.append_history_file(new, history_file())


def set_up(completion: Completion) -> None:
    """Gives the prompt its editing and completion, where Python has them."""
    try:
        import readline
    except ImportError:
        return
    readline.set_completer(completion.complete)
    readline.set_completer_delims(" ")
    readline.parse_and_bind("tab: complete")
