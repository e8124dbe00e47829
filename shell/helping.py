"""`avsim help [COMMAND]`, also within a session: what docs/REFERENCE.md says of the commands."""
import shutil
import textwrap
from typing import Iterator

from program import Refused
from reasons import WORDS_OF_TALK, printable
from reference import Reference

OWN_WORDS = (
    "show [P] | view [FILE] | undo [N] | save FILE | load FILE | touch P A LEN | "
    "help [COMMAND] | quit"
)


def overview(reference: Reference, width: int) -> Iterator[str]:
    """A line for each command, with what it does."""
    for form in reference.forms.values():
        yield form.heading
        yield from textwrap.wrap(
            reference.first_sentence(form.name),
            width,
            initial_indent="    ",
            subsequent_indent="    ",
        )


def lines_of_help(reference: Reference, words: list[str]) -> list[str]:
    """The commands of a trace; or the section of the one that is named, or of the words of a
    session. ValueError says that there is none.
    """
    width = min(shutil.get_terminal_size().columns, 100) - 2
    if not words:
        return list(overview(reference, width))
    lines = reference.help(words[0], width) if len(words) == 1 else []
    if not lines and words[0] in ("?", *WORDS_OF_TALK):
        lines = reference.help("Talk", width)
    if not lines:
        name = printable(" ".join(words))
        raise ValueError(f"help knows no command {name}; help alone lists them")
    return "\n".join(lines).rstrip("\n").split("\n")


def help_in_shell(_program: str, words: list[str]) -> int:
    """Tells what a session tells."""
    try:
        lines = lines_of_help(Reference(), words)
    except ValueError as why:
        raise Refused(str(why), 2) from None
    print(*lines, sep="\n", flush=True)
    if not words:
        print("avsim --help has the words of the program; avsim help COMMAND says more of one")
    return 0
