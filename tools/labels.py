"""Comments of a trace that name something: `# process 6: redis-cli (thread 4711)` the process that
the next command begins, `# mapping: libc.so.6` what the next `mmap` maps, and `# by: main;serve`
the functions that called when the next command was done, outermost first. A comment in its head
says that its accesses are first ones, or below which number of frames they are too few.
"""
import re
from typing import Iterable

PROCESS = re.compile(r"process (\d{1,5}): (.+?)(?: \([^()]*\))?")
MAPPING = "mapping: "
CALLER = "by: "
# what is said in the head of a trace whose accesses are page faults, and of what is made of it
FIRST_ONES = "Its accesses are page faults: mostly the first one to each page."
SAID_OF_FIRST_ONES = (
    "the trace has mostly the first access to each page, so what went out seldom comes back: "
    "loaded and written are too low, often by far"
)
# the same of a trace whose accesses were told again after so many others
AGAIN_ONES = "Its accesses are page faults: below {} frames they are too few."
AGAIN = re.compile(AGAIN_ONES.format(r"(\d+)").replace(".", r"\."))
SAID_OF_AGAIN_ONES = (
    "the trace has an access again after so many others that numbers of frames below {} are told "
    "too low"
)


def accesses_comment(is_first: bool, too_few_below: int) -> str:
    """What the head of a trace says of its accesses; empty where that is nothing."""
    if too_few_below:
        return AGAIN_ONES.format(too_few_below)
    return FIRST_ONES if is_first else ""


def said_of_accesses(head: Iterable[str], has_gone_out: bool, frames: int = 0) -> str:
    """What is said of a run of which a page has gone out, where comments in the head of its trace
    tell that it hasn't all accesses that a machine of so many frames asks for (0: it isn't known
    how many); else nothing.
    """
    if not has_gone_out:
        return ""
    if FIRST_ONES in head:
        return SAID_OF_FIRST_ONES
    below = next(filter(None, map(AGAIN.fullmatch, head)), None)
    return SAID_OF_AGAIN_ONES.format(below[1]) if below and frames < int(below[1]) else ""


def process_of(comment: str) -> tuple[int, str] | None:
    """The process that a comment names, and its name; None where it names none."""
    match = PROCESS.fullmatch(comment)
    return (int(match[1]), match[2]) if match else None


def mapping_of(comment: str) -> str:
    """The name that a comment gives a mapping; empty where it gives none."""
    return comment.removeprefix(MAPPING) if comment.startswith(MAPPING) else ""


def caller_of(comment: str) -> str:
    """The functions that a comment names as callers; empty where it names none."""
    return comment.removeprefix(CALLER) if comment.startswith(CALLER) else ""


def is_label(comment: str) -> bool:
    return bool(process_of(comment) or mapping_of(comment) or caller_of(comment))
