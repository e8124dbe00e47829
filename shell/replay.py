"""`avsim replay TRACE`: runs a trace on the machine that its comments ask for."""
import contextlib
import signal
import subprocess
import sys
import tempfile
from typing import BinaryIO

from shared import saying

from program import Refused, start
from swapfile import words_by_head

# the status of `avsim run` at a line that is no command
BAD_LINE = 3


def end_by(number: int, _) -> None:
    """Ends on a signal as on a fault: the run ends, and swap files that were made go."""
    raise SystemExit(128 + number)


def opened(name: str, stack: contextlib.ExitStack) -> BinaryIO:
    """A trace that can be read twice: standard input is copied."""
    try:
        if name != "-":
            return stack.enter_context(open(name, "rb"))
        copy = stack.enter_context(tempfile.TemporaryFile())
        copy.write(sys.stdin.buffer.read())
        return copy
    except OSError as error:
        raise Refused(f"{saying.name_of(name)} can't be read: {error.strerror}", 4) from None


def machine_in(trace: BinaryIO, room: str) -> list[str]:
    """The words behind `run` for a trace, whose swap files are made in a folder."""
    try:
        trace.seek(0)
        text = trace.read().decode("ascii", "replace")
        trace.seek(0)
        return words_by_head(text, room)
    except OSError as error:
        raise Refused(f"the trace can't be read: {error.strerror}", 4) from None
    except saying.Refused as why:
        raise Refused(str(why)) from None


def replay(program: str, words: list[str]) -> int:
    """Runs the trace. The status is that of `avsim run`."""
    if len(words) != 1:
        raise Refused("one TRACE stands behind replay, as in avsim replay my.trace", 2)
    for number in (signal.SIGTERM, signal.SIGHUP):
        signal.signal(number, end_by)
    with contextlib.ExitStack() as stack:
        trace = opened(words[0], stack)
        room = stack.enter_context(tempfile.TemporaryDirectory(prefix="avsim-replay-"))
        ran = start([program, "run", *machine_in(trace, room)], stdin=trace)
        stack.callback(ran.wait)
        stack.callback(ran.kill)
        status = ran.wait()
    if status == BAD_LINE:
        given = "" if words[0] == "-" else f" < {words[0]}"
        print(f"avsim: ./avsim why{given} says why", file=sys.stderr)
    return status if status >= 0 else 128 - status
