"""`avsim page [FRAMES [SWAP..]] [TRACE]`: serves a page to type into, and opens it in a browser."""
import os
import re
import signal
import sys
import threading
import webbrowser
from typing import NamedTuple

from program import EarlyEnd, Refused
from replay import end_by
from swapfile import MOST_FILES, MOST_FRAMES, is_swap_file

from laboratory import Laboratory, Trouble
from serving import Server

# frames of a page without a trace
FEW = "8"
# where one of these is set, a browser may be opened
SCREENS = ("DISPLAY", "WAYLAND_DISPLAY", "BROWSER")


class Words(NamedTuple):
    """The machine (none: what the trace asks for), and the file of the trace, if there is one."""

    machine: list[str]
    trace: str


def words_of(words: list[str]) -> Words:
    """FRAMES is a number. Behind it a file with the signature of a swap area is one; any other word
    is the trace.
    """
    machine, traces = [], []
    if words and re.fullmatch("[0-9]+", words[0]):
        if not 1 <= int(words[0][:6]) <= MOST_FRAMES:
            raise Refused(f"FRAMES is 1 to {MOST_FRAMES}: {words[0]}", 2)
        machine, words = [str(int(words[0]))], words[1:]
    for it in words:
        is_swap = machine and os.path.isfile(it) and is_swap_file(it)
        (machine if is_swap else traces).append(it)
    if len(machine) > MOST_FILES + 1:
        raise Refused("at most eight swap files are named", 2)
    if len(traces) > 1:
        raise Refused(f"one TRACE stands behind page, and here are two: {' '.join(traces)}", 2)
    return Words(machine, *traces or [""])


def text_of(file: str) -> str:
    try:
        with open(0 if file == "-" else file, encoding="utf-8", errors="surrogateescape") as it:
            return it.read()
    except OSError as error:
        raise Refused(f"{file} can't be read: {error.strerror}", 4) from None


def laboratory_of(program: str, words: Words) -> Laboratory:
    """The page's trace on its machine: that of the words, or else what the trace asks for."""
    text = text_of(words.trace) if words.trace else ""
    machine = words.machine or [str(MOST_FRAMES) if words.trace else FEW]
    title = os.path.basename(words.trace) or "untitled"
    try:
        lab = Laboratory(program, machine, title)
    except OSError as error:
        raise Refused(f"a swap file can't be copied: {error.strerror}", 8) from None
    try:
        lab.begin(text, asks=not words.machine)
    except BaseException:
        lab.close()
        raise
    return lab


def show(server: Server) -> None:
    """Tells the address, and opens a browser where there is one."""
    print(server.address(server.word), flush=True)
    if sys.stderr.isatty():
        print("avsim: a page to type into stands there; control-C ends it", file=sys.stderr)
    if any(map(os.environ.get, SCREENS)):
        address = server.address(server.once)
        threading.Thread(target=webbrowser.open, args=(address,), daemon=True).start()


def page(program: str, words: list[str]) -> int:
    """Serves the page until its terminal ends, or control-C."""
    for number in (signal.SIGTERM, signal.SIGHUP):
        signal.signal(number, end_by)
    # (a shell that starts this in the background has control-C ignored)
    signal.signal(signal.SIGINT, signal.default_int_handler)
    try:
        lab = laboratory_of(program, words_of(words))
    except Trouble as why:
        rows = (f"line {at}: {it}" if at else it for at, _, it in why.rows)
        raise Refused("; ".join(rows), 3) from None
    except EarlyEnd as why:
        raise Refused(str(why)) from None
    try:
        server = Server(lab)
        show(server)
        server.serve_forever()
    except KeyboardInterrupt:
        return 0
    finally:
        lab.close()
