"""Undoes what a tool did to the machine, whichever way the tool ends.

A process beside the tool waits until that has ended, also by a signal that can't be caught, and
undoes what it was told of, the last first. So each deed is told before it is done.
"""
import contextlib
import ctypes
import functools
import os
import signal
import time
from typing import Callable

# how often and for how long it is tried to undo something that is still in use, in seconds
PAUSE, PATIENCE = 0.02, 20
# a message's words end with this, and the message with a newline
APART = "\0"


def send(number: signal.Signals, pid: str, began: str) -> None:
    """A process gets a signal, if it is still that one."""
    if began_at(int(pid)) == began:
        os.kill(int(pid), number)


def began_at(pid: int) -> str:
    """When a process began, as the kernel counts; none where it has ended."""
    try:
        with open(f"/proc/{pid}/stat", "rb") as it:
            return it.read().rpartition(b")")[2].split()[19].decode()
    except (OSError, IndexError):
        return ""


def write(file: str, text: str) -> None:
    with open(file, "w", encoding="ascii") as it:
        it.write(text)


def turn_off(file: str) -> None:
    """A swap file is off, if it was on."""
    ctypes.CDLL(None).swapoff(file.encode())


def end_all(group: str) -> None:
    """Whatever still runs in a cgroup ends."""
    with open(f"{group}/cgroup.procs", encoding="ascii") as it:
        for pid in it.read().split():
            with contextlib.suppress(ProcessLookupError):
                os.kill(int(pid), signal.SIGKILL)


def leave(group: str) -> None:
    """A cgroup goes, as soon as those in it have ended."""
    until = time.monotonic() + PATIENCE
    while os.path.isdir(group) and time.monotonic() < until:
        try:
            os.rmdir(group)
        except OSError:
            end_all(group)
            time.sleep(PAUSE)


DEEDS: dict[str, Callable[..., None]] = {
    "continue": functools.partial(send, signal.SIGCONT),
    "interrupt": functools.partial(send, signal.SIGINT),
    "leave": leave,
    "remove": os.remove,
    "rmdir": os.rmdir,
    "turn off": turn_off,
    "write": write,
}


def wait_and_undo(reader: int) -> None:
    """The life of the process beside the tool."""
    os.setsid()
    with os.fdopen(reader, encoding="utf-8", errors="surrogateescape") as told:
        lines = told.read().split("\n")[:-1]
    for line in reversed(lines):
        name, *words = line.split(APART)
        try:
            DEEDS[name](*words)
        except OSError:
            # (it was never done, or somebody undid it)
            pass


class Keeper:
    """As a `with` block: what was told is undone behind it."""

    def __enter__(self) -> "Keeper":
        reader, self.writer = os.pipe()
        # (no signal that can be held back ends the process beside)
        before = signal.pthread_sigmask(signal.SIG_BLOCK, signal.valid_signals())
        self.pid = os.fork()
        if not self.pid:
            try:
                os.close(self.writer)
                wait_and_undo(reader)
            finally:
                os._exit(0)
        signal.pthread_sigmask(signal.SIG_SETMASK, before)
        os.close(reader)
        return self

    def tell(self, deed: str, *words: str) -> None:
        """What is to be undone, as the name of a deed with its words."""
        text = APART.join([deed, *words])
        os.write(self.writer, f"{text}\n".encode(errors="surrogateescape"))

    def __exit__(self, *_: object) -> None:
        os.close(self.writer)
        os.waitpid(self.pid, 0)
