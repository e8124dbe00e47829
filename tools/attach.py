"""Records a process that runs, with its children: they stand still for a while, and what they have
becomes the beginning of the log and of the faults. Then they go on, under strace and perf.
"""
import os
import re
import shutil
import signal
import subprocess
import time
from typing import IO, Callable, NamedTuple

from shared.saying import Refused, count_of

from again import BUFFER, Watcher
from keeper import Keeper, began_at
from start import Making, Process, process_of, write_down, zero_frame

# how often one looks, and how long may be waited for, in seconds
PAUSE, PATIENCE = 0.005, 20
# states of a process that stands still
STILL = "Tt"


class Asked(NamedTuple):
    """What is to be recorded: the process, for how many seconds (0: until control-C or its end),
    the folder, and what perf is asked for: events and more words.
    """

    pid: int
    seconds: float
    folder: str
    events: tuple


def stat_of(pid: int) -> list[str]:
    """What /proc says of a process from its state on; nothing where it has ended."""
    try:
        with open(f"/proc/{pid}/stat", "rb") as it:
            return it.read().rpartition(b")")[2].decode().split()
    except OSError:
        return []


def name_of(pid: int) -> str:
    """The name of a process."""
    try:
        with open(f"/proc/{pid}/comm", "rb") as it:
            return it.read().decode("ascii", "backslashreplace").rstrip("\n")
    except OSError as error:
        raise Refused(f"there is no process {pid}: {error.strerror}") from None


def check_process(pid: int) -> None:
    """Refuses a process that can't be recorded."""
    name_of(pid)
    if os.geteuid():
        raise Refused("-p is for root: no one else sees which frames a process has")
    if not shutil.which("perf"):
        raise Refused("-p takes perf (Debian: apt-get install linux-perf)")


def children_of(pid: int) -> list[int]:
    """The processes whose parent it is."""
    pids = (int(it) for it in os.listdir("/proc") if it.isdigit())
    return sorted(it for it in pids if stat_of(it)[1:2] == [f"{pid}"])


def family_of(pid: int) -> list[int]:
    """A process with all that descend from it, parents first."""
    return [pid, *(it for child in children_of(pid) for it in family_of(child))]


# ---- they stand still


def stop(pid: int, keeper: Keeper) -> None:
    """A process stands still until it is let go on, or this tool has ended."""
    if stat_of(pid)[:1] == ["T"]:
        return
    keeper.tell("continue", f"{pid}", began_at(pid))
    os.kill(pid, signal.SIGSTOP)
    wait_for(lambda: stat_of(pid)[:1] in ([], *([it] for it in STILL)), f"{pid} doesn't stop")


def wait_for(is_so: Callable[[], bool], why: str) -> None:
    until = time.monotonic() + PATIENCE
    while not is_so():
        if time.monotonic() > until:
            raise Refused(f"process {why}")
        time.sleep(PAUSE)


def stop_all(pid: int, keeper: Keeper) -> list[int]:
    """The whole family stands still, and so has no new child."""
    stopped: list[int] = []
    while new := [it for it in family_of(pid) if it not in stopped]:
        for it in new:
            stop(it, keeper)
        stopped += new
    return stopped


def read_family(pid: int) -> Process:
    found = process_of(pid)
    found.children = [read_family(it) for it in children_of(pid)]
    return found


# ---- recording


class Attach:
    """The recording of a family."""

    def __init__(self, asked: Asked):
        self.asked, self.folder = asked, asked.folder
        self.pids: list[int] = []
        self.is_over = False

    def run(self, say: Callable[[str], None]) -> None:
        """Records. The processes are let go on by the keeper, whatever happens."""
        signal.signal(signal.SIGINT, lambda *_: setattr(self, "is_over", True))
        with Keeper() as keeper:
            began = time.monotonic()
            self.pids = stop_all(self.asked.pid, keeper)
            making = self.begin()
            strace = self.trace(keeper)
            perf = Watcher(self.perf_words(), f"{self.folder}/perf.data")
            keeper.tell("interrupt", f"{perf.ran.pid}", began_at(perf.ran.pid))
            if not perf.begin():
                raise Refused("perf may not record that process")
            self.let_go()
            pages = sum(not it.text for it in making.lines)
            say(
                f"{count_of(len(self.pids), 'process', 'processes')} with {pages} pages, stopped "
                f"for {time.monotonic() - began:.2f} s"
            )
            self.wait(strace)
            self.end(keeper, strace, perf)

    def begin(self) -> Making:
        """Writes what the family has."""
        making = Making(zero_frame())
        making.root(read_family(self.asked.pid))
        now = time.time_ns() // 1000, time.monotonic_ns() // 1000
        how = {"mode": "w", "encoding": "ascii", "errors": "backslashreplace"}
        with open(self.log(), **how) as log, open(f"{self.folder}/first", **how) as faults:
            write_down(making.lines, log, faults, now, name_of(self.asked.pid))
        return making

    def log(self) -> str:
        return f"{self.folder}/log"

    def trace(self, keeper: Keeper) -> subprocess.Popen:
        """A strace that has all their threads."""
        words = ["strace", "-f", "-y", "-ttt", "-e", "trace=memory,process"]
        words += ["-o", f"{self.folder}/rest"]
        for it in self.pids:
            words += ["-p", f"{it}"]
        ran = subprocess.Popen(  # pylint: disable=consider-using-with
            words, stderr=subprocess.DEVNULL, start_new_session=True
        )
        keeper.tell("interrupt", f"{ran.pid}", began_at(ran.pid))
        threads = [f"{it}/task/{of}" for it in self.pids for of in os.listdir(f"/proc/{it}/task")]
        wait_for(lambda: all(map(is_traced, threads)), f"{self.asked.pid} can't be traced")
        return ran

    def perf_words(self) -> list[str]:
        events, more = self.asked.events
        words = [*more, "-m", BUFFER]
        for it in events:
            words += ["-e", it]
        return [*words, "-p", ",".join(map(str, self.pids))]

    def let_go(self) -> None:
        for it in self.pids:
            os.kill(it, signal.SIGCONT)

    def wait(self, strace: subprocess.Popen) -> None:
        """Until the time is over, control-C, or their end."""
        until = time.monotonic() + (self.asked.seconds or float("inf"))
        while not self.is_over and strace.poll() is None and time.monotonic() < until:
            time.sleep(PAUSE)

    def end(self, keeper: Keeper, strace: subprocess.Popen, perf: Watcher) -> None:
        """They stand still once more, so that what they have then can be held beside the trace."""
        if strace.poll() is None:
            for it in stop_all(self.asked.pid, keeper):
                shutil.copyfile(f"/proc/{it}/smaps", f"{self.folder}/smaps.{it}")
            strace.send_signal(signal.SIGINT)
        strace.wait()
        perf.end()
        with open(self.log(), "ab") as log, open(f"{self.folder}/rest", "rb") as rest:
            shutil.copyfileobj(rest, log)
        os.remove(f"{self.folder}/rest")

    def first_faults(self) -> list[str]:
        """The accesses that make what they had."""
        with open(f"{self.folder}/first", encoding="ascii") as it:
            lines = it.read().splitlines()
        os.remove(f"{self.folder}/first")
        return lines


def is_traced(thread: str) -> bool:
    try:
        with open(f"/proc/{thread}/status", encoding="utf-8", errors="replace") as it:
            return not re.search(r"^TracerPid:\t0$", it.read(), re.M)
    except OSError:
        return True
