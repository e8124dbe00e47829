"""Makes a trace of a log: who forks, runs a program and ends, with the calls of memory between,
and the accesses that page faults tell of, by time.
"""
import dataclasses
import functools
import re

from shared.saying import Refused, count_of, name_of, printable

from faults import Fault
from grain import GRAINS, coarse
from labels import CALLER, accesses_comment
from memory import Command, Memory
from peak import Peak
from spaces import Space
from strace import ALONE, NEVER, Call, Step
from swapfile import MOST_FILES, MOST_FRAMES, MOST_PAGES, Machine, comment_for

FORKS = ("clone", "clone3", "fork", "vfork")
# the greatest number that a process may have
MOST_PROCESSES = 32767

CHILD = re.compile(r"(\d+)(?: /\* (\d+) in strace's PID NS \*/)?(?: <\d+\.\d+>)?")


@dataclasses.dataclass(slots=True)
class Options:
    """What the words of the command line ask for. `guess` is what a fault is that could be a read
    or a write, `touch` how many pages of a writable mapping are written, and `frames` how many
    the machine has: 0 means as many as are held at most. `are_first`: the faults are those of the
    kernel, so mostly the first access to each page; but where `too_few_below` says a number, they
    were recorded in rounds, and are too few for machines of fewer frames. `page`
    is what one page of the trace stands for, where that is more than one of the program's.
    """

    anonymous_only: bool = False
    cut: bool = False
    guess: str = "write"
    touch: int = 0
    frames: int = 0
    are_first: bool = False
    page: str = ""
    too_few_below: int = 0

    def said(self) -> str:
        """What the head of the trace says of its accesses."""
        return accesses_comment(self.are_first, self.too_few_below)


@dataclasses.dataclass(slots=True)
class Stay:
    """A memory that a thread had, from some time after `first` to some time before `last`."""

    space: Space
    first: int
    last: int = NEVER


class Thread:
    """A thread: its group, and the memory that it has, none before its first execve. It begins
    after the call that made it began, where the log has that.
    """

    def __init__(self, number: int, group: int, space: Space | None, born: int = -1):
        self.number, self.group, self.born, self.ended = number, group, born, NEVER
        self.space, self.stays = None, []
        if space:
            self.enter(space, born, born)

    def enter(self, space: Space, first: int, last: int) -> None:
        """The thread has another memory, from a time between the two on."""
        if self.stays:
            self.stays[-1].last = last
        self.space = space
        self.stays.append(Stay(space, first))
        space.threads.add(self.number)


class Convert:
    """A log as it is gone through."""

    def __init__(self, steps: list[Step], faults: list[Fault], options: Options):
        self.steps, self.faults, self.options = steps, faults, options
        self.memory = Memory(options.anonymous_only, options.touch)
        self.tally = self.memory.tally
        self.threads: dict[int, Thread] = {}
        self.all: list[Thread] = []
        # the name of the program that runs first
        self.program = ""
        # the calls that make a thread and haven't returned, by its number
        self.making: dict[int, Call] = {}
        self.made: set[int] = set()
        self.numbers: set[int] = set()
        self.last_number, self.now = 0, -1
        # strace says of each thread that it exited, or (-qq) of none: then a call of exit ends one
        # of which no later line says that it was killed
        self.tells_exits = any(it.text.startswith("+++ exited") for it in steps)
        self.last_end = {it.thread: at for at, it in enumerate(steps) if it.kind == "ends"}

    def run(self) -> None:
        """Goes through the log."""
        self.go_through()
        if self.options.page:
            self.memory.commands = coarse(self.memory.commands, GRAINS[self.options.page])

    def go_through(self) -> None:
        faults = iter(self.faults)
        fault = next(faults, None)
        for at, step in enumerate(self.steps):
            while fault and fault.time < step.time:
                self.access(fault)
                fault = next(faults, None)
            self.now = step.time
            self.do(step, at)
        while fault:
            self.access(fault)
            fault = next(faults, None)
        self.end()

    def do(self, step: Step, at: int) -> None:
        thread, call = self.threads.get(step.thread) or self.newcomer(step), step.call
        if step.kind == "ends":
            self.leave(thread, step.place, step.text)
        elif step.kind == "superseded":
            self.supersede(thread, step)
        elif call.name in FORKS:
            self.make(step)
        elif step.kind == "begins" and call.answer and call.name != "munmap":
            # it is done where it returns; but what a munmap takes away may be another's before
            return
        elif call.name in ("execve", "execveat"):
            self.execve(thread, call)
        elif call.name in ("exit", "exit_group"):
            self.exit(thread, call, at)
        else:
            self.once(thread, call)

    def once(self, thread: Thread, call: Call) -> None:
        """A call of memory, where it isn't done yet."""
        if id(call) in self.made:
            return
        self.made.add(id(call))
        if thread.space:
            self.memory.do(thread.space, call)

    # threads and processes

    def number(self, place: str) -> int:
        """A number for a process: one that none had, as long as there are such."""
        if self.last_number < MOST_PROCESSES:
            self.last_number += 1
            self.numbers.add(self.last_number)
            return self.last_number
        free = next((it for it in range(1, MOST_PROCESSES + 1) if it not in self.numbers), 0)
        if not free:
            raise Refused(f"{place}: more than {MOST_PROCESSES} processes live at once")
        self.numbers.add(free)
        return free

    def newcomer(self, step: Step) -> Thread:
        """The thread of a line that is its first."""
        if step.thread in self.making:
            return self.begin_child(self.making[step.thread], step.thread)
        is_execve = step.call and step.call.name == "execve"
        if is_execve and not self.all:
            return self.begin(Thread(step.thread, step.thread, None))
        if not self.options.cut:
            what = "the log" if not self.all else f"thread {step.thread}"
            raise Refused(
                f"{step.place}: {what} begins without an execve, and no call of the log made it: "
                "strace takes -f and -e trace=memory,process, and --cut takes a log that was "
                "begun while the program ran"
            )
        space = Space(self.number(step.place), "log")
        comment = f"process {space.number}: ? (thread {step.thread}; what it had isn't known)"
        self.memory.at(step.place, step.text)
        self.memory.add(f"spawn {space.number}", "ok", comment)
        return self.begin(Thread(step.thread, step.thread, space))

    def begin(self, thread: Thread) -> Thread:
        self.threads[thread.number] = thread
        self.all.append(thread)
        return thread

    def make(self, step: Step) -> None:
        """A call that makes a thread: the thread begins with its first line, or with the answer."""
        call = step.call
        child = CHILD.fullmatch(call.answer)
        number = int(child[2] or child[1]) if child else 0
        if not child:
            if step.kind == "call":
                self.fail(call)
        elif call.thread == ALONE:
            self.tally.left_out["fork, of a child that strace didn't follow (-f)"] += 1
        elif step.kind == "begins":
            self.making[number] = call
        else:
            if id(call) not in self.made:
                self.begin_child(call, number)
            self.making.pop(number, None)

    def fail(self, call: Call) -> None:
        """A call that did nothing: it failed, or never returned."""
        if not re.match(r"-1 E|\?|$", call.answer):
            raise Refused(f"{call.place}: an answer that no such call has: {printable(str(call))}")
        self.tally.failed[call.name] += 1

    def begin_child(self, call: Call, number: int) -> Thread:
        """The thread that a call makes."""
        parent = self.threads.get(call.thread)
        flags = re.search(r"\bflags=([A-Za-z0-9_|]+)", call.words)
        if number in self.threads or not parent or call.name in ("clone", "clone3") and not flags:
            raise Refused(f"{call.place}: this makes no thread {number}: {printable(str(call))}")
        self.made.add(id(call))
        words = flags[1].split("|") if flags else []
        group = parent.group if "CLONE_THREAD" in words else number
        space = parent.space
        if call.name == "vfork" or "CLONE_VM" in words:
            self.tally.left_out[f"{call.name} of a thread, or of a child in the same memory"] += 1
        elif space:
            space = self.fork(call, space, number)
        return self.begin(Thread(number, group, space, call.time))

    def fork(self, call: Call, space: Space, number: int) -> Space:
        child = Space(self.number(call.place), space.rest, space, call.time)
        self.tally.kept["fork"] += 1
        self.memory.at(call.place, str(call))
        whose = f"thread {number}, a child of {call.thread}"
        comment = f"process {child.number}: {child.name or '?'} ({whose})"
        self.memory.add(f"fork {space.number} {child.number}", "ok", comment)
        return child

    def execve(self, thread: Thread, call: Call) -> None:
        """A program takes the place of what the process had."""
        if not re.fullmatch(r"0(?: <\d+\.\d+>)?", call.answer):
            self.fail(call)
            return
        for other in [it for it in self.threads.values() if it.group == thread.group]:
            if other is not thread:
                self.leave(other, call.place, str(call))
        self.memory.at(call.place, str(call))
        old, is_free = thread.space, self.empty(thread)
        number = old.number if is_free else self.number(call.place)
        self.numbers.add(number)
        path = re.search(r'"((?:[^"\\]|\\.)*)"', call.words)
        space = Space(number, "execve")
        space.name = name_of(path[1]) if path else ""
        self.program = self.program or space.name
        thread.enter(space, call.time, self.now)
        self.tally.kept["execve"] += 1
        comment = f"process {number}: {space.name or '?'} (thread {thread.number})"
        self.memory.add(f"spawn {number}", "ok", comment)

    def empty(self, thread: Thread) -> bool:
        """A thread leaves its memory, and is told whether that ends."""
        space, thread.space = thread.space, None
        if not space:
            return False
        space.threads.discard(thread.number)
        if space.threads:
            return False
        self.memory.end(space)
        self.memory.add(f"exit {space.number}", "ok")
        self.numbers.discard(space.number)
        return True

    def leave(self, thread: Thread, place: str, origin: str) -> None:
        """A thread ends."""
        self.memory.at(place, origin)
        thread.ended = self.now
        del self.threads[thread.number]
        self.empty(thread)

    def exit(self, thread: Thread, call: Call, at: int) -> None:
        """A call of exit: threads end here where no line says it of them."""
        group = [it for it in self.threads.values() if it.group == thread.group]
        for it in group if call.name == "exit_group" else [thread]:
            if not self.tells_exits and self.last_end.get(it.number, -1) < at:
                self.leave(it, call.place, str(call))

    def supersede(self, leader: Thread, step: Step) -> None:
        """A thread goes on as the leader of its group."""
        if step.by not in self.threads:
            raise Refused(f"{step.place}: there is no thread {step.by}")
        self.leave(leader, step.place, step.text)
        thread = self.threads.pop(step.by)
        if thread.space:
            thread.space.threads.discard(step.by)
            thread.space.threads.add(leader.number)
        thread.number = leader.number
        self.threads[leader.number] = thread

    def end(self) -> None:
        """The log has ended: so have all threads, or it was cut."""
        if self.threads and not self.options.cut:
            last, some = self.steps[-1].place, next(iter(self.threads))
            raise Refused(
                f"{last}: the log ends, and {count_of(len(self.threads), 'thread')} still "
                f"{'lives' if len(self.threads) == 1 else 'live'} ({some}): it was cut. "
                "(--cut takes it, if strace left the program before its end)"
            )
        if not self.memory.commands:
            raise Refused("the log has no process that begins")
        for thread in self.threads.values():
            if thread.space and thread.number == min(thread.space.threads):
                self.memory.end(thread.space)

    # accesses

    def access(self, fault: Fault) -> None:
        """A page fault: an access that is served."""
        thread = self.threads.get(fault.thread)
        if not thread and fault.thread in self.making:
            thread = self.begin_child(self.making[fault.thread], fault.thread)
        why_not = self.why_no_access(thread, fault)
        if why_not:
            self.tally.no_accesses[why_not] += 1
            return
        space = thread.space
        prot = space.ranges.at(fault.address).prot
        is_write = fault.is_write
        if is_write is None:
            is_write = "w" in prot and (self.options.guess == "write" or "r" not in prot)
        is_served = "w" in prot if is_write else prot != "---"
        name, what = ("write", "01") if is_write else ("read", "1")
        line = f"{name} {space.number} {fault.address:x} {what}"
        wanted = "segv 0" if not is_served else "ok" if is_write else "data"
        self.tally.accesses[name] += 1
        self.memory.commands.append(
            Command(line, wanted, fault.place, fault.text, caller=fault.chain)
        )

    def why_no_access(self, thread: Thread | None, fault: Fault) -> str:
        """Why a fault isn't in the trace; empty where it is."""
        if not thread:
            return "of threads that don't live then, or aren't in the log"
        mapped = thread.space.ranges.at(fault.address) if thread.space else None
        if not mapped:
            return "where no call mapped anything (the program's file, ld.so, stack)"
        if not self.memory.has(mapped.kind):
            return f"in {mapped.kind} mappings"
        return ""

    # the trace

    @functools.cached_property
    def most(self) -> int:
        """How many frames the trace holds at most, where there are so many."""
        peak = Peak()
        for it in self.memory.commands:
            if it.wanted.split(" ")[0] not in ("segv", "err"):
                peak.take(it.line)
        return peak.most

    def machine(self) -> Machine:
        """A machine on which each write finds room. Pages that have no frame are in slots, of which
        each frame may hold one beside.
        """
        frames = self.options.frames or min(max(self.most, 1), MOST_FRAMES)
        slots, areas = self.most + frames if self.most > frames else 0, []
        while slots and len(areas) < MOST_FILES:
            areas.append((min(slots, MOST_PAGES - 1) + 1, []))
            slots -= areas[-1][0] - 1
        return Machine(str(frames), areas)

    def text(self, log: str, machine: Machine, with_origin: bool) -> str:
        """The trace. Its last line is a comment, so that one can see that it is whole."""
        lines = [f"# {self.program or log} as a trace, by tools/from-strace", comment_for(machine)]
        lines += [f"# {self.options.said()}"] if self.options.said() else []
        page = self.options.page
        lines += [f"# One page of it is {page} of the program's."] if page else []
        lines += [f"swapon {area}" for area in range(len(machine.areas))]
        for it in self.memory.commands:
            lines += [f"# {it.comment}"] if it.comment else []
            lines += [f"# {CALLER}{it.caller}"] if it.caller else []
            lines += [f"# {it.place}: {it.origin[:400]}"] if with_origin and it.origin else []
            lines.append(it.line)
        if self.threads:
            lines.append(f"# (the log ends here; threads that still live: {len(self.threads)})")
        return "\n".join([*lines, "# end", ""])
