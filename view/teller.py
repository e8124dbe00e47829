"""A trace that is told command by command: each with its reply, what reports say behind it, and the
operations that a page applies for it.

A page that is made once and one that is typed into are told by the same `Teller`. It keeps no run
itself: `ask` puts lines to one and gives their replies. Its state can be kept and taken up again,
which is how a page that is typed into goes back.
"""
import contextlib
import itertools
import pickle
from typing import Callable, Iterable, Iterator

from shared.meter import Progress
from shared.saying import Refused

import making
from labels import said_of_accesses
from making import Command, Run
from names import Names
from program import EarlyEnd, Live
from told import Told

# steps that one page has at most, and bytes; commands that are asked at once
MOST_STEPS, MOST_BYTES, AT_ONCE = 50_000, 90_000_000, 64

Ask = Callable[[list[bytes]], list[list[str]]]
Planned = tuple[Command, list[str], list[str]]


def line_of(command: Command) -> bytes:
    return command.line.encode("utf-8", "surrogateescape")


class Teller:
    """What is told up to a command. `most` is how many frames were in use at most, `wrong` the
    first line at which notes told otherwise than reports, and `lost` the first at which not all was
    told.
    """

    def __init__(self) -> None:
        self.told, self.names = Told(), Names()
        self.most = self.wrong = self.lost = 0

    def kept(self) -> bytes:
        """All of it, to be taken up again. (The operations of the last step are the step's.)"""
        self.told.ops = []
        return pickle.dumps(self, protocol=5)

    @staticmethod
    def of(kept: bytes) -> "Teller":
        return pickle.loads(kept)

    def steps(
        self, commands: list[Command], ask: Ask, goes_on: Callable[[], bool] = lambda: True
    ) -> Iterator[dict]:
        """Does commands, as long as it goes on (at least one), and gives their steps. (The reports
        of one and the next one go out together: a round trip less for each.)
        """
        ahead = None
        for at, command in enumerate(commands):
            reply = ahead or ask([line_of(command)])[0]
            reply = [it.removeprefix(" ") for it in reply]
            self.begin_step()
            asked = making.reports(self.told, command.line.split(" "), reply)
            is_more = at + 1 < len(commands) and goes_on()
            given = [it.encode() for it in asked]
            answers = ask([*given, line_of(commands[at + 1])] if is_more else given)
            ahead = answers.pop() if is_more else None
            yield self.step(command, reply, list(zip(asked, map("\n".join, answers))))
            if not is_more:
                return

    def begin_step(self) -> None:
        """(The operations of a step are a list of its own.)"""
        self.told.ops = []

    def step(self, command: Command, reply: list[str], answers: list[tuple[str, str]]) -> dict:
        """A step as it stands in a page. Of reports and what they answer."""
        words, told = command.line.split(" "), self.told
        slots = set(told.touched)
        same = all([making.take(told, ask, answer) for ask, answer in answers])
        slots -= {":".join(ask.split(" ")[1:]) for ask, _ in answers if ask.startswith("slot ")}
        for slot in sorted(slots):
            told.answer_slot(slot, "?")
        if words[0] == "swapoff" and reply[0] == "ok":
            self.forget_slots(f"{words[1]}:")
        told.tell_of_areas()
        told.ops += self.names.take(command.comment, words, reply)
        self.most = max(self.most, making.used_in(told.numbers))
        self.wrong = self.wrong or (not same and command.number)
        self.lost = self.lost or told.lost and command.number
        return making.step_of(command, reply, told.ops)

    def forget_slots(self, area: str) -> None:
        """Nothing is said any more of the slots of an area."""
        for slot in [it for it in self.told.counts if it.startswith(area)]:
            self.told.answer_slot(slot, "")

    def said(self) -> list[str]:
        """What a page says of this, beside its steps."""
        found = []
        if self.wrong:
            found.append(
                f"from line {self.wrong} on notes tell otherwise than `entry` or `slot` does: "
                "that is a fault, please tell"
            )
        if self.lost:
            found.append(f"from line {self.lost} on not all entries are known: they are drawn as ?")
        return found


def planned(told: Told, done: Iterable[tuple[Command, list[str]]]) -> Iterator[Planned]:
    """Commands with their replies, and the reports to put behind each, where so much is told before
    them. (Since these go by replies, many can be asked at once where those are known.)
    """
    for command, reply in done:
        asked = making.reports(told, command.line.split(" "), reply)
        told.ops.clear()
        yield command, reply, asked


@contextlib.contextmanager
def live_of(run: Run) -> Iterator[Live]:
    """Another run of the same program, which is asked."""
    live = Live(run.program, run.words)
    try:
        yield live
    finally:
        # (it does nothing more: to be ended so costs no time)
        live.ran.kill()
        live.end()


def follow(run: Run, teller: Teller) -> Iterator[dict]:
    """The steps of a run, as a teller tells them."""
    progress, done = Progress("view"), 0
    plan = planned(Told(), zip(run.commands, run.replies))
    try:
        with live_of(run) as live:
            while some := list(itertools.islice(plan, AT_ONCE)):
                for step in steps_at_once(some, live.answers, teller):
                    done += 1
                    progress.say(f"{done} of {len(run)} commands")
                    yield step
    except EarlyEnd as why:
        raise Refused(str(why)) from None
    finally:
        progress.end()


def steps_at_once(some: list[Planned], ask: Ask, teller: Teller) -> Iterator[dict]:
    """The steps of some commands of a plan."""
    lines = [it for command, _, asked in some for it in (line_of(command), *map(str.encode, asked))]
    answers = iter(ask(lines))
    for command, reply, asked in some:
        if [it.removeprefix(" ") for it in next(answers)] != reply:
            raise Refused(
                f"line {command.number} is answered otherwise with reports before it: "
                "that is a fault of avsim, please tell"
            )
        teller.begin_step()
        teller.told.tell(command.line.split(" "), reply)
        yield teller.step(command, reply, [(it, "\n".join(next(answers))) for it in asked])


def window_of(wanted: tuple[int, int] | None, count: int) -> tuple[int, int]:
    """The steps that a page shows, from 1: those that are wanted, else the last ones."""
    first, last = wanted or (max(1, count - MOST_STEPS + 1), count)
    if first > max(count, 1):
        raise Refused(f"--steps begins at command {first}, and the run has {count}")
    last = min(last, count)
    if last - first + 1 > MOST_STEPS:
        raise Refused(f"--steps names more than {MOST_STEPS} commands")
    return first, last


def steps_of(run: Run, teller: Teller, first: int, last: int) -> tuple[list[list], list[dict]]:
    """The steps of a window, as far as there is room for, and the operations that lead to it."""
    base, steps, size = [], [], 0
    for at, step in enumerate(follow(run, teller), 1):
        if at == first - 1:
            base = teller.told.all_ops() + teller.names.all_ops(set(teller.told.tables))
        if at < first:
            continue
        steps.append(step)
        size += 200 + sum(map(len, step["r"])) + sum(len(str(it)) for it in step["o"])
        if at == last or size > MOST_BYTES:
            break
    return base, steps


def data_of(
    title: str, frames: int, run: Run, wanted: tuple[int, int] | None, illegal: int = 0
) -> dict:
    """What the page shows, as it stands in it. `illegal` is the number of the reply that isn't
    legal in a transcript that was judged; 0 for none.
    """
    first, last = window_of(wanted, len(run))
    teller = Teller()
    base, steps = steps_of(run, teller, first, last)
    said, last = [run.said], first + len(steps) - 1
    if first <= illegal <= last:
        steps[illegal - first]["i"] = 1
    if len(steps) < len(run):
        said.append(
            f"the page has commands {first} to {last} of {len(run)}: "
            "--steps FROM-TO names others"
        )
    said.append(said_of_accesses(making.head_of(run.commands), run.has_note("put"), frames))
    said += teller.said()
    return {
        "title": title,
        "frames": frames,
        "most": teller.most,
        "first": first,
        "total": len(run),
        "said": "; ".join(it for it in said if it),
        "base": base,
        "steps": steps,
    }
