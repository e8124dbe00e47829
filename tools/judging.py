"""Whether the running kernel is legal: its transcript of a trace, judged by `avsim audit`; and by
which row of docs/LINUX.md a reply isn't.

Such a line is left out, and the trace begun anew, until all is legal or no row explains a reply.
"""
import contextlib
import os
import re
import subprocess
import tempfile
from typing import Callable, Iterator, NamedTuple

from shared.saying import Refused

import making
from effects import Shown, row_for
from kernel import Kernel
from looking import Looker
from merging import Merging, can_merge, quiet
from ranges import PAGE
from rows import Row
from stubs import Mother
from swapping import Swapping, area
from telling import Telling, Told

ILLEGAL = 9
# how often a trace is begun anew at most, and how often for a reply that no row explains
MOST, TRIES = 200, 3
PKEY_ALLOC = 330


class Finding(NamedTuple):
    """A reply that isn't legal, beside the one that avsim gives there."""

    told: Told
    model: list[str]
    row: Row | None


class Verdict(NamedTuple):
    """What became of a trace: the last telling, what wasn't legal by the way, and the reply that no
    row explains; how often it was begun anew for one, or because a telling was cut short.
    """

    telling: Telling
    left_out: list[Finding]
    illegal: Finding | None
    again: int


def lines_of(trace: str) -> list[tuple[int, list[str]]]:
    """The lines of a trace that are commands, by their numbers."""
    return [(it.number, it.line.split(" ")) for it in making.commands_of(trace)]


def files_of(told: list[Told]) -> tuple[str, str]:
    """What was told, as a trace and a transcript."""
    return "".join(it.trace() for it in told), "".join(it.text() for it in told)


class Judge:
    """Judges traces by a program, on a machine with so many frames. Where it `has_swap`, a swap
    file is on while a trace with `reclaim` is done. `shapes` has a hand in each telling before it
    begins.
    """

    def __init__(self, mother: Mother, program: str, frames: str, has_swap: bool):
        self.mother, self.program, self.has_swap = mother, program, has_swap
        # the words of the machine behind `avsim audit`
        self.words = [frames]
        self.looker = Looker(mother.zero) if mother.zero else None
        self.shapes: Callable[[Telling], None] = lambda _: None
        # (with all keys taken, no page can be executed alone)
        while mother.call(PKEY_ALLOC, 0, 0) > 0:
            pass

    def close(self) -> None:
        if self.looker:
            self.looker.close()

    # ---- one try

    def tell(self, lines: list[tuple[int, list[str]]]) -> Telling:
        """What the kernel does."""
        with contextlib.closing(Kernel(self.mother)) as kernel:
            telling = Telling(kernel, self.looker, int(self.words[0]))
            telling.merging = Merging() if can_merge() else None
            if self.words[1:]:
                telling.swapping = Swapping()
                telling.add(*Swapping.begin(), True)
            self.shapes(telling)
            telling.take_all(lines)
        return telling if self.looker else self.with_notes(telling)

    def with_notes(self, telling: Telling) -> Telling:
        """Where frames aren't shown, the notes are avsim's own."""
        told = telling.told
        for at, reply in enumerate(self.model_of(told)):
            if not told[at].reply[0].startswith(("runs", "areas")):
                told[at] = told[at]._replace(reply=[told[at].reply[0], *reply[1:]])
        return telling

    def model_of(self, told: list[Told]) -> list[list[str]]:
        """avsim's own replies to what was told. (They may end early, at a line of no use.)"""
        lines = [making.Command(it.line, "", " ".join(it.words)) for it in told]
        words = self.words[:1]
        if self.words[1:]:
            with copy_of_header(self.words[1]) as file:
                return making.Run(self.program, [*words, file], lines).replies
        return making.Run(self.program, words, lines).replies

    def first_illegal(self, told: list[Told]) -> int:
        """The place of the first reply that isn't legal; -1 where all are."""
        try:
            ran = subprocess.run(
                [self.program, "audit", *self.words],
                input="%%\n".join(files_of(told)),
                capture_output=True,
                text=True,
                check=False,
            )
        except OSError as error:
            raise making.cannot_run(self.program, error) from None
        found = re.search(r"reply (\d+): not legal", ran.stderr)
        if ran.returncode == ILLEGAL and found:
            return int(found[1]) - 1
        if ran.returncode:
            raise Refused(f"avsim audit ended with status {ran.returncode}: {ran.stderr.strip()}")
        return -1

    # ---- a trace

    def judge(self, trace: str) -> Verdict:
        lines = lines_of(trace)
        names = {words[0] for _, words in lines}
        with contextlib.ExitStack() as stack:
            if "merge" in names and self.looker and can_merge():
                stack.enter_context(quiet())
            if "reclaim" in names and self.looker and self.has_swap:
                self.words.append(stack.enter_context(area()))
                stack.callback(self.words.pop)
            return self.judge_lines(lines)

    def judge_lines(self, lines: list[tuple[int, list[str]]]) -> Verdict:
        left_out, again = [], 0
        for _ in range(MOST):
            telling = self.tell(lines)
            finding = self.finding(telling)
            if finding and finding.row:
                left_out.append(finding)
                lines = [it for it in lines if it[0] != finding.told.line]
                continue
            # (what a machine of so few frames can't hold it can't hold the next time)
            if not finding and (telling.is_unsure or not telling.cut):
                return Verdict(telling, left_out, None, again)
            again += 1
            if again == TRIES:
                return Verdict(telling, left_out, finding, again - 1)
        raise Refused(f"the trace was begun anew {MOST} times")

    def finding(self, telling: Telling) -> Finding | None:
        """The first reply that isn't legal, with its row. (One whose notes are wanting is taken
        back where no row explains it.)
        """
        at = self.first_illegal(telling.told)
        if at < 0:
            return None
        found = self.finding_at(telling, at)
        if not found.row and telling.is_unsure and at == len(telling.told) - 1:
            telling.told.pop()
            return None
        return found

    def finding_at(self, telling: Telling, at: int) -> Finding:
        """A reply that isn't legal, with its row."""
        told = telling.told[: at + 1]
        model = self.model_of(told)
        main = next(i for i in range(at, -1, -1) if not told[i].is_added or i == 0)
        shown = Shown(told[at], told[main], model[at], model[main])
        return Finding(told[at], model[at], row_for(telling, shown))


@contextlib.contextmanager
def copy_of_header(file: str) -> Iterator[str]:
    """A swap file with the header of one that is on, for a run to write to."""
    with tempfile.NamedTemporaryFile() as to, open(file, "rb") as it:
        to.write(it.read(PAGE))
        to.truncate(os.fstat(it.fileno()).st_size)
        to.flush()
        yield to.name
