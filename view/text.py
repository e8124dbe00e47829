"""Commands and replies side by side, for a terminal, and behind them what is told of swap."""
import itertools
import textwrap

import making
from labels import said_of_accesses
from told import ACTIVE, INACTIVE, Told

# frames or slots that a line names at most
MOST_NAMED = 16
NOT_LEGAL = "the reply of the transcript that was judged isn't legal"
# the first of these brings the lists to the reader's notice
OF_SWAP = ("swapon", "swapoff", "reclaim", "age", "complete")


def row_pairs(left: list[str], right: list[str]):
    for at in range(max(len(left), len(right))):
        yield (it[at] if at < len(it) else "" for it in (left, right))


def some_of(things, count: int, between: str = " ") -> str:
    """The first of some things, and how many more there are."""
    some = [str(it) for it in itertools.islice(things, MOST_NAMED)]
    more = f" and {count - len(some)} more" if count > len(some) else ""
    return (between.join(some) or "none") + more


def slots_of(told: Told) -> str:
    """The slots that an entry or the cache names, as `slot` tells of them: where they are many,
    those that the command has to do with.
    """
    place = lambda it: [int(number) for number in it.split(":")]
    few = len(told.used) <= MOST_NAMED
    chosen = sorted(told.used if few else told.touched & told.used, key=place)
    texts = [f"{it} {told.slot_text(it)}" for it in chosen]
    unknown = ["?"] if told.dim else []
    return some_of(texts + unknown, len(told.used) + len(unknown), ", ")


def swap_lines(told: Told) -> list[str]:
    """The lists (head first), what is in flight (the first to be completed first), and slots. Of
    several areas also the priority of each, and which one gives next.
    """
    lists = [told.lists[ACTIVE], told.lists[INACTIVE]]
    texts = [some_of(reversed(it), len(it)) for it in lists]
    texts.append(some_of(told.flight, len(told.flight)))
    active, inactive, flight = texts if told.lists_known else "???"
    return [
        f"# active: {active}; inactive: {inactive}",
        f"# in flight: {flight}",
        f"# slots: {slots_of(told)}",
        *area_lines(told),
    ]


def area_lines(told: Told) -> list[str]:
    """What is said of each area that is on, where it isn't the only one with the least priority."""
    areas = told.areas_on
    if len(areas) < 2 and all(it.priority < 0 for it in areas.values()):
        return []
    return [f"# area {number}: {told.area_text(number)}" for number in sorted(areas)]


def side_by_side(run: making.Run, width: int, illegal: int = 0):
    """Commands at the left, replies at the right, comments above them. Of a transcript that was
    judged, the number of the reply that isn't legal may be told.
    """
    column = min(max([len(it.line) for it in run.commands] + [8]), width // 2 - 3)
    shown, is_of_swap = swap_lines(Told()), False
    steps = zip(run.commands, run.replies, making.told_at(run))
    for number, (command, reply, (told, is_more)) in enumerate(steps, 1):
        for text in command.comment.split("\n") if command.comment else ():
            yield from textwrap.wrap(
                text, width - 2, initial_indent="# ", subsequent_indent="# "
            ) or [""]
        lines = [reply[0], *(f" {it}" for it in reply[1:])]
        lines += ["(what else it changed isn't known here)"] if told.lost else []
        lines += [f"# {NOT_LEGAL}"] * (number == illegal)
        is_first = not is_of_swap and command.line.split(" ")[0] in OF_SWAP
        is_of_swap = is_of_swap or is_first
        if is_first or is_of_swap and is_more:
            now = swap_lines(told)
            lines += [it for it in now if it not in shown]
            shown = now
        right = [
            row
            for line in lines
            for row in textwrap.wrap(
                line, width - column - 3, subsequent_indent="  ", drop_whitespace=False
            )
            or [""]
        ]
        for pair in row_pairs(textwrap.wrap(command.line, column, subsequent_indent="  "), right):
            yield "{:{column}} | {}".format(*pair, column=column).rstrip()
    said = said_of_accesses(making.head_of(run.commands), run.has_note("put"))
    yield from textwrap.wrap(said, width - 2, initial_indent="# ", subsequent_indent="# ")
    if run.said:
        yield f"avsim: {run.said.removeprefix('avsim: ')}"
