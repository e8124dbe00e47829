"""Kinds of changes of a transcript, for `.ci/mutated`: each makes of a transcript another, at a
place that is drawn, or leaves it where there is no such place.

Most make it wrong. Some may well leave it legal: numbers that no definition gives, ranges that are
cut elsewhere, frames and slots that take each other's place, a write that ends in the other way.
"""
import random
import re
from typing import Callable

from common import replies_of

Pick = random.Random
Kind = Callable[[Pick, str], str]
# what comes in place of a text, and what of a list whose item at this place changes
Change = Callable[[Pick, str], str]
ListChange = Callable[[Pick, list[str], int], list[str]]

NOTES = "new copy map zero load put start done fail drop unmap keep age share join move".split()
REASONS = "referenced started writeback writing noslot locked ksm".split()
ANSWERS = ["ok", "segv 0", "bus 0", "none", "empty", "zero", "oom 0 pinned=1 noslot=0 fault=0"]
ANSWERS += [f"err {it}" for it in "EINVAL ENOMEM EFAULT ESRCH EEXIST EIO EPERM EBUSY".split()]
PROTS = [r + w + x for r in "r-" for w in "w-" for x in "x-"]
MARKS = ["", " dontfork", " wipeonfork", " locked", " mergeable", " locked mergeable", " ksm"]
CHAINS = ["-", "0", "1", "7", "0,1", "3,5", "1,0", "1,1", "00", "", "2f"]
CHAINS += [f"{2**64 - 1}", f"{2**64}"]
# where the number of a frame stands, a slot, a note, and the ranges of a reply
FRAME = r"^(?: (?:new|copy|map|join) \S+ \S+| load \S+| (?:put|unmap|keep|age|share|move)"
FRAME += r"| move \d+|frame|slot .* cached) (\d+)\b"
SLOT = r"\b(\d:\d+)\b"
NOTE = r"^ [a-z]+ .*\n"
RANGES = r"^(?:areas|runs) \d+\n(?: \w+-\w+ .*\n)+"


def at_one(pattern: str, change: Change) -> Kind:
    """Changes one place where a pattern stands, or its group if it has one."""
    form = re.compile(pattern, re.M)

    def changed(pick: Pick, text: str) -> str:
        places = list(form.finditer(text))
        if not places:
            return text
        start, end = pick.choice(places).span(form.groups)
        return text[:start] + change(pick, text[start:end]) + text[end:]

    return changed


def one_of(them: list[str]) -> Change:
    """Another one of them."""
    return lambda pick, it: pick.choice([other for other in them if other != it])


def near(pick: Pick, it: str) -> str:
    """Another number, most often one close by."""
    some = [int(it) + 1, max(int(it) - 1, 0), pick.randrange(9), 0, 2**32, 2**64 - 1, 2**64]
    return str(pick.choices(some, (6, 6, 3, 2, 1, 1, 1))[0])


def one_digit(pick: Pick, it: str) -> str:
    """One digit of a number in hexadecimal is another."""
    at = pick.randrange(len(it))
    return it[:at] + pick.choice("0123456789abcdef".replace(it[at], "")) + it[at + 1 :]


def in_list(cut: Callable[[str], list[str]], change: ListChange) -> Kind:
    """Changes the list of lines, or that of replies, at one of them."""

    def changed(pick: Pick, text: str) -> str:
        them = cut(text)
        return "".join(change(pick, them, pick.randrange(len(them)))) if them else text

    return changed


def in_ranges(change: ListChange) -> Kind:
    """Changes the ranges of one reply, and most often their count."""

    def changed(pick: Pick, text: str) -> str:
        head, *rows = text.splitlines(True)
        rows = change(pick, rows, pick.randrange(len(rows)))
        head = f"{head.split()[0]} {len(rows)}\n" if pick.random() < 0.9 else head
        return head + "".join(rows)

    return at_one(RANGES, changed)


def elsewhere(pick: Pick, them: list[str], at: int) -> list[str]:
    rest = them[:at] + them[at + 1 :]
    to = pick.randint(0, len(rest))
    return [*rest[:to], them[at], *rest[to:]]


def cut_in_two(pick: Pick, them: list[str], at: int) -> list[str]:
    start, end, rest = re.fullmatch(r" (\w+)-(\w+)( .*\n)", them[at]).groups()
    middle = f"{pick.randint(int(start, 16), int(end, 16)) & ~0xFFF:x}"
    return [*them[:at], f" {start}-{middle}{rest}", f" {middle}-{end}{rest}", *them[at + 1 :]]


def made_one(_pick: Pick, them: list[str], at: int) -> list[str]:
    one = re.sub(r"-\w+ .*\n \w+-", "-", "".join(them[at : at + 2]))
    return [*them[:at], one, *them[at + 2 :]]


def exchanged_from(pattern: str, starts: str, most: int) -> Kind:
    """From some note on two frames, or two slots of an area, are exchanged."""

    def changed(pick: Pick, text: str) -> str:
        places = list(re.finditer(starts, text, re.M))
        if not places:
            return text
        start = pick.choice(places)
        one = start[1]
        two = re.sub(r"\d+$", str(pick.randrange(most)), one)
        names = {one: two, two: one}
        new = lambda it: it[0][: it.start(1) - it.start()] + names.get(it[1], it[1])
        behind = re.sub(pattern, new, text[start.start() :], flags=re.M)
        return text[: start.start()] + behind

    return changed


LISTED: dict[str, ListChange] = {
    "left out": lambda pick, them, at: them[:at] + them[at + 1 :],
    "doubled": lambda pick, them, at: them[: at + 1] + them[at:],
    "exchanged with the next": lambda pick, them, at: [
        *them[:at],
        *them[at : at + 2][::-1],
        *them[at + 2 :],
    ],
    "elsewhere": elsewhere,
    "in place of another": lambda pick, them, at: [*them[:at], pick.choice(them), *them[at + 1 :]],
}
KINDS: dict[str, Kind] = {
    **{f"a line {it}": in_list(lambda of: of.splitlines(True), do) for it, do in LISTED.items()},
    **{f"a reply {it}": in_list(replies_of, do) for it, do in LISTED.items()},
    **{f"a range {it}": in_ranges(do) for it, do in LISTED.items()},
    "a range cut in two": in_ranges(cut_in_two),
    "two ranges made one": in_ranges(made_one),
    "a note left out": at_one(NOTE, lambda *_: ""),
    "a note doubled": at_one(NOTE, lambda _, it: it * 2),
    "a number": at_one(r"\b\d+\b", near),
    "an address": at_one(r"\b[0-9a-f]{5,16}\b", one_digit),
    "a byte of data": at_one(r"^data ([0-9a-f]+)$", one_digit),
    "a frame": at_one(FRAME, near),
    "a slot": at_one(r"\b\d:(\d+)\b", near),
    "the area of a slot": at_one(r"\b(\d):\d+\b", one_of(list("01234"))),
    "the name of a note": at_one(r"^ ([a-z]+) ", one_of(NOTES)),
    "how a write ends": at_one(r"^ (done|fail) ", one_of(["done", "fail"])),
    "why a frame stays": at_one(r"^ keep \d+ (\w+)$", one_of(REASONS)),
    "an answer": at_one(r"^[a-z].*$", one_of(ANSWERS)),
    "a number of an answer": at_one(r"^[a-z].*?\b(\d+)\b", near),
    "a number of stat": at_one(r"=(\d+)\b", near),
    "seen or old": at_one(r"\b(seen|old)\b", one_of(["seen", "old"])),
    "a protection": at_one(r"(?<= )[r-][w-][x-](?=[ \n])", one_of(PROTS)),
    "marks": at_one(r"chain=[^ \n]+(.*)$", one_of(MARKS)),
    "what a row says of anon_vmas": at_one(r"(?:off|own|chain)=([^ \n]*)", one_of(CHAINS)),
    "two frames exchanged": exchanged_from(FRAME, r"^ (?:new|copy) \S+ \S+ (\d+)$", 6),
    "two slots exchanged": exchanged_from(SLOT, r"^ put \d+ (\d:\d+)$", 9),
    "a word left out": at_one(r" [^ \n]+", lambda *_: ""),
    "a word doubled": at_one(r" [^ \n]+", lambda _, it: it * 2),
    "a blank": at_one(" ", one_of(["", "  ", "\t", "\n"])),
    "the end of a line": at_one(r"\n", one_of(["", " \n", "\n\n", "\r\n", "\n "])),
    "a zero in front": at_one(r"\b\d", lambda _, it: f"0{it}"),
    "a byte": at_one(r"(?s:.)", one_of([chr(it) for it in range(256)])),
    "the end cut off": lambda pick, text: text[: -pick.randint(1, len(text) // 3 + 1)],
}
# what may well stay legal is drawn more often
OFTEN = ("a range cut in two", "two ranges made one", "what a row says of anon_vmas")
OFTEN += ("how a write ends", "two frames exchanged", "two slots exchanged")
WEIGHTS = [4 if it in OFTEN else 1 for it in KINDS]


def changed(pick: Pick, text: str) -> tuple[str, str]:
    """What the changes of a transcript were, one or two, and how they leave it."""
    names, new = [], text
    for _ in range(100):
        (name,) = pick.choices(list(KINDS), WEIGHTS)
        after = KINDS[name](pick, new)
        if after in (new, text):
            continue
        names, new = [*names, name], after
        if len(names) == 2 or pick.random() < 0.75:
            break
    return ", ".join(names) or "none", new
