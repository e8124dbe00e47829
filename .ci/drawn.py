"""What a page of view/run draws, and whether it is what the program answers.

`Drawn` does by itself what a page does with the operations in it (view/told.py says what they
are); `compare` holds each step of a page against `areas`, `entry`, `rmap`, `slot` and `stat`.
`random_trace` makes the traces for that.

Called as `.ci/drawn.py PROGRAM COUNT [GENERATOR..]` it compares the pages of COUNT random traces,
with swap where the program has it. They are its own or, where a command is named that makes one,
called with a seed and a number of lines, that command's. Its first line then says `frames=N` and,
where there are swap files, `swaps=PAGES,PAGES` or, with bad pages, as `swaps=16b3+5-7,8`.
"""
import json
import os
import random
import re
import subprocess
import sys
import tempfile
from typing import Iterable, Iterator

from common import ROOT, replies_of, run, swapfile

# pages of an area that are compared at most
MOST_PAGES = 24
# steps of a page at which the order of the lists is compared, about
LIST_PLACES = 12


class Drawn:
    """The state that a page draws after some of its steps."""

    def __init__(self):
        self.tables, self.dim, self.rows = {}, set(), {}
        self.cached, self.counts, self.flight, self.listed = {}, {}, {}, {}
        self.areas_on, self.merged = {}, set()
        self.stat, self.lists = "", True
        # the slots of an area that the last operations turned off, with what was said of them
        self.off = {}

    def apply(self, ops: list[list]) -> None:
        self.off.clear()
        for name, *of in ops:
            getattr(self, f"op_{name}")(*of)

    def op_p(self, process: int) -> None:
        self.tables[process], self.rows[process] = {}, {}
        self.dim.discard(process)

    def op_x(self, process: int) -> None:
        del self.tables[process], self.rows[process]

    def op_f(self, process: int, child: int) -> None:
        self.op_p(child)
        self.tables[child] = {
            page: it.replace("F", "f") for page, it in self.tables[process].items()
        }
        if process in self.dim:
            self.dim.add(child)

    def op_n(self, process: int, name: str) -> None:
        """(Names are no answers of the program.)"""

    def op_b(self, process: int, page: int, count: int, name: str) -> None:
        """(Nor are these.)"""

    def op_e(self, process: int, page: int, code: str) -> None:
        self.tables[process][page] = code

    def op_d(self, process: int, first: int, count: int) -> None:
        table = self.tables[process]
        for page in [it for it in table if first <= it < first + count]:
            del table[page]

    def op_m(self, process: int, first: int, to: int, count: int) -> None:
        table = self.tables[process]
        for page in [it for it in table if first <= it < first + count]:
            table[page - first + to] = table.pop(page)

    def op_u(self, process: int) -> None:
        self.tables[process] = {}
        self.dim.add(process)

    def op_a(self, process: int, gone: list[int], new: list[str]) -> None:
        for start in gone:
            del self.rows[process][start]
        for row in new:
            self.rows[process][int(row.split("-")[0], 16) >> 12] = row

    def op_c(self, slot: str, frame: int) -> None:
        self.cached.pop(slot, None)
        if frame >= 0:
            self.cached[slot] = frame

    def op_k(self, slot: str, text: str) -> None:
        if text:
            self.counts[slot] = text
        else:
            self.off[slot] = self.counts.pop(slot, None)

    def op_l(self, frame: int, which: int, place: int) -> None:
        self.listed.pop(frame, None)
        if which:
            self.listed[frame] = which, place

    def op_w(self, slot: str, place: int) -> None:
        self.flight.pop(slot, None)
        if place:
            self.flight[slot] = place

    def op_g(self, frame: int, is_merged: int) -> None:
        (self.merged.add if is_merged else self.merged.remove)(frame)

    def op_v(self, frame: int, to: int) -> None:
        for table in self.tables.values():
            for page, code in table.items():
                if code in (f"f{frame}", f"F{frame}"):
                    table[page] = f"{code[0]}{to}"
        for slot in [it for it, cached in self.cached.items() if cached == frame]:
            self.cached[slot] = to
        if frame in self.listed:
            self.listed[to] = self.listed.pop(frame)
        if frame in self.merged:
            self.merged.remove(frame)
            self.merged.add(to)

    def off_in_use(self) -> list[str]:
        """The slots of areas that have just gone off, as far as something had named them."""
        return [it for it, text in self.off.items() if text != "count 0" and it not in self.counts]

    def op_o(self, is_known: int) -> None:
        self.lists = is_known

    def op_t(self, area: int, text: str) -> None:
        self.areas_on.pop(area, None)
        if text:
            self.areas_on[area] = text

    def slots_told(self) -> dict[int, tuple[int, str, int, bool]]:
        """Of each area that is on: its priority, its free slots and all of them (? where that
        isn't known), and whether it gives the next one.
        """
        words = r"priority (-?\d+), (\d+|\?) of (\d+) slots? free(, gives next)?"
        found = {area: re.fullmatch(words, text) for area, text in self.areas_on.items()}
        return {area: (int(it[1]), it[2], int(it[3]), bool(it[4])) for area, it in found.items()}

    def in_list(self, which: int) -> list[int]:
        """The frames of a list (1 inactive, 2 active), from the tail."""
        found = [it for it, (of, _) in self.listed.items() if of == which]
        return sorted(found, key=lambda it: self.listed[it][1])

    def in_flight(self) -> list[str]:
        return sorted(self.flight, key=lambda it: self.flight[it])

    def op_s(self, text: str) -> None:
        self.stat = text

    def entry(self, process: int, page: int) -> str:
        """What stands in the cell of a page, in the words of `entry`; `?` where it isn't known."""
        code = self.tables[process].get(page, "?" if process in self.dim else "-")
        if code[0] in "fF":
            slot = next((it for it, frame in self.cached.items() if frame == int(code[1:])), None)
            text = f"frame {code[1:]} {'seen' if code[0] == 'F' else 'old'}"
            text += f" cached {slot}" if slot else ""
            return text + " ksm" * (int(code[1:]) in self.merged)
        if code[0] == "s":
            cached = f" cached {self.cached[code[1:]]}" if code[1:] in self.cached else ""
            return f"slot {code[1:]}{cached}"
        return {"-": "empty", "z": "zero"}.get(code, "?")

    def areas(self, process: int) -> list[str]:
        return [row for _, row in sorted(self.rows[process].items())]

    def pages(self, process: int) -> Iterator[int]:
        """Pages of its areas: of a long area the first ones, and those that have a code."""
        for start, row in sorted(self.rows[process].items()):
            end = int(re.match(r"\w+-(\w+)", row)[1], 16) >> 12
            yield from range(start, min(end, start + MOST_PAGES))
            yield from sorted(
                it for it in self.tables[process] if start + MOST_PAGES <= it < end
            )

    def owners(self) -> dict[int, set[tuple[int, int]]]:
        """The pages that name each frame."""
        found = {}
        for process, table in self.tables.items():
            for page, code in table.items():
                if code[0] in "fF":
                    found.setdefault(int(code[1:]), set()).add((process, page))
        return found

    def answers(self) -> Iterator[tuple[str, str]]:
        """Reports, each with the answer that this state stands for."""
        for process in self.tables:
            rows = self.areas(process)
            yield f"areas {process}", "\n ".join([f"areas {len(rows)}", *rows])
            for page in self.pages(process):
                text = self.entry(process, page)
                if text != "?":
                    yield f"entry {process} {page << 12:x}", text
        for frame, owners in self.owners().items():
            process, page = min(owners)
            rows = [f" {it} {at << 12:x}" for it, at in sorted(owners)]
            yield (
                f"rmap {process} {page << 12:x}",
                "\n".join([f"frame {frame} maps {len(owners)}", *rows]),
            )
        for slot, text in self.counts.items():
            if text != "?":
                yield f"slot {slot.replace(':', ' ')}", f"slot {slot} {text}"
        yield "stat", f"stat {self.stat}"


def data_in(page: str) -> dict:
    data = re.search(r'<script type="application/json" id="data">(.*?)</script>', page)
    return json.loads(data[1])


def numbers_wrong(drawn: Drawn) -> dict[str, tuple[int, str]]:
    """Whether what is drawn adds up otherwise than `stat` says."""
    numbers = dict(it.split("=") for it in drawn.stat.split())
    in_use = set(drawn.owners()) | set(drawn.cached.values())
    told = {"procs": len(drawn.tables)}
    if not drawn.dim:
        told["free"] = int(numbers["frames"]) - len(in_use)
    areas = drawn.slots_told()
    told["slots"] = sum(slots for _, _, slots, _ in areas.values())
    if not drawn.dim:
        told["freeslots"] = sum(int(free) for _, free, _, _ in areas.values())
    if drawn.lists:
        told.update(active=len(drawn.in_list(2)), inactive=len(drawn.in_list(1)))
        told.update(flight=len(drawn.flight))
    return {key: (it, numbers[key]) for key, it in told.items() if int(numbers[key]) != it}


def slots_wrong(drawn: Drawn, step: dict) -> list[str]:
    """Whether the first slot that a step takes is of another area than the one that was drawn as
    that which gives next. (An area that is emptied gives none, and a slot that was dropped before
    may be of any.)
    """
    puts = [it.split(" ")[2] for it in step["r"] if it.startswith("put ")]
    before = "\n".join(step["r"]).split("\nput ")[0]
    if not puts or "\ndrop " in before or step["c"].startswith("swapoff") or drawn.dim:
        return []
    area = int(puts[0].split(":")[0])
    gives = [it for it, (_, _, _, is_next) in drawn.slots_told().items() if is_next]
    return [f"line {step['n']}: area {area} gives, drawn was {gives}"] * (gives != [area])


def compare(program: str, words: list[str], data: dict) -> tuple[list[str], int]:
    """What is wrong in the steps of a page: a list of texts; and how many answers were held
    against each other.
    """
    drawn, lines, wanted, wrong = Drawn(), [], [], []
    drawn.apply(data["base"])
    for step in data["steps"]:
        wrong += slots_wrong(drawn, step)
        drawn.apply(step["o"])
        lines.append(step["c"])
        wanted.append((step, step["c"], None))
        for line, answer in drawn.answers():
            lines.append(line)
            wanted.append((step, line, answer))
        wrong += [
            f"line {step['n']}, stat: {key}: drawn are {it[0]}, it says {it[1]}"
            for key, it in numbers_wrong(drawn).items()
        ]
    trace = "".join(f"{it}\n" for it in lines).encode()
    given = replies_of(run(program, ["run", *words], trace)[1])
    if len(given) != len(wanted):
        wrong.append(f"{len(given)} replies to {len(wanted)} lines")
    for (step, line, answer), reply in zip(wanted, given):
        if answer is not None and reply != f"{answer}\n":
            wrong.append(f"line {step['n']}, {step['c']}: {line}: drawn {answer!r}, is {reply!r}")
    found, count = compare_lists(program, words, data)
    return wrong + found, len(wanted) + count


def order_in(notes: list[str], frame_at: dict[str, int] | None) -> Iterator[int | str]:
    """The frames or slots in the order in which notes end their part: of `age 16384` and
    `complete 16384` all, of `reclaim 16384` the frames.
    """
    for note in notes:
        match note.split():
            case ["age" | "keep", frame, *_]:
                yield int(frame)
            case ["drop", slot] if frame_at is not None:
                yield frame_at[slot]
            case ["put", frame, slot] if frame_at is not None:
                frame_at[slot] = int(frame)
            case ["done" | "fail", slot]:
                yield slot


def compare_lists(program: str, words: list[str], data: dict) -> tuple[list[str], int]:
    """What is wrong in the order of the lists and of what is in flight, at some steps: commands
    that go through all of them show it.
    """
    drawn, lines, wrong, count = Drawn(), [], [], 0
    drawn.apply(data["base"])
    if data["first"] > 1 or not any(it["c"].startswith("swapon") for it in data["steps"]):
        return [], 0
    every = max(len(data["steps"]) // LIST_PLACES, 1)
    for at, step in enumerate(data["steps"], 1):
        drawn.apply(step["o"])
        lines.append(step["c"])
        if at % every or not drawn.lists:
            continue
        for line, wanted in (
            ("reclaim 16384", drawn.in_list(1)),
            ("age 16384", drawn.in_list(2)),
            ("complete 16384", drawn.in_flight()),
        ):
            trace = "".join(f"{it}\n" for it in [*lines, line]).encode()
            reply = replies_of(run(program, ["run", *words], trace)[1])[-1]
            frame_at = dict(drawn.cached) if line[0] == "r" else None
            given = list(order_in(reply.split("\n")[1:-1], frame_at))
            count += 1
            if given != wanted:
                wrong.append(f"line {step['n']}, {step['c']}: {line}: {wanted} drawn, is {given}")
    return wrong, count


ADVICE = ["dontneed"] * 3 + ["dontfork", "dofork", "wipeonfork", "keeponfork"]
ADVICE += ["mergeable", "unmergeable"]


def random_lines(pick: random.Random, live: set[int]) -> Iterator[str]:
    """A few lines to choose from, for processes that live, as far as one knows."""
    p = pick.choice(sorted(live)) if pick.random() < 0.95 else pick.randint(1, 5)
    n, k = pick.randint(1, 3), pick.randint(1, 4)
    at, length = 0x20000 + 4096 * pick.randint(0, 12), 4096 * n
    yield from [f"write {p} {at + 4095:x} 0304", f"read {p} {at + 4090:x} 8"] * 6
    yield from [f"fork {p} {pick.randint(1, 5)}"] * 3
    yield from [f"madvise {p} 20000 53248 mergeable", "merge", "merge", "compact"]
    yield from [
        f"mmap {p} {4 * length} rw- fixed {at:x}",
        f"mmap {p} {length} {pick.choice(['rw-', 'rw-', 'r--'])} at {at:x}",
        f"mmap {p} {length} rw-",
        f"munmap {p} {at:x} {length}",
        f"mprotect {p} {at:x} {length} {pick.choice(['rw-', 'rw-', 'r--'])}",
        f"mprotect {p} {at:x} {4 * length} {pick.choice(['rw-', 'rw-', 'r--'])}",
        f"mremap {p} {at:x} {length} {4096 * k} maymove",
        f"mremap {p} {at:x} {length} {4096 * k}",
        f"mremap {p} {at:x} {length} {4096 * k} fixed {at + 0x5000:x}",
        f"mremap {p} {at:x} {length} {length} dontunmap",
        f"mremap {p} {at:x} {length} {length} dontunmap {at - 0x4000:x}",
        f"madvise {p} {at:x} {length} {pick.choice(ADVICE)}",
        f"madvise {p} {at:x} {4 * length} {pick.choice(ADVICE)}",
        f"mlock {p} {at + pick.choice([0, 5]):x} {pick.choice([1, length])}",
        f"munlock {p} {at:x} {4 * length}",
        f"munlock {p} {at:x} {length}",
        f"rmap {p} {at:x}",
    ]
    if len(live) > 2 or pick.random() < 0.1:
        yield f"exit {p}"


def swapon_lines(pick: random.Random, swap: str, areas: int) -> Iterator[str]:
    """The lines that turn areas on, some of them with a priority, as far as the program has any."""
    for area in range(areas):
        priority = pick.choice(["", "", " prio 0", " prio 5", " prio 32767"])
        yield f"swapon {area}" + priority * ("prio" in swap)


def random_trace(seed: int, lines: int, swap: str = "", areas: int = 1) -> Iterator[str]:
    """A trace of commands, most of them good, of processes that share pages. `swap` are the
    commands of swap that may stand in it, over so many areas.
    """
    pick, live = random.Random(seed), {1}
    begin = ["spawn 1", "mmap 1 53248 rw- fixed 20000"]
    yield from [*swapon_lines(pick, swap, areas)] * bool(swap) + begin
    for _ in range(lines - len(begin)):
        line = pick.choice(list(random_lines(pick, live)))
        if swap and pick.random() < 0.4:
            n = pick.randint(1, 4)
            line = pick.choice([f"reclaim {n}", f"reclaim {n}", f"age {n}", f"complete {n}"])
            area = pick.randrange(areas)
            if pick.random() < 0.08:
                on = [*swapon_lines(pick, swap, areas)][area]
                line = pick.choice([on, on, f"slot {area} {n}"])
            if pick.random() < 0.04 and "swapoff" in swap:
                line = f"swapoff {area}"
        yield line
        name, *words = line.split(" ")
        if name == "fork" and int(words[0]) in live:
            live.add(int(words[1]))
        if name == "exit":
            live.discard(int(words[0]))
        if not live:
            yield from begin
            live.add(1)


def swap_of(program: str) -> str:
    """The commands of swap that a program has."""
    some = ("swapon 0", "swapon 0 prio 5", "swapoff 0", "reclaim 1", "age 1", "complete 1")
    some += ("slot 0 1",)
    has = [it for it in some if run(program, ["run", "1"], f"{it}\n".encode())[0] == 0]
    return " ".join(has) if "reclaim 1" in has else ""


def page_of(program: str, words: list[str], trace: Iterable[str]) -> str:
    """The page that view/run makes of a trace, or what it says instead."""
    with open("random.trace", "w", encoding="ascii") as it:
        it.writelines(f"{line}\n" for line in trace)
    ran = subprocess.run(
        [f"{ROOT}/view/run", "--program", program, "-o", "-", words[0], "random.trace", *words[1:]],
        stdout=subprocess.PIPE,
        stderr=subprocess.PIPE,
        timeout=300,
    )
    return ran.stdout.decode() or ran.stderr.decode()


def swaps_asked(text: str) -> list[tuple[int, list[int]]]:
    """The swap files that a generator names: of each its pages and the bad ones. (What else it may
    ask of a header isn't made.)
    """
    found = re.search(r"\bswaps=(\S+)", text)
    for word in found[1].split(",") if found else ():
        named = re.match(r"(\d+)(?:b([\d+-]+))?", word)
        ends = [it.split("-") for it in (named[2] or "").split("+") if it] if named else []
        bad = [page for it in ends for page in range(int(it[0]), int(it[-1]) + 1)]
        yield max(int(named[1]), 2) if named else 2, bad


def machine_of(program: str, seed: int, trace: list[str], areas: int) -> list[str]:
    """The words behind `run` for a random trace, or one of a generator."""
    pick = random.Random(seed)
    frames = re.search(r"frames=(\d+)", trace[0])
    words = [frames[1] if frames else str(pick.choice([2, 3, 4, 8, 16, 64]))]
    swaps = list(swaps_asked(trace[0]))
    if not frames and seed % 3 > 0 and swap_of(program):
        swaps = [(pick.choice([4, 8, 20]) // (1 + area), []) for area in range(areas)]
    for area, swap in enumerate(swaps):
        swapfile.make(f"random{area}.img", *swap)
        words.append(f"random{area}.img")
    return words


def compare_random(
    program: str, seed: int, lines: int, generator: list[str] | None = None
) -> tuple[list[str], int]:
    """What is wrong in the page of one random trace, and how many answers were compared."""
    areas = 1 + seed % 5 // 2
    if generator:
        made = subprocess.run(
            [*generator, str(seed), str(lines)], stdout=subprocess.PIPE, check=True
        ).stdout.decode()
        trace = made.splitlines()
    else:
        swap = swap_of(program) if seed % 3 > 0 else ""
        trace = list(random_trace(seed, lines, swap, areas))
    words = machine_of(program, seed, trace, areas)
    page = page_of(program, words, trace)
    if not page.startswith("<!DOCTYPE html>"):
        return [page], 0
    data = data_in(page)
    wrong, count = compare(program, words, data)
    # (a generator may know commands that this program doesn't: the page says where it ends)
    commands = [it for it in trace if it and not it.startswith("#")]
    if len(data["steps"]) < len(commands) and not data["said"]:
        wrong.append("the page ends early and doesn't say so")
    wrong += [
        f"line {step['n']}, {op}: something isn't known"
        for step in data["steps"]
        for op in step["o"]
        if op == ["o", 0] or op[0] == "u" or op[0] == "k" and op[2] == "?"
    ]
    return wrong + [data["said"]] * ("fault" in data["said"]), count


def main() -> None:
    program, count, *generator = sys.argv[1:]
    program, total, bad = os.path.abspath(program), 0, 0
    with tempfile.TemporaryDirectory() as room:
        os.chdir(room)
        for seed in range(int(count)):
            wrong, compared = compare_random(program, seed, 250, generator)
            total, bad = total + compared, bad + bool(wrong)
            if wrong:
                print(f"seed {seed}: {len(wrong)} wrong: {wrong[0]}")
        os.chdir(ROOT)
    print(f"{count} traces, {total} answers, {bad} traces with something wrong")
    sys.exit(bool(bad))


if __name__ == "__main__":
    main()
