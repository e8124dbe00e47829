"""Unit tests of tools/."""
import io
import os
import random
import tempfile
import unittest

from shared.saying import Refused, count_of, lines_of, printable

import chains
import swapfile
from calls import Mapped, address_of, kind_of, protection_of
from faults import most_common, read_faults, with_chains
from frames import Frames, TooMany
from grain import coarse
from labels import caller_of, is_label, mapping_of, process_of
from lackey import names_of, number_of
from looking import IN_SWAP_CACHE, MAPPED, Cut
from marks import Marks
from memory import Command
from payers import folded, payers_of, rows_of
from peak import Peak
from proc import Area
from ranges import Ranges, up
from shift import SPLIT, TOP, NotAsked, Shift
from spaces import Space, runs_of
from strace import Reader, time_of
from shapes import command_of, shapes_of
from sums import Told, sums_of
from telling import holes_of
from transcript import MARK, answer_of, forms, note_of, replies_of, row_of

PAGE = 4096


def written(text: str) -> str:
    """The name of a file with this text, in the test's folder."""
    with tempfile.NamedTemporaryFile("w", dir=".", delete=False, encoding="ascii") as it:
        it.write(text)
    return it.name


class InFolder(unittest.TestCase):
    """Tests in a folder of their own."""

    def setUp(self) -> None:
        room = tempfile.TemporaryDirectory()
        self.addCleanup(room.cleanup)
        self.addCleanup(os.chdir, os.getcwd())
        os.chdir(room.name)


class Labels(unittest.TestCase):
    """Comments that name something."""

    def test_processes_and_mappings(self) -> None:
        comment = "process 6: redis-cli (thread 7, a child of 1)"
        self.assertEqual(process_of(comment), (6, "redis-cli"))
        self.assertEqual(process_of("process 6: a (b)"), (6, "a"))
        self.assertEqual(mapping_of("mapping: libc.so.6"), "libc.so.6")
        self.assertEqual((caller_of("by: main;f"), is_label("by: main")), ("main;f", True))
        for it in ("process 6 has two pages", "a mapping: x", "", "process 6:", "x by: y"):
            self.assertFalse(is_label(it))


class Lackey(unittest.TestCase):
    """The words of calls, as valgrind prints them."""

    def test_numbers_and_flags(self) -> None:
        self.assertEqual([number_of(it) for it in ("0x10", "12", "0x9(/lib)", "?")], [16, 12, 9, 0])
        self.assertEqual(names_of(3, {1: "A", 2: "B", 4: "C"}), "A|B")


class Transcript(unittest.TestCase):
    """Replies in fields."""

    def test_each_note_of_the_reference_has_its_fields(self) -> None:
        self.assertEqual(forms()["map"], ["process", "address", "frame"])
        self.assertEqual(forms()["load"], ["slot", "frame"])
        self.assertEqual(forms()["keep"], ["frame", "cause"])
        self.assertEqual(note_of("age 3"), {"what": "age", "frame": 3})
        self.assertEqual(note_of("move 7 2"), {"what": "move", "frame": 7, "to": 2})
        self.assertIsNone(note_of("age"))
        self.assertIsNone(note_of("1 20000"))

    def test_rows_and_answers(self) -> None:
        row = row_of("20000-21000 rw- off=20 own=- chain=0,1 locked")
        wanted = {"start": "20000", "end": "21000", "prot": "rw-", "off": "20", "own": "-"}
        self.assertEqual(row, wanted | {"chain": "0,1", "flags": ["locked"]})
        self.assertEqual(row_of("1 20000"), {"process": 1, "address": "20000"})
        answer = answer_of("oom 1 pinned=1 noslot=0 fault=0 41")
        wanted = {"what": "oom", "at": 1, "bytes": "41", "pinned": 1, "noslot": 0, "fault": 0}
        self.assertEqual(answer, wanted)

    def test_a_transcript_is_cut_into_replies(self) -> None:
        for text in (b"ok\n new 1 2 3\ndata 00\n", b"ok\n new 1 2 3\ndata 00"):
            for size in (1, 2, 3, 100):
                found = list(replies_of(Slowly(text, size)))
                self.assertEqual(found, [f"ok{MARK}new 1 2 3", "data 00"])
        found = list(replies_of(Slowly(b"\n\n x\n\xff\n", 2)))
        self.assertEqual(found, ["", f"{MARK}x", r"\xff"])


class Slowly(io.BytesIO):
    """A file that gives a few bytes at a time."""

    def __init__(self, text: bytes, size: int):
        super().__init__(text)
        self.size_given = size

    def read1(self, _: int = -1) -> bytes:
        return super().read1(self.size_given)


class Saying(InFolder):
    """How the tools say what is wrong."""

    def test_a_line_is_shown_in_ascii_and_cut(self) -> None:
        self.assertEqual(printable("a\tb\x7f"), r"a\x09b\x7f")
        self.assertEqual(len(printable("x" * 200)), 89)

    def test_numbers_have_their_words(self) -> None:
        self.assertEqual([count_of(it, "call") for it in (1, 2)], ["1 call", "2 calls"])
        self.assertEqual(count_of(0, "entry", "entries"), "0 entries")

    def test_lines_end_with_a_newline(self) -> None:
        self.assertEqual(lines_of(written("a\n\nb\n")), ["a", "", "b"])
        with self.assertRaisesRegex(Refused, "line 2: it has no newline"):
            lines_of(written("a\nb"))
        with self.assertRaisesRegex(Refused, "is empty"):
            lines_of(written(""))


class RangesInOrder(unittest.TestCase):
    """Ranges of addresses."""

    def setUp(self) -> None:
        self.ranges = Ranges()
        self.ranges.put(10, 20, "a")
        self.ranges.put(30, 40, "b")

    def shown(self) -> list[tuple[int, int, str]]:
        return [(it.start, it.end, it.of) for it in self.ranges]

    def test_a_range_takes_the_place_of_what_is_there(self) -> None:
        self.ranges.put(15, 35, "c")
        self.assertEqual(self.shown(), [(10, 15, "a"), (15, 35, "c"), (35, 40, "b")])

    def test_a_cut_within_leaves_both_sides(self) -> None:
        gone = self.ranges.cut(12, 14)
        self.assertEqual([(it.start, it.end) for it in gone], [(12, 14)])
        self.assertEqual(self.shown(), [(10, 12, "a"), (14, 20, "a"), (30, 40, "b")])

    def test_what_is_at_an_address(self) -> None:
        found = [self.ranges.at(it) for it in (9, 10, 19, 20, 39, 40)]
        self.assertEqual(found, [None, "a", "a", None, "b", None])

    def test_holes_and_parts(self) -> None:
        self.assertEqual(self.ranges.holes(5, 45), [(5, 10), (20, 30), (40, 45)])
        self.assertEqual([(it.start, it.end) for it in self.ranges.within(15, 32)],
                         [(15, 20), (30, 32)])

    def test_lengths_are_rounded_up(self) -> None:
        self.assertEqual([up(it) for it in (0, 1, PAGE, PAGE + 1)], [0, PAGE, PAGE, 2 * PAGE])


class Spaces(unittest.TestCase):
    """The memory of a process, as calls made it."""

    def test_the_first_time_of_an_address_stays(self) -> None:
        space = Space(1, "execve")
        space.map(0, PAGE, Mapped("rw-", "anonymous"), 5)
        space.map(0, 2 * PAGE, Mapped("r--", "anonymous"), 9)
        self.assertEqual([space.births.at(it) for it in (0, PAGE)], [5, 9])

    def test_who_mapped_the_rest(self) -> None:
        space = Space(1, "execve")
        space.map(0, PAGE, Mapped("rw-", "anonymous"), 0)
        self.assertEqual([space.missing(0, it) for it in (1, PAGE, PAGE + 1)], ["", "", "execve"])

    def test_ranges_that_adjoin_are_one(self) -> None:
        ranges = Ranges()
        for start in (0, 10, 30):
            ranges.put(start, start + 10, start)
        self.assertEqual(runs_of(list(ranges)), [(0, 20), (30, 40)])


class Calls(unittest.TestCase):
    """The words of calls."""

    def test_protections(self) -> None:
        for text, wanted in (("PROT_NONE", "---"), ("PROT_READ|PROT_EXEC", "r-x")):
            self.assertEqual(protection_of(text), wanted)
        with self.assertRaises(ValueError):
            protection_of("PROT_MAGIC")

    def test_kinds(self) -> None:
        private = ["MAP_PRIVATE", "MAP_ANONYMOUS"]
        self.assertEqual(kind_of(private, "-1"), "anonymous")
        self.assertEqual(kind_of(private[:1], "3"), "file")
        self.assertEqual(kind_of(["MAP_SHARED"], "3"), "shared")
        with self.assertRaises(ValueError):
            kind_of(private[:1], "-1")

    def test_addresses(self) -> None:
        self.assertEqual([address_of(it) for it in (None, "NULL", "0x10")], [0, 0, 16])


class Strace(InFolder):
    """Logs of strace."""

    def test_times(self) -> None:
        self.assertEqual(time_of("1.5"), 1_500_000_000)
        self.assertEqual(time_of("01:00:00.000001"), 3_600_000_001_000)
        self.assertEqual(time_of(None), -1)

    def test_a_call_in_two_lines(self) -> None:
        log = "1 brk(NULL <unfinished ...>\n2 brk(NULL) = 0x7\n1 <... brk resumed>) = 0x5\n"
        steps = Reader(written(log)).steps()
        self.assertEqual([it.kind for it in steps], ["begins", "call", "call"])
        self.assertEqual(str(steps[2].call), "brk(NULL) = 0x5")

    def test_midnight(self) -> None:
        log = "1 23:59:59 brk(NULL) = 0x1\n1 00:00:01 brk(NULL) = 0x1\n"
        first, second = Reader(written(log)).steps()
        self.assertEqual(second.time - first.time, 2 * 10**9)

    def test_what_is_no_line(self) -> None:
        for log, why in (
            ("[pid 7] brk(NULL) = 0x1\n", "record the log with -o"),
            ("brk(NULL)\n", "line 1: it is no line of strace"),
            ("1 brk(NULL <unfinished ...>\n1 brk(NULL) = 0x1\n", "lines are missing"),
        ):
            with self.assertRaisesRegex(Refused, why):
                Reader(written(log)).steps()


class Faults(InFolder):
    """Page faults, as perf prints them."""

    def test_forms(self) -> None:
        told = "a 7/8 1.5: exceptions:page_fault_user: address=0x20000 ip=0x1 error_code=0x6\n"
        plain = "8 2.5: page-faults: 30000\n"
        first, second = read_faults(written(told + plain))
        self.assertEqual((first.thread, first.address, first.is_write), (8, 0x20000, True))
        self.assertEqual((second.thread, second.address, second.is_write), (8, 0x30000, None))

    def test_a_file_that_was_cut(self) -> None:
        with self.assertRaisesRegex(Refused, "so it was cut"):
            read_faults(written("# faults, as perf script prints them\n1 2.5: page-faults: 1\n"))

    def test_what_most_spans_have(self) -> None:
        self.assertEqual(most_common([(0, 10), (5, 20), (7, 9), (30, 40)]), (7, 9))


class Shifts(unittest.TestCase):
    """Where addresses of a trace are on a kernel."""

    def test_there_and_back(self) -> None:
        shift = Shift(TOP - (1 << 28))
        for at in (0, 0x10000, TOP - PAGE, TOP - 1):
            self.assertEqual(shift.here(shift.there(at)), at)

    def test_ranges_end_as_asked(self) -> None:
        """A range has the same pages there, and ends above TOP or at 2^64 where it did."""
        shift, pick = Shift(TOP - (1 << 28)), random.Random(1)
        for _ in range(2000):
            at = pick.choice([0x20000, TOP, TOP]) - pick.randint(1, 3) * PAGE
            at += pick.choice([0, 0, 1, PAGE - 1])
            end = pick.choice([TOP, 2**47, 2**63, 2**64]) + pick.choice([-PAGE, -1, 0, 1, PAGE])
            length = pick.choice([pick.randint(0, 3 * PAGE), (end - at) % 2**64])
            start, there = shift.range_there(at, length)
            last, last_there = up(at + length), up(start + there)
            self.assertEqual(shift.base < last_there, TOP < last)
            self.assertEqual(2**64 <= last_there, 2**64 <= last)
            self.assertLess(there, 2**64)
            if last <= TOP:
                self.assertEqual(shift.end_here(last_there), last)
            if last == 2**64:
                self.assertEqual(last_there, last)

    def test_the_gap_has_no_place(self) -> None:
        shift = Shift(TOP - PAGE)
        self.assertTrue(shift.crosses(SPLIT - PAGE, 2 * PAGE))
        self.assertFalse(shift.crosses(SPLIT - PAGE, PAGE))
        with self.assertRaises(NotAsked):
            shift.there(SPLIT)

    def test_a_kernel_that_lays_too_low(self) -> None:
        with self.assertRaises(Refused):
            Shift(SPLIT)


class SeenFrames:
    """What a kernel would show of frames: those that the swap cache has, and those that others map.
    """

    def __init__(self) -> None:
        self.cached: set[int] = set()
        self.others: set[int] = set()

    def flags(self, frame: int) -> int:
        flags = IN_SWAP_CACHE if frame in self.cached else 0
        return flags | (MAPPED if frame in self.others else 0)


class Notes(unittest.TestCase):
    """The notes that entries before and after a command come to."""

    def setUp(self) -> None:
        self.looker = SeenFrames()
        self.frames = Frames(self.looker, 3)
        self.told("spawn 1", {"1": {}})

    def told(self, line: str, after: dict[str, dict[int, int]], reply: str = "ok") -> list[str]:
        return self.frames.take(line.split(" "), reply, after)

    def test_what_comes_and_is_copied(self) -> None:
        self.assertEqual(self.told("read 1 20000 1", {"1": {0x20000: 0}}), ["zero 1 20000"])
        self.assertEqual(self.told("write 1 20000 01", {"1": {0x20000: 77}}), ["new 1 20000 0"])
        self.assertEqual(self.told("fork 1 2", {"1": {0x20000: 77}, "2": {0x20000: 77}}), [])
        after = {"1": {0x20000: 77}, "2": {0x20000: 88}}
        self.assertEqual(self.told("write 2 20000 01", after), ["copy 2 20000 1"])
        self.assertEqual(self.frames.walk(77), [("1", 0x20000)])

    def test_a_frame_that_moves_keeps_its_number(self) -> None:
        self.told("write 1 20000 01", {"1": {0x20000: 77}})
        self.assertEqual(self.told("read 1 50000 1", {"1": {0x20000: 78}}), [])
        self.assertEqual(self.frames.numbers, {78: 0})
        # (the page of the line itself doesn't move unseen)
        self.assertEqual(self.told("read 1 20000 1", {"1": {0x20000: 79}}), ["copy 1 20000 1"])

    def test_entries_move_with_their_pages(self) -> None:
        self.told("write 1 20000 01", {"1": {0x20000: 77}})
        line = "mremap 1 20000 4096 4096 fixed 30000"
        self.assertEqual(self.told(line, {"1": {0x30000: 77}}, "map 30000"), [])

    def test_a_frame_in_use_is_no_new_one(self) -> None:
        self.told("write 1 20000 01", {"1": {0x20000: 77}})
        after = {"1": {0x20000: 77, 0x21000: 77}}
        self.assertEqual(self.told("write 1 21000 01", after), ["new 1 21000 0"])

    def test_more_frames_than_there_are(self) -> None:
        with self.assertRaises(TooMany):
            entries = {0x20000 + PAGE * it: 70 + it for it in range(4)}
            self.told("mlock 1 20000 16384", {"1": entries})

    def test_a_page_comes_from_swap(self) -> None:
        self.told("write 1 20000 01", {"1": {0x20000: 77}})
        self.frames.now, slot = {"1": {0x20000: -(5 << 5) - 1}}, -(5 << 5) - 1
        self.frames.prune()
        self.looker.cached = {78}
        notes = self.told("read 1 20000 1", {"1": {0x20000: 78}})
        self.assertEqual(notes, ["load 0:5 0", "map 1 20000 0"])
        self.assertEqual(self.frames.cached, {slot: 78})
        self.looker.cached = set()
        self.assertEqual(self.told("write 1 20000 02", {"1": {0x20000: 78}}), ["drop 0:5"])

    def test_a_free_frame_may_be_in_the_cache_for_others(self) -> None:
        self.told("write 1 20000 01", {"1": {0x20000: 77}})
        self.frames.now, slot = {"1": {0x20000: -(5 << 5) - 1}}, -(5 << 5) - 1
        self.frames.cached, self.looker.cached = {slot: 77}, {77}
        self.assertEqual(self.frames.lost_slots({"1": {}}), set())
        self.looker.others = {77}
        self.assertEqual(self.told("munmap 1 20000 4096", {"1": {}}), ["drop 0:5"])

    def test_what_the_cache_gave_up_is_read_again(self) -> None:
        slot = -(5 << 5) - 1
        for several, cached, notes in (
            (False, {88}, ["map 1 20000 0"]),
            (False, set(), ["map 1 20000 0", "drop 0:5"]),
            (True, {88}, ["map 1 20000 0"]),
            (True, set(), ["map 1 20000 0", "copy 1 20000 1"]),
        ):
            self.setUp()
            self.told("write 1 20000 01", {"1": {0x20000: 77}})
            others = {"2": {0x20000: slot}} if several else {}
            self.frames.now = {"1": {0x20000: slot}, **others}
            self.frames.cached, self.looker.cached = {slot: 77}, cached
            given = self.told("write 1 20000 02", {"1": {0x20000: 88}, **others})
            self.assertEqual(given, notes)

    def test_what_changes_by_itself_has_no_note(self) -> None:
        self.told("write 1 20000 01", {"1": {0x20000: 77}})
        self.frames.look_again({"1": {0x20000: 78}})
        self.assertEqual(self.frames.numbers, {78: 0})
        self.frames.look_again({"1": {0x21000: 79}})
        self.assertEqual(self.frames.numbers, {79: 1})
        with self.assertRaises(Cut):
            self.frames.look_again({"1": {0x21000: -(5 << 5) - 1}})

    def test_a_frame_that_the_cache_gave_up_may_be_a_new_one(self) -> None:
        self.told("write 1 20000 01", {"1": {0x20000: 77}})
        slot = -(5 << 5) - 1
        self.frames.now, self.frames.cached = {"1": {0x20000: slot}}, {slot: 77}
        after = {"1": {0x20000: slot, 0x21000: 77}}
        self.assertEqual(self.told("write 1 21000 01", after), ["new 1 21000 1"])
        self.assertEqual(sorted(self.frames.numbers.values()), [0, 1])

    def test_a_page_that_others_have_in_swap_is_copied(self) -> None:
        slot = -(5 << 5) - 1
        self.frames.now = {"1": {0x20000: slot}, "2": {0x20000: slot}}
        after = {"1": {0x20000: 78}, "2": {0x20000: slot}}
        notes = self.told("write 1 20000 01", after)
        self.assertEqual(notes, ["load 0:5 0", "map 1 20000 0", "copy 1 20000 1"])

    def test_holes_between_areas(self) -> None:
        areas = [Area(0x10000, 0x20000, "rw-", False, ""), Area(0x30000, TOP, "r--", False, "")]
        self.assertEqual(list(holes_of(areas)), [(0x20000, 0x30000)])
        self.assertEqual(list(holes_of([])), [(0x10000, TOP)])


class SwapFiles(InFolder):
    """Swap files, and the machine that a comment asks for."""

    def test_a_comment_is_read_back(self) -> None:
        machine = swapfile.Machine("4", [(16, [3, 5, 6, 7]), (2, [])])
        text = swapfile.comment_for(machine)
        self.assertEqual(text, "# Run it with 4 frames and a swap file of 16 pages, of which 3 "
                         "and 5 to 7 are bad, and one of 2 pages.")
        self.assertEqual(swapfile.asked_by(text), [machine])

    def test_a_file_is_made_and_told_of(self) -> None:
        swapfile.make("it", 8, [3])
        self.assertEqual(os.path.getsize("it"), 8 * PAGE)
        self.assertEqual(swapfile.told_of("it"), (8, [3]))
        self.assertEqual(swapfile.told_of("none"), (0, []))

    def test_another_file_stays(self) -> None:
        with self.assertRaises(swapfile.Unfit):
            swapfile.make(written("text"), 8)


def steps_of(pairs: list[tuple[str, str]]) -> list[tuple[int, int, str, str]]:
    """Commands, each with its reply in one line."""
    return [(at, at, line, reply.replace(" / ", MARK)) for at, (line, reply) in enumerate(pairs, 1)]


def told_of(pairs: list[tuple[str, str]]) -> list[Told]:
    """The same as what is told."""
    replies = [it[3] for it in steps_of(pairs)]
    commands = [command_of(line) for line, _ in pairs]
    return list(zip(commands, replies, shapes_of("\n".join(replies))))


class Shaped(unittest.TestCase):
    """What replies have in common but for numbers."""

    def test_replies_of_one_shape_differ_in_numbers_alone(self) -> None:
        notes = ("new 1 20000 0", "new 17 7fffabcdd000 35", "zero 1 a000")
        found = shapes_of("\n".join(f"ok{MARK}{it}" for it in notes))
        self.assertIs(found[0], found[1])
        self.assertEqual([it.names for it in found[1:]], [["new"], ["zero"]])
        self.assertEqual([it.is_even for it in found], [True] * 3)

    def test_what_is_no_note_is_of_no_even_shape(self) -> None:
        for line in ("p4ut 1 0:1", "0drop 0:1", "age0 1", "loa0d 0:1 1", "put dead 0:1", "new 1 2",
                     "new 1 20000 x", "new a 20000 1", "map 1 2000g 1", "glow 7", "keep 1 Locked",
                     "20000-21000 rw-", ""):
            self.assertEqual([it.is_even for it in shapes_of(f"ok{MARK}{line}")], [False], line)
        for line in ("put 1 0:1", "keep 3 locked", "1 abcdef000", "move 3 0", "load 10:20 4"):
            self.assertEqual([it.is_even for it in shapes_of(f"ok{MARK}{line}")], [True], line)

    def test_answers(self) -> None:
        for reply, wanted in (("ok", "100"), ("o5k", "000"), ("err EIO", "010"),
                              ("e5rr EIO", "000"), ("oom 1 pinned=0", "001"),
                              ("oo1m 1 pinned=0", "000")):
            shape = shapes_of(f"ok\n{reply}")[1]
            found = shape.is_ok, shape.is_refused, shape.is_out_of_memory
            self.assertEqual("".join(str(int(it)) for it in found), wanted, reply)


class Summed(unittest.TestCase):
    """What a run sums up to."""

    def test_frames_that_merges_give_back(self) -> None:
        lines = [("spawn 1", "ok"), ("mmap 1 12288 rw-", "map 20000")]
        lines += [(f"write 1 {at}000 01", f"ok / new 1 {at}000 {frame}")
                  for frame, at in enumerate((20, 21, 22))]
        lines += [("fork 1 2", "ok"), ("merge", "ok / share 0 / join 1 21000 0 / join 1 22000 0"),
                  ("exit 2", "ok"), ("merge", "ok"),
                  ("write 1 21000 02", "ok / copy 1 21000 1"), ("compact", "ok")]
        sums = sums_of(told_of(lines))
        self.assertEqual((sums["all"].saved, "-" in sums), (0, False))
        self.assertEqual((sums["1"].frames, sums["2"].frames, sums["all"].frames), (3, 3, 3))
        lines = [it for it in lines if it[0] not in ("fork 1 2", "exit 2")]
        sums = sums_of(told_of(lines))
        self.assertEqual((sums["all"].saved, sums["-"].saved), (2, 2))

    def test_a_frame_that_moves_is_one(self) -> None:
        lines = [("spawn 1", "ok"), ("mmap 1 8192 rw-", "map 20000"),
                 ("write 1 20000 01", "ok / new 1 20000 0"),
                 ("write 1 21000 02", "ok / new 1 21000 1"),
                 ("munmap 1 20000 4096", "ok"), ("compact", "ok / move 1 0"),
                 ("write 1 21000 03", "ok"), ("munmap 1 21000 4096", "ok"),
                 ("mmap 1 4096 rw-", "map 21000"), ("write 1 21000 01", "ok / new 1 21000 0")]
        self.assertEqual(sums_of(told_of(lines))["all"].frames, 2)

    def test_a_write_that_finds_its_frame_alone_is_a_fault(self) -> None:
        lines = [("spawn 1", "ok"), ("mmap 1 8192 rw-", "map 20000"),
                 ("write 1 20fff 0102", "ok / new 1 20000 0 / new 1 21000 1"),
                 ("madvise 1 21000 4096 dontfork", "ok"), ("fork 1 2", "ok"), ("exit 2", "ok"),
                 ("write 1 21000 01", "ok"), ("write 1 20fff 0102", "ok"),
                 ("write 1 20000 01", "ok")]
        one = sums_of(told_of(lines))["1"]
        self.assertEqual((one.accesses, one.faults, one.reused), (4, 2, 1))
        lines[-3:] = [("mlock 1 20000 8192", "ok"), ("write 1 20fff 0102", "ok")]
        one = sums_of(told_of(lines))["1"]
        self.assertEqual((one.accesses, one.faults, one.reused), (2, 1, 1))


class Paid(unittest.TestCase):
    """Who pays."""

    COMMANDS = [("swapon 0", "on 7 0"), ("spawn 1", "ok"),
                ("mmap 1 8192 rw-", "map 20000"), ("mmap 1 4096 rw-", "map 30000"),
                ("write 1 20000 01", "ok / new 1 20000 0"),
                ("write 1 30000 01", "ok / new 1 30000 1"), ("fork 1 2", "ok"),
                ("write 2 20000 01", "ok / copy 2 20000 2"), ("write 1 20000 01", "ok"),
                ("compact", "ok / move 2 3"),
                ("reclaim 1", "ok / put 3 0:1 / unmap 3 / start 0:1"),
                ("complete 1", "ok / done 0:1 / drop 0:1"),
                ("mremap 2 20000 4096 4096 fixed 50000", "map 50000"),
                ("read 2 50000 1", "data 01 / load 0:1 2 / map 2 50000 2"),
                ("read 2 51000 1", "oom 0 / load 0:2 3")]
    ABOVE = {2: "# mapping: heap", 4: "# by: main;f", 7: "# by: main;g", 13: "# by: main;h;f"}

    def paid(self, by: str) -> dict:
        lines = (f"{self.ABOVE.get(at, '#')}\n{it[0]}" for at, it in enumerate(self.COMMANDS))
        return payers_of(steps_of(self.COMMANDS), "\n".join(lines), by, False)

    def test_by_mapping(self) -> None:
        rows = rows_of(self.paid("mapping"))
        wanted = {"heap": [0, 1, 1, 1, 1, 1], "30000-31000": [0, 1, 0, 0, 0, 0],
                  "-": [0, 0, 0, 0, 1, 0]}
        self.assertEqual({it: [*row.values()] for it, row in rows.items()}, wanted)

    def test_by_caller(self) -> None:
        paid = self.paid("caller")
        rows = rows_of(paid)
        self.assertEqual([*rows["f"].values()], [0, 1, 0, 0, 1, 0])
        self.assertEqual([*rows["g"].values()], [0, 0, 1, 0, 0, 1])
        found = folded(paid, "new", {"1": "prog"})
        self.assertEqual(found, ["prog;- 1", "prog;main;f 1"])


class Chained(unittest.TestCase):
    """Call chains."""

    def test_functions(self) -> None:
        for line, wanted in (
            ("\t  1139 main+0x10 (/srv/a)", "main"), ("\t  1139 std::f(int; x) (/srv/a b)",
             "std::f(int: x)"), ("\t  7f11 [unknown] (/lib/libc.so.6)", "[libc.so.6]"),
            ("\t  7f11 [unknown] ([unknown])", ""), (" > /bin/a(main+0x1f) [0x1]", "main"),
            (" > /bin/a() [0x1]", "[a]"), (" > unexpected_backtracing_error [0x1]", ""),
        ):
            self.assertEqual(chains.function_of(line), wanted)
        lines = [f"\t {it} f{it} (a)" for it in range(99)]
        self.assertEqual(chains.joined(lines).split(";")[:1], [f"f{chains.MOST - 1}"])

    def test_lines_go_with_the_fault_above(self) -> None:
        lines = ["# x", "a", "\t 1 f (b)", "", "\t 2 g (b)", "c"]
        self.assertEqual([*with_chains(lines)], [(2, "a", [lines[2], lines[4]]), (6, "c", [])])


class Coarse(unittest.TestCase):
    """A trace at a coarser grain."""

    def coarse(self, *lines: str) -> list[str]:
        """The lines behind the first one, of pages of 16 KiB."""
        fine = [Command(it.removesuffix(" refused"), "segv 0" if " refused" in it else "ok", "", "")
                for it in ("spawn 1", *lines)]
        return [it.line for it in coarse(fine, 4)][1:]

    def test_neighbours_share_a_page(self) -> None:
        found = self.coarse("mmap 1 4096 r-- fixed 20000", "mmap 1 8192 -w- fixed 21000",
                            "write 1 21010 01", "munmap 1 20000 4096", "munmap 1 21000 8192")
        self.assertEqual(found, ["mmap 1 4096 r-- fixed 8000", "mprotect 1 8000 4096 rw-",
                                 "write 1 8404 01", "mprotect 1 8000 4096 -w-",
                                 "munmap 1 8000 4096"])

    def test_a_page_is_another_where_all_of_it_is_mapped_anew(self) -> None:
        first = "mmap 1 32768 rw- fixed 20000"
        found = self.coarse(first, "mmap 1 16384 r-- fixed 22000", "mmap 1 24576 rw- fixed 22000")
        self.assertEqual(found, ["mmap 1 8192 rw- fixed 8000", "mmap 1 4096 rw- fixed 9000"])
        found = self.coarse(first, "madvise 1 22000 24576 dontneed", "mlock 1 21000 4096")
        self.assertEqual(found[1:], ["madvise 1 9000 4096 dontneed"])

    def test_what_moves_is_written_where_it_comes(self) -> None:
        found = self.coarse("mmap 1 32768 rw- fixed 20000", "write 1 25000 01",
                            "mremap 1 20000 32768 32768 fixed 41000", "write 1 0 01 refused")
        self.assertEqual(found[2:], ["munmap 1 8000 8192", "mmap 1 12288 rw- fixed 10000",
                                     "write 1 11400 01"])

    def test_a_child_has_no_page_that_is_kept_back(self) -> None:
        found = self.coarse("mmap 1 16384 rw- fixed 20000", "madvise 1 20000 8192 dontfork",
                            "madvise 1 22000 8192 dontfork", "fork 1 2", "exit 1")
        self.assertEqual(found[1:], ["fork 1 2", "munmap 2 8000 4096", "exit 1"])

    def test_random_ranges(self) -> None:
        pick, fine = random.Random(7), {}
        lines = ["spawn 1"]
        for _ in range(400):
            start, count = pick.randrange(64), pick.randrange(1, 24)
            prot = pick.choice(("r--", "rw-", "---", ""))
            fine |= {page: prot for page in range(start, start + count)}
            at, length = f"{start * PAGE:x}", count * PAGE
            mmap, munmap = f"mmap 1 {length} {prot} fixed {at}", f"munmap 1 {at} {length}"
            lines.append(mmap if prot else munmap)
        shown = {}
        for line in (it.line.split(" ") for it in coarse(
                [Command(it, "ok", "", "") for it in lines], 4)[1:]):
            first = int(line[-1] if line[0] == "mmap" else line[2], 16) // PAGE
            length = int(line[2] if line[0] == "mmap" else line[3])
            prot = {"mmap": line[3], "mprotect": line[-1], "munmap": ""}[line[0]]
            shown |= {page: prot for page in range(first, first + length // PAGE)}
        for page in range(22):
            its = [fine.get(it, "") for it in range(4 * page, 4 * page + 4)]
            wanted = "".join(max(it) for it in zip(*filter(None, its)))
            self.assertEqual(shown.get(page, ""), wanted)


class Marked(unittest.TestCase):
    """What calls say of pages."""

    def test_marks_go_with_their_pages(self) -> None:
        marks = Marks()
        marks.map(0, 4 * PAGE, "rw-")
        marks.protect(PAGE, 6 * PAGE, "r--")
        marks.advise(0, PAGE, "dontfork")
        marks.lock(PAGE, 2 * PAGE)
        marks.move(0, 2 * PAGE, 3 * PAGE, 8 * PAGE, stays=True)
        found = [marks.prots.at(it * PAGE) for it in (0, 1, 8, 9, 10, 11)]
        self.assertEqual(found, ["rw-", "r--", "rw-", "r--", "r--", None])
        self.assertEqual([marks.locked.at(it * PAGE) for it in (1, 8, 9, 10)],
                         [None, None, True, True])
        self.assertEqual([it.start for it in marks.kept_back()], [0, 8 * PAGE])
        self.assertIsNone(marks.for_child().prots.at(0))
        marks.advise(0, PAGE, "dofork")
        self.assertEqual([it.start for it in marks.kept_back()], [8 * PAGE])


class Peaks(unittest.TestCase):
    """How many frames a trace holds."""

    def test_a_fork_shares_and_a_write_copies(self) -> None:
        peak = Peak()
        for line in ("write 1 20000 01", "fork 1 2", "write 2 20000 02", "exit 1"):
            peak.take(line)
        self.assertEqual((len(peak.names), peak.most), (1, 2))


if __name__ == "__main__":
    unittest.main()
