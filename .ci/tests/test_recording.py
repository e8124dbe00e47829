"""Unit tests of what tools/record does to see later accesses, and of processes that run already.
"""
import io
import os
import signal
import subprocess
import sys
import tempfile
import time
import unittest

from shared import ROOT
from shared.saying import Refused

from again import Notes, Page, Rounds, cut_joining, with_writes
from faults import AGAIN, HEAD, TAIL, too_few_below
from groups import Group, Roots, counts_of
from keeper import Keeper, began_at
from labels import AGAIN_ONES, FIRST_ONES, SAID_OF_FIRST_ONES, accesses_comment, said_of_accesses
from proc import THERE
from ranges import Ranges
from start import Kind, Line, Making, Process, changes, runs_of_pages, times_of, write_down

PAGE = 4096
WRITABLE = Kind("rw-", False, False, "")


def text_of(file: str) -> str:
    with open(file, encoding="ascii") as it:
        return it.read()


def put(file: str, text: str) -> str:
    os.makedirs(os.path.dirname(file) or ".", exist_ok=True)
    with open(file, "w", encoding="ascii") as it:
        it.write(text)
    return file


class InRoom(unittest.TestCase):
    """Tests with a folder of their own."""

    def setUp(self) -> None:
        room = tempfile.TemporaryDirectory()
        self.addCleanup(room.cleanup)
        self.room = room.name


# as a program: tells what is to be undone, and waits
KEEPS = """
import signal, sys, time
sys.path.insert(0, sys.argv[1])
import shared
# (a shell that starts the tests in the background has control-C ignored)
signal.signal(signal.SIGINT, signal.default_int_handler)
from keeper import Keeper
with Keeper() as keeper:
    for at, it in enumerate(sys.argv[2:]):
        keeper.tell("write", it, f"{at}")
    print("told", flush=True)
    time.sleep(60)
"""


class Kept(InRoom):
    """What a tool did is undone, however it ends."""

    def test_the_last_is_undone_first(self) -> None:
        file = put(f"{self.room}/a", "before")
        with Keeper() as keeper:
            keeper.tell("write", file, "first told")
            keeper.tell("write", file, "last told")
            keeper.tell("remove", f"{self.room}/none")
            self.assertEqual(text_of(file), "before")
        self.assertEqual(text_of(file), "first told")

    def test_a_folder_goes_when_it_is_empty(self) -> None:
        os.mkdir(f"{self.room}/in")
        with Keeper() as keeper:
            keeper.tell("rmdir", f"{self.room}/in")
            keeper.tell("remove", put(f"{self.room}/in/a", ""))
        self.assertEqual(os.listdir(self.room), [])

    def ended_by(self, number: signal.Signals) -> None:
        """A tool that gets a signal."""
        file = put(f"{self.room}/{number}", "before")
        words = [sys.executable, "-c", KEEPS, f"{ROOT}/tools", file]
        with subprocess.Popen(words, stdout=subprocess.PIPE, stderr=subprocess.DEVNULL) as ran:
            self.assertEqual(ran.stdout.readline(), b"told\n")
            ran.send_signal(number)
            # (the process beside has this end of the pipe, too)
            self.assertEqual(ran.stdout.read(), b"")
        self.assertEqual(text_of(file), "0")

    def test_signals(self) -> None:
        for it in (signal.SIGINT, signal.SIGTERM, signal.SIGHUP, signal.SIGKILL):
            self.ended_by(it)

    def test_a_stopped_process_goes_on(self) -> None:
        with subprocess.Popen(["sleep", "60"]) as ran:
            with Keeper() as keeper:
                keeper.tell("continue", f"{ran.pid}", began_at(ran.pid))
                ran.send_signal(signal.SIGSTOP)
                os.waitid(os.P_PID, ran.pid, os.WSTOPPED)
            os.waitid(os.P_PID, ran.pid, os.WCONTINUED)
            with Keeper() as keeper:
                keeper.tell("continue", f"{ran.pid}", "of another process")
            ran.kill()
        self.assertEqual(began_at(ran.pid), "")


SECOND = "cgroup2 {0}/two cgroup2 rw 0 0\n"
FIRST = "cgroup {0}/memory cgroup rw,memory 0 0\ncgroup {0}/freezer cgroup rw,freezer 0 0\n"


class Told(Keeper):
    """Keeps what it is told, and undoes nothing."""

    def __init__(self) -> None:
        self.told: list[tuple[str, ...]] = []

    def tell(self, deed: str, *words: str) -> None:
        self.told.append((deed, *words))


class Cgroups(InRoom):
    """Where cgroups are, and what is written there."""

    def group(self, mounts: str, controllers: str = "") -> tuple[Group, list[tuple[str, ...]]]:
        """A group in a tree that is played, and what is to be undone."""
        put(f"{self.room}/mounts", mounts.format(self.room))
        for it in ("two", "memory", "freezer"):
            os.makedirs(f"{self.room}/{it}", exist_ok=True)
        put(f"{self.room}/two/cgroup.controllers", f"{controllers}\n")
        put(f"{self.room}/two/cgroup.subtree_control", "\n")
        keeper = Told()
        return Group(keeper, f"{self.room}/mounts"), keeper.told

    def test_the_first_version(self) -> None:
        group, told = self.group(FIRST)
        name = f"avsim-{os.getpid()}"
        places = [f"{self.room}/freezer/{name}", f"{self.room}/memory/{name}"]
        self.assertEqual(told[:2], [("leave", it) for it in places])
        self.assertEqual(told[2], ("write", f"{places[0]}/freezer.state", "THAWED"))
        put(f"{group.memory}/memory.stat", "cache 4096\nrss 8192\nswap 12288\n")
        put(f"{group.memory}/memory.kmem.usage_in_bytes", "4096\n")
        put(f"{group.memory}/memory.oom_control", "oom_kill_disable 0\noom_kill 3\n")
        found = group.anonymous_pages(), group.swapped_pages(), group.kernel_pages()
        self.assertEqual((*found, group.killed()), (2, 3, 1, 3))
        group.limit(10)
        group.prefer_anonymous()
        group.send_out()
        group.freeze()
        texts = (f"{places[1]}/memory.limit_in_bytes", f"{places[1]}/memory.swappiness")
        self.assertEqual([*map(text_of, texts)], ["40960", "200"])
        self.assertEqual(text_of(f"{places[1]}/memory.force_empty"), "0")
        self.assertTrue(group.is_frozen())
        group.thaw()
        self.assertEqual(text_of(f"{places[0]}/freezer.state"), "THAWED")

    def test_the_second_version(self) -> None:
        group, told = self.group(SECOND, "cpu memory")
        place = f"{self.room}/two/avsim-{os.getpid()}"
        wanted = [("leave", place), ("write", f"{place}/cgroup.freeze", "0")]
        self.assertEqual(told, wanted)
        self.assertEqual(text_of(f"{self.room}/two/cgroup.subtree_control"), "+memory")
        put(f"{place}/memory.stat", "anon 8192\nkernel 4096\npswpin 3\n")
        put(f"{place}/memory.swap.current", "12288\n")
        put(f"{place}/memory.current", "16384\n")
        put(f"{place}/memory.events", "oom 4\noom_kill 3\n")
        put(f"{place}/cgroup.events", "populated 1\nfrozen 1\n")
        found = group.anonymous_pages(), group.swapped_pages(), group.kernel_pages()
        self.assertEqual((*found, group.killed()), (2, 3, 1, 3))
        self.assertTrue(group.freeze())
        group.send_out()
        self.assertEqual(text_of(f"{place}/memory.reclaim"), "16384 swappiness=200")
        group.limit(10)
        self.assertEqual(text_of(f"{place}/memory.max"), "40960")

    def test_both_versions(self) -> None:
        put(f"{self.room}/two/cgroup.controllers", "cpu\n")
        roots = Roots((SECOND + FIRST).format(self.room))
        self.assertEqual(roots.memory(), (f"{self.room}/memory", False))
        self.assertEqual(roots.freezer(), (f"{self.room}/two", True))

    def test_none(self) -> None:
        for name in ("memory", "freezer"):
            with self.assertRaises(Refused):
                getattr(Roots("proc /proc proc rw 0 0\n"), name)()

    def test_counts(self) -> None:
        file = put(f"{self.room}/stat", "anon 5\npswpin 7\nworkingset_refault_anon 0\n")
        wanted = {"anon": 5, "pswpin": 7, "workingset_refault_anon": 0}
        self.assertEqual(counts_of(file), wanted)


def fault(process: int, time: str, page: int, code: str = "0x4") -> str:
    return (
        f"prog {process}/{process} {time}: exceptions:page_fault_user: "
        f"address={page * PAGE + 8:#x} ip=0x1 error_code={code}"
    )


class LaterAccesses(InRoom):
    """What rounds tell."""

    def test_reads_before_a_change_are_writes(self) -> None:
        lines = [fault(1, "1.0", 5), fault(1, "2.0", 6), fault(1, "4.0", 5), "no fault"]
        written = [(3 * 10**9, Page(1, 5)), (5 * 10**9, Page(1, 6)), (5 * 10**9, Page(2, 5))]
        found = with_writes(lines, iter(written))
        codes = [it.rpartition("=")[2] for it in found]
        self.assertEqual(codes, ["0x6", "0x6", "0x4", "no fault"])

    def test_a_write_stays_one(self) -> None:
        lines = [fault(1, "1.0", 5, "0x7")]
        self.assertEqual(with_writes(lines, iter([(2 * 10**9, Page(1, 5))])), lines)

    def test_notes(self) -> None:
        notes = Notes(f"{self.room}/rounds")
        block = lambda *entries: memoryview(bytearray(8 * len(entries))).cast("Q")
        for pid, entries in ((7, (THERE | 40, 0, 1 << 62)), (8, (THERE | 41, THERE | 40))):
            if pid == 7:
                notes.begin()
            of = block(*entries)
            for at, it in enumerate(entries):
                of[at] = it
            notes.add(pid, 100, of)
        self.assertTrue(notes.is_shared)
        (_, none), (began, found) = notes.rounds()
        notes.close()
        self.assertEqual(none, {})
        self.assertEqual(found, {40: [Page(7, 100), Page(8, 101)], 41: [Page(8, 100)]})
        self.assertLessEqual(began, time.monotonic_ns())

    def test_numbers_of_frames_that_are_too_low(self) -> None:
        rounds = Rounds.__new__(Rounds)
        for pages, counts, wanted in (
            (1000, [], 2000),
            (1000, [1040] * 9 + [5000], 10000),
            (1000, [1040] * 19 + [5000], 2100),
            (50, [51, 52, 53], 106),
        ):
            rounds.pages, rounds.counts = pages, counts
            self.assertEqual(rounds.too_low_below(), wanted)

    def test_what_joins_is_cut(self) -> None:
        joins = '7 1.0 execve("/tmp/avsim-join", ["avsim-join"], 0x1) = 0\n7 1.1 brk(NULL) = 0x1\n'
        tries = '7 1.2 execve("/bin/a", ["a"], 0x1) = -1 ENOENT (No such file or directory)\n'
        rest = '7 1.3 execve("/usr/bin/a", ["a"], 0x1) = 0\n7 1.4 brk(NULL) = 0x2\n'
        for before, after in ((joins + tries + rest, rest), (joins + tries, ""), (rest, rest)):
            cut_joining(put(f"{self.room}/log", before))
            self.assertEqual(text_of(f"{self.room}/log"), after)

    def test_heads(self) -> None:
        lines = [HEAD, f"{AGAIN}2100", fault(1, "1.0", 5), TAIL, ""]
        self.assertEqual(too_few_below(put(f"{self.room}/a", "\n".join(lines))), 2100)
        del lines[1]
        self.assertEqual(too_few_below(put(f"{self.room}/b", "\n".join(lines))), 0)

    def test_what_is_said(self) -> None:
        comment = accesses_comment(True, 2100)
        self.assertEqual(comment, AGAIN_ONES.format(2100))
        head = ["a trace", comment]
        self.assertEqual(said_of_accesses(head, True, 2100), "")
        for frames in (2099, 0):
            said = said_of_accesses(head, True, frames)
            self.assertIn("below 2100 are told too low", said)
        self.assertEqual(said_of_accesses(head, False, 5), "")
        self.assertEqual(said_of_accesses([FIRST_ONES], True, 9999), SAID_OF_FIRST_ONES)
        self.assertEqual((accesses_comment(False, 0), said_of_accesses([], True)), ("", ""))


def areas(*rows: tuple[int, int, Kind]) -> Ranges:
    """Areas by their pages."""
    found = Ranges()
    for first, past, kind in rows:
        found.put(first * PAGE, past * PAGE, kind)
    return found


def texts(lines: list[Line]) -> list[str]:
    """Lines with the numbers of pages."""
    access = lambda it: f"{'write' if it.is_write else 'read'} {it.page}"
    return [f"{it.thread} {it.text or access(it)}" for it in lines]


class Beginnings(unittest.TestCase):
    """What processes have becomes calls and accesses."""

    def test_one(self) -> None:
        heap, text = Kind("rw-", False, False, "[heap]"), Kind("r--", False, True, "/bin/a")
        shared = Kind("rw-", True, False, "/dev/zero (deleted)")
        of = areas((1, 2, text), (3, 5, heap), (6, 7, shared))
        making = Making(9)
        making.root(Process(4, [4, 5], "/bin/a", of, {1: 30, 3: 9, 4: 31}))
        flags = "CLONE_VM|CLONE_FS|CLONE_FILES|CLONE_SIGHAND|CLONE_THREAD"
        private, write = "MAP_PRIVATE|MAP_FIXED", "PROT_READ|PROT_WRITE"
        wanted = [
            '4 execve("/bin/a", [..], 0x0 /* 0 vars */) = 0',
            f"4 mmap(0x1000, 4096, {write}, {private}, 3</bin/a>, 0) = 0x1000",
            f"4 mmap(0x3000, 8192, {write}, {private}|MAP_ANONYMOUS, -1, 0) = 0x3000",
            "4 brk(NULL) = 0x5000",
            f"4 mmap(0x6000, 4096, {write}, MAP_SHARED|MAP_FIXED|MAP_ANONYMOUS, -1, 0) = 0x6000",
            f"4 clone3({{flags={flags}}}, 88) = 5",
            *("4 write 4", "4 read 3", "4 write 1"),
            "4 mprotect(0x1000, 4096, PROT_READ) = 0",
        ]
        self.assertEqual(texts(making.lines), wanted)

    def test_a_child(self) -> None:
        """It shares page 1, has a copy of 2, none of 3 and one of its own, 4."""
        of = areas((1, 5, WRITABLE))
        child = Process(8, [8], "a", areas((1, 5, WRITABLE)), {1: 20, 2: 33, 4: 34})
        parent = Process(7, [7], "a", of, {1: 20, 2: 21, 3: 22}, [child])
        making = Making(0)
        making.root(parent)
        found = texts(making.lines)[2:]
        wanted = ["7 write 1", "7 fork() = 8", "8 write 4", "8 write 2", "7 write 3", "7 write 2"]
        self.assertEqual(found, wanted)

    def test_a_page_that_one_child_let_go(self) -> None:
        one = Process(8, [8], "a", areas((1, 3, WRITABLE)), {1: 20, 2: 21})
        two = Process(9, [9], "a", areas((1, 3, WRITABLE)), {1: 20})
        making = Making(0)
        making.root(Process(7, [7], "a", areas((1, 3, WRITABLE)), {1: 20, 2: 21}, [one, two]))
        wanted = ["7 write 2", "7 write 1", "7 fork() = 8", "7 fork() = 9"]
        wanted.append("9 madvise(0x2000, 4096, MADV_DONTNEED) = 0")
        self.assertEqual(texts(making.lines)[2:], wanted)

    def test_changes(self) -> None:
        other = Kind("r--", False, False, "")
        before = areas((1, 4, WRITABLE), (6, 8, WRITABLE))
        after = areas((1, 2, WRITABLE), (2, 4, other), (6, 7, WRITABLE), (9, 10, WRITABLE))
        found = [(start // PAGE, end // PAGE, kind) for start, end, kind in changes(before, after)]
        self.assertEqual(found, [(2, 4, other), (7, 8, None), (9, 10, WRITABLE)])

    def test_runs(self) -> None:
        for pages, wanted in (([], []), ([1, 2, 4], [(1, 2), (4, 1)]), ([7], [(7, 1)])):
            self.assertEqual(list(runs_of_pages(pages)), wanted)

    def test_times(self) -> None:
        lines = [Line(1, "a() = 0"), Line(1, page=5), Line(1, page=6), Line(1, "b() = 0")]
        self.assertEqual(list(times_of(lines, 1000)), [929, 939, 940, 970])
        log, faults = io.StringIO(), io.StringIO()
        write_down(lines[:2], log, faults, (5_000_000, 2_000_000), "prog")
        self.assertEqual(log.getvalue(), "1 4.999960 a() = 0\n")
        self.assertTrue(faults.getvalue().startswith("prog 1/1 1.999970: exceptions:page_fault"))


if __name__ == "__main__":
    unittest.main()
