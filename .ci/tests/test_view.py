"""Unit tests of view/."""
import types
import unittest

import making
import sizes
from names import Names
from told import Told, code_of, frame_of
from text import side_by_side, some_of


def told_of(*pairs: tuple[str, str]) -> Told:
    """What commands, each with its reply in one line, tell."""
    told = Told()
    for command, reply in pairs:
        told.tell(command.split(" "), reply.split(" / "))
    return told


class Marks(unittest.TestCase):
    """The axes of a picture."""

    def test_marks_are_1_2_or_5_by_tens(self) -> None:
        found = [sizes.step_of(it) for it in (1, 8, 9, 17, 41, 80, 765, 16384)]
        self.assertEqual(found, [1, 1, 2, 5, 10, 10, 100, 5000])

    def test_names_stand_beside_their_lines(self) -> None:
        for ends, wanted in (
            ([50.0, 200.0, 300.0], [50.0, 200.0, 300.0]),
            ([300.0, 340.0, 340.0], [300.0, 324.0, 340.0]),
            ([340.0, 340.0, 340.0], [308.0, 324.0, 340.0]),
            ([330.0, 335.0, 340.0], [308.0, 324.0, 340.0]),
            ([335.0, 330.0, 340.0], [324.0, 308.0, 340.0]),
        ):
            self.assertEqual(sizes.beside(ends), wanted)


class Named(unittest.TestCase):
    """Names of processes and mappings."""

    def test_names_go_with_their_pages(self) -> None:
        names, found = Names(), []
        for comment, line, reply in (
            ("process 1: one", "spawn 1", "ok"),
            ("mapping: a", "mmap 1 8192 rw-", "map 20000"),
            ("", "mremap 1 20000 8192 4096 fixed 50000", "map 50000"),
            ("", "munmap 1 20000 8192", "ok"),
            ("", "munmap 1 50000 4096", "err EINVAL"),
            ("", "fork 1 2", "ok"),
            ("", "mmap 2 4096 rw- fixed 50000", "map 50000"),
        ):
            found.append(names.take(comment, line.split(" "), [reply]))
        wanted = [[["n", 1, "one"]], [["b", 1, 32, 2, "a"]]]
        wanted += [[["b", 1, 32, 2, ""], ["b", 1, 80, 1, "a"]], [], [], [], [["b", 2, 80, 1, ""]]]
        self.assertEqual(found, wanted)
        wanted = [["n", 1, "one"], ["n", 2, "one"], ["b", 1, 80, 1, "a"]]
        self.assertEqual(names.all_ops({1, 2}), wanted)
        self.assertEqual(names.all_ops({2}), [["n", 2, "one"]])


class Entries(unittest.TestCase):
    """What is told of entries."""

    def test_codes(self) -> None:
        replies = "frame 7 seen", "frame 7 old", "slot 0:3", "zero", "empty", "err EFAULT"
        self.assertEqual([code_of(it) for it in replies], ["F7", "f7", "s0:3", "z", "-", ""])
        self.assertEqual([frame_of(it) for it in ("F7", "f12", "s0:3", "z")], [7, 12, -1, -1])

    def test_a_fork_copies_entries_unseen(self) -> None:
        told = told_of(("spawn 1", "ok"), ("mmap 1 4096 rw-", "map 20000"),
                       ("write 1 20000 01", "ok / new 1 20000 0"), ("fork 1 2", "ok"))
        self.assertEqual(told.tables, {1: {0x20: "F0"}, 2: {0x20: "f0"}})
        self.assertEqual(told.owners, {0: {(1, 0x20), (2, 0x20)}})

    def test_an_mremap_takes_entries_along(self) -> None:
        told = told_of(("spawn 1", "ok"), ("mmap 1 4096 rw-", "map 20000"),
                       ("write 1 20000 01", "ok / new 1 20000 0"),
                       ("mremap 1 20000 4096 4096 fixed 30000", "map 30000"))
        self.assertEqual(told.tables[1], {0x30: "F0"})

    def test_a_refused_command_changes_nothing(self) -> None:
        told = told_of(("spawn 1", "ok"), ("mmap 1 4096 rw-", "map 20000"),
                       ("write 1 20000 01", "ok / new 1 20000 0"),
                       ("mremap 1 20000 4096 8192", "err ENOMEM"))
        self.assertEqual(told.tables[1], {0x20: "F0"})

    def test_what_is_not_known_is_said_so(self) -> None:
        told = told_of(("spawn 1", "ok"), ("mmap 1 4096 rw-", "map 20000"),
                       ("write 1 20000 01", "ok / new 1 20000 0"), ("shake 1", "ok"))
        self.assertTrue(told.lost)
        self.assertEqual(told.forgotten, [(1, 0x20)])


class Swap(unittest.TestCase):
    """What is told of swap."""

    def test_a_page_goes_out(self) -> None:
        told = told_of(("swapon 0", "on 7 0"), ("spawn 1", "ok"), ("mmap 1 4096 rw-", "map 20000"),
                       ("write 1 20000 01", "ok / new 1 20000 0"),
                       ("reclaim 1", "ok / put 0 0:1 / unmap 0 / start 0:1 / keep 0 started"))
        self.assertEqual((told.tables[1], told.frame_at), ({0x20: "s0:1"}, {"0:1": 0}))
        self.assertEqual(list(told.flight), ["0:1"])

    def test_the_greatest_priority_gives(self) -> None:
        told = told_of(("swapon 0", "on 7 0"), ("swapon 1 prio 5", "on 1 0"))
        self.assertEqual(told.giving(), 1)
        self.assertEqual(told.area_text(1), "priority 5, 1 of 1 slot free, gives next")
        told.use_slot("1:1")
        self.assertEqual(told.giving(), 0)


class Frames(unittest.TestCase):
    """What is told of frames that are merged, and of those that move."""

    def test_pages_share_a_frame_until_one_is_written(self) -> None:
        lines = [("spawn 1", "ok"), ("mmap 1 8192 rw-", "map 20000"),
                 ("write 1 20000 01", "ok / new 1 20000 0"),
                 ("write 1 21000 01", "ok / new 1 21000 1"),
                 ("madvise 1 20000 8192 mergeable", "ok"),
                 ("merge", "ok / share 0 / join 1 21000 0")]
        told = told_of(*lines)
        self.assertEqual((told.tables[1], told.merged), ({0x20: "F0", 0x21: "f0"}, {0}))
        self.assertEqual(told.entry_text(1, 0x21), "frame 0 old ksm")
        self.assertEqual(list(told.lists[1]), [0])
        told = told_of(*lines, ("munmap 1 21000 4096", "ok"),
                       ("write 1 20000 02", "ok / copy 1 20000 1"))
        self.assertEqual((told.tables[1], told.merged), ({0x20: "F1"}, set()))

    def test_a_frame_moves_with_all_that_names_it(self) -> None:
        told = told_of(("swapon 0", "on 7 0"), ("spawn 1", "ok"), ("mmap 1 8192 rw-", "map 20000"),
                       ("write 1 20000 01", "ok / new 1 20000 0"),
                       ("write 1 21000 02", "ok / new 1 21000 1"), ("fork 1 2", "ok"),
                       ("reclaim 1", "ok / put 1 0:1 / unmap 1 / start 0:1 / keep 1 started"),
                       ("read 2 21000 1", "data 02 / map 2 21000 1"),
                       ("munmap 1 20000 4096", "ok"), ("munmap 2 20000 4096", "ok"),
                       ("compact", "ok / move 1 0"))
        self.assertEqual(told.tables, {1: {0x21: "s0:1"}, 2: {0x21: "f0"}})
        self.assertEqual((told.frame_at, told.slot_of), ({"0:1": 0}, {0: "0:1"}))
        self.assertEqual((list(told.lists[1]), told.touched), ([0], {"0:1"}))


class Making(unittest.TestCase):
    """Commands, replies, and the reports between them."""

    def test_comments_belong_to_the_command_below(self) -> None:
        first, second = making.commands_of("# one\n# two\nspawn 1\n\nstat\n")
        self.assertEqual((first.number, first.comment, first.line), (3, "one\ntwo", "spawn 1"))
        self.assertEqual((second.number, second.comment), (5, ""))

    def test_notes_belong_to_the_reply_above(self) -> None:
        found = making.replies_of("ok\n new 1 20000 0\ndata 00\n")
        self.assertEqual(found, [["ok", "new 1 20000 0"], ["data 00"]])
        self.assertEqual(making.replies_of(""), [])

    def test_pages_of_an_access(self) -> None:
        self.assertEqual([*making.pages_named("read 1 20fff 2".split())], [0x20, 0x21])
        self.assertEqual([*making.pages_named("write 1 20000 01".split())], [0x20])

    def test_whose_areas_are_asked(self) -> None:
        for line, reply, wanted in (
            ("mmap 1 4096 rw-", "map 20000", [1]),
            ("mmap 1 4096 rw-", "err ENOMEM", []),
            ("mprotect 1 20000 4096 r--", "err ENOMEM", [1]),
            ("fork 1 2", "ok", [2]),
            ("read 1 20000 1", "data 00", []),
        ):
            self.assertEqual(making.asks_areas(line.split(" "), [reply]), wanted)


class Text(unittest.TestCase):
    """Side by side."""

    def test_some_of_many(self) -> None:
        self.assertEqual(some_of([], 0), "none")
        self.assertEqual(some_of(range(99), 99)[-12:], " and 83 more")

    def test_a_trace(self) -> None:
        commands = making.commands_of("# one\nspawn 1\nmaps 1\n")
        run = types.SimpleNamespace(commands=commands, replies=[["ok"], ["runs 0"]], said="",
                                    has_note=lambda _: False)
        wanted = ["# one", "spawn 1  | ok", "maps 1   | runs 0"]
        self.assertEqual(list(side_by_side(run, 80)), wanted)
        marked = list(side_by_side(run, 80, 1))
        self.assertEqual([marked[0], *marked[1:2], *marked[3:]], wanted)
        self.assertTrue(marked[2].startswith("         | # the reply of the transcript"))


if __name__ == "__main__":
    unittest.main()
