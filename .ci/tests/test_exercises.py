"""Exercises and their marks, as far as that needs no program."""
import io
import random
import unittest

import exercises
import marking
import replies
from exercises import Step


class Drafts(unittest.TestCase):
    def test_seeds_make_their_drafts(self):
        for name, topic in exercises.TOPICS.items():
            one, same, other = (topic.draw(random.Random(f"{name}:{it}")).lines for it in "778")
            self.assertEqual(one, same)
            self.assertNotEqual(one, other)

    def test_lines_speak_of_pages_that_are_mapped(self):
        draft = exercises.Draft(random.Random(1), 4)
        draft.begin(1, 2)
        draft.take_away(1, exercises.FIRST)
        self.assertEqual(draft.any_page(), (1, exercises.FIRST + 1))
        draft.fork(1, 2)
        draft.exit(1)
        self.assertEqual(draft.any_page(), (2, exercises.FIRST + 1))

    def test_the_highest_place(self):
        top = exercises.TOP
        self.assertEqual(exercises.highest([], 2), top - 2)
        self.assertEqual(exercises.highest([top - 2], 1), top - 1)
        self.assertEqual(exercises.highest([top - 2], 2), top - 4)


class Promises(unittest.TestCase):
    def test_each_line_does_something(self):
        good = Step("write 1 20000 41", "ok", ["new 1 20000 0"])
        self.assertTrue(exercises.is_done([good]))
        for bad in (
            Step("spawn 1", "err EEXIST", []),
            Step("read 1 30000 1", "segv 0", []),
            Step("reclaim 1", "ok", []),
            Step("rmap 1 21000", "none", []),
            good,
        ):
            self.assertFalse(exercises.is_done([good, bad]), bad)
        again, look = Step(good.command, "ok", []), Step("entry 1 20000", "frame 0 seen", [])
        self.assertTrue(exercises.is_done([good, look]))
        self.assertFalse(exercises.is_done([good, look, again]))

    def test_three_copies(self):
        fork = Step("fork 1 2", "ok", [])
        copies = [Step(f"write 2 2{it}000 41", "ok", [f"copy 2 2{it}000 {it}"]) for it in "123"]
        alone = Step("write 1 21000 41", "ok", [])
        shows = exercises.TOPICS["fork-and-copy"].shows
        self.assertTrue(shows([fork, *copies, alone]))
        self.assertFalse(shows([fork, *copies[:2], alone]))
        self.assertFalse(shows([alone, fork, *copies]))

    def test_areas_join_and_split(self):
        counts = (1, 2, 3, 2, 1)
        rows = [Step("areas 1", f"areas {it}", ["row"] * it) for it in counts]
        calls = [Step(f"mprotect 1 2{it}000 4096 r--", "ok", []) for it in range(4)]
        steps = [rows[0], *(it for pair in zip(calls, rows[1:]) for it in pair)]
        shows = exercises.TOPICS["areas-join"].shows
        self.assertTrue(shows(steps))
        self.assertFalse(shows(steps[:-2]))

    def test_moved_and_not(self):
        stays = Step("mremap 1 20000 4096 8192", "map 20000", [])
        moves = Step("mremap 1 20000 4096 8192 maymove", "map 30000", [])
        sees = Step("read 1 30000 2", "data 4100", [])
        shows = exercises.TOPICS["mremap"].shows
        self.assertTrue(shows([stays, stays, moves, sees]))
        for steps in ([stays, stays, stays, sees], [stays, stays, moves], [stays, moves, sees]):
            self.assertFalse(shows(steps))


COMMANDS = [replies.Command(1, b"spawn 1", 8), replies.Command(2, b"merge", 14)]


class Filled(unittest.TestCase):
    def filled(self, text):
        return marking.filled_in(io.BytesIO(text), COMMANDS)

    def test_both_forms(self):
        for text, found in (
            (b"ok\nok\n share  0\n", [[b"ok"], [b"ok", b"share 0"]]),
            (b"> spawn 1\n ok \n\n>merge\nok\nshare 0\n", [[b"ok"], [b"ok", b"share 0"]]),
            (b"# mine\n> spawn  1\r\nok\r\n> merge\n", [[b"ok"], []]),
            (b"> merge\nok\n", [[], [b"ok"]]),
            (b"\nok\n\n", [[], [b"ok"]]),
            (b"", []),
        ):
            self.assertEqual(self.filled(text), found, text)

    def test_other_commands(self):
        for text in (b"> spawn 2\nok\n", b"> merge\nok\n> spawn 1\nok\n", b"ok\n> spawn 1\nok\n"):
            with self.assertRaises(marking.Refused):
                self.filled(text)


if __name__ == "__main__":
    unittest.main()
