"""Unit tests of what the checks of .ci share."""
import subprocess
import sys
import tempfile
import unittest

from shared import ROOT

from common import blocks_of, bytes_of, edit_of, replies_of, swaps_made

CHECK = """\
import sys
sys.path.insert(0, {folder!r})
from common import Check
check = Check("played", needs_program=False, in_room=True)

@check.case
def first(room):
    "Goes on behind what fails."
    check.expect("one", 1, 2)
    check.expect("two", 2, 2)

@check.case
def second():
    check.skip("there is none")

@check.case
def third():
    raise ValueError("odd")

check.end()
"""
NONE = """\
import sys
sys.path.insert(0, {folder!r})
from common import Check
check = Check("played", needs_program=False)

@check.case
def none():
    check.expect_none("none", {things}, {tells}, 5)

check.end()
"""


class Texts(unittest.TestCase):
    """What is read of documents, transcripts and edits."""

    def test_blocks_of_code(self) -> None:
        found = list(blocks_of("text\n\n    $ one\n\n    two\n\nmore\n    three\n"))
        self.assertEqual(found, [(3, ["$ one", "", "two"]), (8, ["three"])])

    def test_swap_files_that_are_made(self) -> None:
        found = swaps_made("$ tools/make-swap 8 3 5-6 swap.img 4 other.img")
        self.assertEqual(found, [(["8", "3", "5-6"], "swap.img"), (["4"], "other.img")])
        self.assertEqual(swaps_made("$ tools/make-swap"), [])

    def test_replies(self) -> None:
        self.assertEqual(replies_of("ok\n new 1 20000 0\nok\n"), ["ok\n new 1 20000 0\n", "ok\n"])

    def test_invisible_bytes(self) -> None:
        self.assertEqual(bytes_of(r"a\s\t\x00"), b"a \t\x00")

    def test_an_edit(self) -> None:
        with tempfile.NamedTemporaryFile("w", encoding="utf-8") as it:
            it.write("file: a\nold: one\nold: two\nnew: three\nold: four\nnew:\nbreaks: f c\n")
            it.flush()
            changes, others = edit_of(it.name)
        self.assertEqual(changes, [("a", "one\ntwo", "three"), ("a", "four", "")])
        self.assertEqual(others, {"breaks": ["f c"]})


class Cases(unittest.TestCase):
    """A check as a whole."""

    def said_by(self, *words: str) -> tuple[int, str]:
        code = CHECK.format(folder=f"{ROOT}/.ci")
        ran = subprocess.run(
            [sys.executable, "-B", "-c", code, *words], capture_output=True, text=True
        )
        return ran.returncode, ran.stdout

    def test_what_fails_is_told_and_the_rest_runs(self) -> None:
        status, said = self.said_by()
        self.assertEqual(status, 1)
        for part in ("FAILED: one", "second is passed over: there is none", "ValueError: odd"):
            self.assertIn(part, said)
        self.assertTrue(said.endswith("played: 1 passed, 2 failed\n"))

    def test_one_case_alone(self) -> None:
        self.assertEqual(self.said_by("-k", "second"), (
            1, "played.second is passed over: there is none\nplayed: 0 passed, 0 failed\n"))

    def test_the_list(self) -> None:
        self.assertEqual(self.said_by("-l"), (
            0, "first - Goes on behind what fails.\nsecond - \nthird - \n"))


    def test_a_blind_finder_fails(self) -> None:
        """To find nothing passes only where there was something, and what is wrong is found."""
        for things, tells, passes in (
            ("[1, 2]", "lambda it: it > 2", True),
            ("[1, 3]", "lambda it: it > 2", False),
            ("[]", "lambda it: it > 2", False),
            ("[1, 2]", "lambda it: False", False),
        ):
            code = NONE.format(folder=f"{ROOT}/.ci", things=things, tells=tells)
            ran = subprocess.run([sys.executable, "-B", "-c", code], capture_output=True, text=True)
            self.assertEqual(ran.returncode == 0, passes, ran.stdout + ran.stderr)


if __name__ == "__main__":
    unittest.main()
