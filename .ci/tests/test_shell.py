"""Unit tests of shell/."""
import os
import tempfile
import unittest

from program import parts_of, why_ended
from reasons import fault_of, printable
from reference import Form, Reference, plain, ways_of
from session import replace, says_nothing
from show import frame_lines, frame_of, processes_in, word_for
from small import lines_for, plain_word, without_blanks, writes_of_touch


class SmallWords(unittest.TestCase):
    """Small words, and the lines that they stand for."""

    def setUp(self) -> None:
        self.reference = Reference()

    def test_lengths_and_addresses_in_pages(self) -> None:
        for line, wanted in (
            ("mmap 1 4p rw- fixed 20000+1p", "mmap 1 16384 rw- fixed 21000"),
            ("read 1 20000-1p 1", "read 1 1f000 1"),
            ("mremap 1 20000 1p 2p maymove", "mremap 1 20000 4096 8192 maymove"),
            ("frobnicate 4p", "frobnicate 4p"),
        ):
            self.assertEqual(lines_for(line, self.reference), [wanted])

    def test_what_makes_no_sense_stays(self) -> None:
        for kind, word in (("LEN", "04p"), ("A", "0-1p"), ("A", f"{2**64 - 1:x}+1p"), ("P", "4p")):
            self.assertEqual(plain_word(kind, word), word)

    def test_touch(self) -> None:
        found = writes_of_touch("touch 1 20fff 2p".split())
        self.assertEqual(found, ["write 1 20fff 01", "write 1 21fff 01"])
        for line in ("touch 1 20000", "touch 1 0x1 1", "touch 1 20000 0", "touch 1 0 16385p"):
            with self.assertRaises(ValueError):
                writes_of_touch(line.split())

    def test_blanks(self) -> None:
        for line, wanted in ((" spawn  1\t", "spawn 1"), ("# a  b ", "# a  b "), ("  # a", "# a")):
            self.assertEqual(without_blanks(line), wanted)


class Reasons(unittest.TestCase):
    """Why a line is no command."""

    def setUp(self) -> None:
        self.reference = Reference()

    def test_good_lines_have_none(self) -> None:
        for line in (b"", b"# a", b"spawn 1", b"mmap 1 4096 rw- fixed 20000", b"stat"):
            self.assertIsNone(fault_of(line, self.reference))

    def test_the_first_fault_is_told(self) -> None:
        for line, part in (
            (b"spawn\t1", "a tab stands"),
            (b"spawn 0", "1 to 32767"),
            (b"spawn  1", "two spaces"),
            (b"stat 1", "a word too many"),
        ):
            self.assertIn(part, str(fault_of(line, self.reference)))

    def test_words_are_shown_in_ascii_and_cut(self) -> None:
        self.assertEqual(printable(b"\xff\t"), r"\xff\x09")
        self.assertEqual(len(printable("x" * 99)), 39)


class Forms(unittest.TestCase):
    """The forms of commands, as the reference has them."""

    def test_a_heading(self) -> None:
        form = Form("mremap P A OLD NEW [maymove | fixed B | dontunmap [B]]")
        self.assertEqual((form.name, form.kinds), ("mremap", ["P", "A", "OLD", "NEW"]))
        wanted = [["maymove"], ["fixed", "B"], ["dontunmap"], ["dontunmap", "B"]]
        self.assertEqual(form.ways, wanted)

    def test_ways(self) -> None:
        self.assertEqual(list(ways_of("prio N")), [["prio", "N"]])

    def test_text_without_markdown(self) -> None:
        self.assertEqual(plain("a `b` **c** [d](e)"), "a b c d")

    def test_each_command_has_a_sentence(self) -> None:
        reference = Reference()
        for name in reference.forms:
            self.assertRegex(reference.first_sentence(name), r"\.$")


class Show(unittest.TestCase):
    """What `show` says."""

    def test_words_of_entries(self) -> None:
        for entry, word, frame in (
            ("empty", ".", None),
            ("zero", "zero", None),
            ("frame 3 seen", "3", 3),
            ("frame 3 old cached 0:1", "~3@0:1", 3),
            ("frame 3 old ksm", "~3", 3),
            ("slot 0:1", "0:1", None),
            ("slot 0:1 cached 3", "0:1@3", 3),
        ):
            self.assertEqual((word_for(entry), frame_of(entry)), (word, frame))

    def test_merged_frames_are_called_so(self) -> None:
        entries = {(1, 0x20): "frame 0 seen ksm", (1, 0x21): "frame 1 seen"}
        owners = {b"rmap 1 20000": ["frame 0 maps 2", "1 20000", "2 20000"]}
        ask = lambda lines: [owners.get(it, ["frame 1 maps 1", "1 21000"]) for it in lines]
        wanted = ["frame 0, merged: 1 20000, 2 20000", "frame 1: 1 21000"]
        self.assertEqual(list(frame_lines(ask, entries)), wanted)

    def test_processes(self) -> None:
        self.assertEqual(processes_in([b"spawn 2", b"fork 2 1", b"exit 2", b"# spawn 3"]), [1, 2])


class Sessions(unittest.TestCase):
    """What a session keeps."""

    def test_lines_that_say_nothing(self) -> None:
        self.assertEqual([says_nothing(it) for it in (b"", b"#", b" ")], [True, True, False])

    def test_a_file_is_replaced_with_its_mode(self) -> None:
        with tempfile.TemporaryDirectory() as room:
            file = f"{room}/it"
            replace(file, b"one")
            os.chmod(file, 0o640)
            replace(file, b"two")
            with open(file, "rb") as it:
                self.assertEqual(it.read(), b"two")
            self.assertEqual(os.stat(file).st_mode & 0o777, 0o640)
            self.assertEqual(os.listdir(room), ["it"])

    def test_why_a_program_ended(self) -> None:
        self.assertEqual(why_ended(-9, ""), "the program was killed (SIGKILL)")
        said = "avsim: out of memory\n"
        self.assertEqual(why_ended(6, said), "the program ended with status 6 (out of memory)")

    def test_lines_are_judged_in_parts(self) -> None:
        self.assertEqual([len(it) for it in parts_of([b"x"] * 300)], [256, 44])


if __name__ == "__main__":
    unittest.main()
