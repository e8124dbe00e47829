"""Unit tests of `check` in shell/."""
import contextlib
import io
import os
import tempfile
import unittest

from replies import BLOCK, MOST_SHOWN, Command, Reply
from replies import commands_in, difference, lines_in, replies_in, rows_of, shown
from swapfile import PAGE, make
from verdict import Told, copies_of, explain, fault_of, found_at, hint_of, joined, opened

TRACE = b"spawn 1\n# a page\nmmap 1 4096 rw-\n\nread 1 7fffffffe000 1\n"
ANSWERS = b"ok\nmap 7fffffffe000\ndata 00\n zero 1 7fffffffe000\n"
NAMES = ["my.trace", "my.transcript"]


class Own:
    """Stands for the program: its own replies are these."""

    def __init__(self, answers: bytes):
        self.answers, self.end = answers, 0

    def answer(self, _trace: io.BytesIO, end: int, out: io.BytesIO) -> Told:
        self.end = end
        out.write(self.answers)
        return Told(0, "")


class Cut(unittest.TestCase):
    """Traces and transcripts are cut."""

    def test_commands(self) -> None:
        wanted = [Command(1, b"spawn 1", 8), Command(3, b"mmap 1 4096 rw-", 33)]
        self.assertEqual(list(commands_in(io.BytesIO(TRACE)))[:2], wanted)
        self.assertEqual([it.line for it in commands_in(io.BytesIO(b"stat"))], [1])

    def test_replies(self) -> None:
        for text, wanted in (
            (b"", []),
            (b"ok\n", [(1, [b"ok\n"])]),
            (b"ok\n a\n b\nok\n", [(1, [b"ok\n", b" a\n", b" b\n"]), (4, [b"ok\n"])]),
            (b" a\n b\nok", [(1, [b" a\n", b" b\n"]), (3, [b"ok"])]),
            (b"\n\n", [(1, [b"\n"]), (2, [b"\n"])]),
        ):
            self.assertEqual(list(replies_in(io.BytesIO(text))), wanted, text)

    def test_a_line_may_be_long(self) -> None:
        for line in (b"x" * 200_000 + b"\n", b"x" * 65536 + b" y\n"):
            found = [it.lines for it in replies_in(io.BytesIO(line + b" a\nok\n"))]
            self.assertEqual(found, [[line, b" a\n"], [b"ok\n"]])
            pieces = list(lines_in(io.BytesIO(line)))
            self.assertEqual(b"".join(pieces), line)
            self.assertLessEqual(max(map(len, pieces)), BLOCK)

    def test_a_command_may_be_long(self) -> None:
        line = b"write 1 20000 " + b"0" * (BLOCK - 20)
        self.assertEqual(list(commands_in(io.BytesIO(line))), [Command(1, line, len(line))])


class Joined(unittest.TestCase):
    """What the program is given."""

    def test_the_mark_stands_on_a_line_of_its_own(self) -> None:
        for trace, wanted in (
            (b"", b"%%\nok\n"),
            (b"stat\n", b"stat\n%%\nok\n"),
            (b"stat", b"stat\n%%\nok\n"),
            (b"%%\nstat\n%%", b"%\nstat\n%\n%%\nok\n"),
            (b"%%%\n", b"%%%\n%%\nok\n"),
        ):
            found = b"".join(joined(io.BytesIO(trace), io.BytesIO(b"ok\n")))
            self.assertEqual(found, wanted)

    def test_what_comes_through_a_pipe_is_copied(self) -> None:
        read, write = os.pipe()
        os.write(write, b"ok\n")
        os.close(write)
        with contextlib.ExitStack() as stack:
            file = opened(f"/dev/fd/{read}", stack)
            for _ in range(2):
                file.seek(0)
                self.assertEqual(file.read(), b"ok\n")
        os.close(read)

    def test_swap_files_are_copied_without_their_pages(self) -> None:
        with tempfile.TemporaryDirectory() as room:
            make(f"{room}/swap.img", 8, [3])
            with open(f"{room}/swap.img", "r+b") as it:
                it.seek(PAGE)
                it.write(b"x" * PAGE)
            os.mkdir(f"{room}/copies")
            (copy,) = copies_of([f"{room}/swap.img"], f"{room}/copies")
            with open(copy, "rb") as it, open(f"{room}/swap.img", "rb") as own:
                self.assertEqual(it.read(PAGE), own.read(PAGE))
                self.assertEqual(it.read(), bytes(7 * PAGE))


class Shown(unittest.TestCase):
    """A reply beside another one."""

    def test_lines(self) -> None:
        self.assertEqual(difference(b"data 00", b"data 01"), 6)
        self.assertEqual(difference([b"ok"], [b"ok", b" a"]), 1)
        self.assertEqual(shown(b"ok\n"), "ok")
        self.assertLess(len(shown(b"x" * 100)), 73)
        for at in (0, MOST_SHOWN - 1):
            self.assertEqual(shown(b"x" * MOST_SHOWN + b"\n", at), "x" * MOST_SHOWN)
        self.assertEqual(shown(b"x" * (MOST_SHOWN + 1)), "x" * (MOST_SHOWN - 3) + "..")
        line = b"data " + b"0" * 8000 + b"1\n"
        self.assertTrue(shown(line, 8005).startswith("..000"))
        self.assertTrue(shown(line, 8005).endswith("01"))
        self.assertEqual(shown(line, 4000), ".." + "0" * (MOST_SHOWN - 3) + "..")

    def test_what_differs_is_marked(self) -> None:
        found = list(rows_of(Reply(7, [b"ok\n", b" a\n"]), [b"ok\n", b" b\n"], ">"))
        self.assertEqual(found, ["         7  ok", "  >      8   a"])

    def test_of_a_long_reply_a_part_is_shown(self) -> None:
        lines = [b" %d\n" % it for it in range(100)]
        found = list(rows_of(Reply(1, lines), [*lines[:50], b" x\n", *lines[51:]], ">"))
        self.assertEqual(len(found), 14)
        self.assertEqual(found[0].strip(), "(47 lines before)")
        self.assertEqual([it for it in found if ">" in it], ["  >     51   50"])
        self.assertEqual(found[-1].strip(), "(41 lines more)")


class Explained(unittest.TestCase):
    """What is said of a reply that isn't legal."""

    def said(self, number: int, transcript: bytes, own: bytes = ANSWERS) -> str:
        """What is said, without the blanks in front of lines."""
        out, machine = io.StringIO(), Own(own)
        with contextlib.redirect_stdout(out):
            explain(number, [io.BytesIO(TRACE), io.BytesIO(transcript)], NAMES, machine)
        return "\n".join(it.strip() for it in out.getvalue().split("\n"))

    def test_a_reply_beside_the_own_one(self) -> None:
        said = self.said(3, ANSWERS.replace(b"00\n ", b"01\n "))
        self.assertTrue(said.startswith("reply 3 isn't legal.\n"))
        self.assertIn("my.trace:\n5  read 1 7fffffffe000 1\n", said)
        self.assertIn("\n>      3  data 01\n4   zero 1 7fffffffe000\n", said)
        self.assertIn("answers:\ndata 00\nzero 1 7fffffffe000\n", said)
        self.assertIn("All replies before it are those that avsim gives.", said)

    def test_the_trace_is_answered_up_to_its_command(self) -> None:
        machine = Own(b"ok\n")
        with contextlib.redirect_stdout(io.StringIO()):
            explain(2, [io.BytesIO(TRACE), io.BytesIO(b"ok\nok\n")], NAMES, machine)
        self.assertEqual(TRACE[: machine.end], b"spawn 1\n# a page\nmmap 1 4096 rw-\n")

    def test_other_choices_before_it(self) -> None:
        said = self.said(3, ANSWERS.replace(b"map 7", b"map 6"))
        self.assertIn("Reply 2 is the first that avsim gives otherwise", said)
        self.assertIn("That is the same reply, and legal behind", said)
        self.assertIn("a fault of avsim", self.said(3, ANSWERS))

    def test_what_is_wrong(self) -> None:
        command = Command(1, b"stat", 5)
        for lines, asked, wanted in (
            ([], command, "my.transcript ends before reply 1"),
            ([b"ok\n"], None, "my.trace has 0 commands, so reply 1 is one too many"),
            ([b"ok"], command, "reply 1 has no newline at its end"),
            ([b"ok\n"], command, "reply 1 isn't legal"),
        ):
            found = found_at(1, io.BytesIO(b"".join(lines)), io.BytesIO(b""))
            self.assertEqual(fault_of(found, 1, asked, NAMES), wanted)

    def test_hints(self) -> None:
        for status, said, wanted in (
            (0, "", ""),
            (3, "avsim: line 3: not a command\n", "head -n 2 my.trace"),
            (3, "avsim: line 1: not a command\n", "says why the line is none"),
            (10, "avsim: transcript too long\n", ""),
        ):
            self.assertIn(wanted, hint_of(Told(status, said), "my.trace"))


if __name__ == "__main__":
    unittest.main()
