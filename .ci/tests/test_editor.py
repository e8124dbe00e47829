"""tools/editor: vim knows each command, and the shell completes the words of each program."""
import os
import re
import shutil
import subprocess
import tempfile
import unittest

from shared import ROOT

from reference import Reference
from test_programs import programs
from transcript import forms

EDITOR = f"{ROOT}/tools/editor"
# writes the names of what vim sees in each line of a file
SCRIPT = """
set nocompatible
let &runtimepath = $EDITOR . "/vim," . &runtimepath
filetype on
syntax on
execute "edit " . $TEXT
let found = [&filetype]
for number in range(1, line("$"))
  let names = []
  for column in range(1, len(getline(number)))
    let name = substitute(synIDattr(synID(number, column, 1), "name"), "avsim", "", "")
    if name != "Line" && name != "Row" && (empty(names) || names[-1] != name)
      call add(names, name)
    endif
  endfor
  call add(found, join(names))
endfor
call writefile(found, $TEXT . ".found")
qall!
"""
TRACE = (
    ("# a note", "Comment"),
    ("mmap 1 4096 rw- fixed 20000", "Command Number Prot Way Number"),
    ("stat", "Command"),
    ("frobnicate 1", "Name Number"),
    ("spawn  1", "Bad"),
    ("swapon 0 prio 5", "Command Number Way Number"),
    ("merge", "Command"),
)
TRANSCRIPT = (
    ("ok", "Done"),
    (" new 1 20000 0", "Note"),
    (" share 0", "Note"),
    ("err ESRCH", "Refused"),
)
FIRST = ["examples/first.trace", "examples/first.transcript"]
# what a shell completes
ASK = """
. tools/editor/completion.bash
COMP_WORDS=("$@") COMP_CWORD=$(($# - 1))
case $1 in */avsim) _avsim ;; *) _avsim_tool ;; esac
echo "${COMPREPLY[*]}"
"""


class Vim(unittest.TestCase):
    """Traces and transcripts in vim."""

    def test_each_command_is_known(self) -> None:
        with open(f"{EDITOR}/vim/syntax/avsim.vim", encoding="utf-8") as it:
            text = it.read()
        lines = re.findall(r"^syntax keyword \w+ contained (.*)$", text, re.M)
        known = {word for line in lines for word in line.split()}
        for form in Reference().forms.values():
            ways = {it for way in form.ways for it in way if it.islower()}
            self.assertEqual({form.name, *ways} - known, set())

    def test_each_note_is_known(self) -> None:
        with open(f"{EDITOR}/vim/syntax/avsimtranscript.vim", encoding="utf-8") as it:
            known = re.search(r"avsimNote /\^ \\zs\\\((.*)\\\)\\>/", it.read())
        self.assertEqual(set(known[1].split("\\|")), set(forms()))

    def seen(self, room: str, name: str, lines: list[str]) -> list[str]:
        """What vim sees in the lines of a file."""
        files = f"{room}/{name}", f"{room}/script"
        for file, text in zip(files, ("\n".join(lines) + "\n", SCRIPT)):
            with open(file, "w", encoding="utf-8") as it:
                it.write(text)
        env = {**os.environ, "EDITOR": EDITOR, "TEXT": files[0]}
        words = ["vim", "-u", "NONE", "-i", "NONE", "-es", "-S", files[1]]
        subprocess.run(words, env=env, stdin=subprocess.DEVNULL, timeout=60, check=False)
        if not os.path.exists(f"{files[0]}.found"):
            self.skipTest("this vim runs no scripts")
        with open(f"{files[0]}.found", encoding="utf-8") as it:
            return it.read().splitlines()

    @unittest.skipUnless(shutil.which("vim"), "there is no vim")
    def test_what_vim_sees(self) -> None:
        with tempfile.TemporaryDirectory() as room:
            for name, kind, lines in (
                ("a.trace", "avsim", TRACE),
                ("a.transcript", "avsimtranscript", TRANSCRIPT),
            ):
                found = self.seen(room, name, [line for line, _ in lines])
                if not found[0]:
                    self.skipTest("this vim has no syntax")
                kinds = [it.replace("transcript", "") for it in found]
                self.assertEqual(kinds, [kind.replace("transcript", ""), *(it for _, it in lines)])


@unittest.skipUnless(shutil.which("bash"), "there is no bash")
class Completion(unittest.TestCase):
    """Words in a shell."""

    def asked(self, *words: str) -> list[str]:
        ran = subprocess.run(
            ["bash", "-c", ASK, "bash", *words], cwd=ROOT, capture_output=True, text=True, timeout=60
        )
        self.assertEqual((ran.returncode, ran.stderr), (0, ""))
        return ran.stdout.split()

    def test_words(self) -> None:
        for words, wanted in (
            (["./avsim", "t"], ["talk", "test"]),
            (["./avsim", "re"], ["replay"]),
            (["./avsim", "page", "examples/first."], FIRST),
            (["./avsim", "work", "-"], ["--help"]),
            (["./avsim", "audit", "-"], ["--help"]),
            (["./avsim", "check", "-"], ["--help", "--marks"]),
            (["./avsim", "replay", "-"], ["--help"]),
            (["./avsim", "check", "examples/first."], FIRST),
            (["./avsim", "check", "--marks", "examples/first."], FIRST),
            (["./avsim", "check", "--marks", "my.trace", "examples/first."], FIRST),
            (["./avsim", "check", "--marks", "my.trace", "filled", "examples/first."], []),
            (["./avsim", "replay", "examples/first."], FIRST),
            (["./avsim", "audit", "4", "examples/first."], FIRST),
            (["./avsim", "test", "-"], ["--quick"]),
            (["./avsim", "help", "mer"], ["merge"]),
            (["./avsim", "run", "4", "examples/les"], ["examples/lessons"]),
            (["tools/record", "--no"], ["--no-faults"]),
            (["view/run", "4", "examples/first.tracex"], []),
        ):
            self.assertEqual(sorted(self.asked(*words)), wanted)
        self.assertIn("--steps", self.asked("view/run", "-"))

    def test_each_word_is_completed(self) -> None:
        """As the launcher itself lists them."""
        with open(f"{ROOT}/avsim", encoding="utf-8") as it:
            listed = re.search(r"a word is missing: (.*?)\n +;;", it.read(), re.S)
        words = set(re.findall(r"-*[a-z]+", listed[1])) - {"or"}
        self.assertEqual(set(self.asked("./avsim", "")), words)

    def test_each_command_is_completed(self) -> None:
        self.assertEqual(self.asked("./avsim", "help", ""), [*Reference().forms])

    def test_each_program_is_completed(self) -> None:
        with open(f"{EDITOR}/completion.bash", encoding="utf-8") as it:
            text = it.read()
        for file in programs():
            folder, name = file.split("/")[-2:]
            listed = re.search(rf"{folder}/{{([\w,-]+)}}", text)
            if folder in ("tools", "view"):
                self.assertIn(name, listed[1].split(",") if listed else [])


if __name__ == "__main__":
    unittest.main()
