"""Each program of tools, view and bench tells its words, from any folder."""
import ast
import glob
import os
import re
import shutil
import subprocess
import sys
import tempfile
import unittest

from shared import ROOT


# runs a program as if Python were 3.6
OLDER = """
import os, runpy, sys
sys.argv = sys.argv[1:]
sys.path[0] = os.path.dirname(sys.argv[0])
sys.version_info = (3, 6, 8, "final", 0)
runpy.run_path(sys.argv[0], run_name="__main__")
"""


def programs() -> list[str]:
    """The programs in Python: what can be run there, by its first line."""
    found = []
    for file in sorted(glob.glob(f"{ROOT}/tools/*") + [f"{ROOT}/view/run", f"{ROOT}/bench/run"]):
        if os.path.isfile(file) and os.access(file, os.X_OK):
            with open(file, "rb") as it:
                found += [file] * (b"python3" in it.readline())
    return [*found, f"{ROOT}/view/lessons"]


class Programs(unittest.TestCase):
    """The programs, as they are called."""

    def test_each_tells_its_words(self) -> None:
        for file in programs():
            with self.subTest(file):
                ran = subprocess.run(
                    [sys.executable, "-B", file, "--help"], cwd="/", capture_output=True, text=True
                )
                self.assertEqual((ran.returncode, ran.stderr), (0, ""))
                self.assertIn("usage: ", ran.stdout)

    def test_an_older_python_is_told(self) -> None:
        for file in [*programs(), f"{ROOT}/shell/run"]:
            with self.subTest(file):
                ran = subprocess.run(
                    [sys.executable, "-B", "-c", OLDER, file], capture_output=True, text=True
                )
                name = "/".join(file.split("/")[-2:])
                said = f"{name}: it needs Python 3.10 or newer, and this is 3.6\n"
                self.assertEqual((ran.returncode, ran.stdout, ran.stderr), (125, "", said))

    def test_they_can_be_read_by_an_older_python(self) -> None:
        for file in [*programs(), f"{ROOT}/shell/run", f"{ROOT}/shared/__init__.py"]:
            with self.subTest(file), open(file, encoding="utf-8") as it:
                text = it.read()
                ast.parse(text, feature_version=(3, 6))
                self.assertNotIn("import dataclasses", re.split("(?m)^(from|import) shared", text)[0])

    def test_what_they_import_is_of_python_3_10(self) -> None:
        for folder in ("tools", "view", "shell", "bench", "shared"):
            for file in glob.glob(f"{ROOT}/{folder}/*.py"):
                with self.subTest(file), open(file, encoding="utf-8") as it:
                    ast.parse(it.read(), feature_version=(3, 10))

    def test_each_folder_has_one_text_for_what_is_shared(self) -> None:
        """`rt ci` takes no links, so there are copies."""
        texts = set()
        for folder in ("tools", "view", "shell", "bench", ".ci"):
            with open(f"{ROOT}/{folder}/shared.py", encoding="utf-8") as it:
                texts.add(it.read())
        self.assertEqual(len(texts), 1)

    def test_what_is_shared_is_found_elsewhere_too(self) -> None:
        """As in an archive that was unpacked."""
        with tempfile.TemporaryDirectory() as room:
            for folder in ("tools", "view", "shell", "shared"):
                shutil.copytree(f"{ROOT}/{folder}", f"{room}/{folder}")
            shutil.move(f"{room}/shared/meter.py", f"{room}/shared/meter.txt")
            ran = subprocess.run(
                [sys.executable, "-B", f"{room}/view/run", "--help"], capture_output=True, text=True
            )
            self.assertIn("No module named 'shared.meter'", ran.stderr)
            shutil.move(f"{room}/shared/meter.txt", f"{room}/shared/meter.py")
            ran = subprocess.run(
                [sys.executable, "-B", f"{room}/view/run", "--help"], capture_output=True, text=True
            )
            self.assertEqual((ran.returncode, ran.stderr), (0, ""))

    def test_there_are_some(self) -> None:
        self.assertGreater(len(programs()), 8)


if __name__ == "__main__":
    unittest.main()
