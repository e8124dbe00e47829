"""What the programs of tools, view, shell, bench and .ci share: where the repository is, how they
say what is wrong (`saying`), and how far they are (`meter`).

Each of these folders has a module of this name, which stands for this package, so that a program
finds it beside itself; and by it, the modules of the other folders. A program imports this first:
where Python is too old for the others, it says so and ends. So this file, those modules and the
programs themselves are of Python 3.6.
"""
import os
import sys

if sys.version_info < (3, 10):
    program = "/".join(os.path.abspath(sys.argv[0]).split("/")[-2:])
    print(
        f"{program}: it needs Python 3.10 or newer, and this is "
        f"{sys.version_info[0]}.{sys.version_info[1]}",
        file=sys.stderr,
    )
    sys.exit(125)

ROOT = os.path.dirname(os.path.dirname(os.path.realpath(__file__)))
sys.path += [f"{ROOT}/{it}" for it in ("tools", "view", "shell")]
