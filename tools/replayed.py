"""The transcript of a trace, on the machine that its comments ask for."""
import argparse
import atexit
import subprocess
import tempfile

from shared import ROOT
from shared.saying import Refused, read

from swapfile import words_by_head

PROGRAM = f"{ROOT}/crates/avsim/out/avsim"


def add_words(parser: argparse.ArgumentParser) -> None:
    """Adds `--run`, and `--program` that goes with it."""
    parser.add_argument("--run", action="store_true", help=argparse.SUPPRESS)
    parser.add_argument("--program", default=PROGRAM, help=argparse.SUPPRESS)


def with_transcript(words: argparse.Namespace) -> argparse.Namespace:
    """The words of a tool. With `--run` the transcript is one that avsim writes now; the file goes
    when the tool ends, and so do the swap files of the run.
    """
    if words.run:
        if words.trace == "-" or words.transcript != "-":
            raise Refused("--run is for a TRACE in a file, without a TRANSCRIPT", 2)
        room = tempfile.TemporaryDirectory(prefix="avsim-replay-")
        atexit.register(room.cleanup)
        words.transcript = f"{room.name}/transcript"
        write_transcript(words, room.name)
    return words


def write_transcript(words: argparse.Namespace, room: str) -> None:
    """Runs a trace. Its swap files are made in a folder."""
    run = [words.program, "run", *words_by_head(read(words.trace), room)]
    try:
        with open(words.trace, "rb") as given, open(words.transcript, "wb") as out:
            ran = subprocess.run(run, stdin=given, stdout=out, stderr=subprocess.PIPE, check=False)
    except OSError as error:
        hint = "./avsim build makes the program"
        raise Refused(f"avsim can't be run ({error.strerror}): {hint}") from None
    if ran.returncode:
        said = ran.stderr.decode("ascii", "backslashreplace").strip() or "it says nothing"
        raise Refused(f"avsim ended with status {ran.returncode}: {said}")
