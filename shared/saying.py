"""How the programs say what is wrong, and how they end."""
import argparse
import os
import sys
import traceback


class Refused(Exception):
    """What the user is told: one sentence. `status` is the exit status."""

    def __init__(self, sentence: str, status: int = 1):
        super().__init__(sentence)
        self.status = status


class Parser(argparse.ArgumentParser):
    """A parser that says what is wrong in one sentence."""

    def error(self, message):
        form = " ".join(self.format_usage().removeprefix("usage: ").split())
        raise Refused(f"{message} (the form is {form})", 2)


def read(file: str) -> str:
    """A file, or standard input, as text. Bytes that aren't ASCII are shown as their numbers."""
    try:
        with sys.stdin.buffer if file == "-" else open(file, "rb") as it:
            return it.read().decode("ascii", "backslashreplace")
    except OSError as error:
        raise Refused(f"{file} can't be read: {error.strerror}") from None


def lines_of(file: str) -> list[str]:
    """The lines of a file that was written to its end, which is a newline."""
    text = read(file)
    if not text:
        raise Refused(f"{file} is empty")
    if not text.endswith("\n"):
        number = text.count("\n") + 1
        raise Refused(f"{file}, line {number}: it has no newline, so the file was cut within it")
    return text[:-1].split("\n")


def name_of(file: str) -> str:
    """A file's name, without its folder, in ASCII."""
    if file == "-":
        return "standard input"
    return os.path.basename(file).encode("ascii", "backslashreplace").decode()


def printable(text: str | bytes, most: int = 90) -> str:
    """A line as it can be shown in a sentence: in ASCII, and not too long."""
    if isinstance(text, bytes):
        text = text.decode("utf-8", "backslashreplace")
    text = text.encode("ascii", "backslashreplace").decode()
    text = "".join(it if it.isprintable() else f"\\x{ord(it):02x}" for it in text)
    return text if len(text) <= most else f"{text[: most - 3]}.."


def count_of(number: int, one: str, many: str = "") -> str:
    """A number with its word: 1 call, 2 calls."""
    return f"{number} {one if number == 1 else many or one + 's'}"


def end_with(name: str, main) -> None:
    """Runs the tool, and ends with its status."""
    try:
        status = main() or 0
        sys.stdout.flush()
        sys.exit(status)
    except Refused as why:
        print(f"{name}: {' '.join(str(why).split())}", file=sys.stderr)
        sys.exit(why.status)
    except OSError as error:
        # standard output is full, or its reader went away
        os.dup2(os.open(os.devnull, os.O_WRONLY), 1)
        print(f"{name}: write failed: {error.strerror}", file=sys.stderr)
        sys.exit(1)
    except KeyboardInterrupt:
        sys.exit(130)
    except Exception as error:  # pylint: disable=broad-exception-caught
        place = traceback.extract_tb(error.__traceback__)[-1]
        at = f"{os.path.basename(place.filename)}, line {place.lineno}"
        print(f"{name}: {error!r} in {at}: that is a fault of it, please tell", file=sys.stderr)
        sys.exit(1)
