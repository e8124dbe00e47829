"""The program: which lines it takes for commands, and a run of it that is driven line by line."""
import concurrent.futures
import errno
import itertools
import os
import re
import signal
import subprocess
import tempfile
import threading
from typing import Any, BinaryIO, Iterable, Iterator

from shared import saying


class Refused(saying.Refused):
    """What the user is told, where nothing goes on."""

    def __init__(self, sentence: str, status: int = 125):
        super().__init__(sentence, status)


def lines_from(file: BinaryIO, limit: int = -1) -> Iterator[bytes]:
    """The lines of standard input, each with its newline, if it has one; what is beyond the limit
    comes as a line, too.
    """
    while True:
        try:
            line = file.readline(limit)
        except OSError as error:
            raise Refused(f"standard input can't be read: {error.strerror}", 4) from None
        if not line:
            return
        yield line


class EarlyEnd(Exception):
    """The program ended while it was to answer: its status, and why in a few words."""

    def __init__(self, status: int, said: str):
        super().__init__(why_ended(status, said))
        self.status = status


# runs of the program side by side, where lines are judged
MOST_AT_ONCE = min(4, os.cpu_count() or 1)
# bytes that a pipe takes though nobody reads it yet
SMALL = 16_384


def start(words: list[str], **how: Any) -> subprocess.Popen:
    """Starts the program."""
    try:
        return subprocess.Popen(words, **how)
    except OSError as error:
        hint = "" if error.errno in (errno.ENOMEM, errno.EAGAIN) else ": ./avsim build makes it"
        raise Refused(f"the program can't be run ({error.strerror}){hint}") from None


def why_ended(status: int, said: str) -> str:
    """Why the program ended, by its status and its last words."""
    if status < 0:
        try:
            name = signal.Signals(-status).name
        except ValueError:
            name = str(-status)
        return f"the program was killed ({name})"
    said = re.sub("^avsim: ", "", said.strip().split("\n")[-1])
    return f"the program ended with status {status}" + (f" ({said})" if said else "")


def parts_of(lines: list[bytes]) -> list[list[bytes]]:
    """Lines cut into as many parts as are judged at once, if they are many."""
    size = max(-(-len(lines) // MOST_AT_ONCE), 256)
    return [lines[at : at + size] for at in range(0, len(lines), size)]


class Judge:
    """Tells which lines are commands, by the program's own answer: it ends at the first that is
    none, with that line's number, and is started anew behind it.

    Lines that begin a process are asked apart from the others. So no command ever finds a process
    that lives, and what a line costs doesn't depend on the lines before it.
    """

    def __init__(self, program: str):
        self.program = program

    def bad_of(self, lines: Iterable[bytes]) -> set[bytes]:
        """Those of the lines (bytes, without their newlines) that are no commands."""
        try:
            return self.bad_by_parts(lines)
        except OSError as error:
            raise Refused(f"lines can't be judged: {error.strerror}") from None

    def bad_by_parts(self, lines: Iterable[bytes]) -> set[bytes]:
        """As above."""
        asked = list(dict.fromkeys(lines))
        spawns = [it for it in asked if it.startswith(b"spawn")]
        others = [it for it in asked if not it.startswith(b"spawn")]
        parts = [it for lines in (spawns, others) for it in parts_of(lines) if it]
        if len(parts) < 2:
            return {line for part in parts for line in self.bad_of_part(part)}
        with concurrent.futures.ThreadPoolExecutor(MOST_AT_ONCE) as pool:
            return {line for bad in pool.map(self.bad_of_part, parts) for line in bad}

    def bad_of_part(self, lines: list[bytes]) -> list[bytes]:
        """The lines that the program refuses."""
        found = []
        begins = list(itertools.accumulate((len(it) + 1 for it in lines), initial=0))
        with tempfile.TemporaryFile() as trace, tempfile.TemporaryFile() as said:
            trace.write(b"".join(it + b"\n" for it in lines))
            trace.flush()
            at = 0
            while at < len(lines):
                # (the program reads on from where this leaves the file)
                os.lseek(trace.fileno(), begins[at], os.SEEK_SET)
                at += self.good_before(trace, said)
                if at < len(lines):
                    found.append(lines[at])
                    at += 1
        return found

    def good_before(self, trace: BinaryIO, said: BinaryIO) -> int:
        """How many lines are good before the first that isn't; more than there are if all are."""
        os.ftruncate(said.fileno(), 0)
        os.lseek(said.fileno(), 0, os.SEEK_SET)
        ran = start(
            [self.program, "run", "1"], stdin=trace, stdout=subprocess.DEVNULL, stderr=said
        )
        status = ran.wait()
        if status == 0:
            return 2**64
        words = os.pread(said.fileno(), 4096, 0).decode(errors="replace")
        line = re.fullmatch(r"avsim: line (\d+): not a command\n", words)
        if status != 3 or not line:
            raise Refused(f"lines can't be judged: {why_ended(status, words)}")
        return int(line[1]) - 1


class Live:
    """A run of the program that is driven through pipes. Behind what is sent it gets `stat`, whose
    reply says that all replies before it are whole.
    """

    def __init__(self, program: str, words: list[str]):
        # (in a group of its own, so that control-C doesn't end it)
        self.ran = start(
            [program, "run", *words],
            start_new_session=True,
            stdin=subprocess.PIPE,
            stdout=subprocess.PIPE,
            stderr=subprocess.PIPE,
        )

    def answers(self, lines: list[bytes]) -> list[list[str]]:
        """The replies to commands, each a list of lines. Lines that say nothing aren't for here."""
        data = b"".join(it + b"\n" for it in (*lines, b"stat"))
        writer = None
        if len(data) <= SMALL:
            self.write(data)
        else:
            # a program whose replies nobody reads waits: so much is written while these are read
            writer = threading.Thread(target=self.write, args=(data,))
            writer.start()
        try:
            return self.read(len(lines))
        except BaseException:
            self.ran.kill()
            raise
        finally:
            if writer:
                writer.join()

    def write(self, data: bytes) -> None:
        """Sends bytes. That the program has ended is seen where its replies are read."""
        try:
            self.ran.stdin.write(data)
            self.ran.stdin.flush()
        except OSError:
            pass

    def read(self, count: int) -> list[list[str]]:
        """So many replies, and the first line of one more, which isn't kept."""
        found = []
        while len(found) <= count:
            line = self.ran.stdout.readline().decode("ascii", "replace")
            if not line.endswith("\n"):
                said = self.ran.stderr.read().decode(errors="replace")
                raise EarlyEnd(self.ran.wait(), said)
            if line.startswith(" ") and found:
                found[-1].append(line[:-1])
            else:
                found.append([line[:-1]])
        return found[:count]

    def end(self) -> None:
        """Ends the run: its input ends, and it is killed only if it doesn't end by that."""
        for pipe in (self.ran.stdin, self.ran.stdout, self.ran.stderr):
            try:
                pipe.close()
            except OSError:
                pass
        try:
            self.ran.wait(2)
        except subprocess.TimeoutExpired:
            self.ran.kill()
            self.ran.wait()
