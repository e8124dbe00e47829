"""`avsim talk FRAMES [SWAP..]`: a session at a prompt, which no mistyped line ends."""
import os
import re
import signal
import sys
import tempfile
from typing import Iterator

from shared.saying import count_of

from helping import OWN_WORDS, lines_of_help
from program import EarlyEnd, Refused, lines_from
from reasons import WORDS_OF_TALK, fault_of, no_command, printable, reason_of
from reference import Reference
from session import BadLine, Session, Trouble
from show import lines_of_show, processes_in
from small import lines_for, without_blanks
from terminal import Completion, History, Screen, Names, is_refusal, is_terminal, set_up

PROMPT = "> "
# refused commands of a loaded file that are shown
MOST_REFUSED = 10


class Talk:
    """The prompt: reads a line, does it, and shows what came of it."""

    def __init__(self, program: str, words: list[str]):
        self.reference = Reference()
        looks_good = lambda line: not fault_of(line, self.reference)
        self.session = Session(program, words, looks_good)
        self.screen, self.names = Screen(), Names()
        self.is_terminal = is_terminal()
        self.refusals = 0
        self.own_words = {
            "undo": self.undo,
            "save": self.save,
            "load": self.load,
            "help": self.help,
            "?": self.help,
            "show": self.show,
            "view": self.view,
        }

    def lines(self) -> Iterator[str]:
        """The lines of the session, as they come."""
        if not self.is_terminal:
            for line in lines_from(sys.stdin.buffer):
                yield line.decode("utf-8", "surrogateescape").removesuffix("\n")
            return
        while True:
            try:
                # (what is pasted may be several lines)
                yield from input(PROMPT).split("\n")
            except KeyboardInterrupt:
                print()
            except EOFError:
                print()
                return

    def run(self) -> bool:
        """The session, up to its end; whether no line was refused."""
        for line in self.lines():
            if line.split() == ["quit"]:
                break
            try:
                self.do(line)
            except (Trouble, ValueError) as why:
                self.refuse(str(why))
            except BadLine as bad:
                self.refuse(self.sentence_for(bad.line))
            except MemoryError:
                self.refuse("there is no memory for this")
            except KeyboardInterrupt:
                self.refuse("interrupted")
            sys.stdout.flush()
        self.session.end()
        return not self.refusals

    def refuse(self, text: str) -> None:
        """Says why something isn't done."""
        self.refusals += 1
        self.screen.own(text)

    def sentence_for(self, line: bytes) -> str:
        """What is said of a bad line: its reason, and where the rule stands."""
        text = str(reason_of(line, self.reference))
        if line.split() == [b"exit"]:
            return f"{text}; quit leaves the session"
        if not text.startswith("there is no command"):
            return text
        name = line.split(b" ")[0].decode("ascii")
        return no_command(name, [*self.reference.forms, *WORDS_OF_TALK])

    def do(self, line: str) -> None:
        """Does a line: a word of the shell, or commands."""
        words = line.split()
        if words and words[0] in self.own_words:
            self.own_words[words[0]](words[1:])
            return
        sent = lines_for(without_blanks(line), self.reference)
        given = [it.encode("utf-8", "surrogateescape") for it in sent]
        replies = self.session.do(given)
        for text, reply in zip(sent, replies):
            if sent != [line]:
                self.screen.show(f"+ {text}", "sent")
            self.screen.reply(reply)
            self.remember(text, reply)

    def remember(self, text: str, reply: list[str]) -> None:
        """Keeps what a command and its reply name, for completion."""
        self.names.see(text, self.reference.forms.get(text.split(" ")[0]), reply)

    def undo(self, words: list[str]) -> None:
        """`undo`, `undo N`: takes back the last command, or the last N."""
        if len(words) > 1 or words and not (words[0].isascii() and words[0].isdigit()):
            raise Trouble("undo has at most one word, how many commands to take back: undo 3")
        gone = self.session.undo(int(words[0][:9]) if words else 1)
        if not gone:
            self.screen.own("there is nothing to undo")
        for step in gone[:10]:
            more = f" .. and {count_of(len(step) - 1, 'more line')}" * (len(step) > 1)
            self.screen.own(f"undone: {step[0].decode('ascii', 'replace')[:80]}{more}")
        if len(gone) > 10:
            self.screen.own(f"undone: {len(gone) - 10} more commands")

    def save(self, words: list[str]) -> None:
        """`save FILE`: writes the good lines so far."""
        if len(words) != 1:
            raise Trouble("save has one word, the name of a file: save my.trace")
        count = self.session.save(words[0])
        self.screen.own(f"saved: {count_of(count, 'command')} in {words[0]}")

    def load(self, words: list[str]) -> None:
        """`load FILE`: does the lines of a trace."""
        if len(words) != 1:
            raise Trouble("load has one word, the name of a file: load my.trace")
        try:
            done = self.session.load(words[0])
        except BadLine as bad:
            raise Trouble(
                f"{words[0]}, line {bad.at + 1}: {self.sentence_for(bad.line)}; nothing is loaded"
            ) from None
        for _, line, reply in done:
            self.remember(line, reply)
        refused = [it for it in done if is_refusal(it[2])]
        were = f", of which {len(refused)} {'was' if len(refused) == 1 else 'were'} refused"
        loaded = f"loaded: {count_of(len(done), 'command')} of {words[0]}"
        self.screen.own(loaded + were * bool(refused))
        for number, line, reply in refused[:MOST_REFUSED]:
            self.screen.own(f"line {number}: {printable(line)}")
            self.screen.reply(reply)
        if len(refused) > MOST_REFUSED:
            self.screen.own(f"and {len(refused) - MOST_REFUSED} more")
        asked = self.session.machine_asked()
        if asked and asked != self.session.machine():
            wanted = asked.removeprefix("# Run it with ").removesuffix(".")
            self.screen.own(f"it is for {wanted}, and not for this machine")

    def show(self, words: list[str]) -> None:
        """`show`, `show P`: what each page is, and who has each frame."""
        if len(words) > 1 or words and not re.fullmatch("[1-9][0-9]{0,4}", words[0]):
            raise Trouble("show has at most one word, a process: show 1")
        numbers = [int(words[0])] if words else processes_in(self.session.lines())
        for line in lines_of_show(self.session.ask, numbers):
            self.screen.own(line)

    def view(self, words: list[str]) -> None:
        """`view`, `view FILE`: writes the page of the session."""
        if len(words) > 1:
            raise Trouble("view has at most one word, the name of a file: view my.html")
        file = words[0] if words else f"{tempfile.mkdtemp(prefix='avsim-view-')}/session.html"
        self.screen.own(self.session.write_page(os.path.expanduser(file)))

    def help(self, words: list[str]) -> None:
        """`help`, `help COMMAND`: what the reference says."""
        own = [] if words else [OWN_WORDS]
        self.screen.own("\n".join([*lines_of_help(self.reference, words), *own]))


def fault_of_file(name: str) -> str:
    """Why a swap file can't be opened, as far as that is seen, or nothing."""
    if os.path.isdir(name):
        return f"{name} is a folder"
    if not os.path.exists(name):
        return f"{name} isn't there: tools/make-swap makes a swap file"
    return "" if os.access(name, os.R_OK | os.W_OK) else f"{name} is not for you to read and write"


def no_session(words: list[str], why: EarlyEnd) -> Refused:
    """Why there is no session: the words, or what became of the program."""
    if why.status != 2:
        fault = next(filter(None, map(fault_of_file, words[1:])), "") if why.status == 8 else ""
        return Refused(f"there is no session: {why}" + f": {fault}" * bool(fault))
    return Refused(f"the program takes no such words behind FRAMES: {' '.join(words[1:])}", 2)


def talk(program: str, words: list[str]) -> int:
    """A session. The status is 0; from a pipe it is 3 where something was refused."""
    if not words:
        raise Refused("FRAMES is missing, 1 to 16384, as in avsim talk 4", 2)
    if not (re.fullmatch("[1-9][0-9]{0,4}", words[0]) and int(words[0]) <= 16384):
        raise Refused(f"FRAMES is 1 to 16384: {words[0]}", 2)
    for stream in (sys.stdin, sys.stdout):
        stream.reconfigure(encoding="utf-8", errors="surrogateescape")
    it = Talk(program, words)
    try:
        it.session.start()
    except EarlyEnd as why:
        raise no_session(words, why) from None
    if it.is_terminal:
        # (a shell that starts this in the background has control-C ignored)
        signal.signal(signal.SIGINT, signal.default_int_handler)
        set_up(Completion(it.reference, it.names))
        history = History()
        frames = count_of(int(words[0]), "frame")
        it.screen.own(f"{frames}; help lists the commands, quit or control-D leaves")
    all_done = it.run()
    if it.is_terminal:
        history.save()
    return 0 if all_done or it.is_terminal else 3
