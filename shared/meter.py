"""How far a program is."""
import sys
import time


class Progress:
    """Says on standard error how far a program of this name is: on a terminal in one line that
    changes, elsewhere a line now and then, from two seconds on.
    """

    def __init__(self, name: str):
        self.name = name
        self.is_terminal = sys.stderr.isatty()
        self.next, self.shown = time.monotonic() + (0.2 if self.is_terminal else 2), False

    def say(self, text: str) -> None:
        now = time.monotonic()
        if now < self.next:
            return
        self.next, self.shown = now + (0.2 if self.is_terminal else 2), True
        print(*self.dressed(f"{self.name}: {text}"), end="", file=sys.stderr, flush=True)

    def dressed(self, text: str) -> list[str]:
        return [f"\r{text:<60}"] if self.is_terminal else [f"{text}\n"]

    def end(self) -> None:
        if self.shown and self.is_terminal:
            print(f"\r{'':<60}\r", end="", file=sys.stderr, flush=True)
