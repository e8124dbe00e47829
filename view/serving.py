"""Serves the page that is typed into, to a browser of this machine that knows its address.

The address has a random word that each request must carry. What comes from another host or origin,
is too long, or asks for what isn't there is refused, and nothing is done.

    GET  /WORD/             the page
    GET  /WORD/trace        the trace, as it is saved
    GET  /WORD/lessons/     the lessons, and NAME.html each
    POST /WORD/do           does what its JSON says: `version` and `here` (the step shown), and
                            `do`, which is help or one of ACTIONS, with the words of that
"""
import hmac
import json
import re
import secrets
import socket
import sys
import threading
from http.server import BaseHTTPRequestHandler, ThreadingHTTPServer
from typing import Any, Callable, NamedTuple

from shared.saying import Refused

from program import EarlyEnd

from laboratory import Laboratory, Trouble
from lesson import all_lessons, index_of, lesson_page
from page import page_of

# bytes of a request's body, seconds that a connection may say nothing, and connections at once
MOST_BODY, SILENCE, MOST_AT_ONCE = 4 << 20, 15, 100
# characters of a title
MOST_TITLE = 80
# what a browser may do with the page: its own script alone, and requests to where it comes from
POLICY = (
    "default-src 'none'; script-src 'nonce-{nonce}'; style-src 'unsafe-inline'; img-src data:; "
    "connect-src 'self'; base-uri 'none'; form-action 'none'; frame-ancestors 'none'"
)
HEADERS = {
    "Cache-Control": "no-store",
    "X-Content-Type-Options": "nosniff",
    "Referrer-Policy": "no-referrer",
    "Cross-Origin-Opener-Policy": "same-origin",
    "Cross-Origin-Resource-Policy": "same-origin",
}
TEXT, PAGE, JSON = "text/plain; charset=utf-8", "text/html; charset=utf-8", "application/json"
CHANGED_ELSEWHERE = "the trace was changed elsewhere: this is how it stands now"


class Wrong(Exception):
    """A request that isn't answered: its status, and why."""

    def __init__(self, status: int, why: str):
        super().__init__(why)
        self.status = status


class Answer(NamedTuple):
    """What goes out: its kind, the bytes, and headers beside the usual ones."""

    kind: str
    body: bytes
    headers: dict[str, str] = {}
    status: int = 200


class Asked:
    """A request's JSON, of which each word is looked at."""

    def __init__(self, words: Any):
        if not isinstance(words, dict):
            raise Wrong(400, "it is an object")
        self.words = words

    def number(self, key: str, most: int) -> int:
        """A number from 0 to most."""
        it = self.words.get(key)
        if type(it) is not int or not 0 <= it <= most:
            raise Wrong(400, f"{key} is wrong")
        return it

    def text(self, key: str) -> str:
        it = self.words.get(key)
        if not isinstance(it, str) or re.search("[\ud800-\udfff]", it):
            raise Wrong(400, f"{key} is no text")
        return it

    def is_so(self, key: str) -> bool:
        return self.words.get(key) is True


Done = tuple[int, int | None]


def put(lab: Laboratory, asked: Asked, here: int) -> Done:
    at = asked.number("at", len(lab.commands))
    return lab.put(at, asked.text("text"), asked.is_so("instead"), here)


def take_out(lab: Laboratory, asked: Asked, here: int) -> Done:
    return lab.take_out(asked.number("at", len(lab.commands)), here)


def undo(lab: Laboratory, _: Asked, here: int) -> Done:
    return lab.undo(here)


def redo(lab: Laboratory, _: Asked, here: int) -> Done:
    return lab.undo(here, is_redo=True)


def open_trace(lab: Laboratory, asked: Asked, here: int) -> Done:
    return lab.open(asked.text("text"), asked.text("title")[:MOST_TITLE] or "trace", here)


def more(lab: Laboratory, asked: Asked, _: int) -> Done:
    same = min(asked.number("at", len(lab.commands)), len(lab.steps))
    lab.tell_rest()
    return same, None


# what may be done: each gives the first step that may be another, and the one to show
ACTIONS: dict[str, Callable[[Laboratory, Asked, int], Done]] = {
    "put": put,
    "out": take_out,
    "undo": undo,
    "redo": redo,
    "open": open_trace,
    "more": more,
}


def since(lab: Laboratory, same: int) -> dict:
    """The steps from one on, and what else the page shows."""
    # (some of those that are the same may not be told again yet)
    same = min(same, len(lab.steps))
    return {
        "version": lab.version,
        "from": same,
        "steps": lab.steps[same:],
        "total": len(lab.commands),
        "more": len(lab.steps) < len(lab.commands),
        "frames": int(lab.state.words[0]),
        "title": lab.state.title,
        "most": lab.teller.most,
        "said": "; ".join(lab.teller.said()),
        "undo": len(lab.past),
        "redo": len(lab.future),
    }


def done(lab: Laboratory, asked: Asked) -> dict:
    """Does what is asked, and gives what the page needs of it."""
    what = asked.text("do")
    if what == "help":
        return {"help": lab.help(asked.text("text"))}
    if what not in ACTIONS:
        raise Wrong(400, "no such thing to do")
    if asked.number("version", 2**53) != lab.version:
        # (another page has changed it, or an answer was lost)
        return since(lab, 0) | {"refused": [[0, "", CHANGED_ELSEWHERE]]}
    try:
        same, shown = ACTIONS[what](lab, asked, asked.number("here", len(lab.commands)))
    except Trouble as why:
        return {"refused": why.rows}
    except (EarlyEnd, Refused) as why:
        return {"refused": [[0, "", str(why)]]}
    return since(lab, same) | ({} if shown is None else {"show": shown})


class Lessons:
    """The pages of the lessons, which are made when they are asked for first."""

    def __init__(self, program: str):
        self.program, self.made = program, {}
        # (stands in a page where the nonce of an answer goes)
        self.place = secrets.token_urlsafe(16)

    def page(self, name: str, nonce: str) -> str:
        """A page by its name: a name that no lesson has leads to no file."""
        lessons = all_lessons()
        if name in ("", "index.html"):
            return index_of(lessons)
        at = next((at for at, it in enumerate(lessons) if it.name == name), -1)
        if at < 0:
            raise Wrong(404, "not here")
        if name not in self.made:
            following = lessons[at + 1 :]
            self.made[name] = lesson_page(lessons[at], following, self.program, self.place)
        return self.made[name].replace(self.place, nonce)


class Server(ThreadingHTTPServer):
    """Listens on a free port of this machine alone."""

    daemon_threads, request_queue_size = True, 16

    def __init__(self, laboratory: Laboratory):
        super().__init__(("127.0.0.1", 0), Handler)
        self.laboratory, self.lock = laboratory, threading.Lock()
        self.lessons = Lessons(laboratory.run.program)
        # (the second word leads a browser to the first one, once: the words of a command line, by
        # which a browser is opened, are seen by all users of a machine)
        self.word, self.once = secrets.token_urlsafe(18), secrets.token_urlsafe(18)
        self.origin = f"http://127.0.0.1:{self.server_port}"

    def address(self, word: str) -> str:
        return f"{self.origin}/{word}/"

    def process_request(self, request, client_address) -> None:
        if threading.active_count() > MOST_AT_ONCE:
            self.shutdown_request(request)
            return
        super().process_request(request, client_address)

    def handle_error(self, request, client_address) -> None:
        """A browser that goes away within an answer is no fault."""
        if not isinstance(sys.exc_info()[1], (ConnectionError, socket.timeout)):
            super().handle_error(request, client_address)

    def is_once(self, word: str) -> bool:
        """Whether it is the word that leads to the other one, the first time."""
        with self.lock:
            found = bool(self.once) and hmac.compare_digest(word, self.once)
            self.once = "" if found else self.once
        return found


class Handler(BaseHTTPRequestHandler):
    """One connection."""

    server: Server
    protocol_version, timeout, server_version, sys_version = "HTTP/1.1", SILENCE, "avsim", ""
    # (head and body go out together: else the second waits 40 ms for the first one's receipt)
    wbufsize, disable_nagle_algorithm = 1 << 16, True

    def log_message(self, *_) -> None:
        """(the address is nobody's business but the browser's)"""

    def send_error(self, code, message=None, explain=None) -> None:
        """(what http.server itself refuses, as a bad line of a request)"""
        self.close_connection = True
        self.send(Answer(TEXT, b"refused\n", status=int(code)))

    def do_GET(self) -> None:
        self.guarded(self.get)

    def do_POST(self) -> None:
        self.guarded(self.post)

    def guarded(self, do: Callable[[str], Answer]) -> None:
        """Answers a request that is ours; of any other nothing is done."""
        try:
            answer = do(self.checked())
        except Wrong as why:
            self.close_connection = True
            answer = Answer(TEXT, f"{why}\n".encode(), status=why.status)
        except Refused as why:
            # (a lesson isn't made)
            answer = Answer(TEXT, f"{why}\n".encode(), status=500)
        self.send(answer)

    def one(self, name: str) -> str | None:
        """A header that may stand once."""
        found = self.headers.get_all(name, [])
        if len(found) > 1:
            raise Wrong(400, f"more than one {name}")
        return found[0] if found else None

    def checked(self) -> str:
        """What is asked for, behind the word."""
        if self.one("Host") != self.server.origin.removeprefix("http://"):
            raise Wrong(421, "not this host")
        origin = self.one("Origin")
        if origin not in (None, self.server.origin) or not origin and self.command == "POST":
            raise Wrong(403, "not from this page")
        if self.one("Sec-Fetch-Site") not in (None, "same-origin", "none"):
            raise Wrong(403, "not from this page")
        if self.one("Transfer-Encoding"):
            raise Wrong(411, "a body has a length")
        found = re.fullmatch(r"/([A-Za-z0-9_-]+)/((?:lessons/)?[a-z0-9.-]*)", self.path)
        if found and not found[2] and self.server.is_once(found[1]):
            return "once"
        if not found or not hmac.compare_digest(found[1], self.server.word):
            raise Wrong(404, "not here")
        return found[2]

    def get(self, what: str) -> Answer:
        if self.one("Content-Length") not in (None, "0"):
            raise Wrong(400, "a body where none belongs")
        if what == "once":
            return Answer(TEXT, b"", {"Location": f"/{self.server.word}/"}, 302)
        lab = self.server.laboratory
        with self.server.lock:
            if what == "trace":
                return Answer(TEXT, lab.text().encode("utf-8", "surrogateescape"))
            nonce = secrets.token_urlsafe(16)
            if what == "":
                page = page_of({**since(lab, 0), "first": 1, "base": []}, nonce, is_live=True)
            elif what.startswith("lessons/"):
                page = self.server.lessons.page(what.removeprefix("lessons/"), nonce)
            else:
                raise Wrong(404, "not here")
        policy = {"Content-Security-Policy": POLICY.format(nonce=nonce)}
        return Answer(PAGE, page.encode(), policy)

    def post(self, what: str) -> Answer:
        if what != "do":
            raise Wrong(404, "not here")
        asked = Asked(self.body())
        with self.server.lock:
            answer = done(self.server.laboratory, asked)
        return Answer(JSON, json.dumps(answer, separators=(",", ":")).encode())

    def body(self) -> Any:
        """The JSON of a request."""
        if (self.one("Content-Type") or "").partition(";")[0].strip() != JSON:
            raise Wrong(415, "it is JSON")
        length = self.one("Content-Length") or ""
        if not re.fullmatch("[0-9]{1,9}", length):
            raise Wrong(411, "a body has a length")
        if int(length) > MOST_BODY:
            raise Wrong(413, f"at most {MOST_BODY} bytes")
        try:
            return json.loads(self.rfile.read(int(length)).decode())
        except (ValueError, RecursionError):
            raise Wrong(400, "it is JSON") from None

    def send(self, answer: Answer) -> None:
        self.send_response(answer.status)
        for name, value in {**HEADERS, **answer.headers, "Content-Type": answer.kind}.items():
            self.send_header(name, value)
        self.send_header("Content-Length", str(len(answer.body)))
        if self.close_connection:
            self.send_header("Connection", "close")
        self.end_headers()
        if self.command != "HEAD":
            self.wfile.write(answer.body)
        self.wfile.flush()
