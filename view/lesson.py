"""A lesson as a page: its text beside the view of its trace."""
import base64
import glob
import html
import os
import re
import tempfile
import urllib.parse
import zlib
from typing import NamedTuple

from shared import ROOT

import making
import swapfile
import teller
from page import file_of, page_of

# what the view leaves out beside a lesson's text
NARROW = """<style>
  html { font-size: clamp(13px, 1.6vw, 20px); }
  main {
    grid-template-columns: minmax(22rem, 7fr) minmax(13rem, 3fr);
    grid-template-rows: auto 1fr;
  }
  #left { grid-column: 1 / -1; overflow: visible; } #list, #comment, header label { display: none; }
  #now { min-height: 7.5rem; }
</style>"""


def inline(text: str) -> str:
    """A line of text: code, emphasis, and links, of which the words stay."""
    text = html.escape(text, quote=False)
    text = re.sub(r"`([^`]*)`", r"<code>\1</code>", text)
    text = re.sub(r"\*\*([^*]+)\*\*", r"<b>\1</b>", text)
    text = re.sub(r"\*([^*]+)\*", r"<em>\1</em>", text)
    return re.sub(r"\[([^\]]+)\]\([^)]+\)", r"\1", text)


def picture_of(name: str) -> str:
    """A drawing of the lessons, to stand in a page."""
    with open(f"{ROOT}/docs/lessons/{name}", encoding="utf-8") as it:
        return re.sub(r' xmlns="[^"]*"', "", it.read(), count=1).strip()


def question_of(text: str) -> tuple[str, str]:
    """A question, and its answer, which stands in the last brackets."""
    depth, at = 0, len(text)
    for at in range(len(text) - 1, -1, -1):
        depth += {")": 1, "(": -1}.get(text[at], 0)
        if depth == 0:
            break
    return text[:at].strip(), text[at + 1 : -1]


class Text:
    """The text of a lesson as a page has it. Lines of the trace are counted as steps. `place` is
    where questions can be tried, if anywhere.
    """

    def __init__(self, text: str, place: str = ""):
        self.step, self.place = 0, place
        blocks = re.split(r"\n\n+", text.strip())
        self.body = "\n".join(self.block(it) for it in blocks)

    def block(self, text: str) -> str:
        if text.startswith("    "):
            return self.session(text)
        if text.startswith("#"):
            level, words = text.split(" ", 1)
            return f"<h{len(level)}>{inline(words)}</h{len(level)}>"
        picture = re.fullmatch(r"!\[.*\]\((\S+\.svg)\)", text)
        if picture:
            return f"<figure>{picture_of(picture[1])}</figure>"
        if re.match(r"\d+\. ", text):
            return "<ol>\n" + "\n".join(map(self.question, text.split("\n"))) + "\n</ol>"
        if text.startswith("- "):
            items = "\n".join(f"<li>{inline(it[2:])}</li>" for it in text.split("\n"))
            return f"<ul>\n{items}\n</ul>"
        return f"<p>{inline(text)}</p>"

    def question(self, text: str) -> str:
        asked, answer = question_of(text.split(" ", 1)[1])
        tried = f' <a href="{html.escape(self.place)}">try it</a>' if self.place else ""
        shown = f"<details><summary>{inline(asked)}</summary>{inline(answer)}</details>"
        return f"<li>{shown}{tried}</li>"

    def session(self, text: str) -> str:
        return "<pre>" + "\n".join(self.line(it[4:]) for it in text.split("\n")) + "</pre>"

    def line(self, text: str) -> str:
        if not text.startswith("> "):
            return html.escape(text)
        self.step += 1
        return f'<a href="#{self.step}" data-step="{self.step}">{html.escape(text)}</a>'


class Lesson(NamedTuple):
    """A lesson: the files of its text and of its trace, the name of its page, and its title."""

    file: str
    trace: str
    name: str
    title: str


def number_of(file: str) -> int:
    """The number of a lesson, with which its name begins."""
    return int(os.path.basename(file).split("-")[0])


def text_of(file: str) -> str:
    with open(file, encoding="utf-8") as it:
        return it.read()


def all_lessons() -> list[Lesson]:
    """The lessons in their order."""
    found = []
    for file in sorted(glob.glob(f"{ROOT}/docs/lessons/[0-9]*.md"), key=number_of):
        name = os.path.basename(file).removesuffix(".md")
        title = text_of(file).split("\n", 1)[0].removeprefix("# ")
        trace = f"{ROOT}/examples/lessons/{name}.trace"
        found.append(Lesson(file, trace, f"{name}.html", title))
    return found


def link_of(text: str, title: str) -> str:
    """The part of a link that opens a trace in a page to type into (view/live.js)."""
    small = zlib.compressobj(wbits=-15)
    packed = base64.urlsafe_b64encode(small.compress(text.encode()) + small.flush()).decode()
    return f"#trace={packed.rstrip('=')}&title={urllib.parse.quote(title)}"


def view_of(lesson: Lesson, program: str, nonce: str) -> str:
    """The view of a lesson's trace."""
    trace = text_of(lesson.trace)
    with tempfile.TemporaryDirectory(prefix="avsim-lesson-") as room:
        words = swapfile.words_for(trace, room)
        run = making.Run(program, words, making.commands_of(trace))
        title = os.path.basename(lesson.trace)
        view = page_of(teller.data_of(title, int(words[0]), run, None), nonce)
    return view.replace("</style>", f"</style>{NARROW}", 1)


def lesson_page(lesson: Lesson, following: list[Lesson], program: str, nonce: str = "") -> str:
    """The page of a lesson, with links to the next one, if there is one, and to all. With a nonce
    it is one beside a page to type into, where its questions can be tried.
    """
    links = [f'<a href="{it.name}">Next: {html.escape(it.title)}</a>' for it in following[:1]]
    links.append('<a href="index.html">All lessons</a>')
    nav = f"<nav>{' | '.join(links)}</nav>"
    place = f"../{link_of(text_of(lesson.trace), os.path.basename(lesson.trace))}" if nonce else ""
    pieces = {
        "<!--TITLE-->": html.escape(lesson.title),
        "<!--TEXT-->": f"{nav}\n{Text(text_of(lesson.file), place).body}\n{nav}",
        "<!--VIEW-->": html.escape(view_of(lesson, program, nonce)),
        "<script>": f'<script nonce="{nonce}">' if nonce else "<script>",
    }
    places = "|".join(map(re.escape, pieces))
    return re.sub(places, lambda it: pieces[it[0]], file_of("lesson.html")) + "\n"


def shown_by_lessons() -> dict[str, str]:
    """What each lesson shows, by the name of its page: the table of the lessons' README."""
    with open(f"{ROOT}/docs/lessons/README.md", encoding="utf-8") as it:
        rows = re.findall(r"^\| \[[^]]*\]\((\S+)\.md\) \| (.*) \|$", it.read(), re.M)
    return {f"{name}.html": text for name, text in rows}


def index_of(lessons: list[Lesson]) -> str:
    """The page that leads to each lesson, with what that shows."""
    shown = shown_by_lessons()
    rows = "\n".join(
        f'<li><a href="{it.name}">{html.escape(it.title)}</a><br>{inline(shown[it.name])}</li>'
        for it in lessons
    )
    head = '<!DOCTYPE html>\n<html lang="en">\n<meta charset="utf-8">\n'
    head += '<meta name="viewport" content="width=device-width">\n<title>avsim: lessons</title>'
    style = "<style>:root { color-scheme: light dark; } body { font: 1.2rem/1.7 system-ui, "
    style += "sans-serif; margin: 2rem auto; padding: 0 1rem; max-width: 38rem; } "
    style += "ul { list-style: none; padding: 0; } li { margin: .7rem 0; line-height: 1.4; }"
    note = "<p>How Linux keeps anonymous memory. Take them in order.</p>"
    return f"{head}\n{style}</style>\n<h1>Lessons</h1>\n{note}\n<ul>\n{rows}\n</ul>\n</html>\n"
