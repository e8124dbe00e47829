"""Makes a page of its data: the template, its style and its scripts in one file."""
import html
import json
import os
import re

HERE = os.path.dirname(os.path.realpath(__file__))
STYLES, SCRIPTS = ["page.css"], ["state.js", "spaces.js", "frames.js", "page.js"]


def file_of(name: str) -> str:
    with open(f"{HERE}/{name}", encoding="utf-8") as it:
        return it.read().rstrip("\n")


def page_of(data: dict, nonce: str = "", is_live: bool = False) -> str:
    """The page, or one to type into. (Within a script no text may look like the script's end.)
    Where a nonce is given, the scripts that have it may run.
    """
    text = json.dumps(data, separators=(",", ":"), ensure_ascii=True).replace("<", "\\u003c")
    styles, scripts = STYLES + ["live.css"] * is_live, SCRIPTS + ["live.js"] * is_live
    pieces = {
        "<title></title>": f"<title>avsim: {html.escape(data['title'])}</title>",
        "/*STYLE*/": "\n".join(map(file_of, styles)),
        "/*SCRIPT*/": "\n\n".join(map(file_of, scripts)),
        "<!--TYPING-->\n": file_of("live.html") + "\n" if is_live else "",
        "<script>": f'<script nonce="{nonce}">' if nonce else "<script>",
        "/*DATA*/": text,
    }
    places = "|".join(map(re.escape, pieces))
    return re.sub(places, lambda it: pieces[it[0]], file_of("page.html")) + "\n"
