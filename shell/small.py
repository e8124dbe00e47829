"""Small words for people, and the lines that they stand for: `64p` is 64 pages where a length
stands, `20000+3p` an address three pages on, and `touch P A LEN` a write to each page.
"""
import re

from reference import Form, Reference

PAGE = 4096
# pages of one touch: as many as a machine has frames at most
MOST_TOUCHED = 16384


def without_blanks(line: str) -> str:
    """A line without the blanks that no trace has: tabs, spaces around it, and more than one."""
    text = line.strip(" \t")
    return line if line.startswith("#") else text if text.startswith("#") else spaced(text)


def spaced(text: str) -> str:
    """Words with one space between them."""
    return re.sub("[ \t]+", " ", text)


def lines_for(text: str, reference: Reference) -> list[str]:
    """The lines that are sent for a line that was typed: itself, where it has no small word. What
    makes no sense as a small word stays, so that the program refuses it.
    """
    words = text.split(" ")
    if words[0] == "touch":
        return writes_of_touch(words)
    form = reference.forms.get(words[0])
    if not form:
        return [text]
    kinds = kinds_of(words, form)
    return [" ".join([words[0], *map(plain_word, kinds, words[1:])])]


def kinds_of(words: list[str], form: Form) -> list[str]:
    """The kind of each word behind the name, as far as the form has one."""
    kinds, rest = list(form.kinds), words[1 + len(form.kinds) :]
    for way in form.ways:
        if rest and rest[0] == way[0] and len(way) > 1:
            kinds += way
    return kinds + [""] * len(words)


def plain_word(kind: str, word: str) -> str:
    """A word as the program has it."""
    if kind in ("LEN", "OLD", "NEW"):
        pages = re.fullmatch("(0|[1-9][0-9]{0,20})p", word)
        return str(int(pages[1]) * PAGE) if pages else word
    if kind in ("A", "B"):
        sum_of = re.fullmatch("([0-9a-f]{1,16})([-+][0-9]{1,20})p", word)
        to = int(sum_of[1], 16) + int(sum_of[2]) * PAGE if sum_of else -1
        return f"{to:x}" if 0 <= to < 2**64 else word
    return word


def writes_of_touch(words: list[str]) -> list[str]:
    """The writes of `touch P A LEN`: one byte in each page that a range from A on begins in steps
    of a page.
    """
    if len(words) != 4:
        raise ValueError("touch has a process, an address and a length: touch P A LEN")
    process, address, length = words[1], plain_word("A", words[2]), plain_word("LEN", words[3])
    if not re.fullmatch("[0-9a-f]{1,16}", address):
        raise ValueError(f"the address of a touch has hexadecimal digits alone: {address}")
    if not re.fullmatch("[1-9][0-9]{0,20}", length):
        raise ValueError(f"the length of a touch is bytes, or pages as 64p: {length}")
    pages = -(-int(length) // PAGE)
    if pages > MOST_TOUCHED:
        raise ValueError(f"a touch has at most {MOST_TOUCHED} pages, and here are {pages}")
    first = int(address, 16)
    return [f"write {process} {first + PAGE * it:x} 01" for it in range(pages)]
