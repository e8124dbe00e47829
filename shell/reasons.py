"""Why a line is no command: a sentence, and the section of the reference that has the rule.

Whether it is none is for the program to say; here only its reason is sought. The tests stand in the
order in which people would look: the line as bytes, its blanks, its first word, and then its words
from left to right.

"""
import difflib
import re

from reference import Form, Reference
from shared import saying

LINE_LIMIT = 8448
# characters of a word that are shown at most
MOST_SHOWN = 40
WORDS_OF_TALK = ("show", "view", "touch", "undo", "save", "load", "help", "quit")
# what a madvise may say
ADVICE = ("dontneed", "dontfork", "dofork", "wipeonfork", "keeponfork", "mergeable", "unmergeable")
# sections of the reference
TRACE, COMMANDS, TALK = "Trace", "Commands", "Talk"


class Reason(Exception):
    """The reason that was found, and the section with the rule."""

    def __init__(self, sentence: str, place: str = TRACE):
        super().__init__(sentence)
        self.sentence, self.place = sentence, place

    def __str__(self) -> str:
        return f'{self.sentence} (docs/REFERENCE.md, "{self.place}")'


def reason_of(line: bytes, reference: Reference) -> Reason:
    """The reason of a line that the program refuses: it says where to look if none is seen."""
    return fault_of(line, reference) or Reason(
        "the program takes this line for no command", line.split(b" ")[0].decode("ascii")
    )


def fault_of(line: bytes, reference: Reference) -> Reason | None:
    """What is wrong with a line, which is bytes without the newline, as far as it is seen here."""
    if not line or line.startswith(b"#") and len(line) <= LINE_LIMIT:
        return None
    try:
        of_bytes(line)
        text = line.decode("ascii")
        of_blanks(text)
        form = form_of(text.split(" ")[0], reference)
        of_words(text.split(" ")[1:], form)
    except Reason as found:
        return found
    return None


def printable(word: str | bytes) -> str:
    """A word as it can be shown."""
    return saying.printable(word, MOST_SHOWN)


def of_bytes(line: bytes) -> None:
    """Bytes that no line has."""
    if len(line) > LINE_LIMIT:
        raise Reason(f"a line has at most {LINE_LIMIT} bytes")
    if line.startswith(b"\xef\xbb\xbf"):
        raise Reason("a byte order mark stands in front")
    if line.endswith(b"\r"):
        raise Reason("a carriage return stands at the end: tr -d '\\r' takes them away")
    if b"\r" in line:
        raise Reason("a carriage return stands within the line")
    if b"\t" in line:
        raise Reason("a tab stands where one space belongs")
    for byte in line:
        if byte > 126:
            raise Reason(f"a byte isn't ASCII: \\x{byte:02x}")
        if byte < 32 or byte == 127:
            raise Reason(f"a control byte: \\x{byte:02x}")


def of_blanks(text: str) -> None:
    """Spaces where none may stand, and comments that don't begin with the line."""
    if not text.strip(" "):
        raise Reason("a line of spaces isn't empty")
    if text.lstrip(" ").startswith("#"):
        raise Reason("a comment begins with the line, and a space stands before it")
    if " #" in text:
        raise Reason("a comment stands on a line of its own")
    if text.startswith("> "):
        raise Reason("the sign > of a session on paper is no part of the line")
    if text.startswith(" "):
        raise Reason("a space stands in front")
    if text.endswith(" "):
        raise Reason("a space stands at the end")
    if "  " in text:
        raise Reason("two spaces stand in a row")


def form_of(name: str, reference: Reference) -> Form:
    """The form of the command of this name."""
    if name in reference.forms:
        return reference.forms[name]
    if name.lower() in reference.forms:
        raise Reason(f"the name of a command is lower case: {printable(name)}")
    if name in WORDS_OF_TALK:
        raise Reason(f"{name} is a word of avsim talk, and of no trace", TALK)
    raise Reason(no_command(name, list(reference.forms)), COMMANDS)


def no_command(name: str, names: list[str]) -> str:
    """What is said of a name that none of these is: which one may be meant, or all."""
    near = difflib.get_close_matches(name, names, 1, 0.7)
    hint = f"did you mean {near[0]}?" if near else f"there are {', '.join(names)}"
    return f"there is no command {printable(name)}; {hint}"


def of_words(words: list[str], form: Form) -> None:
    """The words behind the name, from left to right, and whether there are too few or too many."""
    for kind, word in zip(form.kinds, words):
        of_kind(kind, word, form)
    if not form.is_known:
        return
    if len(words) < len(form.kinds):
        raise Reason(f"{form.kinds[len(words)]} is missing: {form.heading}", form.name)
    rest = words[len(form.kinds) :]
    if rest and form.ways:
        of_way(rest, form)
    elif rest and form.kinds[-1:] == ["HEX"]:
        raise Reason(f"the bytes are one word, and here is a second one: {printable(rest[0])}")
    elif rest:
        raise Reason(f"there is a word too many: {printable(rest[0])}", form.name)


def of_way(rest: list[str], form: Form) -> None:
    """The last words of a command that may end in several ways."""
    firsts = list(dict.fromkeys(it[0] for it in form.ways))
    some = " or ".join(filter(None, [", ".join(firsts[:-1]), firsts[-1]]))
    ways = [it for it in form.ways if it[0] == rest[0]]
    if not ways:
        raise Reason(no_way(rest[0], firsts, some, form), form.name)
    if set(rest[1:]) & set(firsts):
        which = f"one of {some}" if firsts[1:] else f"one {some}"
        raise Reason(f"there is {which} at most: {printable(' '.join(rest))}", form.name)
    longest = max(ways, key=len)
    for kind, word in zip(longest[1:], rest[1:]):
        of_kind(kind, word, form)
    if len(rest) < min(map(len, ways)):
        what = WHAT.get(longest[len(rest)], longest[len(rest)])
        raise Reason(f"the {what} behind {rest[0]} is missing", form.name)
    if len(rest) > len(longest) == 1:
        raise Reason(f"{rest[0]} has no address: {printable(rest[1])}", form.name)
    if len(rest) > len(longest):
        raise Reason(f"there is a word too many: {printable(rest[len(longest)])}", form.name)


# what a word of a way is
WHAT = {"A": "address", "B": "address", "N": "priority"}


def no_way(word: str, firsts: list[str], some: str, form: Form) -> str:
    """What is said of a word that begins none of the ways."""
    if word.lower() in firsts:
        return f"{word.lower()} is lower case: {printable(word)}"
    joined = [it for it in firsts if re.fullmatch(f"{it}=.*", word)]
    if joined:
        return f"{joined[0]} and what follows it are two words: {printable(word)}"
    if re.fullmatch("(0[xX])?[0-9a-fA-F]+", word):
        whats = {WHAT[kind] for way in form.ways for kind in way[1:]}
        what = " or ".join(sorted(whats))
        return f"before {'an' if what[0] == 'a' else 'a'} {what} stands {some}: {printable(word)}"
    return f"{some} may stand here: {printable(word)}"


def of_kind(kind: str, word: str, form: Form) -> None:
    """A word that isn't of the kind that its place wants."""
    if kind in ("P", "Q"):
        of_decimal("a process", word, 1, 32767)
    elif kind in ("LEN", "OLD", "NEW"):
        of_decimal("a length", word, 0, 2**64 - 1)
    elif kind == "N" and form.name == "read":
        of_decimal("a number of bytes", word, 1, 4096)
    elif kind == "N" and form.name == "swapon":
        of_decimal("a priority", word, 0, 32767)
    elif kind == "N":
        what = "slots" if form.name == "complete" else "frames"
        of_decimal(f"a number of {what}", word, 1, 16384)
    elif kind == "K":
        of_area(word)
    elif kind == "M":
        of_decimal("a page of a swap area", word, 0, 2**32 - 1)
    elif kind in ("A", "B"):
        of_address(word)
    elif kind == "HEX":
        of_hex(word)
    elif kind == "PROT":
        of_prot(word)
    elif kind == "ADVICE":
        of_advice(word)


def of_decimal(what: str, word: str, least: int, most: int) -> None:
    """A decimal number from least to most, without sign, leading zero or unit."""
    see = f": {printable(word)}"
    if re.fullmatch("0[xX].*", word):
        raise Reason(f"{what} is decimal{see}")
    if re.fullmatch(r"[-+].*", word):
        raise Reason(f"{what} has no sign{see}")
    if re.fullmatch("[0-9]+[kKmMgGtT]i?[bB]?|[0-9]+[pbB]", word):
        raise Reason(f"{what} has no unit{see}")
    if re.fullmatch("[0-9a-fA-F]+[hH]?", word) and not word.isdigit():
        raise Reason(f"{what} is decimal{see}")
    if not re.fullmatch("[0-9]+", word):
        raise Reason(f"{what} has decimal digits alone{see}")
    if len(word) > 1 and word[0] == "0":
        raise Reason(f"{what} has no leading zero{see}")
    # (a number of very many digits is too great without being read)
    if len(word) > 20 or not least <= int(word) <= most:
        bound = f"is {least} to {most}"
        if most > 2**16:
            bound = f"is at most {most}, below 2^{most.bit_length()}"
        raise Reason(f"{what} {bound}{see}")


def of_area(word: str) -> None:
    """A swap area: its number, 0 to 7."""
    if re.fullmatch("[0-9]+:[0-9]+", word):
        raise Reason(f"area and page of a slot are two words: {printable(word)}", "slot")
    if re.search("[/.]|[g-zG-Z_]", word):
        raise Reason(
            "a swap area has a number, and its file stands on the command line: "
            f"{printable(word)}",
            "Command line",
        )
    of_decimal("a swap area", word, 0, 7)


def of_address(word: str) -> None:
    """An address: 1 to 16 lower-case hexadecimal digits, without 0x or leading zero."""
    see = f": {printable(word)}"
    if re.fullmatch("0[xX].*", word):
        raise Reason(f"an address has no 0x{see}")
    if re.fullmatch("[-+].*", word):
        raise Reason(f"an address has no sign{see}")
    if re.fullmatch("[0-9a-f]+[-+][0-9]+p", word):
        raise Reason(f"pages are added in avsim talk alone, from 0 to 2^64 - 1{see}", TALK)
    if not re.fullmatch("[0-9a-fA-F]+", word):
        raise Reason(f"an address has hexadecimal digits alone{see}")
    if word != word.lower():
        raise Reason(f"hexadecimal digits are lower case{see}")
    if len(word) > 1 and word[0] == "0":
        raise Reason(f"an address has no leading zero{see}")
    if len(word) > 16:
        raise Reason(f"an address has at most 16 digits{see}")


def of_hex(word: str) -> None:
    """Bytes: two lower-case hexadecimal digits for each, 1 to 4096 of them."""
    see = f": {printable(word)}"
    if re.fullmatch("0[xX].*", word):
        raise Reason(f"bytes have no 0x{see}")
    if not re.fullmatch("[0-9a-fA-F]+", word):
        raise Reason(f"bytes are hexadecimal digits, two for each{see}")
    if word != word.lower():
        raise Reason(f"hexadecimal digits are lower case{see}")
    if len(word) % 2:
        raise Reason(f"a byte has two digits, and their number is odd{see}")
    if len(word) > 8192:
        raise Reason(f"a write has at most 4096 bytes, and here are {len(word) // 2}")


def of_prot(word: str) -> None:
    """A protection: r or -, w or -, x or -."""
    see = f": {printable(word)}"
    if re.fullmatch("[rwxRWX-]*[RWX][rwxRWX-]*", word):
        raise Reason(f"a protection is lower case{see}")
    if len(word) != 3:
        raise Reason(f"a protection has three characters, as rw-{see}")
    if not re.fullmatch("[rwx-]*", word):
        raise Reason(f"a protection has the letters r, w, x, or - in their place{see}")
    if not re.fullmatch("[r-][w-][x-]", word):
        raise Reason(f"a protection has its letters in the order r, w, x{see}")


def of_advice(word: str) -> None:
    """What a `madvise` says of pages."""
    see = f": {printable(word)}"
    if word.lower().removeprefix("madv_") in ADVICE and word not in ADVICE:
        raise Reason(f"an advice is lower case, without MADV_{see}", "madvise")
    if word not in ADVICE:
        raise Reason(f"an advice is {', '.join(ADVICE[:-1])} or {ADVICE[-1]}{see}", "madvise")
