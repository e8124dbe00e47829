"""Call chains, as `perf script` and `strace -k` print them: a function a line, innermost first.

A trace has them outermost first, with `;` between, as tools for flame graphs take them.
"""
import os
import re

# so many of the functions of a chain are kept, the innermost
MOST = 64
UNKNOWN = "[unknown]"

# as in `    5618c1 main (/usr/bin/prog)`, and as in ` > /usr/bin/prog(main+0x10) [0x1139]`
OF_PERF = re.compile(r"\s+[0-9a-f]+ (?P<name>\S.*?)(?:\+0x[0-9a-f]+)? \((?P<file>\S.*)\)")
OF_STRACE = re.compile(r" > (?P<file>\S.*?)\((?:(?P<name>.*)\+0x[0-9a-f]+)?\) \[0x[0-9a-f]+\]")


def is_of_perf(line: str) -> bool:
    return bool(OF_PERF.fullmatch(line))


def is_of_strace(line: str) -> bool:
    """Whether a line of a log belongs to a chain. (What strace can't tell begins so, too.)"""
    return line.startswith(" > ")


def function_of(line: str) -> str:
    """The function of a line, or the file in which it is; empty where neither is known."""
    match = OF_PERF.fullmatch(line) or OF_STRACE.fullmatch(line)
    if not match:
        return ""
    name = match["name"] or UNKNOWN
    if name == UNKNOWN:
        file = os.path.basename(match["file"])
        name = f"[{file}]" if UNKNOWN not in match["file"] else ""
    return name.replace(";", ":")


def joined(lines: list[str]) -> str:
    """The functions of a chain's lines, outermost first."""
    functions = [it for it in map(function_of, lines[:MOST]) if it]
    return ";".join(reversed(functions))
