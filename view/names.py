"""The names that comments of a trace give processes and mappings (tools/labels.py), as operations
of a page:

    n P NAME        process P is called so
    b P N K NAME    K pages of P from page number N on are a mapping that is called so (none: they
                    have no name any more)

What `p` and `f` do (view/told.py), they do with names, too: a new process has none, and a child has
its parent's.
"""
from labels import mapping_of, process_of
from ranges import Ranges

PAGE = 4096


class Names:
    """The named pages of each process, by address."""

    def __init__(self) -> None:
        self.pages: dict[int, Ranges] = {}
        self.processes: dict[int, str] = {}

    def take(self, comment: str, words: list[str], reply: list[str]) -> list[list]:
        """The operations of a command with the comment above it, where it was done."""
        if reply[0].startswith("err "):
            return []
        named = list(filter(None, map(process_of, comment.split("\n"))))
        mapping = next(filter(None, map(mapping_of, comment.split("\n"))), "")
        ops = []
        match words:
            case ["spawn", process]:
                self.pages[int(process)] = Ranges()
                self.processes.pop(int(process), None)
            case ["fork", process, child]:
                self.pages[int(child)] = Ranges(self.pages.get(int(process), ()))
                self.processes[int(child)] = self.processes.get(int(process), "")
            case ["mmap", process, length, *_]:
                ops = self.put(int(process), int(reply[0][4:], 16), int(length), mapping)
            case ["munmap", process, at, length]:
                ops = self.put(int(process), int(at, 16), int(length), "")
            case ["mremap", process, at, old, new, *_]:
                to = int(reply[0][4:], 16)
                ops = self.move(int(process), int(at, 16), to, int(old), int(new))
        self.processes |= dict(named)
        return [*ops, *(["n", number, name] for number, name in named)]

    def put(self, process: int, at: int, length: int, name: str) -> list[list]:
        """Gives pages a name, or takes the one that they have."""
        pages = self.pages.setdefault(process, Ranges())
        first, end = at // PAGE, -(-(at + length) // PAGE)
        if not name and not pages.within(first, end):
            return []
        pages.cut(first, end)
        if name:
            pages.put(first, end, name)
        return [["b", process, first, end - first, name]]

    def move(self, process: int, at: int, to: int, old: int, new: int) -> list[list]:
        """Pages go elsewhere with their names, or a range becomes longer or shorter."""
        pages = self.pages.setdefault(process, Ranges())
        kept = pages.within(at // PAGE, -(-(at + min(old, new)) // PAGE))
        if not kept:
            return self.put(process, to, new, "") if to != at else []
        ops = self.put(process, at, old, "")
        ops += self.put(process, to, new, kept[0].of)
        return ops

    def all_ops(self, living: set[int]) -> list[list]:
        """The operations that lead to what is named now, of these processes."""
        ops = [["n", it, name] for it, name in self.processes.items() if name and it in living]
        for process, pages in self.pages.items():
            if process not in living:
                continue
            ops += [["b", process, it.start, it.end - it.start, it.of] for it in pages]
        return ops
