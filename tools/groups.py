"""The cgroup of a program: it is frozen and thawed there, its pages are sent out, and it gets no
more memory than is said.

Where both versions of cgroups are there, freezing is done by the second one, which needs no
controller, and memory by that which has the controller.
"""
import os
import re
import time

from shared.saying import Refused

from keeper import Keeper, write
from ranges import PAGE

MOUNTS = "/proc/self/mounts"
# how often one looks whether all are frozen, and for how long, in seconds
PAUSE, PATIENCE = 0.0002, 2
# the most that the kernel can be told to take anonymous pages rather than those of files
SWAPPINESS = "200"
# has a shell join cgroups before it becomes the program
JOIN = 'for it in %s; do echo $$ >"$it/cgroup.procs" || exit 126; done; exec "$@"'
# the name under which it does so, which the recorder leaves out
JOINS = "avsim-join"


def read(file: str) -> str:
    with open(file, encoding="ascii") as it:
        return it.read()


class Roots:
    """Where cgroups are mounted: those of version 2, and by controller those of version 1."""

    def __init__(self, mounts: str):
        self.second = ""
        self.first: dict[str, str] = {}
        for line in mounts.splitlines():
            _, place, kind, options = line.split(" ")[:4]
            if kind == "cgroup2":
                self.second = self.second or place
            elif kind == "cgroup":
                self.first |= {it: place for it in options.split(",")}

    def memory(self) -> tuple[str, bool]:
        """Where memory is limited, and whether that is version 2."""
        if self.second and "memory" in read(f"{self.second}/cgroup.controllers").split():
            return self.second, True
        if "memory" in self.first:
            return self.first["memory"], False
        raise Refused("there is no cgroup with the controller memory here")

    def freezer(self) -> tuple[str, bool]:
        """Where processes are frozen, and whether that is version 2."""
        if self.second:
            return self.second, True
        if "freezer" in self.first:
            return self.first["freezer"], False
        raise Refused("there is no cgroup that freezes here")


class Group:
    """A cgroup of its own for a program, in each hierarchy that is used."""

    def __init__(self, keeper: Keeper, mounts: str = MOUNTS):
        roots = Roots(read(mounts))
        (memory, self.is_second), (freezer, self.freezes_second) = roots.memory(), roots.freezer()
        name = f"avsim-{os.getpid()}"
        self.memory, self.freezer = f"{memory}/{name}", f"{freezer}/{name}"
        self.places = sorted({self.memory, self.freezer})
        if self.is_second:
            self.enable(memory)
        for it in self.places:
            keeper.tell("leave", it)
            self.make(it)
        # (who is frozen can't end)
        keeper.tell("write", *self.frozen(False))

    @staticmethod
    def make(place: str) -> None:
        try:
            os.mkdir(place)
        except OSError as error:
            raise Refused(f"the cgroup {place} can't be made: {error.strerror}") from None

    @staticmethod
    def enable(root: str) -> None:
        """Groups below the root have the controller."""
        if "memory" not in read(f"{root}/cgroup.subtree_control").split():
            write(f"{root}/cgroup.subtree_control", "+memory")

    def joining(self, command: list[str], room: str, keeper: Keeper) -> list[str]:
        """The words of a program that joins the cgroup first, by a shell under a name of its
        own.
        """
        shell = f"{room}/{JOINS}"
        keeper.tell("remove", shell)
        os.symlink(os.path.realpath("/bin/sh"), shell)
        return [shell, "-c", JOIN % " ".join(self.places), JOINS, *command]

    def processes(self) -> list[int]:
        return [int(it) for it in read(f"{self.freezer}/cgroup.procs").split()]

    # freezing

    def frozen(self, is_so: bool) -> tuple[str, str]:
        """The file that says so, and its text."""
        if self.freezes_second:
            return f"{self.freezer}/cgroup.freeze", f"{int(is_so)}"
        return f"{self.freezer}/freezer.state", "FROZEN" if is_so else "THAWED"

    def is_frozen(self) -> bool:
        if self.freezes_second:
            return "frozen 1" in read(f"{self.freezer}/cgroup.events")
        return read(f"{self.freezer}/freezer.state").startswith("FROZEN")

    def freeze(self) -> bool:
        """Whether all stand still: one that the kernel holds may take too long."""
        write(*self.frozen(True))
        until = time.monotonic() + PATIENCE
        while not self.is_frozen() and time.monotonic() < until:
            time.sleep(PAUSE)
        return self.is_frozen()

    def thaw(self) -> None:
        write(*self.frozen(False))

    # memory

    def send_out(self) -> None:
        """The pages of all its processes go out, also those that several share, as far as that
        can be done.
        """
        try:
            if self.is_second:
                size = read(f"{self.memory}/memory.current").strip()
                write(f"{self.memory}/memory.reclaim", f"{size} swappiness={SWAPPINESS}")
            else:
                write(f"{self.memory}/memory.force_empty", "0")
        except OSError:
            # (so it ends where less could be sent out than was asked)
            pass

    def prefer_anonymous(self) -> None:
        """Pages of files stay. (Version 2 is told with each request.)"""
        if not self.is_second:
            write(f"{self.memory}/memory.swappiness", SWAPPINESS)

    def limit(self, pages: int) -> None:
        """It gets so many pages."""
        name = "memory.max" if self.is_second else "memory.limit_in_bytes"
        write(f"{self.memory}/{name}", f"{pages * PAGE}")

    def counts(self) -> dict[str, int]:
        """What the kernel counts of its memory."""
        return counts_of(f"{self.memory}/memory.stat")

    def kernel_pages(self) -> int:
        """Pages that the kernel itself has on its account."""
        if self.is_second:
            return self.counts().get("kernel", 0) // PAGE
        return int(read(f"{self.memory}/memory.kmem.usage_in_bytes")) // PAGE

    def anonymous_pages(self) -> int:
        counts = self.counts()
        return counts.get("anon" if self.is_second else "rss", 0) // PAGE

    def swapped_pages(self) -> int:
        """Pages that are in swap."""
        if self.is_second:
            return int(read(f"{self.memory}/memory.swap.current")) // PAGE
        return self.counts().get("swap", 0) // PAGE

    def killed(self) -> int:
        """How many of its processes ended for want of memory."""
        name = "memory.events" if self.is_second else "memory.oom_control"
        return counts_of(f"{self.memory}/{name}").get("oom_kill", 0)


def counts_of(file: str) -> dict[str, int]:
    """The counts of a file whose lines are a name and a number."""
    return {name: int(count) for name, count in re.findall(r"^(\w+) (\d+)$", read(file), re.M)}
