"""The words of the calls of memory, as strace prints them."""
import re
from typing import NamedTuple

AT, COUNT, FLAGS = r"(NULL|0x[0-9a-f]+)", r"(\d+)", r"([A-Z0-9a-fx_|<]+)"
# what stands between the brackets of each call
FORMS = {
    "mmap": rf"{AT}, {COUNT}, {FLAGS}, {FLAGS}, (-?\d+)(?:<(.*)>)?(?:\(deleted\))?, "
    r"(?:0x[0-9a-f]+|\d+)",
    "munmap": rf"{AT}, {COUNT}",
    "mprotect": rf"{AT}, {COUNT}, {FLAGS}",
    "pkey_mprotect": rf"{AT}, {COUNT}, {FLAGS}, (-?\d+)",
    "mremap": rf"{AT}, {COUNT}, {COUNT}, {FLAGS}(?:, {AT})?",
    "madvise": rf"{AT}, {COUNT}, (\S.*)",
    "mlock": rf"{AT}, {COUNT}",
    "mlock2": rf"{AT}, {COUNT}, (0|MLOCK_ONFAULT)",
    "munlock": rf"{AT}, {COUNT}",
    "brk": AT,
}
# calls of memory that no command stands for
WITHOUT = set(
    "io_destroy io_setup map_shadow_stack mbind migrate_pages mincore mlockall"
    " move_pages mseal msync munlockall pkey_alloc pkey_free process_madvise"
    " process_mrelease remap_file_pages set_mempolicy set_mempolicy_home_node shmat shmdt".split()
)
# those of them that map something
MAPS_TOO = ("io_setup", "map_shadow_stack", "shmat")
# what `madvise` says, with its word in a trace. All else changes how memory is made ready, when it
# is reclaimed or what is dumped, and no page's bytes or sharing: MADV_FREE may, but need not
ADVICE = {
    "MADV_DONTNEED": "dontneed",
    "MADV_DONTFORK": "dontfork",
    "MADV_DOFORK": "dofork",
    "MADV_WIPEONFORK": "wipeonfork",
    "MADV_KEEPONFORK": "keeponfork",
    "MADV_MERGEABLE": "mergeable",
    "MADV_UNMERGEABLE": "unmergeable",
}
# flags of mmap that ask for something that no command does
PASSED_OVER = ("MAP_POPULATE", "MAP_LOCKED", "MAP_GROWSDOWN", "MAP_HUGETLB", "MAP_DROPPABLE")
PROTECTIONS = "NONE READ WRITE EXEC SEM BTI MTE GROWSDOWN GROWSUP".split()

ANSWER = re.compile(r"(0x[0-9a-f]+|\d+)(?: <\d+\.\d+>)?")
FAILURE = re.compile(r"-1 (E[A-Z0-9]+) \(.*\)(?: <\d+\.\d+>)?")


class Mapped(NamedTuple):
    """What is mapped at a range: its protection, and whether it is `anonymous`, of a `file`, both
    private, or `shared`.
    """

    prot: str
    kind: str


def address_of(word: str | None) -> int:
    return 0 if word in (None, "NULL") else int(word, 16)


def protection_of(text: str) -> str:
    """A protection as a trace has it."""
    words = [it.removeprefix("PROT_") for it in text.split("|")]
    if [it for it in words if it not in PROTECTIONS]:
        raise ValueError(text)
    pairs = zip("rwx", ("READ", "WRITE", "EXEC"))
    return "".join(letter if word in words else "-" for letter, word in pairs)


def kind_of(flags: list[str], file: str) -> str:
    """What a mapping is."""
    if "MAP_SHARED" in flags or "MAP_SHARED_VALIDATE" in flags:
        return "shared"
    is_private = "MAP_PRIVATE" in flags or "MAP_DROPPABLE" in flags
    is_anonymous = "MAP_ANONYMOUS" in flags
    if not is_private or not is_anonymous and file == "-1":
        raise ValueError("|".join(flags))
    return "anonymous" if is_anonymous else "file"
