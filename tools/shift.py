"""Where an address of a trace is on the running kernel.

Linux lays nothing by itself in the topmost part below TOP, and avsim does. So what a trace has in
the upper half of the addresses lies lower there, by one number for all: TOP is `base` then. What it
has below `SPLIT` lies where the trace says, and so does what it names from TOP on. In between is a
gap of that size, of which a trace can have no address.
"""
from shared.saying import Refused

from ranges import PAGE, up

LOW, TOP = 0x10000, 0x7FFFFFFFF000
# between the addresses of most programs and those that mmap gives
SPLIT = 0x380000000000


class NotAsked(Exception):
    """Why a line isn't asked of a kernel: a few words."""


GAP = "it goes over the gap between low and high addresses"
WIDE = "it goes above TOP, where this kernel has addresses"


class Shift:
    """The addresses, where `base` is in the place of TOP. `is_wide` says that the kernel has
    addresses from TOP on, too.
    """

    def __init__(self, base: int, is_wide: bool = False):
        self.base, self.by, self.is_wide = base, TOP - base, is_wide
        if base < SPLIT + self.by:
            raise Refused(f"this kernel lays mappings below {base:x}, which is too low")

    def there(self, address: int) -> int:
        """Where an address is on the kernel."""
        if self.is_wide and address >= TOP:
            raise NotAsked(WIDE)
        if SPLIT <= address < SPLIT + self.by:
            raise NotAsked(GAP)
        return address - self.by if SPLIT < address < TOP else address

    def range_there(self, address: int, length: int) -> tuple[int, int]:
        """A range, with its length there. Its last page counts as a whole, wherever it begins. One
        that ends above TOP does so there, and one that ends at 2^64 or passes it, too.
        """
        start, end = self.there(address), up(address + length)
        longer = length + self.by
        if end > TOP:
            if self.is_wide:
                raise NotAsked(WIDE)
            is_short = start + end - address <= TOP
            # (a length that, rounded up, is 2^64 is none)
            passes = end >= 2**64 and up(address % PAGE + longer) < 2**64
            return start, longer if start != address and (is_short or passes) else length
        if not length:
            return start, 0
        return start, length + self.there(end - 1) - start - (end - 1 - address)

    def here(self, address: int) -> int:
        """The address of the trace that is there on the kernel."""
        return address + self.by if SPLIT <= address < self.base else address

    def end_here(self, address: int) -> int:
        """The same of an address behind a range."""
        return self.here(address - 1) + 1

    def crosses(self, address: int, length: int) -> bool:
        """Whether a range has addresses of the gap."""
        return address < SPLIT + self.by and address + length > SPLIT
