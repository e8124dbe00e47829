"""Headers of swap areas, each with one thing about it that is odd, and what `swapon` answers.

A header is made of its fields here, and of nothing else of the repository. The answers are
written by hand: `on SLOTS BAD`, or `err EINVAL`.
"""
import struct
from typing import Iterator, Sequence

PAGE, MOST_U32 = 4096, 2**32 - 1
# pages of an area that are used at most
MOST_PAGES = 1_048_576
REFUSED = "err EINVAL"
# its name, how many pages the file has, its first page, and what is answered
Header = tuple[str, int, bytes, str]


def header(
    last: int = 7,
    bad: Sequence[int] = (),
    order: str = "<",
    version: int = 1,
    count: int | None = None,
    signature: bytes = b"SWAPSPACE2",
) -> bytes:
    """The first page of a swap area."""
    page = bytearray(PAGE)
    number_of_bad = len(bad) if count is None else count
    struct.pack_into(f"{order}III", page, 1024, version, last, number_of_bad)
    struct.pack_into(f"{order}{len(bad)}I", page, 1536, *bad)
    page[4096 - len(signature) :] = signature
    return bytes(page)


def with_bytes(page: bytes, at: int, some: bytes) -> bytes:
    """A page with some of its bytes changed."""
    return page[:at] + some + page[at + len(some) :]


def of_signature() -> Iterator[Header]:
    """The ten bytes at the end."""
    good = header()
    for at in range(4086, 4096):
        for byte in (b"\0", bytes([good[at] ^ 0x20])):
            yield f"byte {at} is {byte.hex()}", 8, with_bytes(good, at, byte), REFUSED
    yield "the signature of version 0", 8, header(signature=b"SWAP-SPACE"), REFUSED
    yield "the signature in lower case", 8, header(signature=b"swapspace2"), REFUSED
    yield "the signature a byte too early", 8, header(signature=b"SWAPSPACE2\0"), REFUSED
    yield "zeros", 8, bytes(PAGE), REFUSED
    yield "ones", 8, b"\xff" * PAGE, REFUSED


def of_version() -> Iterator[Header]:
    """The number at 1024, by which the byte order is told."""
    for version in (0, 2, 256, 65536, 0x01000001, MOST_U32):
        yield f"version {version:x}", 8, header(version=version), REFUSED
        yield f"version {version:x}, big", 8, header(version=version, order=">"), REFUSED
    yield "big-endian", 8, header(order=">"), "on 7 0"
    little, big = header(), header(order=">")
    yield "a big version alone", 8, with_bytes(little, 1024, big[1024:1028]), REFUSED
    yield "a little version alone", 8, with_bytes(big, 1024, little[1024:1028]), REFUSED


def of_last_page() -> Iterator[Header]:
    """The number at 1028, against the size of the device."""
    for order, name in (("<", ""), (">", ", big")):
        for last, pages, answer in (
            (0, 8, REFUSED),
            (0, 1, REFUSED),
            (1, 1, REFUSED),
            (1, 2, "on 1 0"),
            (1, 8, "on 1 0"),
            (7, 7, REFUSED),
            (7, 8, "on 7 0"),
            (7, 9, "on 7 0"),
            (8, 8, REFUSED),
            (MOST_U32, 8, REFUSED),
            (MOST_PAGES - 2, MOST_PAGES - 1, "on 1048574 0"),
            (MOST_PAGES - 1, MOST_PAGES - 1, REFUSED),
            (MOST_PAGES - 1, MOST_PAGES, "on 1048575 0"),
            (MOST_PAGES, MOST_PAGES, "on 1048575 0"),
            (MOST_PAGES, MOST_PAGES + 1, "on 1048575 0"),
            (MOST_U32, MOST_PAGES, "on 1048575 0"),
            (MOST_U32, MOST_PAGES - 1, REFUSED),
        ):
            page = header(last=last, order=order)
            yield f"last page {last} of {pages} pages{name}", pages, page, answer


def of_bad_pages() -> Iterator[Header]:
    """The count at 1032, and the numbers from 1536 on."""
    for order, name in (("<", ""), (">", ", big")):
        for last, bad, answer in (
            (7, [0], REFUSED),
            (7, [8], REFUSED),
            (7, [MOST_U32], REFUSED),
            (7, [3, 0], REFUSED),
            (7, [3, 8], REFUSED),
            (7, [3], "on 6 1"),
            (7, [1], "on 6 1"),
            (7, [7], "on 6 1"),
            (7, [3, 3, 5], "on 5 2"),
            (7, [6, 2, 6, 4, 2], "on 4 3"),
            (7, [1, 2, 3, 4, 6, 7], "on 1 6"),
            (7, [1, 2, 3, 4, 5, 6, 7], REFUSED),
            (7, [7, 6, 5, 4, 3, 2, 1, 1], REFUSED),
            (1, [1], REFUSED),
            (999, list(range(1, 638)), "on 362 637"),
            (999, [7] * 637, "on 998 1"),
            (999, [7] * 636 + [0], REFUSED),
            (999, [7] * 636 + [1000], REFUSED),
        ):
            page = header(last=last, bad=bad, order=order)
            yield f"bad pages {bad[:8]} of {len(bad)}{name}", last + 1, page, answer
        for count, answer in ((638, REFUSED), (700, REFUSED), (MOST_U32, REFUSED)):
            page = header(last=999, bad=[7] * 637, count=count, order=order)
            yield f"{count} bad pages{name}", 1000, page, answer
        page = header(last=999, count=637, order=order)
        yield f"637 bad pages that are 0{name}", 1000, page, REFUSED
        page = header(bad=[3, 0, 9], count=1, order=order)
        yield f"numbers behind the bad pages{name}", 8, page, "on 6 1"
        # (what lies at or above the pages that are used is passed over)
        page = header(last=MOST_PAGES + 1, bad=[5, MOST_PAGES, MOST_PAGES + 1], order=order)
        yield f"bad pages above the limit{name}", MOST_PAGES, page, "on 1048574 1"
        page = header(last=MOST_PAGES + 1, bad=[MOST_PAGES + 2], order=order)
        yield f"a bad page above the last one{name}", MOST_PAGES, page, REFUSED


def headers() -> Iterator[Header]:
    """Name, pages of the file, first page, and the answer."""
    yield from of_signature()
    yield from of_version()
    yield from of_last_page()
    yield from of_bad_pages()
