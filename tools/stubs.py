"""Real processes that do what they are asked: tools/stub.c, made by cc on first use.

The first is started, and each other one is forked, of it or of one that lives. So all have the
same addresses: from `base` on everything is occupied, by the stub itself, its stack, the vdso, and
by a range without access in each hole. Below is nothing but what a trace maps.
"""
import contextlib
import ctypes
import errno
import hashlib
import os
import platform
import resource
import shutil
import signal
import socket
import struct
import subprocess
import tempfile
from typing import Iterator

from shared.saying import Refused, printable

from proc import Pagemap, areas_of
from ranges import PAGE
from shift import TOP

ROOT = os.path.dirname(os.path.dirname(os.path.realpath(__file__)))
SOURCE = f"{ROOT}/tools/stub.c"
# above it the kernel lays nothing by itself, but the stack at the very top
PLACE = 0x7FFFFC000000
# the range that is kept from traces is some of these
STEP = 1 << 28
FLAGS = (
    "-std=gnu11 -O1 -static -no-pie -nostdlib -ffreestanding -fpie -mgeneral-regs-only"
    " -fno-stack-protector -fcf-protection=none -fno-asynchronous-unwind-tables"
    " -Wl,-z,noexecstack,--build-id=none"
).split()
# how linkers are told where a program lies: GNU ld and gold; others
PLACES = (f"-Wl,-Ttext-segment={PLACE:#x}", f"-Wl,--image-base={PLACE:#x}")

CALL, FORK, READ, WRITE, READ_WITH_KEYS = range(5)
ASKED, ANSWER = struct.Struct("8Q"), struct.Struct("qQ")
# numbers of calls on x86-64, and of flags
MMAP, MUNMAP, MADVISE, EXIT, PRCTL = 9, 11, 28, 231, 157
PRIVATE, FIXED, ANONYMOUS, NORESERVE = 0x2, 0x10, 0x20, 0x4000
READ_WRITE, DONTDUMP, NO_RANDOM = 3, 16, 0x0040000
THP_DISABLE, SUBREAPER, CAPBSET_DROP, CAP_SYS_RAWIO = 41, 36, 24, 17
# a process that says nothing for so many seconds is given up
PATIENCE = 120


class Gone(Exception):
    """The process is no more."""


class Stub:
    """A process, by the channel on which it is asked."""

    def __init__(self, pid: int, channel: socket.socket):
        self.pid, self.channel = pid, channel

    def ask(self, what: int, *of: int, data: bytes = b"", pass_on=()) -> tuple[int, int, bytes]:
        """What a request comes to: its result, the signal that stopped it, and bytes."""
        words = [*of, *[0] * (7 - len(of))]
        try:
            socket.send_fds(self.channel, [ASKED.pack(what, *words) + data], pass_on)
            told = self.channel.recv(ANSWER.size + PAGE)
        except TimeoutError:
            os.kill(self.pid, signal.SIGKILL)
            raise Refused(f"process {self.pid} says nothing for {PATIENCE} seconds") from None
        except OSError:
            raise Gone from None
        if not told:
            raise Gone
        return *ANSWER.unpack_from(told), told[ANSWER.size :]

    def call(self, number: int, *of: int) -> int:
        """A system call of the process: what it returns, which is negative for an error."""
        return self.ask(CALL, number, *of)[0]

    def fork(self) -> "Stub | int":
        """Its child; or the error, as a negative number."""
        ours, theirs = pair()
        with theirs:
            child = self.ask(FORK, pass_on=[theirs.fileno()])[0]
        if child < 0:
            ours.close()
            return child
        return Stub(child, ours)

    def read(self, address: int, count: int, with_keys: bool = False) -> tuple[bytes, int]:
        """The bytes up to one that can't be read, and the signal then."""
        _, signal, data = self.ask(READ_WITH_KEYS if with_keys else READ, address, count)
        return data, signal

    def write(self, address: int, data: bytes) -> tuple[int, int]:
        """How many bytes are written, and the signal where that isn't all."""
        return self.ask(WRITE, address, len(data), data=data)[:2]

    def occupy(self, start: int, end: int) -> None:
        """Maps a range without access, which joins with no area of a trace."""
        flags = PRIVATE | ANONYMOUS | NORESERVE | FIXED
        if self.call(MMAP, start, end - start, 0, flags, 2**64 - 1, 0) != start:
            raise Refused(f"this kernel doesn't let {start:x}-{end:x} be mapped")
        self.call(MADVISE, start, end - start, DONTDUMP)

    def end(self) -> None:
        """Lets it exit. (Its memory is gone before its channel.)"""
        with self.channel, contextlib.suppress(Gone):
            self.ask(CALL, EXIT, 0)


def pair() -> tuple[socket.socket, socket.socket]:
    """Both ends of a channel."""
    try:
        ours, theirs = socket.socketpair(socket.AF_UNIX, socket.SOCK_SEQPACKET)
    except OSError as error:
        hint = " (see ulimit -n)" if error.errno == errno.EMFILE else ""
        raise Refused(f"no more processes: {error.strerror}{hint}") from None
    ours.settimeout(PATIENCE)
    return ours, theirs


def first_line(said: bytes) -> str:
    """The line of a compiler that says what is wrong."""
    lines = said.decode(errors="replace").splitlines() or ["it says nothing"]
    return printable(next((it for it in lines if "error" in it), lines[-1]))


def compile_to(file: str) -> None:
    """Makes the stub."""
    for place in PLACES:
        words = ["cc", *FLAGS, place, "-o", file, SOURCE]
        try:
            ran = subprocess.run(words, stderr=subprocess.PIPE, check=False)
        except OSError as error:
            raise Refused(
                f"cc, a C compiler, can't be run ({error.strerror}), and tools/stub.c isn't "
                "compiled yet"
            ) from None
        if not ran.returncode:
            return
    raise Refused(f"cc can't compile tools/stub.c: {first_line(ran.stderr)}")


@contextlib.contextmanager
def program() -> Iterator[str]:
    """The compiled stub. It is kept where this repository can be written, for the next time."""
    with open(SOURCE, "rb") as it:
        name = f"stub-{hashlib.sha256(it.read()).hexdigest()[:16]}"
    kept = f"{ROOT}/tools/out/{name}"
    if os.access(kept, os.X_OK):
        yield kept
        return
    with tempfile.TemporaryDirectory(prefix="avsim-on-linux-") as room:
        made = f"{room}/{name}"
        compile_to(made)
        try:
            os.makedirs(os.path.dirname(kept), exist_ok=True)
            # (another run may be about the same)
            shutil.copy(made, f"{kept}.{os.getpid()}")
            os.rename(f"{kept}.{os.getpid()}", kept)
        except OSError:
            kept = made
        yield kept


def prepare() -> None:
    """What a process inherits: a stack of the usual limit, which the place of mappings hangs on; no
    random addresses, where that may be asked for; no right to map below vm.mmap_min_addr; and as
    many channels as are allowed.
    """
    if (platform.system(), platform.machine()) != ("Linux", "x86_64"):
        raise Refused(f"it is for Linux on x86-64, and here is {' '.join(platform.uname()[::4])}")
    for limit, most in ((resource.RLIMIT_STACK, 1 << 23), (resource.RLIMIT_NOFILE, 1 << 16)):
        hard = resource.getrlimit(limit)[1]
        soft = most if hard == resource.RLIM_INFINITY else min(most, hard)
        resource.setrlimit(limit, (soft, hard))
    libc = ctypes.CDLL(None)
    libc.personality(NO_RANDOM)
    libc.prctl(CAPBSET_DROP, CAP_SYS_RAWIO, 0, 0, 0)


class Mother(Stub):
    """The first process, of which all others come. `base` is where what is occupied begins; `zero`
    is the entry of the page of zeros, or 0 where pagemap doesn't show frames; `is_wide` says that
    the kernel has addresses from TOP on.
    """

    def __init__(self, file: str):
        ours, theirs = pair()
        quiet = {"stdout": subprocess.DEVNULL, "stderr": subprocess.DEVNULL}
        with theirs:
            try:
                self.process = subprocess.Popen(
                    [file], stdin=theirs.fileno(), start_new_session=True, **quiet
                )
            except OSError as error:
                ours.close()
                raise Refused(f"{file} can't be run: {error.strerror}") from None
        super().__init__(self.process.pid, ours)
        self.base, self.zero, self.is_wide = 0, 0, False

    def __enter__(self):
        try:
            self.settle()
        except Gone:
            self.end()
            raise Refused(f"tools/stub.c ended with status {self.process.returncode}") from None
        except BaseException:
            self.end()
            raise
        return self

    def __exit__(self, *_):
        self.end()

    def settle(self) -> None:
        """Leaves nothing below `base`, and no hole above."""
        # (no huge pages, now or in a child; and who loses his parent is waited for here)
        self.call(PRCTL, THP_DISABLE, 1)
        self.call(PRCTL, SUBREAPER, 1)
        areas = [it for it in areas_of(self.pid) if it.start < TOP]
        lowest = min(it.start for it in areas)
        self.base = TOP - -(-(TOP - lowest) // STEP) * STEP
        ends = [self.base, *(it.end for it in areas)]
        for start, end in zip(ends, [*(it.start for it in areas), TOP]):
            if start < end:
                self.occupy(start, end)
        self.is_wide = self.call(MUNMAP, TOP, PAGE) == 0
        self.look_at_places()

    def look_at_places(self) -> None:
        """Maps, reads and writes for a moment, to see where the kernel lays pages, and whether it
        shows their frames.
        """
        flags, none = PRIVATE | ANONYMOUS | NORESERVE, 2**64 - 1
        at = self.call(MMAP, 0, 2 * PAGE, READ_WRITE, flags, none, 0)
        if at != self.base - 2 * PAGE:
            raise Refused(
                f"this kernel lays a mapping at {at:x}, not below {self.base:x}: is "
                "vm.legacy_va_layout set?"
            )
        self.read(at, 1)
        self.write(at + PAGE, b"1")
        with contextlib.suppress(Refused), Pagemap(self.pid) as pagemap:
            if pagemap.entry(at + PAGE):
                self.zero = pagemap.entry(at)
        self.call(MUNMAP, at, 2 * PAGE)

    def end(self) -> None:
        super().end()
        self.process.wait()
