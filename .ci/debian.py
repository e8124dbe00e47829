"""The Debian package of a release: the same tree in /usr/lib/avsim, with links to it from where
Debian has programs and documents.
"""
import gzip
import os
import re
import shutil
import subprocess
import tempfile
from typing import NamedTuple

from shared.saying import Refused

# the programs that make one, of Debian's dpkg-dev
PROGRAMS = ("dpkg", "dpkg-deb", "dpkg-shlibdeps")
TOP = "usr/lib/avsim"
DOCUMENTS = "usr/share/doc/avsim"
# what stands elsewhere, and what it leads to
LINKS = {
    "usr/bin/avsim": "../lib/avsim/avsim",
    **{f"{DOCUMENTS}/{it}": f"../../../lib/avsim/{it}" for it in ("docs", "examples", "lessons")},
}
# copies of files of the tree
COPIES = {
    "tools/editor/completion.bash": "usr/share/bash-completion/completions/avsim",
    "tools/editor/vim/ftdetect/avsim.vim": "usr/share/vim/vimfiles/ftdetect/avsim.vim",
    "tools/editor/vim/syntax/avsim.vim": "usr/share/vim/vimfiles/syntax/avsim.vim",
    "tools/editor/vim/syntax/avsimtranscript.vim": (
        "usr/share/vim/vimfiles/syntax/avsimtranscript.vim"
    ),
}
CONTROL = """\
Package: avsim
Version: {version}
Architecture: {architecture}
Maintainer: {maintainer}
Installed-Size: {size}
Depends: {libraries}, python3 (>= 3.10)
Suggests: strace, linux-perf, valgrind, gcc
Section: devel
Priority: optional
Description: replay of memory commands against a model of Linux memory
 avsim replays a trace of memory commands (spawn, fork, mmap, write, swapon ..)
 against a model of how Linux keeps private anonymous memory. For each command
 it writes a reply, with notes of what it touched: which frame, and which
 page-table entry. Tools make traces of real programs, and pages of traces.
"""
CHANGELOG = """\
avsim ({version}) unstable; urgency=medium

  * {origin}

 -- {maintainer}  {date}
"""
COPYRIGHT = """\
Copyright (C) {year} {maintainer}

No licence is given yet: that is for the owner to choose. So nobody but the
owner may copy, change or pass on what is in this package.
"""
OVERRIDES = """\
# the program is what was built of what is proved, byte by byte
avsim: unstripped-binary-or-object [usr/lib/avsim/crates/avsim/out/avsim]
# a process of it has no memory but what a trace maps, so no library
avsim: statically-linked-binary [usr/lib/avsim/tools/out/stub-*]
avsim: unstripped-binary-or-object [usr/lib/avsim/tools/out/stub-*]
"""


class Told(NamedTuple):
    """What is told of a release: its version, who made it and when, and from which tree."""

    version: str
    maintainer: str
    time: int
    date: str
    origin: str


def is_made_here() -> bool:
    """Whether this machine has what makes packages."""
    return all(map(shutil.which, PROGRAMS))


def told_by(*words: str, **how) -> str:
    """What a program tells."""
    ran = subprocess.run(words, stdout=subprocess.PIPE, stderr=subprocess.PIPE, text=True, **how)
    if ran.returncode:
        said = (ran.stderr.strip() or "it says nothing").split("\n")[-1]
        raise Refused(f"{words[0]} ended with status {ran.returncode}: {said}")
    return ran.stdout.strip()


def libraries_of(program: str) -> str:
    """The packages that a program needs, as Debian tells."""
    with tempfile.TemporaryDirectory(prefix="avsim-release-") as room:
        put(f"{room}/debian/control", b"Source: avsim\n\nPackage: avsim\nArchitecture: any\n")
        found = told_by("dpkg-shlibdeps", "-O", f"-e{program}", cwd=room)
    return re.search(r"^shlibs:Depends=(.*)$", found, re.M)[1]


def put(file: str, data: bytes, mode: int = 0o644) -> None:
    """A file of the package, with its folders."""
    os.makedirs(os.path.dirname(file), exist_ok=True)
    with open(file, "wb") as it:
        it.write(data)
    os.chmod(file, mode)


def packed(text: str) -> bytes:
    """A text as Debian has its documents: compressed, and the same each time."""
    return gzip.compress(text.encode(), 9, mtime=0)


def fill(room: str, tree: dict[str, tuple[bytes, int]], readme: bytes, told: Told) -> None:
    """Lays all of the package below a folder, but for what dpkg reads."""
    for name, (data, mode) in tree.items():
        put(f"{room}/{TOP}/{name}", data, mode)
    for name, to in LINKS.items():
        os.makedirs(os.path.dirname(f"{room}/{name}"), exist_ok=True)
        os.symlink(to, f"{room}/{name}")
    for name, to in COPIES.items():
        put(f"{room}/{to}", tree[name][0])
    words = told._asdict() | {"year": told.date.split()[3]}
    put(f"{room}/{DOCUMENTS}/README.md", readme)
    put(f"{room}/{DOCUMENTS}/copyright", COPYRIGHT.format(**words).encode())
    put(f"{room}/{DOCUMENTS}/changelog.gz", packed(CHANGELOG.format(**words)))
    put(f"{room}/usr/share/man/man1/avsim.1.gz", packed(tree["docs/avsim.1"][0].decode()))
    put(f"{room}/usr/share/lintian/overrides/avsim", OVERRIDES.encode())


def files_below(room: str) -> list[str]:
    """The files of a folder, by name, links left out."""
    found = []
    for folder, _, names in os.walk(room):
        found += [os.path.relpath(f"{folder}/{it}", room) for it in names]
    return sorted(it for it in found if not os.path.islink(f"{room}/{it}"))


def make(
    out: str, program: str, tree: dict[str, tuple[bytes, int]], readme: bytes, told: Told
) -> str:
    """Makes the package in a folder, and gives its file."""
    architecture = told_by("dpkg", "--print-architecture")
    file = os.path.join(out, f"avsim_{told.version}_{architecture}.deb")
    with tempfile.TemporaryDirectory(prefix="avsim-release-") as room:
        top = f"{room}/package"
        fill(top, tree, readme, told)
        files = files_below(top)
        control = CONTROL.format(
            **told._asdict(),
            architecture=architecture,
            size=sum(os.path.getsize(f"{top}/{it}") for it in files) // 1024,
            libraries=libraries_of(program),
        )
        sums = told_by("md5sum", *files, cwd=top)
        put(f"{top}/DEBIAN/control", control.encode())
        put(f"{top}/DEBIAN/md5sums", f"{sums}\n".encode())
        for folder, _, _ in os.walk(top):
            os.chmod(folder, 0o755)
        words = ("dpkg-deb", "--root-owner-group", "-Zxz", "--build", top, file)
        told_by(*words, env={**os.environ, "SOURCE_DATE_EPOCH": str(told.time)})
    return file
