"""Edits: bodies other than a crate's own. Those of `crates/NAME/must-fail` and `.ci/wrong/NAME`
are wrong, and the prover must refuse them. A control, in `.ci/controls/NAME`, is for one of the
gate's: it means what the crate's own body means and is changed at the same place, and the prover
must accept it, over the same proofs.
"""
import glob
import os

from made import ROOT, text_of

# edits of the gate of which no control is known: `CRATE/NAME`, with the reason
NO_CONTROL = {}


class Edit:
    """Texts that stand once in a crate's files, and what comes in their place."""

    def __init__(self, path: str, text: str):
        self.path = path
        self.crate = os.path.basename(os.path.dirname(path.replace("/must-fail", "")))
        self.key = f"{self.crate}/{os.path.basename(path)}".removesuffix(".edit")
        self.pairs, file, old = [], "", ""
        for line in text.splitlines():
            kind, _, said = line.partition(": ")
            if kind == "file":
                file = said
            elif kind == "old":
                old = said
            else:
                self.pairs.append((file, old, said))

    def own_text(self, file: str) -> str:
        """A file of the crate as it is."""
        return text_of(f"crates/{self.crate}/{file}")

    def texts(self) -> dict[str, str] | None:
        """The files that it changes, by name, as it leaves them. None where a text that it replaces
        doesn't stand there once, with its earlier changes.
        """
        texts = {}
        for file, old, new in self.pairs:
            text = texts.get(file) or self.own_text(file)
            if text.count(old) != 1:
                return None
            texts[file] = text.replace(old, new)
        return texts

    def places(self) -> list[tuple[str, int]]:
        """What it replaces of the crate as it is: of each text the file and the line."""
        places = []
        for file, old, _ in self.pairs:
            before, found, _ = self.own_text(file).partition(old)
            if found:
                places.append((file, before.count("\n") + 1))
        return places

    def is_control_of(self, other: "Edit") -> bool:
        """Whether it changes no line but those that another edit changes, the last of the code
        among them, and isn't the same.
        """
        own, others = self.places(), other.places()
        last = [it for it in others if it[0].startswith("src/")][-1:]
        return set(last) <= set(own) <= set(others) and self.pairs != other.pairs


def edits(folders: str) -> list[Edit]:
    """The edits of the folders that a pattern names, by their paths."""
    found = sorted(glob.glob(f"{ROOT}/{folders}/*.edit"))
    return [Edit(path, text_of(path)) for path in (os.path.relpath(it, ROOT) for it in found)]
