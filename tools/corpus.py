#!/usr/bin/env python3
"""Makes the corpus anew: generated texts in the data/ of `listings` and `boardruns`, and what the second emulator prints for all texts there.

    python3 tools/corpus.py

Texts that the generator did not make, such as the odd ones and the examples, stay and come first. What is stored for them stays too, and
where the emulator prints something else, nothing is written; a text that is named in `args` and has nothing stored yet gets what the
emulator prints. With nothing changed in the generator and the emulator the files come out as they were, which `git status` shows.
"""
import pathlib
import re
import shutil
import subprocess
import sys
import tempfile
from typing import NamedTuple

import compare

SEED = 7
# As many as give each scenario eight set-ups and four board texts.
COUNTS = {"setups": 208, "boards": 116}
GENERATED = re.compile(r"[a-z_]+_[0-9]{4}")


def refuse_changes(stored: dict[str, bytes], printed: dict[str, bytes]) -> None:
    """Stops where a text that the generator did not make has something else stored."""
    for name, text in stored.items():
        if not GENERATED.fullmatch(name) and printed.get(name, text) != text:
            sys.exit(f"corpus: the emulator prints something else for {name} than is stored")


def replace_generated(data: pathlib.Path, folder: pathlib.Path, names: list[str]) -> None:
    for path in data.iterdir():
        if GENERATED.fullmatch(path.name):
            path.unlink()
    for name in names:
        shutil.copy(folder / name, data / name)


class Corpus(NamedTuple):
    """The texts of a kind's program, of which the generated ones stand in a folder, and what the emulator prints for them."""

    crate: pathlib.Path
    folder: pathlib.Path
    generated: list[str]
    names: list[str]
    printed: bytes

    def place(self) -> None:
        replace_generated(self.crate / "data", self.folder, self.generated)
        (self.crate / "args").write_text("".join(f"{name}\n" for name in self.names))
        (self.crate / "stdout").write_bytes(self.printed)


def make(kind: compare.Kind, folder: pathlib.Path, emulator: pathlib.Path) -> Corpus:
    """Generates the texts of a kind and asks the emulator."""
    crate = compare.TOP / "crates" / kind.crate
    generated = compare.generate(kind, SEED, COUNTS[kind.name], folder)
    standing = [name for name in (crate / "args").read_text().split() if not GENERATED.fullmatch(name)]
    for name in standing:
        shutil.copy(crate / "data" / name, folder / name)
    names = standing + generated
    printed = subprocess.run([emulator, kind.mode, *names], cwd=folder, check=True, stdout=subprocess.PIPE).stdout
    refuse_changes(compare.by_name((crate / "stdout").read_bytes()), compare.by_name(printed))
    return Corpus(crate, folder, generated, names, printed)


def main() -> None:
    with tempfile.TemporaryDirectory() as temporary:
        work = pathlib.Path(temporary)
        emulator = compare.build_emulator(work)
        # Nothing is written before the texts of both kinds were found to be as they are stored.
        for corpus in [make(kind, work / kind.name, emulator) for kind in compare.KINDS]:
            corpus.place()


if __name__ == "__main__":
    main()
