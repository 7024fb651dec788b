#!/usr/bin/env python3
"""Runs generated programs on the proved core and on the second emulator, and compares what they print, byte for byte.

    python3 tools/compare.py --count 1000

makes 1,000 set-ups and 1,000 board texts, runs the set-ups by `listings` and the board texts by `boardruns`, and the emulator of
tools/emulator on both. The proved programs have to stand in their folders' out/ already, as `rt run` leaves them. A text on
which the two differ, or at which either fails, is kept with both outputs in the folder of --keep, and the exit status is 1 then.
"""
import argparse
import collections
import pathlib
import re
import shutil
import subprocess
import sys
import tempfile
from typing import NamedTuple

TOP = pathlib.Path(__file__).resolve().parent.parent
# As many names as one command line takes.
BATCH = 500


class Kind(NamedTuple):
    """A language of texts: who answers it, and what the emulator's mode and the generator's kind are called."""

    name: str
    crate: str
    mode: str


KINDS = (Kind("setups", "listings", "listings"), Kind("boards", "boardruns", "boards"))


def proved_program(crate: str) -> pathlib.Path:
    program = TOP / "crates" / crate / "out" / crate
    if not program.exists():
        sys.exit(f"compare: no {program}: run (cd crates/{crate} && rt run) first")
    return program


def build_emulator(folder: pathlib.Path) -> pathlib.Path:
    program = folder / "emulator"
    source = TOP / "tools" / "emulator" / "main.rs"
    subprocess.run(["rustc", "--edition", "2021", "-O", "-o", program, source], check=True)
    return program


def generate(kind: Kind, seed: int, count: int, folder: pathlib.Path) -> list[str]:
    folder.mkdir()
    generator = TOP / "tools" / "programs" / "generate.py"
    options = ["--kind", kind.name, "--seed", str(seed), "--count", str(count), "--out", str(folder)]
    subprocess.run([sys.executable, generator, *options], check=True)
    return sorted(path.name for path in folder.iterdir())


def by_name(printed: bytes) -> dict[str, bytes]:
    """What was printed for each text, by the lines `== NAME` between them."""
    parts = re.split(rb"^== (.*)\n", printed, flags=re.MULTILINE)[1:]
    return {name.decode(): text for name, text in zip(parts[::2], parts[1::2])}


def answers(command: list, names: list[str], folder: pathlib.Path) -> dict[str, bytes]:
    """What a program prints for each text. A text at which it fails has what it says of that; those behind are run anew."""
    run = subprocess.run([*command, *names], cwd=folder, capture_output=True)
    found = by_name(run.stdout)
    if run.returncode == 0:
        return found
    at = max(len(found) - 1, 0)
    failed = f"status {run.returncode}\n".encode() + run.stderr
    return found | {names[at]: failed} | (answers(command, names[at + 1 :], folder) if names[at + 1 :] else {})


def keep(kept: pathlib.Path, folder: pathlib.Path, name: str, proved: bytes, emulated: bytes) -> None:
    kept.mkdir(exist_ok=True)
    shutil.copy(folder / name, kept / name)
    (kept / f"{name}.proved").write_bytes(proved)
    (kept / f"{name}.emulated").write_bytes(emulated)


def compare(kind: Kind, emulator: pathlib.Path, names: list[str], folder: pathlib.Path, kept: pathlib.Path) -> int:
    """How many of the texts are answered alike. The others are kept."""
    program = proved_program(kind.crate)
    alike = 0
    for start in range(0, len(names), BATCH):
        batch = names[start : start + BATCH]
        proved = answers([program], batch, folder)
        emulated = answers([emulator, kind.mode], batch, folder)
        for name in batch:
            if name in proved and proved[name] == emulated.get(name):
                alike += 1
            else:
                keep(kept, folder, name, proved.get(name, b""), emulated.get(name, b""))
    return alike


def by_scenario(names: list[str]) -> str:
    """The scenarios with the number of texts of each: names end in an underscore and a number."""
    counts = collections.Counter(name.rsplit("_", 1)[0] for name in names)
    return ", ".join(f"{scenario} {count}" for scenario, count in sorted(counts.items()))


def main() -> None:
    parser = argparse.ArgumentParser(description="Compares the proved core with the second emulator.")
    parser.add_argument("--count", type=int, default=1000, help="texts of each kind")
    parser.add_argument("--seed", type=int, default=1)
    parser.add_argument("--keep", type=pathlib.Path, default=pathlib.Path("differences"))
    options = parser.parse_args()
    if options.keep.exists():
        sys.exit(f"compare: {options.keep} is there from an earlier run: move it away")
    differ = 0
    with tempfile.TemporaryDirectory() as temporary:
        work = pathlib.Path(temporary)
        emulator = build_emulator(work)
        for kind in KINDS:
            folder = work / kind.name
            names = generate(kind, options.seed, options.count, folder)
            alike = compare(kind, emulator, names, folder, options.keep)
            differ += len(names) - alike
            print(f"{kind.name}: {alike} of {len(names)} alike ({by_scenario(names)})")
    if differ:
        sys.exit(f"{differ} differ: see {options.keep}")


if __name__ == "__main__":
    main()
