"""Command line that writes test programs for a LoongArch32 Reduced core.

    generate.py --seed 1 --count 500 --out DIR --kind setups

writes 500 files, named by scenario and number. A file depends on the seed, the
kind, the scenario and its number alone, so a greater count leaves the first
files as they are.
"""

from __future__ import annotations

import argparse
from pathlib import Path
from random import Random

import scenarios
from assembler import EncodingError


def text_of(seed: str, kind: str, name: str, number: int) -> bytes:
    """The text of one program."""
    rng = Random(f"{seed}/{kind}/{name}/{number}")
    return scenarios.TEXTS[kind][name](rng)


def write_all(options: argparse.Namespace) -> None:
    """Writes the files that the command line asks for."""
    names = tuple(scenarios.TEXTS[options.kind])
    if options.scenario:
        names = (options.scenario,)
    directory = Path(options.out)
    directory.mkdir(parents=True, exist_ok=True)
    for number in range(options.count):
        name = names[number % len(names)]
        text = text_of(options.seed, options.kind, name, number)
        (directory / f"{name}_{number:04d}").write_bytes(text)


def list_names() -> None:
    """Prints the scenarios of each kind."""
    for kind, texts in scenarios.TEXTS.items():
        for name in texts:
            print(f"{kind} {name}")


def parse() -> argparse.Namespace:
    """The options of the command line."""
    parser = argparse.ArgumentParser(description="Writes test programs for an LA32R core.")
    parser.add_argument("--seed", default="1", help="the seed, any text")
    parser.add_argument("--count", type=int, default=100, help="how many programs")
    parser.add_argument("--out", help="the directory of the files")
    parser.add_argument("--kind", choices=tuple(scenarios.TEXTS), default="setups")
    parser.add_argument("--scenario", help="only this scenario")
    parser.add_argument("--list", action="store_true", help="names the scenarios")
    options = parser.parse_args()
    if not options.list and not options.out:
        parser.error("--out is needed")
    if options.scenario and options.scenario not in scenarios.TEXTS[options.kind]:
        parser.error(f"no scenario {options.scenario} of the kind {options.kind}")
    return options


def main() -> None:
    """Does what the command line asks for."""
    options = parse()
    if options.list:
        list_names()
        return
    try:
        write_all(options)
    except EncodingError as error:
        raise SystemExit(f"generate.py: {error}") from error


if __name__ == "__main__":
    main()
