#!/usr/bin/env python3
"""Spells the names that this repository's specs/ and proofs/ declare as today's kit does.

usage: python3 tools/respell.py [CHECKOUT]

Run it once, behind the kit's own scripts (port.py), over a checkout that is spelled as the older kit asked. Definitions, fields,
constructors and lemmas get snake case; types and facts keep their capital, and names that the prover makes keep their dashes. It
goes by whole words, in code and comments of specs/, proofs/ and src/, and stops where two names would become one or where
Rust code has a name that would turn. It prints what it turned. A second run turns nothing.
"""

import glob
import os
import re
import sys

# A quoted text, which stays as it is, or a word as antt cuts words.
WORD = re.compile(r'"(?:[^"\\\n]|\\.)*"|[^\s(){}.;,@"«»]+')
# The name of a declaration, but for the answers to the prover's goals.
DECLARATION = re.compile(r"(?m)^ *(?:(?:abbrev|unfoldable|pub|data|record) )*([^\s()]+)(?: \{[^{}\n]*\}| \([^()\n]*\))* : (?!goal\.)")
RUST_ITEM = re.compile(r"\b(?:fn|const|static|mod|struct|enum|trait|type) (\w+)")
WORD_BOUNDARY = re.compile(r"(?<=[a-z])(?=[A-Z])|(?<=[0-9])(?=[A-Z][a-z])|(?<=[a-z])(?=[0-9][A-Z])")
# A lemma whose name, as port.py leaves it, is that of a definition once this turns: it gets the name on the right.
LEMMAS_SET_APART = {"read_back": "read_back_lem"}


def snake_case(name):
    name = name.replace("-", "_")
    return WORD_BOUNDARY.sub("_", name).lower() if re.match(r"[a-z]", name) else name


def files_below(checkout, *patterns):
    crates = os.path.join(checkout, "crates")
    if not os.path.isdir(crates):
        sys.exit(f"respell: {checkout} has no folder crates/")
    found = set()
    for pattern in patterns:
        found.update(glob.glob(os.path.join(crates, "*", pattern), recursive=True))
    return sorted(found)


def text_of(path):
    with open(path, encoding="utf-8") as file:
        return file.read()


def new_names(checkout):
    """Returns the new name of each declared name that turns, and of each lemma that is set apart."""
    declared = set()
    for path in files_below(checkout, "specs/**/*.antt", "proofs/**/*.antt"):
        declared.update(DECLARATION.findall(text_of(path)))
    turned = {name: snake_case(name) for name in declared if snake_case(name) != name}
    set_apart = {name: LEMMAS_SET_APART[name] for name in LEMMAS_SET_APART if name in declared and name in turned.values()}
    kept = {name: name for name in declared if name not in turned and name not in set_apart}
    seen = {}
    for old, new in [*kept.items(), *turned.items(), *set_apart.items()]:
        if new in seen:
            sys.exit(f"respell: {seen[new]} and {old} would both be {new}: set one apart")
        seen[new] = old
    for path in files_below(checkout, "src/**/*.rt"):
        for item in RUST_ITEM.findall(text_of(path)):
            if item in turned:
                sys.exit(f"respell: {path} has an item {item}, which would turn")
    return turned, set_apart


def main(checkout):
    turned, set_apart = new_names(checkout)
    # Clauses of src/ name definitions, and no lemma.
    for patterns, names in [(("specs/**/*.antt", "proofs/**/*.antt"), {**turned, **set_apart}), (("src/**/*.rt",), turned)]:
        for path in files_below(checkout, *patterns):
            old = text_of(path)
            new = WORD.sub(lambda word: names.get(word.group(), word.group()), old)
            if new != old:
                with open(path, "w", encoding="utf-8") as file:
                    file.write(new)
    for old, new in sorted({**turned, **set_apart}.items()):
        print(f"{old} -> {new}")


if __name__ == "__main__":
    if len(sys.argv) > 2 or sys.argv[1:2] == ["--help"]:
        sys.exit(__doc__)
    main(sys.argv[1] if len(sys.argv) > 1 else ".")
