#!/usr/bin/env python3
"""The disassembler a second time, with its table from docs/instructions.md and the forms of docs/tintdis.md.

It reads what tintdis reads and prints what tintdis has to print:

    python3 tools/decode_by_table.py < crates/tintdis/stdin | cmp - crates/tintdis/stdout
"""
import pathlib
import re
import sys
from typing import NamedTuple

PAGE = pathlib.Path(__file__).parent.parent / "docs" / "instructions.md"
ROW = re.compile(r"\| `(?P<form>[^`]+)` \| `(?P<word>[01][^`]+)` \| (?P<does>.+) \| \S.* \|")
# as in "rj from 2 to 31: ...", before what an instruction does
LEAST = re.compile(r"(?P<field>\w+) from (?P<least>\d+) to \d+: ")
REGISTERS = ("rd", "rj", "rk")
ROWS = 67


class Known(NamedTuple):
    """Bits of a word that are the row's own."""

    at: int
    width: int
    value: int


class Piece(NamedTuple):
    """Bits of a word that are bits of a field, from its bit `low` on."""

    at: int
    width: int
    field: str
    low: int


class Row(NamedTuple):
    mnemonic: str
    operands: list
    least: dict
    known: list
    pieces: list


def field_bits(field):
    return 5 if field in REGISTERS else int(re.search(r"\d+$", field)[0])


def placed(name, top):
    """What stands below bit `top` of the word."""
    if name.strip("01") == "":
        return Known(top - len(name), len(name), int(name, 2))
    field, _, part = name.partition("[")
    if not part:
        return Piece(top - field_bits(field), field_bits(field), field, 0)
    high, low = map(int, part.rstrip("]").split(":"))
    return Piece(top - (high - low + 1), high - low + 1, field, low)


def row_of(form, word, does):
    mnemonic, _, operands = form.partition(" ")
    row = Row(mnemonic, operands.split(", ") if operands else [], {}, [], [])
    if least := LEAST.match(does):
        row.least[least["field"]] = int(least["least"])
    top = 32
    for name in word.split():
        part = placed(name, top)
        (row.known if isinstance(part, Known) else row.pieces).append(part)
        top = part.at
    assert top == 0, form
    return row


def bits(word, part):
    return (word >> part.at) % (1 << part.width)


def fields_of(row, word):
    """The fields of a word of this row, or None."""
    if any(bits(word, known) != known.value for known in row.known):
        return None
    fields = {}
    for piece in row.pieces:
        fields[piece.field] = fields.get(piece.field, 0) + (bits(word, piece) << piece.low)
    return None if any(fields[field] < least for field, least in row.least.items()) else fields


def operand_text(operand, fields):
    name, _, scale = operand.partition(" * ")
    # a code, hint, level or op stands in the word with its number of bits behind its name, and a control register's number too
    field = next(field for field in fields if re.fullmatch(re.escape(name) + r"\d*", field))
    value = fields[field]
    if field in REGISTERS:
        return f"r{value}"
    if name == "csr":
        return f"0x{value:04X}"
    if field.startswith(("si", "offs")):
        value -= value >> field_bits(field) - 1 << field_bits(field)
    return str(value * int(scale or 1))


def text_of(row, fields):
    operands = ", ".join(operand_text(operand, fields) for operand in row.operands)
    return f"{row.mnemonic} {operands}" if operands else row.mnemonic


def disassembled(word, rows):
    texts = [text_of(row, fields) for row in rows if (fields := fields_of(row, word)) is not None]
    assert len(texts) < 2, texts
    return texts[0] if texts else "undefined"


def main():
    rows = [row_of(**match.groupdict()) for match in map(ROW.fullmatch, PAGE.read_text().splitlines()) if match]
    assert len(rows) == ROWS, len(rows)
    lines = sys.stdin.buffer.read().split(b"\n")
    if lines[-1] == b"":
        lines.pop()
    for number, line in enumerate(lines, 1):
        if re.fullmatch(rb"[0-9A-Fa-f]{8}", line):
            word = int(line, 16)
            print(f"{word:08X}  {disassembled(word, rows)}")
        else:
            print(f"line {number}: not eight hexadecimal digits")


main()
