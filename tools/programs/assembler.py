"""Encoding of LoongArch32 Reduced instructions.

`encode` gives the word of one instruction by its mnemonic. `Assembler` places
words at physical addresses and resolves labels, so that branches and addresses
of labels can be written before the label is known. Operands stand in the order
of the assembly syntax; offsets of branches and of ll.w and sc.w are in bytes.
"""

from __future__ import annotations

from collections.abc import Iterator
from contextlib import contextmanager
from dataclasses import dataclass

WORD_MASK = 0xFFFFFFFF

THREE_REGISTERS = {
    "add.w": 0x00100000, "sub.w": 0x00110000, "slt": 0x00120000,
    "sltu": 0x00128000, "nor": 0x00140000, "and": 0x00148000,
    "or": 0x00150000, "xor": 0x00158000, "sll.w": 0x00170000,
    "srl.w": 0x00178000, "sra.w": 0x00180000, "mul.w": 0x001C0000,
    "mulh.w": 0x001C8000, "mulh.wu": 0x001D0000, "div.w": 0x00200000,
    "mod.w": 0x00208000, "div.wu": 0x00210000, "mod.wu": 0x00218000,
}
SHIFTS = {"slli.w": 0x00408000, "srli.w": 0x00448000, "srai.w": 0x00488000}
SIGNED_IMMEDIATES = {"slti": 0x02000000, "sltui": 0x02400000, "addi.w": 0x02800000}
UNSIGNED_IMMEDIATES = {"andi": 0x03400000, "ori": 0x03800000, "xori": 0x03C00000}
LOADS = {
    "ld.b": 0x28000000, "ld.h": 0x28400000, "ld.w": 0x28800000,
    "ld.bu": 0x2A000000, "ld.hu": 0x2A400000,
}
STORES = {"st.b": 0x29000000, "st.h": 0x29400000, "st.w": 0x29800000}
LINKED = {"ll.w": 0x20000000, "sc.w": 0x21000000}
UPPER = {"lu12i.w": 0x14000000, "pcaddu12i": 0x1C000000}
CODES = {
    "break": 0x002A0000, "syscall": 0x002B0000, "idle": 0x06488000,
    "dbar": 0x38720000, "ibar": 0x38728000,
}
WHOLE = {
    "tlbsrch": 0x06482800, "tlbrd": 0x06482C00, "tlbwr": 0x06483000,
    "tlbfill": 0x06483400, "ertn": 0x06483800,
}
BRANCHES = {
    "beq": 0x58000000, "bne": 0x5C000000, "blt": 0x60000000,
    "bge": 0x64000000, "bltu": 0x68000000, "bgeu": 0x6C000000,
}
FAR = {"b": 0x50000000, "bl": 0x54000000}
COUNTERS = {"rdcntvl.w": 0x00006000, "rdcntvh.w": 0x00006400}
CONTROL = {"csrrd": 0x04000000, "csrwr": 0x04000020, "csrxchg": 0x04000000}
HINTED = {"cacop": 0x06000000, "preld": 0x2AC00000}

FORMS: dict[str, dict[str, int]] = {
    "three": THREE_REGISTERS, "shift": SHIFTS, "signed": SIGNED_IMMEDIATES,
    "unsigned": UNSIGNED_IMMEDIATES, "memory": {**LOADS, **STORES}, "linked": LINKED,
    "upper": UPPER, "code": CODES, "whole": WHOLE, "branch": BRANCHES, "far": FAR,
    "counter": COUNTERS, "hinted": HINTED,
    "control": {"csrrd": CONTROL["csrrd"], "csrwr": CONTROL["csrwr"]},
    "exchange": {"csrxchg": CONTROL["csrxchg"]},
    "jirl": {"jirl": 0x4C000000}, "invtlb": {"invtlb": 0x06498000},
    "identity": {"rdcntid.w": 0x00006000},
}
FIXED_BITS: dict[str, int] = {
    "three": 0xFFFF8000, "shift": 0xFFFF8000, "signed": 0xFFC00000,
    "unsigned": 0xFFC00000, "memory": 0xFFC00000, "linked": 0xFF000000,
    "upper": 0xFE000000, "code": 0xFFFF8000, "whole": 0xFFFFFFFF,
    "branch": 0xFC000000, "far": 0xFC000000, "counter": 0xFFFFFFE0,
    "hinted": 0xFFC00000, "control": 0xFF0003E0, "exchange": 0xFF000000,
    "jirl": 0xFC000000, "invtlb": 0xFFFF8000, "identity": 0xFFFFFC1F,
}
FORM_OF: dict[str, str] = {name: form for form, rows in FORMS.items() for name in rows}
MNEMONICS: tuple[str, ...] = tuple(FORM_OF)


class EncodingError(ValueError):
    """An operand does not fit its field, or a label has no place."""


def signed_field(value: int, bits: int) -> int:
    """The low bits of a signed number that fits so many bits."""
    if not -(1 << (bits - 1)) <= value < 1 << (bits - 1):
        raise EncodingError(f"{value} does not fit {bits} signed bits")
    return value & ((1 << bits) - 1)


def unsigned_field(value: int, bits: int) -> int:
    """A number that fits so many bits."""
    if not 0 <= value < 1 << bits:
        raise EncodingError(f"{value} does not fit {bits} unsigned bits")
    return value


def word_offset(offset: int, bits: int) -> int:
    """The field of a byte offset that counts words."""
    if offset % 4:
        raise EncodingError(f"offset {offset} is no multiple of 4")
    return signed_field(offset // 4, bits)


def registers(rd: int, rj: int = 0, rk: int = 0) -> int:
    """The three register fields at their common places."""
    fields = (unsigned_field(rk, 5) << 10) | (unsigned_field(rj, 5) << 5)
    return fields | unsigned_field(rd, 5)


def _encode_fields(form: str, operands: tuple[int, ...]) -> int:
    match form, operands:
        case "three", (rd, rj, rk):
            return registers(rd, rj, rk)
        case "shift", (rd, rj, amount):
            return registers(rd, rj, amount)
        case ("signed" | "memory" | "hinted"), (rd, rj, value):
            return signed_field(value, 12) << 10 | registers(rd, rj)
        case "unsigned", (rd, rj, value):
            return unsigned_field(value, 12) << 10 | registers(rd, rj)
        case "linked", (rd, rj, offset):
            return word_offset(offset, 14) << 10 | registers(rd, rj)
        case "upper", (rd, value):
            return signed_field(value, 20) << 5 | registers(rd)
        case "code", (value,):
            return unsigned_field(value, 15)
        case "whole", ():
            return 0
        case "branch", (rj, rd, offset):
            return word_offset(offset, 16) << 10 | registers(rd, rj)
        case "jirl", (rd, rj, offset):
            return word_offset(offset, 16) << 10 | registers(rd, rj)
        case "far", (offset,):
            field = word_offset(offset, 26)
            return (field & 0xFFFF) << 10 | field >> 16
        case "counter", (rd,):
            return registers(rd)
        case "identity", (rj,):
            return registers(0, rj)
        case "control", (rd, number):
            return unsigned_field(number, 14) << 10 | registers(rd)
        case "exchange", (rd, rj, number):
            return unsigned_field(number, 14) << 10 | registers(rd, rj)
        case "invtlb", (op, rj, rk):
            return registers(op, rj, rk)
    raise EncodingError(f"wrong operands {operands} of the form {form}")


def encode(name: str, *operands: int) -> int:
    """The word of an instruction."""
    form = FORM_OF[name]
    return FORMS[form][name] | _encode_fields(form, operands)


def upper_and_lower(value: int) -> tuple[int, int]:
    """The operands of lu12i.w and ori that make a value."""
    upper = (value >> 12) & 0xFFFFF
    return (upper - 0x100000 if upper & 0x80000 else upper), value & 0xFFF


@dataclass(frozen=True)
class Reference:
    """A word that needs the address of a label."""

    address: int
    kind: str
    label: str
    operands: tuple[int, ...] = ()
    plus: int = 0


class Assembler:
    """Words by physical address, written one after another from an origin."""

    def __init__(self, origin: int) -> None:
        self.position = origin
        self.words: dict[int, int] = {}
        self.labels: dict[str, int] = {}
        self._references: list[Reference] = []
        self._names = 0

    def word(self, value: int) -> None:
        """Places a word and moves on."""
        if self.position in self.words:
            raise EncodingError(f"two words at {self.position:08X}")
        self.words[self.position] = value & WORD_MASK
        self.position += 4

    def emit(self, name: str, *operands: int) -> None:
        """Places an instruction."""
        self.word(encode(name, *operands))

    def branch(self, name: str, *operands: int, to: str) -> None:
        """Places a branch to a label; its offset is the last operand."""
        self._references.append(Reference(self.position, name, to, operands))
        self.word(0)

    def load_constant(self, rd: int, value: int) -> None:
        """Places one or two instructions that load a constant."""
        value &= WORD_MASK
        upper, lower = upper_and_lower(value)
        if value < 0x800 or value >= 0xFFFFF800:
            self.emit("addi.w", rd, 0, value if value < 0x800 else value - (1 << 32))
        elif value < 0x1000:
            self.emit("ori", rd, 0, value)
        else:
            self.emit("lu12i.w", rd, upper)
            if lower:
                self.emit("ori", rd, rd, lower)

    def load_address(self, rd: int, label: str, plus: int = 0) -> None:
        """Places two instructions that load the address of a label."""
        for kind in ("upper", "lower"):
            self._references.append(Reference(self.position, kind, label, (rd,), plus))
            self.word(0)

    def label(self, name: str) -> None:
        """Gives the present position a name."""
        if name in self.labels:
            raise EncodingError(f"label {name} stands twice")
        self.labels[name] = self.position

    def new_label(self, stem: str) -> str:
        """A name that no other label has."""
        self._names += 1
        return f"{stem}.{self._names}"

    def align(self, size: int) -> None:
        """Moves on to the next multiple of a size."""
        self.position = (self.position + size - 1) // size * size

    @contextmanager
    def at(self, address: int) -> Iterator[None]:
        """Places what follows at another address, and then goes on as before."""
        before = self.position
        self.position = address
        yield
        self.position = before

    def _resolved(self, reference: Reference) -> int:
        if reference.label not in self.labels:
            raise EncodingError(f"label {reference.label} stands nowhere")
        target = (self.labels[reference.label] + reference.plus) & WORD_MASK
        upper, lower = upper_and_lower(target)
        match reference.kind:
            case "upper":
                return encode("lu12i.w", reference.operands[0], upper)
            case "lower":
                rd = reference.operands[0]
                return encode("ori", rd, rd, lower)
        offset = target - reference.address
        return encode(reference.kind, *reference.operands, offset)

    def resolve(self) -> dict[int, int]:
        """All words by address, with the labels put in."""
        for reference in self._references:
            self.words[reference.address] = self._resolved(reference)
        return self.words
