"""Random instructions of arithmetic, which stand between the others of a test program."""

from __future__ import annotations

import values
from assembler import SHIFTS, SIGNED_IMMEDIATES, THREE_REGISTERS, UNSIGNED_IMMEDIATES, UPPER
from program import Builder


def arithmetic(b: Builder) -> None:
    """Places one random instruction of arithmetic."""
    rng = b.rng
    rd, rj, rk = b.registers.target(), b.registers.source(), b.registers.source()
    match rng.randrange(6):
        case 0 | 1:
            b.emit(rng.choice(tuple(THREE_REGISTERS)), rd, rj, rk)
        case 2:
            b.emit(rng.choice(tuple(SHIFTS)), rd, rj, values.amount_5(rng))
        case 3:
            b.emit(rng.choice(tuple(SIGNED_IMMEDIATES)), rd, rj, values.signed_12(rng))
        case 4:
            b.emit(rng.choice(tuple(UNSIGNED_IMMEDIATES)), rd, rj, values.unsigned_12(rng))
        case _:
            b.emit(rng.choice(tuple(UPPER)), rd, values.signed_20(rng))


def place(b: Builder, most: int) -> None:
    """Places a few random instructions of arithmetic."""
    for _ in range(b.rng.randint(0, most)):
        arithmetic(b)
