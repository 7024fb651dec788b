"""Numbers at which instructions are most easily got wrong."""

from __future__ import annotations

from random import Random

WORDS = (
    0x00000000, 0x00000001, 0x00000002, 0x00000003, 0x00000007, 0x00000010,
    0x0000001F, 0x00000020, 0x00000021, 0x0000003F, 0x00000040, 0x0000007F,
    0x00000080, 0x000000FF, 0x00000100, 0x000007FF, 0x00000800, 0x00000FFF,
    0x00001000, 0x00007FFF, 0x00008000, 0x0000FFFF, 0x00010000, 0x0001FFFF,
    0x7FFFFFFF, 0x7FFFFFFE, 0x80000000, 0x80000001, 0xFFFFFFFF, 0xFFFFFFFE,
    0xFFFFFF80, 0xFFFFFF7F, 0xFFFFF800, 0xFFFFF7FF, 0xFFFF8000, 0xFFFF7FFF,
    0xFFFF0000, 0xC0000000, 0x40000000, 0x55555555, 0xAAAAAAAA, 0x00FF00FF,
)
SHIFT_AMOUNTS = (0, 1, 2, 15, 16, 30, 31, 32, 33, 63, 64, 0xFFFFFFFF, 0x80000000, 0xFFFFFFE0)
SIGNED_12 = (0, 1, -1, 2, -2, 4, -4, 31, 32, 0x7F, 0x7FF, 0x7FE, -0x800, -0x7FF, 0x400)
UNSIGNED_12 = (0, 1, 2, 0x1F, 0x7F, 0x80, 0x7FF, 0x800, 0xFFE, 0xFFF, 0x555, 0xAAA)
SIGNED_20 = (0, 1, -1, 0x7FFFF, -0x80000, -0x7FFFF, 0x1C000, 0x12345, 0x7FF, 0x800)
AMOUNTS_5 = (0, 1, 2, 7, 8, 15, 16, 24, 30, 31)
DIVISIONS = (
    (0x80000000, 0xFFFFFFFF), (0x80000000, 0xFFFFFFFF), (0x80000000, 0), (0, 0),
    (0xFFFFFFFF, 0), (1, 0),
    (0x80000000, 1), (0x80000000, 2), (0x7FFFFFFF, 0xFFFFFFFF), (7, 0xFFFFFFFE),
    (0xFFFFFFF9, 2), (0xFFFFFFF9, 0xFFFFFFFE), (0xFFFFFFFF, 0x80000000), (1, 0x80000000),
    (0x80000000, 0x80000000), (0x7FFFFFFF, 0x80000000), (0xFFFFFFFF, 0xFFFFFFFF),
)


def word(rng: Random) -> int:
    """A word, most often one of the corner values."""
    draw = rng.random()
    if draw < 0.65:
        return rng.choice(WORDS)
    if draw < 0.75:
        return (rng.choice(WORDS) + rng.choice((-1, 1))) & 0xFFFFFFFF
    if draw < 0.85:
        return 1 << rng.randrange(32)
    return rng.getrandbits(32)


def signed(rng: Random, bits: int, corners: tuple[int, ...]) -> int:
    """A signed number of so many bits, most often one of the corners."""
    if rng.random() < 0.7:
        return rng.choice(corners)
    return rng.getrandbits(bits) - (1 << (bits - 1))


def signed_12(rng: Random) -> int:
    """A signed immediate of 12 bits."""
    return signed(rng, 12, SIGNED_12)


def signed_20(rng: Random) -> int:
    """A signed immediate of 20 bits."""
    return signed(rng, 20, SIGNED_20)


def unsigned_12(rng: Random) -> int:
    """An unsigned immediate of 12 bits."""
    return rng.choice(UNSIGNED_12) if rng.random() < 0.7 else rng.getrandbits(12)


def amount_5(rng: Random) -> int:
    """A shift amount of 5 bits."""
    return rng.choice(AMOUNTS_5) if rng.random() < 0.7 else rng.getrandbits(5)


def code_15(rng: Random) -> int:
    """A code or hint of 15 bits."""
    return rng.choice((0, 0, 1, 0x7FFF, 0x4000, rng.getrandbits(15)))
