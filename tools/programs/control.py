"""Numbers and fields of the control registers, and values to write into them."""

from __future__ import annotations

from random import Random

CRMD, PRMD, EUEN, ECFG, ESTAT, ERA, BADV, EENTRY = 0x0, 0x1, 0x2, 0x4, 0x5, 0x6, 0x7, 0xC
TLBIDX, TLBEHI, TLBELO0, TLBELO1 = 0x10, 0x11, 0x12, 0x13
ASID, PGDL, PGDH, PGD, CPUID = 0x18, 0x19, 0x1A, 0x1B, 0x20
SAVE0, SAVE1, SAVE2, SAVE3 = 0x30, 0x31, 0x32, 0x33
TID, TCFG, TVAL, TICLR, LLBCTL = 0x40, 0x41, 0x42, 0x44, 0x60
TLBRENTRY, CTAG, DMW0, DMW1 = 0x88, 0x98, 0x180, 0x181

ALL = (
    CRMD, PRMD, EUEN, ECFG, ESTAT, ERA, BADV, EENTRY, TLBIDX, TLBEHI, TLBELO0,
    TLBELO1, ASID, PGDL, PGDH, PGD, CPUID, SAVE0, SAVE1, SAVE2, SAVE3, TID, TCFG,
    TVAL, TICLR, LLBCTL, TLBRENTRY, CTAG, DMW0, DMW1,
)
TLB_REGISTERS = (TLBIDX, TLBEHI, TLBELO0, TLBELO1, ASID)

DIRECT, MAPPED = 0x08, 0x10
INTERRUPTS_ON = 0x04
SMALL, LARGE = 12, 21
INTERRUPT_CODE, ADEF_CODE, SYSCALL_CODE, REFILL_CODE = 0x0, 0x8, 0xB, 0x3F
SOFTWARE_BITS, LINE_BITS, TIMER_BIT = 0x003, 0x3FC, 0x800


def unknown_number(rng: Random) -> int:
    """A number of 14 bits that the table of control registers does not have."""
    while True:
        near = rng.choice(ALL) ^ (1 << rng.randrange(14))
        high = rng.choice(ALL) | rng.choice((0x200, 0x400, 0x800, 0x1000, 0x2000))
        other = rng.choice((rng.randrange(0x4000), 0x3FFF, 0x3, 0x8, 0x43, 0x182))
        number = rng.choice((near, high, high, other))
        if number not in ALL:
            return number


def timer_configuration(initial: int, periodic: bool, enabled: bool = True) -> int:
    """A value of TCFG; the timer is set to 4 times the initial value."""
    return initial << 2 | periodic << 1 | enabled


def tlb_index(index: int, size: int = SMALL, absent: bool = False) -> int:
    """A value of TLBIDX."""
    return absent << 31 | size << 24 | index


def window(virtual: int, physical: int, plv0: bool, plv3: bool, access: int = 0) -> int:
    """A value of DMW0 or DMW1, of two segments 0 to 7."""
    return virtual << 29 | physical << 25 | access << 4 | plv3 << 3 | plv0
