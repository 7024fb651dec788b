"""TLB entries, windows and the handlers of refills, as test programs write them."""

from __future__ import annotations

from dataclasses import dataclass
from random import Random

import control
import handlers
from program import LARGE_PAGE, PAGE, Builder

USER, SUPERVISOR = 3, 0
SEGMENTS = (0x20000000, 0x40000000, 0x7FC00000, 0x80000000, 0xA0000000, 0xFF800000)
REFILL_READS = (
    control.ESTAT, control.ERA, control.BADV, control.TLBEHI, control.CRMD, control.PRMD,
)


@dataclass(frozen=True)
class Half:
    """One of the two pages of an entry, as TLBELO0 or TLBELO1 has it."""

    frame: int
    valid: bool = True
    dirty: bool = True
    privilege: int = USER
    access: int = 1
    everywhere: bool = False

    def word(self) -> int:
        """The value of TLBELO0 or TLBELO1."""
        flags = self.everywhere << 6 | self.access << 4 | self.privilege << 2
        return self.frame << 8 | flags | self.dirty << 1 | self.valid


@dataclass(frozen=True)
class Entry:
    """What is written into the registers before tlbwr or tlbfill."""

    index: int
    address: int
    halves: tuple[Half, Half]
    space: int = 0
    size: int = control.SMALL
    absent: bool = False

    def registers(self) -> tuple[tuple[int, int], ...]:
        """The control registers and their values."""
        return (
            (control.TLBIDX, control.tlb_index(self.index, self.size, self.absent)),
            (control.TLBEHI, self.address & 0xFFFFE000),
            (control.TLBELO0, self.halves[0].word()),
            (control.TLBELO1, self.halves[1].word()),
            (control.ASID, self.space),
        )


def frame_of(rng: Random, page: int, size: int) -> int:
    """The frame of a page; a large page's has any low bits."""
    if size == control.SMALL:
        return page >> 12
    return page >> 21 << 9 | rng.getrandbits(9)


def offset_in(page: int, size: int) -> int:
    """Where a physical page lies in the page, of that size, that maps it."""
    return page & (LARGE_PAGE - 1) if size == control.LARGE else 0


def write_entry(b: Builder, entry: Entry, fill: bool = False) -> None:
    """Places instructions that write an entry, in random order of the registers."""
    pairs = list(entry.registers())
    b.rng.shuffle(pairs)
    for number, value in pairs:
        b.write_control(number, value)
    b.emit("tlbfill" if fill else "tlbwr")


def write_entries(b: Builder, entries: list[Entry], fill: bool = False) -> None:
    """Places a loop that writes entries from a table."""
    table, value, left = b.registers.some(3)
    label = b.new_label("table")
    b.asm.load_address(table, label)
    b.load(left, len(entries))
    begin = b.here("entry")
    for place, (number, _) in enumerate(entries[0].registers()):
        b.emit("ld.w", value, table, 4 * place)
        b.emit("csrwr", value, number)
    b.emit("tlbfill" if fill else "tlbwr")
    b.emit("addi.w", table, table, 20)
    b.emit("addi.w", left, left, -1)
    b.asm.branch("bne", left, 0, to=begin)
    b.later(lambda: _table(b, label, entries))


def _table(b: Builder, label: str, entries: list[Entry]) -> None:
    b.asm.label(label)
    for entry in entries:
        for _, value in entry.registers():
            b.asm.word(value)


def map_all(b: Builder, entries: list[Entry]) -> None:
    """Writes entries one by one, or from a table where there are many."""
    if len(entries) > 3 or b.rng.random() < 0.2:
        write_entries(b, entries, fill=b.rng.random() < 0.2)
        return
    for entry in entries:
        write_entry(b, entry)


def emit_tlb_reader(b: Builder, label: str) -> None:
    """Places a routine that folds all entries; it returns to r1."""
    index, mask, value = b.registers.some(3)
    while 1 in (index, mask, value):
        index, mask, value = b.registers.some(3)
    b.asm.label(label)
    b.load(index, 0)
    b.load(mask, 0)
    begin = b.here("read")
    b.move(value, index)
    b.emit("csrwr", value, control.TLBIDX)
    b.emit("tlbrd")
    for number in (control.TLBEHI, control.TLBELO0, control.TLBELO1, control.TLBIDX):
        b.emit("csrrd", value, number)
        b.fold(value)
    b.emit("srli.w", value, value, 31)
    b.emit("slli.w", mask, mask, 1)
    b.emit("or", mask, mask, value)
    b.emit("addi.w", index, index, 1)
    b.emit("sltui", value, index, 16)
    b.asm.branch("bne", value, 0, to=begin)
    b.fold(mask)
    b.emit("jirl", 0, 1, 0)


def tlb_reader(b: Builder) -> str:
    """Has the routine that folds all entries placed behind the program."""
    label = b.new_label("tlb")
    b.later(lambda: emit_tlb_reader(b, label))
    return label


def enter_mapped(b: Builder, user_window: bool = False) -> None:
    """Goes on with mapped addresses, the program's own through a window."""
    rng = b.rng
    window = control.window(0, 0, True, user_window, rng.choice((0, 1, 2, 3)))
    b.write_control(rng.choice((control.DMW0, control.DMW1)), window)
    access = rng.choice((0, 0xA0, 0x20, 0x1E0))
    b.write_control(control.CRMD, control.MAPPED | access)


# Refills

def install_refill(b: Builder, size: int, by_index: bool, flags: tuple[int, int]) -> None:
    """Sets a handler that maps any address to the open pages, by its page number, with these flags of both halves."""
    low_bits = b.rng.choice((0, 0, 0x3F))
    handlers.set_up(b, lambda: _emit_refill(b, size, by_index, flags), control.TLBRENTRY, low_bits)


def _emit_refill(b: Builder, size: int, by_index: bool, flags: tuple[int, int]) -> None:
    rng = b.rng
    first, second, third, _ = b.roles.handler
    for number in rng.sample(REFILL_READS, rng.randint(1, 3)):
        b.fold_control(number, via=third)
    b.emit("addi.w", b.roles.count, b.roles.count, 1)
    _emit_halves(b, size, flags)
    absent = rng.random() < 0.5
    b.load(first, control.tlb_index(0, size, absent))
    if by_index:
        b.emit("csrrd", second, control.SAVE0)
        b.emit("addi.w", third, second, rng.choice((1, 1, 3, 5)))
        b.emit("csrwr", third, control.SAVE0)
        b.emit("andi", second, second, 15)
        b.emit("or", first, first, second)
    b.emit("csrwr", first, control.TLBIDX)
    b.emit("tlbwr" if by_index else "tlbfill")
    b.emit("ertn")


def _emit_halves(b: Builder, size: int, flags: tuple[int, int]) -> None:
    """Makes both halves' registers, from the address where pages are small."""
    first, second, third, fourth = b.roles.handler
    pages = b.layout.pages
    if size == control.LARGE:
        for half, number in enumerate((control.TLBELO0, control.TLBELO1)):
            b.load(first, frame_of(b.rng, pages[0], size) << 8 | flags[half])
            b.emit("csrwr", first, number)
        return
    b.emit("csrrd", second, control.BADV)
    b.emit("srli.w", second, second, 13)
    b.emit("andi", second, second, 1)
    b.emit("slli.w", second, second, 9)
    b.load(third, pages[0] >> 4 | flags[0])
    b.emit("add.w", third, third, second)
    b.emit("csrwr", third, control.TLBELO0)
    b.load(fourth, pages[1] >> 4 | flags[1])
    b.emit("add.w", fourth, fourth, second)
    b.emit("csrwr", fourth, control.TLBELO1)


def half_flags(valid: bool, dirty: bool, privilege: int, everywhere: bool, access: int = 1) -> int:
    """The low seven bits of TLBELO0 or TLBELO1."""
    return Half(0, valid, dirty, privilege, access, everywhere).word()


def random_half(rng: Random, pages: tuple[int, ...], size: int, everywhere: bool) -> Half:
    """A half of an open page whose flags may refuse the access."""
    page = rng.choice(pages)
    return Half(
        frame_of(rng, page, size), valid=rng.random() < 0.75, dirty=rng.random() < 0.6,
        privilege=rng.choice((0, 0, 1, 2, 3, 3, 3, 3)), access=rng.getrandbits(2),
        everywhere=everywhere,
    )


def virtual(rng: Random, base: int, pages: tuple[int, ...], size: int, half: int) -> int:
    """An address in a half of an entry that maps a base address, on an open page."""
    if size == control.LARGE:
        return (base & ~0x3FFFFF) + half * LARGE_PAGE + offset_in(rng.choice(pages), size)
    return (base & ~0x1FFF) + half * PAGE


def install_both(b: Builder) -> str:
    """Sets the common handler for exceptions and for refills."""
    label = handlers.install(b)
    handlers.share_with_refills(b, label)
    return label
