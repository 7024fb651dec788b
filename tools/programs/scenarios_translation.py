"""Programs of translation: refills, faults, the TLB's instructions, borders and caches."""

from __future__ import annotations

from random import Random

import control
import handlers
import mapping
import scenarios_exceptions
import values
from assembler import LOADS, STORES, encode
from mapping import Entry, Half
from program import LARGE_PAGE, PAGE, Builder, Program
from scenarios_integer import WIDTHS

ACCESSES = (*LOADS, *STORES, "ld.w", "st.w", "ll.w", "sc.w")
ROUTINE_OFFSET = 0x800


# Accesses

def access(b: Builder, address: int, name: str | None = None) -> None:
    """A load or store, mostly aligned, whose result is folded."""
    rng = b.rng
    base, value = b.registers.some(2)
    chosen = name or rng.choice(ACCESSES)
    width = WIDTHS[chosen]
    place = address & ~(width - 1) if rng.random() < 0.93 else address | rng.randrange(width)
    offset = rng.choice((0, 0, 4, -4, 8)) if rng.random() < 0.5 else 0
    b.load(base, place - offset)
    b.emit(chosen, value, base, offset)
    b.fold(value)


def cache_hit(b: Builder, address: int) -> None:
    """A cacop of the Hit kind, aligned or not."""
    base = b.registers.free()
    b.load(base, address + b.rng.randrange(4))
    b.emit("cacop", b.rng.randrange(16, 24), base, 0)


def place_routines(b: Builder) -> None:
    """Places, in each page, a routine that counts and returns to the link."""
    others = range(b.layout.code + PAGE, b.layout.code_end, PAGE)
    for page in (*b.layout.pages, *others):
        _place_routine(b, page + ROUTINE_OFFSET)
    b.later(lambda: _place_routine(b, b.layout.code + ROUTINE_OFFSET))


def _place_routine(b: Builder, address: int) -> None:
    if address in b.asm.words:
        return
    with b.asm.at(address):
        b.emit("addi.w", b.roles.count, b.roles.count, 0x400 + b.rng.randrange(0x100))
        b.emit("jirl", 0, b.roles.link, 0)


def call_routine(b: Builder, address: int) -> None:
    """A call of the routine in the page of an address; seldom one that is misaligned."""
    low = 0 if b.rng.random() < 0.95 else b.rng.randrange(4)
    handlers.fetch_from(b, address & ~0xFFF | ROUTINE_OFFSET | low)


def read_open_pages(b: Builder, count: int) -> None:
    """Folds words at the beginning and end of the open pages, by direct addresses."""
    base, value = b.registers.some(2)
    for page in b.rng.sample(b.layout.pages, min(count, len(b.layout.pages))):
        b.load(base, page)
        for offset in b.rng.sample((0, 4, 8, 0x7FC), 2):
            b.emit("ld.w", value, base, offset)
            b.fold(value)


# Refills

STRIDES = (PAGE, 2 * PAGE, 3 * PAGE, 5 * PAGE, LARGE_PAGE, 2 * LARGE_PAGE, LARGE_PAGE + PAGE)


def _stride(b: Builder, size: int) -> int:
    """A distance after which the address still leads to an open page."""
    if size == control.LARGE:
        return b.rng.choice((LARGE_PAGE, 2 * LARGE_PAGE, 3 * LARGE_PAGE))
    return b.rng.choice(STRIDES)


def _walk(b: Builder, base: int, stride: int, count: int, spaces: int) -> None:
    """A loop that stores and loads at addresses a stride apart, in some address spaces."""
    address, step, left, value = b.registers.some(4)
    b.load(address, base)
    b.load(step, stride)
    b.load(left, count)
    begin = b.here("walk")
    if spaces > 1:
        b.emit("andi", value, left, spaces - 1)
        b.emit("csrwr", value, control.ASID)
    b.emit("st.w", left, address, 4)
    b.emit(b.rng.choice(("ld.w", "ld.bu", "ld.h")), value, address, b.rng.choice((4, 8, 0)))
    b.fold(value)
    b.emit("add.w", address, address, step)
    b.emit("addi.w", left, left, -1)
    b.asm.branch("bne", left, 0, to=begin)


def _return_after_refill(b: Builder, user_window: bool) -> None:
    """A return by direct addresses while Ecode is still that of a refill."""
    b.write_control(control.CRMD, control.DIRECT)
    scenarios_exceptions.return_to_label(b, b.rng.choice((0, 3)) if user_window else 0)
    b.emit("rdcntvl.w", b.roles.value)
    handlers.call_service(b, 0)
    b.fold_control(control.CRMD)


def _refill_flags(rng: Random, everywhere: bool) -> int:
    """The low bits of a half that mostly admits stores."""
    valid, dirty = rng.random() < 0.92, rng.random() < 0.9
    return mapping.half_flags(valid, dirty, rng.choice((0, 3, 3)), everywhere)


def tlb_refill(b: Builder) -> Program:
    """Refills of more pages than the TLB holds, in several address spaces."""
    rng = b.rng
    handlers.install(b)
    size = rng.choice((control.SMALL, control.SMALL, control.LARGE))
    by_index = rng.random() < 0.4
    everywhere = rng.random() < 0.4
    flags = (_refill_flags(rng, everywhere), _refill_flags(rng, everywhere))
    mapping.install_refill(b, size, by_index, flags)
    reader = mapping.tlb_reader(b)
    user_window = rng.random() < 0.5
    mapping.enter_mapped(b, user_window)
    base = rng.choice(mapping.SEGMENTS) & ~0x3FFFFF | mapping.offset_in(b.layout.pages[0], size)
    stride = _stride(b, size)
    for _ in range(rng.randint(1, 2)):
        _walk(b, base + rng.choice((0, stride)), stride, rng.randint(8, 26), rng.choice((1, 2, 4)))
        b.fold_control(control.ASID)
    for _ in range(rng.randint(0, 3)):
        access(b, base + stride * rng.randrange(30))
    if rng.random() < 0.4:
        _return_after_refill(b, user_window)
    if rng.random() < 0.5:
        b.write_control(control.CRMD, control.DIRECT)
    read_open_pages(b, 2)
    b.asm.branch("bl", to=reader)
    b.read_at_end.extend(b.layout.pages)
    return b.finish(3600)


# Faults

def random_entries(b: Builder, count: int) -> list[Entry]:
    """Entries of a few addresses and spaces, which partly overlap."""
    rng = b.rng
    base = rng.choice(mapping.SEGMENTS) & ~0x3FFFFF
    entries = []
    for index in rng.sample(range(16), count):
        size = rng.choice((control.SMALL, control.SMALL, control.LARGE))
        inside = rng.randrange(0x400000)
        address = base + rng.choice((0, 0, 0x2000, 0x4000, 0x400000, LARGE_PAGE, inside))
        everywhere = rng.random() < 0.4
        halves = []
        for _ in range(2):
            both = everywhere if rng.random() < 0.85 else not everywhere
            halves.append(mapping.random_half(rng, b.layout.pages, size, both))
        entries.append(Entry(
            index, address, (halves[0], halves[1]), rng.choice((0, 0, 1, 5, 0x3FF)), size,
            absent=rng.random() < 0.08,
        ))
    return entries


def _near_entry(b: Builder, entry: Entry) -> int:
    """An address that an entry maps, or one just beside it."""
    rng = b.rng
    half = rng.randrange(2)
    address = mapping.virtual(rng, entry.address, b.layout.pages, entry.size, half)
    if rng.random() < 0.12:
        return address ^ rng.choice((0x2000, 0x400000, 0x80000000, 0x1000, LARGE_PAGE))
    return address + rng.choice((0, 4, 8, 0x40, 0xFF8))


def _search(b: Builder, address: int) -> None:
    """A search, and a read of what it found."""
    b.write_control(control.TLBEHI, address)
    b.emit("tlbsrch")
    b.fold_control(control.TLBIDX)
    if b.rng.random() < 0.5:
        b.emit("tlbrd")
        for number in control.TLB_REGISTERS:
            b.fold_control(number)


def faulting_step(b: Builder, entries: list[Entry]) -> None:
    """An access, fetch or search near one of the entries."""
    rng = b.rng
    address = _near_entry(b, rng.choice(entries))
    draw = rng.random()
    if draw < 0.55:
        access(b, address)
    elif draw < 0.7:
        call_routine(b, address)
    elif draw < 0.76:
        cache_hit(b, address)
    elif draw < 0.8:
        b.load(b.roles.value, address)
        b.emit("preld", rng.randrange(32), b.roles.value, 0)
    elif draw < 0.9:
        handlers.call_service(b, rng.choice((0, 3)))
    elif draw < 0.95:
        _search(b, address)
    else:
        b.write_control(control.ASID, rng.choice((0, 1, 5, 0x3FF)))


def tlb_faults(b: Builder) -> Program:
    """Accesses in both levels to pages that refuse them, and entries that overlap."""
    rng = b.rng
    mapping.install_both(b)
    handlers.interrupt_now_and_then(b, 0.35)
    place_routines(b)
    entries = random_entries(b, rng.randint(2, 6))
    mapping.map_all(b, entries)
    mapping.enter_mapped(b, user_window=True)
    b.write_control(control.ASID, rng.choice([entry.space for entry in entries]))
    handlers.call_service(b, rng.choice((0, 3, 3)))
    for _ in range(rng.randint(6, 14)):
        faulting_step(b, entries)
    handlers.call_service(b, 0)
    for entry in rng.sample(entries, min(2, len(entries))):
        _search(b, entry.address)
    if rng.random() < 0.4:
        reader = mapping.tlb_reader(b)
        b.asm.branch("bl", to=reader)
    b.read_at_end.extend(b.layout.pages)
    return b.finish(1800)


# The TLB's instructions

def _index_step(b: Builder, entries: list[Entry]) -> None:
    """A search, read or write with an index that may be empty or illegal."""
    rng = b.rng
    draw = rng.random()
    if draw < 0.35:
        _search(b, _near_entry(b, rng.choice(entries)))
    elif draw < 0.6:
        sizes = scenarios_exceptions.SIZE_VALUES
        value = control.tlb_index(rng.randrange(16), rng.choice(sizes), rng.random() < 0.3)
        b.write_control(control.TLBIDX, value | rng.choice((0, 0x10, 0xFFF0)))
        b.emit("tlbrd")
        for number in control.TLB_REGISTERS:
            b.fold_control(number)
    elif draw < 0.8:
        mapping.write_entry(b, rng.choice(random_entries(b, 1)), fill=rng.random() < 0.4)
    elif draw < 0.9:
        b.emit(rng.choice(("tlbwr", "tlbfill")))
    else:
        b.asm.word(rng.choice((0, encode("break", 1))))


def tlb_operations(b: Builder) -> Program:
    """Searches, reads and writes of entries that exist or are empty, by direct addresses."""
    rng = b.rng
    mapping.install_both(b)
    entries = random_entries(b, rng.randint(2, 5))
    mapping.map_all(b, entries)
    reader = mapping.tlb_reader(b)
    for _ in range(rng.randint(3, 6)):
        _index_step(b, entries)
    b.asm.branch("bl", to=reader)
    return b.finish(1300)


def _fill_at_random(b: Builder, spaces: int) -> None:
    """A loop that fills the TLB from pseudo-random numbers."""
    rng = b.rng
    state, value, left, work = b.registers.some(4)
    b.load(state, rng.getrandbits(32) | 1)
    b.load(left, 16)
    begin = b.here("fill")
    for shift in (("slli.w", 13), ("srli.w", 17), ("slli.w", 5)):
        b.emit(shift[0], work, state, shift[1])
        b.emit("xor", state, state, work)
    b.emit("andi", value, state, spaces - 1)
    b.emit("csrwr", value, control.ASID)
    b.emit("srli.w", value, state, 8)
    b.emit("andi", value, value, 3)
    b.emit("slli.w", value, value, rng.choice((13, 22, 21)))
    b.emit("csrwr", value, control.TLBEHI)
    for number in (control.TLBELO0, control.TLBELO1):
        b.emit("srli.w", value, state, 10 if number == control.TLBELO0 else 9)
        b.emit("csrwr", value, number)
    b.load(work, control.tlb_index(0, control.SMALL))
    b.load(value, control.tlb_index(0, control.SMALL ^ control.LARGE))
    small = b.new_label("small")
    b.asm.branch("bge", state, 0, to=small)
    b.emit("xor", work, work, value)
    b.asm.label(small)
    b.emit("csrwr", work, control.TLBIDX)
    b.emit("tlbfill")
    b.emit("addi.w", left, left, -1)
    b.asm.branch("bne", left, 0, to=begin)


def invtlb_ops(b: Builder) -> Program:
    """Every operation of invtlb over a filled TLB, read back entry by entry."""
    rng = b.rng
    mapping.install_both(b)
    spaces = rng.choice((1, 2, 4))
    if rng.random() < 0.7:
        _fill_at_random(b, spaces)
        choices = [size * n for size in (0x2000, LARGE_PAGE, 2 * LARGE_PAGE) for n in range(4)]
    else:
        entries = random_entries(b, 8)
        mapping.write_entries(b, entries, fill=True)
        choices = [entry.address for entry in entries]
    reader = mapping.tlb_reader(b)
    b.asm.branch("bl", to=reader)
    for _ in range(rng.randint(2, 5)):
        space, address = b.registers.some(2)
        while 1 in (space, address):
            space, address = b.registers.some(2)
        b.load(space, rng.randrange(spaces) | rng.choice((0, 0, 0x400, 0xFFFFFC00)))
        b.load(address, rng.choice(choices) + rng.choice((0, 0, 0x1FFF, 0x1000, LARGE_PAGE)))
        ops = range(7, 32) if rng.random() < 0.1 else (0, 1, 2, 3, 4, 4, 5, 5, 5, 6, 6, 6)
        op = rng.choice(ops)
        b.emit("invtlb", op, rng.choice((space, space, 0)), address)
        b.asm.branch("bl", to=reader)
        if rng.random() < 0.3:
            _fill_at_random(b, spaces)
            b.asm.branch("bl", to=reader)
    return b.finish(6000)


# Borders of pages

def _last_word(b: Builder) -> None:
    """The word in front of a page's end: it goes on, or branches over the border."""
    match b.rng.randrange(4):
        case 0:
            b.emit("bl", 4)
        case 1:
            b.emit("beq", 0, 0, 8)
        case 2:
            b.emit("pcaddu12i", b.roles.value, b.rng.choice((0, 1, -1)))
        case _:
            b.emit("addi.w", b.roles.count, b.roles.count, 1)


def _code_over_border(b: Builder, first: int, second: int, ends: bool) -> None:
    """Code that goes on from the end of one physical page to the beginning of another."""
    with b.asm.at(first + PAGE - 16):
        b.emit("pcaddu12i", b.roles.value, 0)
        b.emit("xor", b.roles.count, b.roles.count, b.roles.value)
        b.emit("addi.w", b.roles.count, b.roles.count, 0x10)
        _last_word(b)
    with b.asm.at(second):
        b.emit("addi.w", b.roles.count, b.roles.count, 0x20)
        b.emit("pcaddu12i", b.roles.value, 0)
        b.fold(b.roles.value)
        b.fold(1)
        if ends:
            b.emit("addi.w", b.roles.value, 0, 0)
            b.emit("ld.w", b.registers.free(), b.roles.value, b.rng.choice((-4, -8, 0)))
            b.emit("ld.hu", b.registers.free(), b.roles.value, -2)
            b.stop()
        else:
            b.emit("jirl", 0, b.roles.link, 0)


def _top_of_addresses(b: Builder) -> None:
    """A user program that goes on from the last address to the first."""
    rng = b.rng
    first, second = rng.sample(b.layout.pages, 2)
    _code_over_border(b, first, second, ends=True)
    top = Half(first >> 12, dirty=False)
    bottom = Half(second >> 12, valid=rng.random() < 0.85)
    mapping.write_entry(b, Entry(3, 0xFFFFE000, (bottom, top)))
    mapping.write_entry(b, Entry(rng.choice((4, 2)), 0, (bottom, top)))
    b.asm.load_address(b.roles.link, "end")
    mapping.enter_mapped(b)
    b.write_control(control.PRMD, 3)
    b.write_control(control.ERA, 0xFFFFFFF0)
    b.emit("ertn")


def page_edges(b: Builder) -> Program:
    """Code and accesses that go from one page to the next, and over the last address."""
    rng = b.rng
    mapping.install_both(b)
    handlers.interrupt_now_and_then(b, 0.35)
    if rng.random() < 0.4:
        _top_of_addresses(b)
    else:
        first, second = rng.sample(b.layout.pages, 2)
        _code_over_border(b, first, second, ends=False)
        base = rng.choice(mapping.SEGMENTS) & ~0x1FFF
        mapped, other = Half(first >> 12), mapping.random_half(rng, b.layout.pages, 12, False)
        next_half = Half(second >> 12, valid=rng.random() < 0.8, privilege=rng.choice((0, 3)))
        within = rng.random() < 0.5
        pair = (mapped, next_half) if within else (other, mapped)
        mapping.write_entry(b, Entry(rng.randrange(16), base, pair))
        if rng.random() < 0.85 and not within:
            mapping.write_entry(b, Entry(rng.randrange(16), base + 0x2000, (next_half, other)))
        mapping.enter_mapped(b, user_window=True)
        handlers.call_service(b, rng.choice((0, 3)))
        border = base + (PAGE if within else 2 * PAGE)
        for _ in range(rng.randint(1, 3)):
            handlers.fetch_from(b, border - 4 * rng.randint(1, 4))
            access(b, border + rng.choice((-4, 0, 4, -8)))
        for address in rng.sample((border - 4, border - 2, border, border - 1), 2):
            access(b, address)
    b.asm.label("end")
    return b.finish(500)


# Caches and barriers

def _barrier(b: Builder) -> None:
    """An instruction that does nothing at any address."""
    rng = b.rng
    match rng.randrange(3):
        case 0:
            b.emit("preld", rng.randrange(32), b.registers.source(), values.signed_12(rng))
        case 1:
            b.emit("dbar", values.code_15(rng))
        case _:
            b.emit("ibar", values.code_15(rng))


def _cache_step(b: Builder, code: int, addresses: list[int]) -> None:
    """A cacop at one of some addresses, and sometimes a barrier or a change of level."""
    rng = b.rng
    base = b.registers.free()
    offset = values.signed_12(rng)
    b.load(base, rng.choice(addresses) + rng.choice((0, 1, 2, 3, 0xFFF)) - offset)
    b.emit("cacop", code, base, offset)
    draw = rng.random()
    if draw < 0.3:
        _barrier(b)
    elif draw < 0.5:
        handlers.call_service(b, rng.choice((0, 3)))


def cacop_kinds(b: Builder) -> Program:
    """Every code of cacop, by direct and mapped addresses in both levels, and hints."""
    rng = b.rng
    mapping.install_both(b)
    addresses = [*b.layout.absent, b.page()]
    codes = list(range(32))
    rng.shuffle(codes)
    for code in codes[:16]:
        _cache_step(b, code, addresses)
    handlers.call_service(b, 0)
    entries = random_entries(b, rng.randint(1, 3))
    mapping.map_all(b, entries)
    mapping.enter_mapped(b, user_window=True)
    b.write_control(control.ASID, entries[0].space)
    addresses += [_near_entry(b, entry) for entry in entries * 3]
    for code in (*codes[16:], *rng.sample(range(16, 24), 4)):
        _cache_step(b, code, addresses)
    return b.finish(3000)
