"""Programs of arithmetic, branches, loads and stores, links and counters."""

from __future__ import annotations

import control
import filler
import handlers
import values
from assembler import BRANCHES, LOADS, STORES, THREE_REGISTERS, encode
from program import PAGE, Builder, Program

WIDTHS = {
    "ld.b": 1, "ld.bu": 1, "st.b": 1, "ld.h": 2, "ld.hu": 2, "st.h": 2, "ld.w": 4, "st.w": 4,
    "ll.w": 4, "sc.w": 4,
}
DIVIDES = ("div.w", "mod.w", "div.wu", "mod.wu")
PRODUCTS = ("mul.w", "mulh.w", "mulh.wu")
REGISTER_SHIFTS = ("sll.w", "srl.w", "sra.w")


# Arithmetic

def _special_pair(b: Builder) -> None:
    """A division or shift of two operands that are chosen together."""
    rng = b.rng
    rj, rk = b.registers.some(2)
    if rng.random() < 0.6:
        dividend, divisor = rng.choice(values.DIVISIONS)
        b.load(rj, dividend)
        b.load(rk, divisor)
        names: tuple[str, ...] = rng.choice((DIVIDES, DIVIDES, PRODUCTS))
    else:
        b.load(rj, values.word(rng))
        b.load(rk, rng.choice(values.SHIFT_AMOUNTS))
        names = REGISTER_SHIFTS
    for name in rng.sample(names, rng.randint(1, len(names))):
        rd = rng.choice((b.registers.free(), b.registers.free(), rj, rk))
        b.emit(name, rd, rj, rk)
        b.fold(rd)
        if rd in (rj, rk):
            break


def _aliased(b: Builder) -> None:
    """An instruction of which registers are the same."""
    rng = b.rng
    register, other = b.registers.some(2)
    name = rng.choice(tuple(THREE_REGISTERS))
    rd, rj, rk = rng.choice((
        (register, register, register), (register, register, other),
        (register, other, register), (other, register, register),
        (0, register, other), (register, 0, other), (register, other, 0), (0, 0, 0),
        (register, 0, 0), (0, register, register),
    ))
    b.emit(name, rd, rj, rk)


def alu_corners(b: Builder) -> Program:
    """Arithmetic of corner values, with registers that are the same."""
    rng = b.rng
    for register in b.registers.some(rng.randint(6, 14)):
        b.load(register, values.word(rng))
    for _ in range(rng.randint(12, 36)):
        draw = rng.random()
        if draw < 0.22:
            _special_pair(b)
        elif draw < 0.36:
            _aliased(b)
        elif draw < 0.42:
            b.load(b.registers.free(), values.word(rng))
        else:
            filler.arithmetic(b)
        if rng.random() < 0.2:
            b.fold(b.registers.free())
    return b.finish(rng.choice((60, 260, 320)))


# Branches

def _conditional(b: Builder) -> None:
    """A branch of two corner values over an instruction or two."""
    rng = b.rng
    rj, rd = (b.registers.source(), b.registers.source())
    if rng.random() < 0.8:
        rj, rd = b.registers.some(2)
        b.load(rj, values.word(rng))
        b.load(rd, values.word(rng))
        if rng.random() < 0.25:
            b.move(rd, rj)
    over = b.new_label("over")
    b.asm.branch(rng.choice(tuple(BRANCHES)), rj, rd, to=over)
    for _ in range(rng.randint(1, 2)):
        b.emit("addi.w", b.roles.count, b.roles.count, values.signed_12(rng))
    b.asm.label(over)
    b.fold(b.roles.count)


def _counted_loop(b: Builder) -> None:
    """A branch backward that is taken a few times."""
    rng = b.rng
    counter, end = b.registers.some(2)
    b.load(counter, rng.choice((0, 0xFFFFFFFD, 0x7FFFFFFD, 0x80000000)))
    b.load(end, 0)
    b.emit("addi.w", end, counter, rng.randint(1, 6))
    begin = b.here("loop")
    b.fold(counter)
    b.emit("addi.w", counter, counter, 1)
    b.asm.branch(rng.choice(("bne", "blt", "bltu")), counter, end, to=begin)


def _ladder(b: Builder) -> None:
    """Blocks that are run in another order than they stand in."""
    rng = b.rng
    count = rng.randint(2, 4)
    names = [b.new_label("step") for _ in range(count + 1)]
    order = list(range(count))
    rng.shuffle(order)
    jumps = [rng.choice(("b", "bl", "beq", "bge", "bgeu")) for _ in range(count + 1)]

    def jump(name: str, to: str) -> None:
        register = b.registers.source()
        operands = (register, register) if name in BRANCHES else ()
        b.asm.branch(name, *operands, to=to)

    jump(jumps[-1], names[0])
    for number in order:
        b.asm.label(names[number])
        b.emit("addi.w", b.roles.count, b.roles.count, number + 1)
        b.fold(rng.choice((1, b.roles.count)))
        jump(jumps[number], names[number + 1])
    b.asm.label(names[count])


def _indirect(b: Builder) -> None:
    """A jump to an address in a register, which may be the one that links."""
    rng = b.rng
    register, target = b.registers.free(), b.new_label("target")
    offset = rng.choice((0, 0, 4, -4, 0x1FFFC, -0x20000, 4 * rng.randrange(-0x8000, 0x8000)))
    b.asm.load_address(register, target, -offset)
    linking = rng.choice((register, register, 0, 1, b.registers.free()))
    b.emit("jirl", linking, register, offset)
    for _ in range(rng.randint(0, 3)):
        b.emit("addi.w", b.roles.count, b.roles.count, 0x100)
    b.asm.label(target)
    b.fold(linking)


def _misaligned_jump(b: Builder) -> None:
    """A jump to no multiple of 4, which the handler returns from."""
    register = b.registers.free()
    b.asm.load_address(register, b.here("near"), b.rng.choice((1, 2, 3, 0x101, 0x7FFF)))
    b.emit("jirl", b.roles.link, register, 4 * b.rng.randrange(-4, 4))


def _far_block(b: Builder, base: int) -> None:
    """A branch to a block far away and another one back."""
    rng = b.rng
    far, back = b.new_label("far"), b.new_label("back")
    there, here = rng.choice(("b", "bl", "beq")), rng.choice(("b", "bl", "bge"))
    b.asm.branch(there, *((0, 0) if there in BRANCHES else ()), to=far)
    with b.asm.at(base):
        b.asm.label(far)
        b.fold(1)
        b.asm.branch(here, *((0, 0) if here in BRANCHES else ()), to=back)
    b.asm.label(back)
    b.fold(1)


def branches(b: Builder) -> Program:
    """Every branch and jump, taken and not, forward and backward."""
    rng = b.rng
    handlers.install(b, handlers.draw_parts(b, interrupts=False))
    far = [page + 4 * rng.randrange(0x3E0) for page in b.layout.pages]
    for _ in range(rng.randint(6, 14)):
        draw = rng.random()
        if draw < 0.4:
            _conditional(b)
        elif draw < 0.52:
            _counted_loop(b)
        elif draw < 0.66:
            _ladder(b)
        elif draw < 0.82:
            _indirect(b)
        elif draw < 0.92 or not far:
            _misaligned_jump(b)
        else:
            _far_block(b, far.pop())
    if rng.random() < 0.15:
        b.asm.branch("b", to=b.here("end"))
        b.emit(rng.choice(("b", "bl")), rng.choice((-0x8000000, 0x7FFFFFC, -0x10000, 0x1FFFC)))
    return b.finish(400)


# Loads and stores

def _place(b: Builder, width: int, aligned: bool) -> tuple[int, int]:
    """An address in an open page, as base and offset."""
    rng = b.rng
    address = b.page() + rng.choice((0, 4, 8, PAGE - 4, PAGE - 8, rng.randrange(0, PAGE, 4)))
    address += rng.choice(range(0, 4, width)) if aligned else rng.randrange(4)
    offset = values.signed_12(rng)
    return (address - offset) & 0xFFFFFFFF, offset


def _access(b: Builder, aligned: bool) -> None:
    """A load or store at a place of its own."""
    rng = b.rng
    name = rng.choice((*LOADS, *STORES))
    base, value = b.registers.some(2)
    address, offset = _place(b, WIDTHS[name], aligned)
    b.load(base, address)
    if name in STORES:
        if rng.random() < 0.7:
            b.load(value, values.word(rng))
        b.emit(name, rng.choice((value, value, value, base, 0)), base, offset)
        b.emit("ld.w", value, base, offset & ~3 if address % 4 == 0 else offset)
    else:
        value = rng.choice((value, value, base, 0))
        b.emit(name, value, base, offset)
    b.fold(value)


def _patterned(b: Builder) -> None:
    """A word, loaded in every width at each of its bytes."""
    rng = b.rng
    base, value = b.registers.some(2)
    address = b.page() + rng.randrange(0, PAGE, 4)
    b.load(base, address + 8)
    b.load(value, values.word(rng) if rng.random() < 0.5 else 0x80FF7F01)
    b.emit("st.w", value, base, -8)
    for _ in range(rng.randint(2, 5)):
        name = rng.choice((*LOADS, "st.b", "st.h"))
        b.emit(name, value, base, rng.choice(range(0, 4, WIDTHS[name])) - 8)
        b.fold(value)


def _self_modifying(b: Builder) -> None:
    """An instruction that the program stores before it comes to it."""
    rng = b.rng
    word, place = b.registers.some(2)
    target = b.new_label("patched")
    b.load(word, encode("addi.w", b.roles.count, b.roles.count, values.signed_12(rng)))
    b.asm.load_address(place, target)
    b.emit("st.w", word, place, 0)
    if rng.random() < 0.5:
        b.emit("ibar", values.code_15(rng))
    b.asm.label(target)
    b.asm.word(rng.choice((0, encode("break", 0), encode("addi.w", b.roles.count, 0, 1))))
    b.fold(b.roles.count)


def _stored_routine(b: Builder) -> None:
    """A routine of two words that is stored in a page and called there."""
    rng = b.rng
    word, place = b.registers.some(2)
    b.load(place, b.page() + rng.choice((0, PAGE - 8)))
    b.load(word, encode("xori", b.roles.count, b.roles.count, values.unsigned_12(rng)))
    b.emit("st.w", word, place, 0)
    b.load(word, encode("jirl", 0, b.roles.link, 0))
    b.emit("st.w", word, place, 4)
    b.emit("jirl", b.roles.link, place, 0)
    b.fold(b.roles.count)


def absent_access(b: Builder) -> None:
    """A load or store at an absent address, at which the program stays."""
    rng = b.rng
    name = rng.choice((*LOADS, *STORES))
    base = b.registers.free()
    b.load(base, rng.choice(b.layout.absent) & ~(WIDTHS[name] - 1))
    b.emit(name, b.registers.free(), base, 0)


def memory(b: Builder) -> Program:
    """Loads and stores of every width, aligned and not, and code that is stored."""
    rng = b.rng
    handlers.install(b, handlers.draw_parts(b, interrupts=False))
    for _ in range(rng.randint(6, 14)):
        draw = rng.random()
        if draw < 0.45:
            _access(b, aligned=True)
        elif draw < 0.6:
            _access(b, aligned=False)
        elif draw < 0.8:
            _patterned(b)
        elif draw < 0.9 and b.layout.code_is_open:
            _self_modifying(b)
        else:
            _stored_routine(b)
    if rng.random() < 0.25:
        absent_access(b)
    b.read_at_end.extend(b.layout.pages)
    return b.finish(420)


# Links

def _link_event(b: Builder, base: int) -> None:
    """Something that clears the link, or might be thought to."""
    rng = b.rng
    register = b.registers.free()
    match rng.randrange(9):
        case 0:
            handlers.call_service(b, 0)
        case 1 | 2:
            b.load(register, rng.choice((0, 1, 2, 3, 4, 5, 6, 7, 0xFFFFFFFF, 0xFFFFFFFD)))
            b.emit("csrwr", register, control.LLBCTL)
        case 3:
            value, mask = rng.choice(((2, 2), (2, 0), (0xFF, 5), (0, 2), (7, 3), (2, 0xFFFFFFFF)))
            b.exchange_control(control.LLBCTL, value, mask)
        case 4:
            b.emit("st.w", register, base, rng.choice((0, 4)))
        case 5:
            b.emit("ld.w", register, base, rng.choice((0, 1, 2)))
        case 6:
            b.emit("ll.w", register, base, rng.choice((0, 4, 8, -4)))
        case _:
            filler.place(b, 2)
    b.fold_control(control.LLBCTL)


def _conditional_store(b: Builder, base: int) -> None:
    """A conditional store, its answer, and the word that stands there then."""
    rng = b.rng
    register = rng.choice((b.registers.free(), b.registers.free(), base, 0))
    if register not in (0, base):
        b.load(register, values.word(rng))
    offset = rng.choice((0, 0, 0, 4, 8, -4, 0x40))
    keep = b.registers.free()
    if register == base:
        b.move(keep, base)
    b.emit("sc.w", register, base, offset)
    b.fold(register)
    if register == base:
        b.move(base, keep)
    if register != base:
        b.emit("ld.w", register, base, offset)
    b.fold(register)
    b.fold_control(control.LLBCTL)


def _odd_conditional_store(b: Builder) -> None:
    """A conditional store at a misaligned or absent address, with the link 0."""
    rng = b.rng
    place, register = b.registers.some(2)
    b.write_control(control.LLBCTL, 2)
    address = rng.choice((*b.layout.absent, b.page() + rng.randrange(1, 4)))
    b.load(place, address)
    b.load(register, values.word(rng))
    b.emit("sc.w", register, place, 0)
    b.fold(register)


def ll_sc(b: Builder) -> Program:
    """Linked loads and conditional stores, and what stands between them."""
    rng = b.rng
    handlers.install(b, handlers.draw_parts(b, interrupts=False))
    base = b.roles.pointer
    b.load(base, b.page() + 4 * rng.randrange(8, 0x3F0))
    for _ in range(rng.randint(3, 6)):
        if rng.random() < 0.75:
            b.emit("ll.w", rng.choice((b.registers.free(), b.registers.free(), 0)), base, rng.choice((0, 0, 4, -8)))
        for _ in range(rng.randint(0, 2)):
            _link_event(b, base)
        if rng.random() < 0.85:
            _conditional_store(b, base)
        else:
            _odd_conditional_store(b)
    b.read_at_end.append(b.page())
    return b.finish(500)


# Counters

def counters(b: Builder) -> Program:
    """The counter and the timer's number, between exceptions and waiting steps."""
    rng = b.rng
    handlers.install(b)
    for _ in range(rng.randint(5, 14)):
        register = b.registers.target()
        draw = rng.random()
        if draw < 0.45:
            b.emit(rng.choice(("rdcntvl.w", "rdcntvl.w", "rdcntvh.w")), register)
        elif draw < 0.6:
            b.emit("rdcntid.w", register) if register else b.asm.word(encode("rdcntvl.w", 0))
        elif draw < 0.75:
            b.write_control(control.TID, values.word(rng))
            b.emit("rdcntid.w", b.registers.free())
        elif draw < 0.85:
            handlers.call_service(b, rng.choice((0, 3)))
        else:
            b.asm.word(rng.choice((0, encode("break", 5))))
        b.fold(register)
        filler.place(b, 2)
    if rng.random() < 0.4:
        handlers.call_service(b, 0)
        b.write_control(control.ECFG, control.TIMER_BIT)
        b.write_control(control.TCFG, control.timer_configuration(rng.randint(1, 30), False))
        b.emit("idle", values.code_15(rng))
        b.emit("rdcntvl.w", b.registers.free())
    return b.finish(500)
