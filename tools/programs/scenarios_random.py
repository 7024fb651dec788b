"""Programs of random instructions of every kind, by direct and by mapped addresses.

The instructions are random within bounds that keep the program running: base
registers of loads and stores point into open pages, branches go forward, and
the registers on which handlers and windows depend are seldom written.
"""

from __future__ import annotations

from collections.abc import Callable

import control
import filler
import handlers
import mapping
import scenarios_exceptions
import scenarios_interrupts
import scenarios_translation
import values
from assembler import BRANCHES, LINKED, LOADS, MNEMONICS, STORES, encode
from mapping import Entry
from program import Builder, Program
from scenarios_integer import WIDTHS

KEPT = (control.CRMD, control.EENTRY, control.TLBRENTRY, control.DMW0, control.DMW1, control.ERA)
CHANGED = tuple(number for number in control.ALL if number not in KEPT)
MEMORY_NAMES = (*LOADS, *STORES, *LINKED)

Action = Callable[[Builder, list[int]], None]


def _memory(b: Builder, pointers: list[int]) -> None:
    rng = b.rng
    name = rng.choice(MEMORY_NAMES)
    width = WIDTHS[name]
    offset = rng.randrange(-0x40, 0x40)
    if rng.random() < 0.9 or name in ("ll.w", "sc.w"):
        offset = offset // width * width
    register = rng.choice((b.registers.target(), b.registers.source()))
    if register in pointers and name not in STORES:
        register = 0
    b.emit(name, register, rng.choice(pointers), offset)


def _forward(b: Builder, pointers: list[int]) -> None:
    """A branch or jump over a few words of arithmetic."""
    rng = b.rng
    over = b.new_label("over")
    draw = rng.random()
    if draw < 0.6:
        b.asm.branch(rng.choice(tuple(BRANCHES)), b.registers.source(), b.registers.source(), to=over)
    elif draw < 0.8:
        b.asm.branch(rng.choice(("b", "bl")), to=over)
    else:
        register = b.registers.free()
        b.emit("pcaddu12i", register, 0)
        words = rng.randint(2, 5)
        b.emit("jirl", rng.choice((0, register, 1)), register, 4 * words)
        for _ in range(words - 2):
            filler.arithmetic(b)
        return
    for _ in range(rng.randint(0, 3)):
        filler.arithmetic(b)
    b.asm.label(over)


def _control(b: Builder, pointers: list[int]) -> None:
    rng = b.rng
    number = rng.choice(CHANGED) if rng.random() < 0.9 else control.unknown_number(rng)
    register = b.registers.target() if rng.random() < 0.5 else b.registers.free()
    if rng.random() < 0.3 and register:
        b.load(register, scenarios_exceptions.control_value(b, number))
    match rng.randrange(3):
        case 0:
            b.emit("csrrd", register, number)
        case 1:
            b.emit("csrwr", register, number)
        case _:
            b.emit("csrxchg", register, max(b.registers.source(), 2), number)


def _mode(b: Builder, pointers: list[int]) -> None:
    """A change of level, of interrupts, or of the mode of addresses."""
    rng = b.rng
    draw = rng.random()
    if draw < 0.5:
        handlers.call_service(b, rng.choice((0, 0, 3, 4, 7)))
    elif draw < 0.8:
        value = rng.choice((0, 4)) | rng.choice((control.DIRECT, control.MAPPED, 0, 0x18))
        b.write_control(control.CRMD, value)
    else:
        scenarios_exceptions.return_to_label(b, rng.choice((0, 3, 4, 7)))


def _tlb(b: Builder, pointers: list[int]) -> None:
    rng = b.rng
    if rng.random() < 0.6:
        b.emit(rng.choice(("tlbsrch", "tlbrd", "tlbwr", "tlbfill")))
    else:
        b.emit("invtlb", rng.choice((*range(7), *range(7), 7, 31)), b.registers.source(), b.registers.source())


def _quiet(b: Builder, pointers: list[int]) -> None:
    rng = b.rng
    match rng.randrange(5):
        case 0:
            code = rng.choice((*range(16), *range(24, 32)))
            b.emit("cacop", code, b.registers.source(), values.signed_12(rng))
        case 1:
            b.emit("cacop", rng.randrange(16, 24), rng.choice(pointers), rng.randrange(-16, 16))
        case 2:
            b.emit("preld", rng.randrange(32), b.registers.source(), values.signed_12(rng))
        case 3:
            b.emit(rng.choice(("dbar", "ibar")), values.code_15(rng))
        case _:
            b.emit(rng.choice(("rdcntvl.w", "rdcntvh.w")), b.registers.target())


def _exception(b: Builder, pointers: list[int]) -> None:
    rng = b.rng
    match rng.randrange(4):
        case 0:
            b.emit("break", values.code_15(rng))
        case 1:
            b.asm.word(scenarios_exceptions.undefined_word(b))
        case 2:
            b.emit("rdcntid.w", b.registers.free())
        case _:
            b.load(b.roles.service, rng.choice((0, 0, 3)))
            b.emit("syscall", values.code_15(rng))


def _bring_about(b: Builder, enabled: int, latest: int, periodic: float) -> None:
    """A software interrupt at once, with those enabled, or the timer's some steps later."""
    rng = b.rng
    handlers.call_service(b, 0)
    if rng.random() < 0.5:
        b.write_control(control.ECFG, enabled)
        b.write_control(control.ESTAT, rng.choice((1, 2, 3)))
    else:
        b.write_control(control.ECFG, control.TIMER_BIT)
        left = rng.randint(1, latest)
        scenarios_interrupts.write_timer(b, left, periodic > 0 and rng.random() < periodic)


def _wait(b: Builder, pointers: list[int]) -> None:
    """A wait for a software interrupt that is due, or for the timer."""
    _bring_about(b, enabled=3, latest=9, periodic=0)
    b.emit("idle", 0)


def _interrupt(b: Builder, pointers: list[int]) -> None:
    """An interrupt at once, or the timer's a little later."""
    rng = b.rng
    _bring_about(b, enabled=control.TIMER_BIT | control.SOFTWARE_BITS, latest=30, periodic=0.2)
    if rng.random() < 0.5:
        handlers.admit_interrupts(b)
    else:
        handlers.call_service(b, rng.choice((4, 7)))


def _arithmetic(b: Builder, pointers: list[int]) -> None:
    filler.arithmetic(b)


DIRECT_ACTIONS: tuple[tuple[Action, int], ...] = (
    (_arithmetic, 30), (_memory, 20), (_forward, 10), (_control, 12), (_mode, 5), (_tlb, 5),
    (_quiet, 6), (_exception, 6), (_interrupt, 3), (_wait, 1),
)


def _pointers(b: Builder) -> list[int]:
    """Registers that are loaded with places in open pages, and taken from the free ones."""
    registers = b.registers.some(3)
    for register in registers:
        b.load(register, b.page() + b.rng.randrange(0x100, 0xF00, 4))
    b.registers.take(registers)
    return registers


def _body(b: Builder, pointers: list[int], count: int) -> None:
    actions = [action for action, _ in DIRECT_ACTIONS]
    weights = [weight for _, weight in DIRECT_ACTIONS]
    for action in b.rng.choices(actions, weights, k=count):
        action(b, pointers)
        if b.rng.random() < 0.08:
            b.fold(b.registers.free())


def random_code(b: Builder) -> Program:
    """Random instructions of every kind, under windows that keep the addresses."""
    rng = b.rng
    mapping.install_both(b)
    own = b.layout.code_segment
    window = control.window(own, own, True, True)
    b.write_control(rng.choice((control.DMW0, control.DMW1)), window)
    pointers = _pointers(b)
    b.asm.load_address(b.roles.link, "end")
    for register in b.registers.some(rng.randint(2, 6)):
        b.load(register, values.word(rng))
    count = rng.randint(20, 60) if rng.random() < 0.94 else rng.randint(200, 350)
    _body(b, pointers, count)
    b.asm.label("end")
    b.read_at_end.extend(b.layout.pages)
    return b.finish(40 * count)


def random_mapped(b: Builder) -> Program:
    """Random accesses and TLB instructions by mapped addresses, in both levels."""
    rng = b.rng
    label = handlers.install(b)
    handlers.interrupt_now_and_then(b, 0.4)
    if rng.random() < 0.5:
        handlers.share_with_refills(b, label)
    else:
        flags = mapping.half_flags(True, rng.random() < 0.8, 3, rng.random() < 0.5)
        size = rng.choice((control.SMALL, control.LARGE))
        mapping.install_refill(b, size, rng.random() < 0.5, (flags, flags))
    scenarios_translation.place_routines(b)
    entries = scenarios_translation.random_entries(b, rng.randint(2, 5))
    mapping.map_all(b, entries)
    mapping.enter_mapped(b, user_window=True)
    for _ in range(rng.randint(8, 22)):
        draw = rng.random()
        if draw < 0.5:
            scenarios_translation.faulting_step(b, entries)
        elif draw < 0.6:
            space = b.registers.free()
            b.load(space, rng.choice((0, 1, 5, 0x3FF)))
            b.load(b.roles.value, rng.choice(entries).address)
            b.emit("invtlb", rng.randrange(8), space, b.roles.value)
        elif draw < 0.7:
            entry: Entry = scenarios_translation.random_entries(b, 1)[0]
            mapping.write_entry(b, entry, fill=rng.random() < 0.5)
        elif draw < 0.8:
            handlers.call_service(b, rng.choice((0, 3)))
        else:
            filler.place(b, 3)
    b.read_at_end.extend(b.layout.pages)
    return b.finish(2200)


def every_instruction(b: Builder) -> Program:
    """Each mnemonic once in random order, with operands that do no harm, in either level."""
    rng = b.rng
    mapping.install_both(b)
    pointers = _pointers(b)
    b.asm.load_address(b.roles.link, "end")
    for register in b.registers.some(4):
        b.load(register, values.word(rng))
    if rng.random() < 0.3:
        handlers.call_service(b, 3)
    names = list(MNEMONICS)
    rng.shuffle(names)
    for name in names:
        _one_of(b, name, pointers)
    b.asm.label("end")
    return b.finish(700)


def _one_of(b: Builder, name: str, pointers: list[int]) -> None:
    """An instruction of a given mnemonic."""
    rng = b.rng
    rd, rj, rk = b.registers.free(), b.registers.source(), b.registers.source()
    pointer = rng.choice(pointers)
    if name in ("ertn", "idle"):
        b.asm.word(encode("csrrd", rd, rng.choice((control.ERA, control.CRMD))))
    elif name in BRANCHES:
        b.emit(name, rj, rk, rng.choice((4, 4, 8)))
        filler.arithmetic(b)
    elif name in ("b", "bl"):
        b.emit(name, 8)
        filler.arithmetic(b)
    elif name == "jirl":
        b.emit("pcaddu12i", rd, 0)
        b.emit("jirl", rd, rd, 8)
    elif name in WIDTHS:
        b.emit(name, rd, pointer, 4 * rng.randrange(-16, 16))
    else:
        b.asm.word(_plain(b, name, rd, rj, rk, pointer))
    if rng.random() < 0.15:
        b.fold(rd)


def _plain(b: Builder, name: str, rd: int, rj: int, rk: int, pointer: int) -> int:
    rng = b.rng
    match name:
        case "cacop" | "preld":
            return encode(name, rng.randrange(32), pointer, values.signed_12(rng))
        case "csrrd":
            return encode(name, rd, rng.choice(control.ALL))
        case "csrwr":
            return encode(name, rd, rng.choice(CHANGED))
        case "csrxchg":
            return encode(name, rd, max(rj, 2), rng.choice(CHANGED))
        case "invtlb":
            return encode(name, rng.randrange(9), rj, rk)
        case "rdcntid.w" | "rdcntvl.w" | "rdcntvh.w":
            return encode(name, rd)
        case "syscall" | "break" | "dbar" | "ibar":
            return encode(name, values.code_15(rng))
        case "lu12i.w" | "pcaddu12i":
            return encode(name, rd, values.signed_20(rng))
        case "slli.w" | "srli.w" | "srai.w":
            return encode(name, rd, rj, values.amount_5(rng))
        case "slti" | "sltui" | "addi.w":
            return encode(name, rd, rj, values.signed_12(rng))
        case "andi" | "ori" | "xori":
            return encode(name, rd, rj, values.unsigned_12(rng))
        case "tlbsrch" | "tlbrd" | "tlbwr" | "tlbfill":
            return encode(name)
    return encode(name, rd, rj, rk)
