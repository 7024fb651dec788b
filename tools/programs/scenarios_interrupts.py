"""Programs of interrupts, the timer and waiting."""

from __future__ import annotations

import control
import filler
import handlers
import scenarios_exceptions
import values
from assembler import encode
from program import PAGE, Builder, Program

ENABLE_ALL = 0x1FFF


def set_interrupts(b: Builder, enabled: bool) -> None:
    """Writes CRMD.IE, and nothing else that matters, in one of several ways."""
    rng = b.rng
    bit = control.INTERRUPTS_ON if enabled else 0
    match rng.randrange(4):
        case 0:
            b.write_control(control.CRMD, control.DIRECT | bit)
        case 1:
            b.exchange_control(control.CRMD, bit, control.INTERRUPTS_ON)
        case 2:
            handlers.call_service(b, bit)
        case _:
            scenarios_exceptions.return_to_label(b, bit)


def delay(b: Builder, times: int) -> None:
    """A loop of so many times two steps."""
    counter = b.registers.free()
    b.load(counter, times)
    begin = b.here("delay")
    b.emit("addi.w", counter, counter, -1)
    b.asm.branch("bne", counter, 0, to=begin)


# Software interrupts

def _nested_interrupts(b: Builder) -> None:
    """A handler that clears one software interrupt and admits others meanwhile."""
    first, second, third, fourth = b.roles.handler
    stack, bit = b.roles.pointer, control.INTERRUPTS_ON
    b.emit("addi.w", stack, stack, -8)
    b.emit("csrrd", first, control.ERA)
    b.emit("st.w", first, stack, 0)
    b.emit("csrrd", second, control.PRMD)
    b.emit("st.w", second, stack, 4)
    b.fold(second)
    b.emit("csrrd", third, control.ESTAT)
    b.fold(third)
    b.emit("sub.w", fourth, 0, third)
    b.emit("and", fourth, fourth, third)
    b.emit("csrxchg", 0, fourth, control.ESTAT)
    b.emit("addi.w", b.roles.count, b.roles.count, 1)
    b.emit("addi.w", third, 0, bit)
    b.emit("csrxchg", third, third, control.CRMD)
    b.fold(b.roles.count)
    b.emit("addi.w", third, 0, bit)
    b.emit("csrxchg", 0, third, control.CRMD)
    b.emit("ld.w", first, stack, 0)
    b.emit("csrwr", first, control.ERA)
    b.emit("ld.w", second, stack, 4)
    b.emit("csrwr", second, control.PRMD)
    b.emit("addi.w", stack, stack, 8)
    b.emit("ertn")


def _install_nested(b: Builder) -> None:
    b.load(b.roles.pointer, b.page() + PAGE)
    handlers.set_up(b, lambda: _nested_interrupts(b))


def _software_step(b: Builder, nested: bool) -> None:
    """One change of what is due or enabled."""
    rng = b.rng
    match rng.randrange(7):
        case 0 | 1:
            b.write_control(control.ESTAT, rng.choice((0, 1, 2, 3, 3, 0xFFFFFFFF, 0xFFFFFFFC)))
        case 2:
            value, mask = rng.choice(((1, 1), (2, 2), (3, 3), (0, 1), (0, 2), (3, 0), (1, 3)))
            b.exchange_control(control.ESTAT, value, mask)
        case 3:
            masks = (1, 2, 3, 0x803, ENABLE_ALL, 0) if not nested else (1, 2, 3, 3)
            b.write_control(control.ECFG, rng.choice(masks))
        case 4 if not nested:
            handlers.call_service(b, rng.choice((0, 4, 3, 7)))
            filler.place(b, 2)
            handlers.call_service(b, rng.choice((0, 4)))
        case 5 if not nested:
            set_interrupts(b, rng.random() < 0.7)
        case _:
            bit = rng.choice((4, 4, 0))
            b.exchange_control(control.CRMD, bit, control.INTERRUPTS_ON)
    filler.place(b, 2)
    b.fold_control(control.ESTAT)


def software_interrupts(b: Builder) -> Program:
    """Software interrupts that are set, cleared, masked, taken and nested."""
    rng = b.rng
    nested = rng.random() < 0.35
    if nested:
        _install_nested(b)
    else:
        handlers.install(b)
    b.write_control(control.ECFG, rng.choice((1, 2, 3, 3, 3 if nested else ENABLE_ALL)))
    for _ in range(rng.randint(5, 14)):
        _software_step(b, nested)
    if rng.random() < 0.4:
        b.write_control(control.ECFG, 3)
        b.write_control(control.ESTAT, 3)
        handlers.admit_interrupts(b)
    return b.finish(700)


# Timer

def write_timer(b: Builder, initial: int, periodic: bool, enabled: bool = True) -> None:
    """Writes TCFG at once or by an exchange."""
    rng = b.rng
    value = control.timer_configuration(initial, periodic, enabled)
    if rng.random() < 0.7:
        b.write_control(control.TCFG, value)
    else:
        b.exchange_control(control.TCFG, value, rng.choice((0xFFFFFFFF, value | 3, 0x3FF)))


def _clear_timer(b: Builder) -> None:
    rng = b.rng
    if rng.random() < 0.6:
        b.write_control(control.TICLR, rng.choice((1, 1, 0, 2, 0xFFFFFFFF, 0xFFFFFFFE)))
    else:
        value, mask = rng.choice(((1, 1), (1, 0), (0, 1), (1, 0xFFFFFFFE), (3, 3)))
        b.exchange_control(control.TICLR, value, mask)


def _timer_step(b: Builder) -> None:
    """One use of the timer."""
    rng = b.rng
    match rng.randrange(10):
        case 0:
            write_timer(b, rng.choice((0, 1, 2, 3, 5, 8, 13, 40)), rng.random() < 0.3)
        case 1:
            write_timer(b, rng.choice((0, 1, 4, 9)), rng.random() < 0.5, enabled=False)
        case 2:
            mask = b.registers.free()
            b.load(mask, rng.choice((0, 0, 1, 2, 3)))
            b.emit("csrxchg", b.registers.free(), mask, control.TCFG)
        case 3 | 4:
            for _ in range(rng.randint(1, 3)):
                b.emit("csrrd", b.roles.value, control.TVAL)
                b.fold(b.roles.value)
        case 5:
            _clear_timer(b)
        case 6:
            delay(b, rng.randint(1, 20))
        case 7:
            set_interrupts(b, rng.random() < 0.7)
        case 8:
            _expiry_in(b)
        case _:
            b.fold_control(rng.choice((control.ESTAT, control.TCFG)))
    filler.place(b, 2)


def _expiry_in(b: Builder) -> None:
    """An expiry of the timer within a few steps, among them jumps to no multiple of 4."""
    rng = b.rng
    b.write_control(control.ECFG, control.TIMER_BIT)
    handlers.admit_interrupts(b)
    write_timer(b, rng.randint(1, 4), False)
    for _ in range(rng.randint(2, 5)):
        draw = rng.random()
        if draw < 0.4:
            handlers.fetch_from(b, b.page() + rng.randrange(1, 4))
        elif draw < 0.6:
            b.asm.word(rng.choice((0, encode("break", 1))))
        else:
            filler.arithmetic(b)
    delay(b, rng.randint(1, 6))


def timer(b: Builder) -> Program:
    """The timer, once and periodic, masked and taken, read and written anew."""
    rng = b.rng
    handlers.install(b)
    b.write_control(control.ECFG, rng.choice((0x800, 0x800, 0x800, 0x803, ENABLE_ALL, 0x7FF)))
    write_timer(b, rng.randint(1, 40), rng.random() < 0.4)
    if rng.random() < 0.8:
        handlers.admit_interrupts(b)
    for _ in range(rng.randint(6, 14)):
        _timer_step(b)
    if rng.random() < 0.4:
        _expiry_in(b)
    delay(b, rng.randint(1, 60))
    b.fold_control(control.TVAL)
    b.fold_control(control.ESTAT)
    if rng.random() < 0.3:
        begin = b.here("end")
        b.fold_control(control.TVAL)
        b.asm.branch("b", to=begin)
    return b.finish(900)


# Waiting

def _wake_source(b: Builder, enabled: bool) -> None:
    """Makes something due, at once or later; seldom nothing.

    Where interrupts are taken already, only the timer is used, and runs out late.
    """
    rng = b.rng
    draw = rng.random()
    if enabled or draw < 0.55:
        b.write_control(control.ECFG, rng.choice((0x800, 0x803, ENABLE_ALL)))
        write_timer(b, rng.randint(4 if enabled else 1, 25), rng.random() < 0.2)
    elif draw < 0.75:
        b.write_control(control.ECFG, rng.choice((1, 2, 3, ENABLE_ALL)))
        b.write_control(control.ESTAT, rng.choice((1, 2, 3)))
    elif draw < 0.95:
        b.write_control(control.ESTAT, rng.choice((0, 1, 2)))
        b.write_control(control.ECFG, control.TIMER_BIT | control.SOFTWARE_BITS)
        write_timer(b, rng.randint(1, 25), False)
    else:
        b.write_control(control.ESTAT, 3)
        b.write_control(control.ECFG, 0)


def _clear_sources(b: Builder) -> None:
    b.write_control(control.ESTAT, 0)
    b.write_control(control.TICLR, 1)
    b.write_control(control.TCFG, 0)


def wait(b: Builder) -> None:
    """A wait, and what the program sees behind it."""
    rng = b.rng
    if rng.random() < 0.5:
        b.emit("rdcntvl.w", b.registers.free())
    b.emit("idle", values.code_15(rng))
    register = b.registers.free()
    b.emit("rdcntvl.w", register)
    b.fold(register)
    b.fold_control(control.ESTAT)


def idle(b: Builder) -> Program:
    """Waits that the timer or a software interrupt ends, with IE 0 and 1."""
    rng = b.rng
    handlers.install(b)
    for _ in range(rng.randint(1, 4)):
        _clear_sources(b)
        b.exchange_control(control.CRMD, 0, control.INTERRUPTS_ON)
        if rng.random() < 0.12:
            handlers.call_service(b, 3)
            b.asm.word(encode("idle", 0))
            handlers.call_service(b, 0)
        enabled = rng.random() < 0.5
        if enabled:
            handlers.admit_interrupts(b)
        _wake_source(b, enabled)
        wait(b)
        filler.place(b, 2)
    if rng.random() < 0.2:
        b.write_control(control.ECFG, rng.choice((0, 0x3FC, 0x1000)))
        b.write_control(control.ESTAT, rng.choice((0, 3)))
        b.emit("idle", 0)
    return b.finish(800)
