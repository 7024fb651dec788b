"""Handlers of exceptions that test programs install.

The common handler folds the control registers that an exception writes into
the hash, sees that the cause does not come back for ever, and returns to the
program: behind the instruction, or, where a fetch failed, to the link register.
A system call also writes the service register into PRMD, which is how programs
change their privilege level.
"""

from __future__ import annotations

from collections.abc import Callable
from dataclasses import dataclass

import control
from program import Builder

ALWAYS_READ = (control.ESTAT, control.ERA)
MOSTLY_READ = (control.BADV, control.PRMD, control.CRMD, control.TLBEHI)
SOMETIMES_READ = (
    control.LLBCTL, control.TVAL, control.PGD, control.TLBIDX, control.ASID, control.TLBELO0,
    control.ECFG, control.TCFG,
)


@dataclass(frozen=True)
class HandlerParts:
    """What a handler is made of."""

    folds: tuple[int, ...]
    interrupts: bool = True
    most_interrupts: int = 12


def draw_parts(b: Builder, interrupts: bool = True) -> HandlerParts:
    """Parts of a handler, with the reads in random order."""
    rng = b.rng
    folds = [*ALWAYS_READ, *rng.sample(MOSTLY_READ, rng.choice((1, 2, 3, 4, 4)))]
    if rng.random() < 0.3:
        folds.append(rng.choice(SOMETIMES_READ))
    rng.shuffle(folds)
    return HandlerParts(tuple(folds), interrupts, most_interrupts=rng.choice((3, 6, 12)))


def set_up(
    b: Builder, emit: Callable[[], None], number: int = control.EENTRY, low_bits: int = 0,
) -> str:
    """Sets the address of a handler, and has it placed behind the program. Gives its label."""
    label = b.new_label("handler")
    b.write_address(number, label, low_bits)

    def place() -> None:
        b.asm.align(64)
        b.asm.label(label)
        emit()

    b.later(place)
    return label


def install(b: Builder, parts: HandlerParts | None = None) -> str:
    """Sets up the common handler of exceptions. Gives its label."""
    low_bits = b.rng.choice((0, 0, 0, 4, 0x20, 0x3F, b.rng.getrandbits(6)))
    chosen = draw_parts(b) if parts is None else parts
    return set_up(b, lambda: _emit_common(b, chosen), low_bits=low_bits)


def share_with_refills(b: Builder, label: str) -> None:
    """Makes the handler of exceptions the handler of refills too."""
    b.write_address(control.TLBRENTRY, label)


def _emit_common(b: Builder, parts: HandlerParts) -> None:
    ecode, era, third, _ = b.roles.handler
    interrupt, fetch, out = (b.new_label(stem) for stem in ("interrupt", "fetch", "out"))
    for number in parts.folds:
        b.fold_control(number, via=third)
    b.emit("addi.w", b.roles.count, b.roles.count, 1)
    b.emit("csrrd", ecode, control.ESTAT)
    b.emit("slli.w", ecode, ecode, 10)
    b.emit("srli.w", ecode, ecode, 26)
    b.emit("csrrd", era, control.ERA)
    if parts.interrupts:
        b.asm.branch("beq", ecode, 0, to=interrupt)
    b.emit("csrrd", third, control.BADV)
    b.asm.branch("beq", era, third, to=fetch)
    b.emit("addi.w", era, era, 4)
    b.emit("csrwr", era, control.ERA)
    _emit_service(b, ecode, out)
    b.asm.label(out)
    b.emit("ertn")
    _emit_fetch(b, fetch)
    if parts.interrupts:
        _emit_interrupt(b, interrupt, parts.most_interrupts)


def _emit_service(b: Builder, ecode: int, out: str) -> None:
    third = b.roles.handler[2]
    b.emit("addi.w", third, 0, control.SYSCALL_CODE)
    b.asm.branch("bne", ecode, third, to=out)
    b.move(third, b.roles.service)
    b.emit("csrwr", third, control.PRMD)


def _emit_fetch(b: Builder, label: str) -> None:
    """Returns in PLV0 to the link register, as the failed address would fail again."""
    era = b.roles.handler[1]
    b.asm.label(label)
    b.move(era, b.roles.link)
    b.emit("csrwr", era, control.ERA)
    b.emit("csrwr", 0, control.PRMD)
    b.emit("ertn")


def _emit_interrupt(b: Builder, label: str, most: int) -> None:
    """Clears every cause that can be cleared; after some interrupts, disables all."""
    first, second, third, fourth = b.roles.handler
    last = b.new_label("last")
    b.asm.label(label)
    b.emit("csrrd", fourth, control.SAVE3)
    b.emit("addi.w", fourth, fourth, 1)
    b.move(second, fourth)
    b.emit("csrwr", fourth, control.SAVE3)
    b.emit("csrwr", 0, control.ESTAT)
    b.emit("ori", first, 0, 1)
    b.emit("csrwr", first, control.TICLR)
    b.emit("ori", third, 0, control.LINE_BITS)
    b.emit("csrxchg", 0, third, control.ECFG)
    b.emit("slti", third, second, most)
    b.asm.branch("bne", third, 0, to=last)
    b.emit("csrwr", 0, control.ECFG)
    b.asm.label(last)
    b.emit("ertn")


def call_service(b: Builder, prmd: int) -> None:
    """Places a system call after which PRMD's levels are the present ones.

    Where the program takes interrupts, they are mostly enabled then.
    """
    enable = b.interrupting and b.rng.random() < 0.7
    b.load(b.roles.service, prmd | control.INTERRUPTS_ON if enable else prmd)
    b.emit("syscall", b.rng.choice((0, 1, 0x7FFF, b.rng.getrandbits(15))))


def admit_interrupts(b: Builder) -> None:
    """Sets CRMD.IE and nothing else."""
    b.exchange_control(control.CRMD, control.INTERRUPTS_ON, control.INTERRUPTS_ON)


def interrupt_now_and_then(b: Builder, share: float) -> None:
    """In a share of programs, runs the timer periodically and admits its interrupts."""
    rng = b.rng
    if rng.random() >= share:
        return
    b.interrupting = True
    b.write_control(control.ECFG, rng.choice((control.TIMER_BIT, control.TIMER_BIT | control.SOFTWARE_BITS, 0x1FFF)))
    b.write_control(control.TCFG, control.timer_configuration(rng.randint(14, 60), True))


def fetch_from(b: Builder, address: int) -> None:
    """Places a call of an address; where the fetch fails, the program goes on behind it."""
    register = b.registers.free()
    b.load(register, address)
    b.emit("jirl", b.roles.link, register, 0)
