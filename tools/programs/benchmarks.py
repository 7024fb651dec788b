"""The programs whose steps the benchmark counts, each an endless loop."""

from __future__ import annotations

from collections.abc import Callable
from random import Random

import control
import setups
from assembler import Assembler
from mapping import Half
from program import PAGE, RESET

CODE, DATA, MAPPED_CODE, MAPPED_DATA = RESET, RESET + 4 * PAGE, 0x00400000, 0x00800000
HASH, COUNT, POINTER, FIRST, SECOND = 4, 5, 6, 7, 8
FRONT, BACK = 0, 14


def write_control(asm: Assembler, number: int, value: int) -> None:
    """Places instructions that write a control register."""
    asm.load_constant(FIRST, value)
    asm.emit("csrwr", FIRST, number)


def arithmetic(asm: Assembler, _data: int) -> None:
    """Sixteen instructions that change registers alone, and a branch back."""
    asm.load_constant(SECOND, 0x1234567)
    asm.label("loop")
    for _ in range(2):
        asm.emit("addi.w", COUNT, COUNT, 1)
        asm.emit("add.w", HASH, HASH, COUNT)
        asm.emit("slli.w", FIRST, HASH, 5)
        asm.emit("xor", HASH, HASH, FIRST)
        asm.emit("sub.w", SECOND, SECOND, HASH)
        asm.emit("srli.w", FIRST, SECOND, 7)
        asm.emit("or", HASH, HASH, FIRST)
        asm.emit("sltu", FIRST, SECOND, HASH)
    asm.branch("bne", COUNT, 0, to="loop")
    asm.branch("b", to="loop")


def loads_and_stores(asm: Assembler, data: int) -> None:
    """Words, halfwords and bytes, loaded and stored in turn."""
    asm.load_constant(POINTER, data)
    asm.label("loop")
    for offset in (0, 64):
        asm.emit("ld.w", FIRST, POINTER, offset)
        asm.emit("addi.w", FIRST, FIRST, 3)
        asm.emit("st.w", FIRST, POINTER, offset + 4)
        asm.emit("ld.w", SECOND, POINTER, offset + 4)
        asm.emit("st.w", SECOND, POINTER, offset)
        asm.emit("ld.hu", FIRST, POINTER, offset + 2)
        asm.emit("st.h", FIRST, POINTER, offset + 8)
        asm.emit("ld.b", SECOND, POINTER, offset + 9)
        asm.emit("st.b", SECOND, POINTER, offset + 10)
    asm.branch("b", to="loop")


def write_entry(asm: Assembler, index: int, virtual: int, physical: int) -> None:
    """Places instructions that map two pages of 4 KiB for the user."""
    for number, value in (
        (control.TLBIDX, control.tlb_index(index)),
        (control.TLBEHI, virtual),
        (control.TLBELO0, Half(physical >> 12).word()),
        (control.TLBELO1, Half((physical >> 12) + 1).word()),
    ):
        write_control(asm, number, value)
    asm.emit("tlbwr")


def mapped(loop: Callable[[Assembler, int], None], index: int) -> Callable[[Assembler], None]:
    """A loop in user mode, its code and its data by two entries of the TLB from an index on."""
    def build(asm: Assembler) -> None:
        write_entry(asm, index, MAPPED_CODE, CODE + 2 * PAGE)
        write_entry(asm, index + 1, MAPPED_DATA, DATA)
        write_control(asm, control.ERA, MAPPED_CODE)
        write_control(asm, control.PRMD, 3)
        # From here on addresses are mapped: the ERTN is fetched through a window of PLV0.
        write_control(asm, control.DMW0, control.window(RESET >> 29, RESET >> 29, True, False))
        write_control(asm, control.CRMD, control.MAPPED)
        asm.emit("ertn")
        with asm.at(CODE + 2 * PAGE):
            loop(asm, MAPPED_DATA)
    return build


def direct(loop: Callable[[Assembler, int], None]) -> Callable[[Assembler], None]:
    """A loop in direct mode."""
    return lambda asm: loop(asm, DATA)


def exceptions(asm: Assembler) -> None:
    """System calls, and a handler that goes on behind each."""
    asm.load_address(FIRST, "handler")
    asm.emit("csrwr", FIRST, control.EENTRY)
    asm.label("loop")
    asm.emit("syscall", 0)
    asm.emit("addi.w", COUNT, COUNT, 1)
    asm.branch("b", to="loop")
    asm.align(64)
    asm.label("handler")
    asm.emit("csrrd", FIRST, control.ERA)
    asm.emit("addi.w", FIRST, FIRST, 4)
    asm.emit("csrwr", FIRST, control.ERA)
    asm.emit("ertn")


REGISTERS = (7, 8, 9, 10, 11, 12, 13, 14)


def one_of_many(asm: Assembler, rng: Random) -> None:
    """Places one instruction of arithmetic, a load, a store, or a branch and what it may skip."""
    rd, rj, rk = (rng.choice(REGISTERS) for _ in range(3))
    at = 4 * rng.randrange(200)
    match rng.randrange(12):
        case 0 | 1 | 2:
            asm.emit(rng.choice(("add.w", "sub.w", "slt", "sltu", "nor", "and", "or", "xor", "mul.w")), rd, rj, rk)
        case 3:
            asm.emit(rng.choice(("sll.w", "srl.w", "sra.w", "mulh.w", "mulh.wu", "div.w", "div.wu", "mod.w", "mod.wu")), rd, rj, rk)
        case 4:
            asm.emit(rng.choice(("slli.w", "srli.w", "srai.w")), rd, rj, rng.randrange(32))
        case 5 | 6:
            asm.emit(rng.choice(("slti", "sltui", "addi.w")), rd, rj, rng.randrange(-2048, 2048))
        case 7:
            asm.emit(rng.choice(("andi", "ori", "xori")), rd, rj, rng.randrange(4096))
        case 8:
            asm.emit(rng.choice(("lu12i.w", "pcaddu12i")), rd, rng.randrange(-0x80000, 0x80000))
        case 9:
            asm.emit(rng.choice(("ld.w", "ld.h", "ld.b", "ld.hu", "ld.bu")), rd, POINTER, at)
        case 10:
            asm.emit(rng.choice(("st.w", "st.h", "st.b")), rd, POINTER, at)
        case _:
            label = asm.new_label("next")
            asm.branch(rng.choice(("beq", "bne", "blt", "bge", "bltu", "bgeu")), rj, rd, to=label)
            asm.emit("addi.w", COUNT, COUNT, 1)
            asm.label(label)


def many_instructions(asm: Assembler) -> None:
    """Some 1,600 instructions in random order, so that what follows an instruction cannot be predicted."""
    rng = Random(1)
    asm.load_constant(POINTER, DATA)
    asm.label("loop")
    for _ in range(1500):
        one_of_many(asm, rng)
    asm.branch("b", to="loop")


BENCHMARKS: dict[str, Callable[[Assembler], None]] = {
    "arithmetic": direct(arithmetic),
    "loads_and_stores": direct(loads_and_stores),
    "mapped_arithmetic_front": mapped(arithmetic, FRONT),
    "mapped_arithmetic_back": mapped(arithmetic, BACK),
    "mapped_loads_and_stores_front": mapped(loads_and_stores, FRONT),
    "mapped_loads_and_stores_back": mapped(loads_and_stores, BACK),
    "exceptions": exceptions,
    "many_instructions": many_instructions,
}


def lines(name: str) -> str:
    """The lines that write a benchmark's program."""
    asm = Assembler(CODE)
    BENCHMARKS[name](asm)
    return "".join(setups.write_line(*item) for item in sorted(asm.resolve().items()))
