"""A test program under construction, without its text.

`Layout` says where a program finds memory. `Builder` writes its instructions,
with `Registers` for the registers and `Hash` for what the program learns.
`finish` gives the `Program` with the runs that a text is to make of it, which
`setups` and `boards` write.
"""

from __future__ import annotations

from collections.abc import Callable
from dataclasses import dataclass
from random import Random
from typing import TypeVar

from assembler import Assembler, EncodingError
from registers import Registers, Roles

T = TypeVar("T")

RESET = 0x1C000000
PAGE = 0x1000
LARGE_PAGE = 0x200000


class OutOfRoom(EncodingError):
    """The program does not fit the memory of its layout."""


def until_it_fits(draw: Callable[[], T]) -> T:
    """What a draw gives; one whose code or offsets do not fit is made again."""
    while True:
        try:
            return draw()
        except EncodingError:
            continue


@dataclass(frozen=True)
class Layout:
    """Memory that a program may use."""

    code_end: int
    pages: tuple[int, ...]
    absent: tuple[int, ...]
    others: tuple[int, ...] = ()
    code_is_open: bool = True
    code: int = RESET

    @property
    def code_segment(self) -> int:
        """The segment of the code, which is the upper three bits of its addresses."""
        return self.code >> 29

    def other_segment(self, rng: Random) -> int:
        """A random segment that is not the code's."""
        return rng.choice([segment for segment in range(8) if segment != self.code_segment])


SETUP_LAYOUT = Layout(
    code_end=RESET + 0x4000,
    pages=tuple(RESET + 0x4000 + PAGE * n for n in range(4)),
    absent=(0x00000000, 0x1BFFFFFC, 0x1C008000, 0x1FFFFFFC, 0x20000000, 0x80000000, 0xFFFFFFFC),
)


@dataclass(frozen=True)
class Run:
    """A number of steps that a text is to make in one run."""

    steps: int


@dataclass
class Program:
    """The words of a program and what a text is to do with it."""

    layout: Layout
    words: dict[int, int]
    runs: list[Run]
    read_at_end: list[int]


@dataclass(frozen=True)
class Hash:
    """How a register is folded into the hash, which is first multiplied by an odd number.

    That is the factor's register or, without a product, 1 + 2 ** shift.
    """

    multiplies: bool
    shift: int

    def place(self, asm: Assembler, roles: Roles, register: int) -> None:
        """Places the instructions."""
        if self.multiplies:
            asm.emit("mul.w", roles.hash, roles.hash, roles.factor)
        else:
            asm.emit("slli.w", roles.mix, roles.hash, self.shift)
            asm.emit("add.w", roles.hash, roles.hash, roles.mix)
        asm.emit("xor", roles.hash, roles.hash, register)


def draw_hash(rng: Random) -> Hash:
    """A hash with or without a product."""
    return Hash(rng.random() < 0.7, rng.choice((1, 3, 5, 7, 11, 13)))


class Builder:
    """Writes the instructions of a test program, and what is to stand behind its end."""

    def __init__(self, rng: Random, layout: Layout) -> None:
        self.rng = rng
        self.layout = layout
        self.asm = Assembler(layout.code)
        self.registers = Registers(rng)
        self.read_at_end: list[int] = []
        self.interrupting = False
        self._hash = draw_hash(rng)
        self._blocks: list[Callable[[], None]] = []
        if self._hash.multiplies:
            self.load(self.roles.factor, rng.getrandbits(32) | 1)

    @property
    def roles(self) -> Roles:
        return self.registers.roles

    # Instructions

    def emit(self, name: str, *operands: int) -> None:
        """Places an instruction."""
        self.asm.emit(name, *operands)

    def load(self, rd: int, value: int) -> None:
        """Places instructions that load a constant."""
        self.asm.load_constant(rd, value)

    def move(self, rd: int, rj: int) -> None:
        """Places an instruction that copies a register."""
        self.emit("or", rd, rj, 0)

    def write_control(self, number: int, value: int) -> None:
        """Places instructions that write a control register."""
        if value == 0:
            self.emit("csrwr", 0, number)
            return
        self.load(self.roles.value, value)
        self.emit("csrwr", self.roles.value, number)

    def write_address(self, number: int, label: str, plus: int = 0) -> None:
        """Places instructions that write the address of a label into a control register."""
        self.asm.load_address(self.roles.value, label, plus)
        self.emit("csrwr", self.roles.value, number)

    def exchange_control(self, number: int, value: int, mask: int) -> None:
        """Places instructions that write the masked bits of a control register."""
        mask_register = self.registers.free()
        self.load(mask_register, mask)
        if value == 0:
            self.emit("csrxchg", 0, mask_register, number)
        elif value == mask:
            self.emit("csrxchg", mask_register, mask_register, number)
        else:
            self.load(self.roles.value, value)
            self.emit("csrxchg", self.roles.value, mask_register, number)

    # Hash

    def fold(self, register: int) -> None:
        """Folds a register into the hash."""
        self._hash.place(self.asm, self.roles, register)

    def fold_control(self, number: int, via: int | None = None) -> None:
        """Folds a control register into the hash."""
        register = self.roles.value if via is None else via
        self.emit("csrrd", register, number)
        self.fold(register)

    # Memory and labels

    def page(self) -> int:
        """The physical address of a random page that is open."""
        return self.rng.choice(self.layout.pages)

    def later(self, block: Callable[[], None]) -> None:
        """Has a block placed behind the end of the program."""
        self._blocks.append(block)

    def new_label(self, stem: str) -> str:
        """A name that no other label has."""
        return self.asm.new_label(stem)

    def here(self, stem: str) -> str:
        """Names the present position by a new label."""
        name = self.new_label(stem)
        self.asm.label(name)
        return name

    # End

    def stop(self) -> None:
        """Places the branch to itself at which a program stays."""
        self.emit("b", 0)

    def finish(self, steps: int, stops: bool = True) -> Program:
        """The program, whose runs make so many steps at least."""
        if stops:
            self.stop()
        while self._blocks:
            if self.rng.random() < 0.3 and self.asm.position + 0x400 < self.layout.code_end:
                self.asm.position += 4 * self.rng.randrange(1, 200)
            self._blocks.pop(0)()
        if self.asm.position > self.layout.code_end:
            raise OutOfRoom(f"code ends at {self.asm.position:08X}")
        words = self.asm.resolve()
        runs = draw_runs(self.rng, steps)
        return Program(self.layout, words, runs, self.read_at_end)


SHORT_RUNS = (0, 1, 1, 2, 3, 3, 5, 8, 13, 17, 17, 29, 47, 64, 100, 200, 200)


def draw_runs(rng: Random, steps: int) -> list[Run]:
    """A few runs of small counts, and a last one that makes up the number."""
    counts: list[int] = []
    for _ in range(rng.randint(2, 7)):
        if sum(counts) >= steps:
            break
        counts.append(rng.choice(SHORT_RUNS))
    left = max(steps - sum(counts), 0)
    counts.append(left + rng.choice((0, 1, 7, 40, 150)))
    return [Run(count) for count in counts]
