"""Writing of board texts: a board of all parts and layers, and steps with line levels."""

from __future__ import annotations

from dataclasses import dataclass, field
from random import Random

from assembler import WORD_MASK
from program import PAGE, RESET, Layout, Program

BANK_SIZE, IMAGE_SIZE, PORTS_SIZE = 0x8000, 0x1000, 0x40
NOWHERE = (0x90000000, 0xE0000000, 0x7FFFFFF0)
EDGE_STEPS = (-8, -4, -2, -1, 0, 1, 2, 3, 4)


@dataclass
class Board:
    """The numbers of a board, and the words of its image by offset."""

    borders: tuple[int, int]
    lock: tuple[int, int]
    bank_shift: tuple[int, int]
    bank: int
    image: int
    ports_shift: tuple[int, int]
    ports: int
    image_words: dict[int, int] = field(default_factory=dict)

    def numbers(self) -> dict[str, tuple[int, ...]]:
        """The numbers by the letter of their line."""
        return {
            "s": self.borders, "l": self.lock, "h": self.bank_shift, "b": (self.bank,),
            "f": (self.image,), "v": self.ports_shift, "p": (self.ports,),
        }

    def lines(self, rng: Random) -> list[str]:
        """The lines that say what the board is made of, in random order."""
        lines = [line(letter, *numbers) for letter, numbers in self.numbers().items()]
        lines.extend(line("i", *item) for item in self.image_words.items())
        rng.shuffle(lines)
        if rng.random() < 0.15:
            letter, numbers = rng.choice(sorted(self.numbers().items()))
            lines.insert(0, line(letter, *(rng.getrandbits(32) for _ in numbers)))
        return lines

    def edges(self) -> list[int]:
        """Addresses at which something begins or ends."""
        shift, ports = self.bank_shift[0], self.ports_shift[0]
        points = [
            0, *self.borders, self.lock[0], sum(self.lock), shift, sum(self.bank_shift),
            shift + self.bank, shift + self.bank + BANK_SIZE, self.image, self.image + IMAGE_SIZE,
            ports, sum(self.ports_shift), ports + self.ports, ports + self.ports + PORTS_SIZE,
        ]
        return [point & WORD_MASK for point in points]


def line(letter: str, *numbers: int) -> str:
    """A line of a board text."""
    return ",".join((letter, *(f"{number & WORD_MASK:08X}" for number in numbers))) + "\n"


# Boards on which any program runs

def _shift_over(rng: Random, base: int) -> tuple[tuple[int, int], int]:
    """A shift that shows a bank at a base, and the bank's own base."""
    begin = rng.choice((base, base, base - 0x100, base & ~0xFFFFFF, 0))
    begin = max(begin, 0)
    least = base - begin + BANK_SIZE
    length = rng.choice((least, least + 4, 2 * least, 0x20000000))
    return (begin, max(min(length, WORD_MASK + 1 - begin - 4), least)), base - begin


def _ports_over(rng: Random, border: int) -> tuple[tuple[int, int], int]:
    """A shift that shows ports somewhere above a border, and their own base."""
    base = rng.choice((border, border + 0x40, 0xFFFFFFC0, 0xFFFFFF80, 0x1FE00000 | border))
    base = max(base, border) & ~3
    inner = rng.choice((0, 0, 0x40, 0x1000)) if base < 0xFFFFFF00 else 0
    length = rng.choice((PORTS_SIZE, 2 * PORTS_SIZE, 0x20, inner + PORTS_SIZE, inner + 4))
    return (base, min(length, WORD_MASK + 1 - base)), inner


def _harmless_lock(rng: Random) -> tuple[int, int]:
    spans = ((0xF0000000, 4), (0xFFFFFFFC, 4), (0x60000000, 0x1000), (0x30000000, 0x10000000))
    return rng.choice(spans)


def _pages(base: int) -> tuple[int, ...]:
    return tuple(base + PAGE * number for number in range(4))


def _bank_board(
    rng: Random, base: int, code_end: int, pages: tuple[int, ...],
) -> tuple[Board, Layout]:
    """A board with the code in the bank."""
    shift, bank = _shift_over(rng, base)
    end = base + BANK_SIZE
    first = rng.choice((code_end if code_end > max(pages) else end, end, 0x1FD00000, 0x20000000))
    second = rng.choice((first + 0x1000, first + 0x10000, 0x1FE00000, 0xFFFFFF80, first - 4))
    image = rng.choice((first, first + 0x100, second - 0x800 & ~3, first - 0x100))
    ports_shift, ports = _ports_over(rng, max(first, second))
    board = Board((first, second), _harmless_lock(rng), shift, bank, image, ports_shift, ports)
    absent = (*NOWHERE, base - 4, end, 0)
    others = (image & ~3, ports_shift[0] + ports & WORD_MASK)
    return board, Layout(code_end, pages, tuple(address & ~3 for address in absent), others)


def _image_board(rng: Random) -> tuple[Board, Layout]:
    """A board with the code in the image, and the bank below."""
    base = rng.choice((0, 0x10000, 0x00400000, 0x1BFF8000, 0x1BFF0000, 0x10000000))
    shift, bank = _shift_over(rng, base)
    first = rng.choice((RESET, RESET, base + BANK_SIZE))
    second = rng.choice((RESET + IMAGE_SIZE, RESET + 0x2000, 0x1FE00000, 0xFFFFFFC0))
    ports_shift, ports = _ports_over(rng, second)
    board = Board((first, second), _harmless_lock(rng), shift, bank, RESET, ports_shift, ports)
    pages = _pages(base + rng.choice((0, 0x4000)))
    absent = (*NOWHERE, RESET + 0x1000, base + BANK_SIZE, 0xFFFFFFFC)
    others = (RESET + 0xF00, ports_shift[0] + ports & WORD_MASK)
    return board, Layout(RESET + IMAGE_SIZE, pages, absent, others, code_is_open=False)


def draw_board(rng: Random) -> tuple[Board, Layout]:
    """A board that has the code and open pages, and numbers of any kind else."""
    match rng.randrange(5):
        case 0:
            return _image_board(rng)
        case 1:
            early = RESET - 0x4000
            return _bank_board(rng, early, RESET + 0x4000, _pages(early))
        case 2:
            early = RESET - 0x6000
            return _bank_board(rng, early, RESET + 0x2000, _pages(early))
    return _bank_board(rng, RESET, RESET + 0x4000, _pages(RESET + 0x4000))


# Lines that run and show

@dataclass
class Levels:
    """How the levels of the hardware lines go on from run to run."""

    rng: Random
    change: bool

    def next(self) -> int:
        """The levels of the next run."""
        rng = self.rng
        if not self.change:
            return 0
        bits = rng.choice((0, 0, 1, 0x80, 0xFF, 1 << rng.randrange(8), rng.getrandbits(8)))
        return bits | rng.choice((0, 0, 0, 0x100, 0xFFFFFF00, rng.getrandbits(32) & ~0xFF))


def draw_levels(rng: Random) -> Levels:
    """Levels that stay 0 or change at random."""
    return Levels(rng, rng.choice((False, True)))


@dataclass
class Shows:
    """Lines that show the core: at a share of the places where one may stand, and at so many at most."""

    rng: Random
    share: float
    left: int

    def next(self) -> list[str]:
        """The line, or none, at the next place."""
        if self.left == 0 or self.rng.random() >= self.share:
            return []
        self.left -= 1
        return ["d\n"]


def read_line(rng: Random, address: int) -> str:
    """A line that reads memory near an address, mostly in a good width."""
    widths = (1, 2, 4, 4, 4, 4) if rng.random() < 0.9 else (0, 3, 8, WORD_MASK)
    width = rng.choice(widths)
    place = address if rng.random() < 0.1 else address & -max(width & 7, 1)
    return line("m", place, width)


def program_lines(program: Program, board: Board) -> list[str]:
    """The lines that write the words of a program into bank or image."""
    lines = []
    for address, word in sorted(program.words.items()):
        offset = address - board.image
        if not program.layout.code_is_open and 0 <= offset < IMAGE_SIZE:
            board.image_words[offset] = word
        elif word:
            lines.append(line("w", address, word))
    return lines


def run_lines(rng: Random, program: Program, levels: Levels) -> list[str]:
    """The lines that make the runs of a program, and show the core a few times."""
    lines: list[str] = []
    shows = Shows(rng, share=0.4, left=3)
    for run in program.runs:
        if run.steps <= 17 and rng.random() < 0.6:
            lines.extend(line("t", levels.next()) for _ in range(run.steps))
        else:
            lines.append(line("g", run.steps, levels.next()))
        lines += shows.next()
    if rng.random() < 0.04:
        lines.append(line("g", rng.choice((0x10001, 0x10000, WORD_MASK)), levels.next()))
    return [*lines, "d\n"]


def memory_lines(rng: Random, addresses: list[int], count: int) -> list[str]:
    """The lines that read memory at and about some addresses."""
    lines = []
    for _ in range(count if addresses else 0):
        address = rng.choice(addresses) + rng.choice((0, 4, 8, 0x40, 0xFFC, *EDGE_STEPS))
        lines.append(read_line(rng, address & WORD_MASK))
    return lines


def board_text(rng: Random, program: Program, board: Board) -> bytes:
    """The board text of a program."""
    words = program_lines(program, board)
    runs = run_lines(rng, program, draw_levels(rng))
    if rng.random() < 0.1:
        runs += ["z\n", *run_lines(rng, program, draw_levels(rng))[-4:]]
    reads = memory_lines(rng, program.read_at_end, rng.randint(2, 8))
    reads += memory_lines(rng, board.edges(), rng.randint(0, 5))
    parts = board.lines(rng)
    if rng.random() < 0.2:
        runs += parts[-2:]
        parts = parts[:-2]
    return "".join(parts + words + runs + reads).encode("ascii")
