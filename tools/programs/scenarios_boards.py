"""Programs that need a board: edges of parts, hardware lines, refused steps, resets."""

from __future__ import annotations

from random import Random

import boards
import control
import filler
import handlers
import scenarios_random
from assembler import LINKED, LOADS, STORES, encode
from boards import Board, Levels, line
from program import PAGE, RESET, Builder, Layout, until_it_fits
from scenarios_integer import WIDTHS

NAMES = (*LOADS, *STORES, *LINKED)


# Edges of parts

def _odd_number(rng: Random) -> int:
    """A base, border or length of any kind; some are to be refused."""
    choices = (
        0, 4, 0x40, 0x1000, 0x8000, 0x1C004000, 0x1C008000, 0x1FFFFFFC, 0xFFFFFFC0, 0xFFFFFFFC,
        0x80000000, rng.getrandbits(32) & ~3, rng.getrandbits(16) & ~3,
    )
    number = rng.choice(choices)
    return number if rng.random() < 0.88 else number + rng.choice((1, 2, 3))


def _odd_span(rng: Random) -> tuple[int, int]:
    base = _odd_number(rng)
    fits = 0x100000000 - base
    length = rng.choice((4, 8, 0x20, 0x40, 0x100, 0x1000, 0x8000, fits, fits + 4, _odd_number(rng)))
    odd = rng.choice((0, 0, 0, 0, 0, 1, 2))
    return base, length + odd & 0xFFFFFFFF


def _edge_board(rng: Random) -> tuple[Board, Layout]:
    """A board with the code in bank or image, and odd numbers elsewhere."""
    board, layout = boards.draw_board(rng)
    if rng.random() < 0.6:
        page = rng.choice(layout.pages)
        inner = (page + rng.randrange(0, PAGE, 4), 4 * rng.randrange(1, 64))
        board.lock = rng.choice((inner, inner, _odd_span(rng)))
    if rng.random() < 0.5:
        board.ports_shift = _odd_span(rng)
        board.ports = rng.choice((0, _odd_number(rng), board.ports))
    if rng.random() < 0.3 and layout.code_is_open:
        board.image = _odd_number(rng)
    if rng.random() < 0.25:
        board.borders = (board.borders[0], _odd_number(rng))
    for _ in range(rng.randint(0, 5)):
        board.image_words[rng.choice((0, 4, 0xFFC, 0xFF8, 0x1000, 6))] = rng.getrandbits(32)
    return board, layout


def _skipping_handler(b: Builder) -> None:
    """A handler that goes on behind the step, or behind the call of a far address."""
    first, second, _, _ = b.roles.handler
    near = b.new_label("near")
    b.fold_control(control.ERA, via=first)
    b.fold_control(control.BADV, via=second)
    b.emit("addi.w", b.roles.count, b.roles.count, 1)
    b.emit("srli.w", second, first, 14)
    b.emit("addi.w", first, first, 4)
    b.load(b.roles.mix, RESET >> 14)
    b.asm.branch("beq", second, b.roles.mix, to=near)
    b.move(first, b.roles.link)
    b.asm.label(near)
    b.emit("csrwr", first, control.ERA)
    b.emit("ertn")


def install_skipping(b: Builder, lines: int) -> None:
    """Sets that handler, and admits interrupts of some hardware lines."""
    handlers.set_up(b, lambda: _skipping_handler(b))
    b.write_control(control.ECFG, lines << 2)
    b.write_control(control.CRMD, control.DIRECT | control.INTERRUPTS_ON)


def _edge(b: Builder, edges: list[int], width: int) -> int:
    """An address at or beside an edge, mostly aligned."""
    rng = b.rng
    address = rng.choice((*edges, 0xFFFFFFFC, 0xFFFFFFFF)) + rng.choice(boards.EDGE_STEPS)
    return address & (0xFFFFFFFF if rng.random() < 0.06 else -width & 0xFFFFFFFF)


def _edge_access(b: Builder, edges: list[int]) -> None:
    rng = b.rng
    name = rng.choice(NAMES if rng.random() < 0.5 else tuple(STORES))
    base, value = b.registers.some(2)
    offset = rng.choice((0, 0, 4, -4, 8))
    b.load(base, _edge(b, edges, WIDTHS[name]) - offset)
    b.emit(name, value, base, offset)
    b.fold(value)


def _edge_fetch(b: Builder, edges: list[int]) -> None:
    register = b.registers.free()
    b.load(register, _edge(b, edges, 4) & ~3)
    b.emit("jirl", b.roles.link, register, 0)


def physical_edge(rng: Random) -> bytes:
    """Accesses at the edges of all parts; an interrupt gets the program past refused ones."""
    board, layout = _edge_board(rng)
    b = Builder(rng, layout)
    install_skipping(b, 1)
    edges = board.edges() + _fixed_edges(board) * 3
    for _ in range(rng.randint(5, 12)):
        if rng.random() < 0.85:
            _edge_access(b, edges)
        else:
            _edge_fetch(b, edges)
    for _ in range(3):
        b.stop()
    b.asm.branch("b", to=b.here("last"))
    program = b.finish(0, stops=False)
    lines = boards.program_lines(program, board)
    lines += _edge_writes(rng, edges, 4)
    shows = boards.Shows(rng, share=0.2, left=3)
    for _ in range(rng.randint(8, 18)):
        lines.append(line("g", rng.choice((1, 20, 40, 60, 60)), 0))
        lines.append(line("t", rng.choice((1, 1, 0xFFFFFF01, 3, 0))))
        lines += shows.next()
        if rng.random() < 0.2:
            lines += _edge_writes(rng, edges, 1)
    lines.append("d\n")
    lines += boards.memory_lines(rng, edges, rng.randint(6, 20))
    return "".join(board.lines(rng) + lines).encode("ascii")


def _fixed_edges(board: Board) -> list[int]:
    """Where the lock's bytes and the image's begin and end."""
    image_end = board.image + boards.IMAGE_SIZE - 4
    points = (board.lock[0], board.lock[0] + board.lock[1], board.image, image_end)
    return [point & 0xFFFFFFFF for point in points]


def _edge_writes(rng: Random, edges: list[int], most: int) -> list[str]:
    """Lines that write words at edges, of which some are refused."""
    lines = []
    for _ in range(rng.randint(0, most)):
        address = rng.choice(edges) + rng.choice(boards.EDGE_STEPS)
        aligned = address if rng.random() < 0.15 else address & ~3
        if not RESET <= aligned < RESET + 0x600:
            lines.append(line("w", aligned & 0xFFFFFFFF, rng.getrandbits(32)))
    return lines


def _make_uneven(rng: Random, board: Board) -> None:
    """Makes one number of a board, which was in order, no multiple of 4 or too great."""
    odd = rng.choice((1, 2, 2, 3))
    match rng.randrange(7):
        case 0:
            board.borders = (board.borders[0] + odd, board.borders[1])
        case 1:
            board.borders = (board.borders[0], board.borders[1] + odd)
        case 2:
            board.image += odd
        case 3:
            board.ports += odd
        case 4:
            board.ports_shift = _uneven_span(rng, board.ports_shift, odd)
        case 5:
            board.lock = _uneven_span(rng, board.lock, odd)
        case _:
            board.bank_shift = _uneven_span(rng, board.bank_shift, odd)


def _uneven_span(rng: Random, span: tuple[int, int], odd: int) -> tuple[int, int]:
    base, length = span
    past_end = 0x100000000 - base + 4 & 0xFFFFFFFF
    return rng.choice(((base + odd, length), (base, length + odd), (base, past_end), (base, 0)))


def _spoiled_board(rng: Random) -> Board:
    """A board of which a few numbers are odd, with parts near to each other."""
    board, layout = boards.draw_board(rng)
    border = board.borders[0]
    board.image = rng.choice((board.image, border, border - 0x40, border + 0x10))
    second = rng.choice((board.borders[1], border + 0x800, border, border + 0x2000))
    board.borders = (border, second)
    board.ports_shift = (max(board.borders) & ~3, rng.choice((0x40, 0x80, 0x1000, 0x20)))
    board.ports = rng.choice((0, 0, 0x20, 4))
    page = rng.choice(layout.pages)
    locked = rng.choice((4, 8, 0x40, 0x1000, 0x8000, 0x10000))
    board.lock = (page + rng.randrange(0, 0x100, 4), locked)
    if rng.random() < 0.4:
        _make_uneven(rng, board)
    for _ in range(rng.choice((0, 0, 0, 1, 1, 3))):
        match rng.randrange(7):
            case 0:
                board.borders = (board.borders[0], _odd_number(rng))
            case 1:
                board.lock = _odd_span(rng)
            case 2:
                board.bank_shift = _odd_span(rng)
            case 3:
                board.bank = _odd_number(rng)
            case 4:
                board.image = _odd_number(rng)
            case 5:
                board.ports_shift, board.ports = _odd_span(rng), rng.choice((0, _odd_number(rng)))
            case _:
                board.borders = (_odd_number(rng), board.borders[1])
    return board


def bus_only(rng: Random) -> bytes:
    """Boards of odd numbers whose memory is written and read by the text alone."""
    board = _spoiled_board(rng)
    for _ in range(rng.randint(0, 6)):
        offset = rng.choice((0, 4, 0xFFC, 0x1000, 2, 4 * rng.getrandbits(10)))
        board.image_words[offset] = rng.getrandbits(32)
    edges = board.edges() + _fixed_edges(board)
    lines = []
    for _ in range(rng.randint(10, 40)):
        address = rng.choice(edges) + rng.choice(boards.EDGE_STEPS) & 0xFFFFFFFF
        if rng.random() < 0.4:
            place = address if rng.random() < 0.15 else address & ~3
            lines.append(line("w", place, rng.getrandbits(32)))
            address = place + rng.choice((0, 0, 1, 2))
        lines.append(boards.read_line(rng, address & 0xFFFFFFFF))
    lines += [line("t", rng.getrandbits(8)), line("g", 3, 0), "d\n"]
    return "".join(board.lines(rng) + lines).encode("ascii")


def top_of_memory(rng: Random) -> bytes:
    """Code in ports at the top of the addresses, which goes on at address 0 in the bank."""
    words = rng.choice((1, 2, 4, 8))
    ports = (0xFFFFFFC0, 0x40)
    image_end = RESET + 0x1000
    shift = rng.choice(((0, 0x8000), (0, 0x10000000), (0, 0x20)))
    borders = (RESET, rng.choice((image_end, 0xFFFFFFC0)))
    board = Board(borders, (0x4000, 0x40), shift, 0, RESET, ports, 0)
    pages = tuple(PAGE * number for number in range(1, 5))
    layout = Layout(image_end, pages, (0x9000,), code_is_open=False)
    b = Builder(rng, layout)
    install_skipping(b, 0xFF)
    with b.asm.at(0x100000000 - 4 * words):
        for _ in range(words - 1):
            b.emit("addi.w", b.roles.count, b.roles.count, 0x11)
        name, operands = rng.choice((
            ("bl", (4,)), ("pcaddu12i", (b.roles.value, 1)), ("beq", (0, 0, 8)), ("b", (4,)),
            ("ld.w", (b.roles.value, 0, -4)), ("syscall", (0,)), ("st.w", (b.roles.count, 0, -8)),
        ))
        b.emit(name, *operands)
    with b.asm.at(0):
        b.emit("pcaddu12i", b.roles.value, 0)
        b.fold(1)
        b.emit("jirl", 0, b.roles.link, 0)
    b.load(b.roles.value, 0x100000000 - 4 * words)
    b.emit("jirl", b.roles.link, b.roles.value, 0)
    _edge_access(b, [0, 0xFFFFFFFC, 0xFFFFFFC0])
    b.emit("jirl", b.roles.link, 0, -4)
    program = b.finish(0)
    lines = boards.program_lines(program, board)
    for _ in range(rng.randint(3, 6)):
        lines.append(line("g", rng.choice((3, 11, 30, 60)), rng.choice((0, 0, 1))))
        lines.append(line("t", rng.choice((0, 1, 0x80))))
    lines += ["d\n", *boards.memory_lines(rng, [0, 0xFFFFFFFC, 0xFFFFFFC0], 6)]
    return "".join(board.lines(rng) + lines).encode("ascii")


# Hardware lines

def _line_loop(b: Builder, enabled: int) -> None:
    """A loop that waits, reads what is due, and enables the lines anew."""
    rng = b.rng
    begin = b.here("again")
    filler.place(b, 3)
    if rng.random() < 0.6:
        b.emit("idle", 0)
    b.fold_control(control.ESTAT)
    if rng.random() < 0.5:
        b.write_control(control.ECFG, enabled)
    if rng.random() < 0.4:
        handlers.admit_interrupts(b)
    if rng.random() < 0.3:
        b.write_control(control.ESTAT, rng.choice((0, 1, 0xFFFFFFFF)))
    b.asm.branch("b", to=begin)


def _line_handler(b: Builder) -> None:
    """A handler that leaves the line's cause, or disables it, and returns."""
    first, second, _, _ = b.roles.handler
    b.fold_control(control.ESTAT, via=first)
    b.fold_control(control.ERA, via=second)
    b.emit("addi.w", b.roles.count, b.roles.count, 1)
    draw = b.rng.random()
    if draw < 0.4:
        b.emit("csrxchg", 0, first, control.ECFG)
    elif draw < 0.6:
        b.emit("csrwr", 0, control.PRMD)
    b.emit("csrwr", 0, control.ESTAT)
    b.emit("ertn")


def _begun_with_line_handler(rng: Random) -> tuple[boards.Board, Builder]:
    """A board, and a program on it that begins by setting the address of a handler of lines."""
    board, layout = boards.draw_board(rng)
    b = Builder(rng, layout)
    handlers.set_up(b, lambda: _line_handler(b))
    return board, b


def hardware_lines(rng: Random) -> bytes:
    """Hardware lines whose levels change between runs and single steps."""
    board, b = _begun_with_line_handler(rng)
    enabled = rng.choice((0x3FC, 0x004, 0x200, 1 << rng.randrange(2, 10), 0x1FFF, 0))
    b.write_control(control.ECFG, enabled)
    if rng.random() < 0.7:
        handlers.admit_interrupts(b)
    _line_loop(b, enabled)
    program = b.finish(0, stops=False)
    text = boards.program_lines(program, board) + [line("g", rng.randint(6, 20), 0)]
    text += _level_lines(rng, Levels(rng, change=True), rng.randint(15, 50))
    return "".join(board.lines(rng) + text).encode("ascii")


def _level_lines(rng: Random, levels: Levels, count: int) -> list[str]:
    """Runs and steps whose levels change, with the core shown up to five times."""
    text: list[str] = []
    shows = boards.Shows(rng, share=0.12, left=4)
    for _ in range(count):
        if rng.random() < 0.7:
            text.append(line("t", levels.next()))
        else:
            text.append(line("g", rng.choice((1, 2, 7, 20, 50)), levels.next()))
        text += shows.next()
    return [*text, "d\n"]


# Refused steps

def refused_steps(rng: Random) -> bytes:
    """A core that waits before an absent word, or stays at a refused access."""
    board, b = _begun_with_line_handler(rng)
    b.write_control(control.ECFG, rng.choice((0x3FC, 0x004, 0xBFC)))
    if rng.random() < 0.5:
        periodic = rng.random() < 0.5
        value = control.timer_configuration(rng.randint(5, 60), periodic)
        b.write_control(control.TCFG, value)
    if rng.random() < 0.4:
        handlers.admit_interrupts(b)
    register = b.registers.free()
    if rng.random() < 0.6:
        _wait_before_nothing(b, register)
    else:
        b.load(register, rng.choice((0xE0000000, 0x90000000)))
        # Not sc.w, which asks no bus without the link.
        b.emit(rng.choice(NAMES[:-1]), b.roles.value, register, 0)
        b.emit("rdcntvl.w", b.roles.value)
        b.stop()
    program = b.finish(0, stops=False)
    text = boards.program_lines(program, board) + [line("g", 40, 0)]
    text += _level_lines(rng, Levels(rng, change=True), rng.randint(8, 25))
    return "".join(board.lines(rng) + text).encode("ascii")


def _wait_before_nothing(b: Builder, register: int) -> None:
    """A jump to the last word below an absent one, where idle stands."""
    last = max(b.layout.pages) + PAGE - 4
    with b.asm.at(last):
        b.asm.word(encode("idle", 1))
    b.load(register, last)
    b.emit("jirl", b.roles.link, register, 0)
    b.stop()


# Resets

def resets(rng: Random) -> bytes:
    """Random programs that a reset ends and begins anew."""
    board, layout = boards.draw_board(rng)
    scenario = rng.choice((scenarios_random.random_code, scenarios_random.random_mapped))
    program = until_it_fits(lambda: scenario(Builder(rng, layout)))
    text = boards.program_lines(program, board)
    levels = boards.draw_levels(rng)
    for _ in range(rng.randint(1, 3)):
        text.append(line("g", rng.randint(1, 400), levels.next()))
        text.append("z\n")
        if rng.random() < 0.5:
            text.append("d\n")
    text += [line("g", rng.randint(1, 1500), levels.next()), "d\n"]
    text += boards.memory_lines(rng, program.read_at_end, 4)
    return "".join(board.lines(rng) + text).encode("ascii")
