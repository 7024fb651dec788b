"""Programs of exceptions, undefined words and control registers."""

from __future__ import annotations

import control
import filler
import handlers
import values
from assembler import FIXED_BITS, FORM_OF, FORMS, MNEMONICS, encode
from program import Builder, Program

PRIVILEGED_WHOLE = ("tlbsrch", "tlbrd", "tlbwr", "tlbfill", "ertn")


# Causes of exceptions

def undefined_word(b: Builder) -> int:
    """A word of no row: one near a row, or any other."""
    rng = b.rng
    while True:
        word = _candidate(b)
        if not is_defined(word):
            return word
        if rng.random() < 0.01:
            return 0


def _candidate(b: Builder) -> int:
    rng = b.rng
    draw = rng.random()
    if draw < 0.2:
        return rng.choice((
            0x00000000, 0xFFFFFFFF, 0x000060A5, 0x00006420, 0x06482801, 0x00160000, 0x00168000,
            0x01008000, 0x06482000, 0x06483C00, 0x38000000, 0x40000000, 0x44000000, 0x48000000,
            0x0114A8C0, 0x2B000000, 0x2A800000, 0x28C00000, 0x29C00000, 0x22000000, 0x70000000,
        ))
    if draw < 0.3:
        return rng.getrandbits(32)
    name = rng.choice(MNEMONICS)
    form = FORM_OF[name]
    fixed = FIXED_BITS[form]
    bits = [bit for bit in range(32) if fixed >> bit & 1]
    return FORMS[form][name] ^ 1 << rng.choice(bits) | rng.getrandbits(32) & ~fixed


def is_defined(word: int) -> bool:
    """Whether a word is an instruction."""
    for form, rows in FORMS.items():
        fixed = FIXED_BITS[form]
        if any(word & fixed == opcode & fixed for opcode in rows.values()):
            return True
    return False


def privileged(b: Builder) -> int:
    """The word of a random privileged instruction."""
    rng = b.rng
    number = rng.choice(control.ALL) if rng.random() < 0.8 else control.unknown_number(rng)
    rd, rj = b.registers.target(), b.registers.source()
    match rng.randrange(7):
        case 0:
            return encode("csrrd", rd, number)
        case 1:
            return encode("csrwr", rd, number)
        case 2:
            return encode("csrxchg", rd, max(rj, 2), number)
        case 3:
            code = rng.choice([code for code in range(32) if code >> 3 != 2])
            return encode("cacop", code, rj, values.signed_12(rng))
        case 4:
            return encode("invtlb", rng.randrange(32), rj, b.registers.source())
        case 5:
            return encode("idle", values.code_15(rng))
    return encode(rng.choice(PRIVILEGED_WHOLE))


def misaligned_access(b: Builder) -> None:
    """A load or store, at an address that is open or absent, that is not aligned."""
    rng = b.rng
    base = b.registers.free()
    halves, words = ("ld.h", "ld.hu", "st.h"), ("ld.w", "st.w", "ll.w", "sc.w")
    width, names = rng.choice(((2, halves), (4, words)))
    address = rng.choice((b.page(), *b.layout.absent)) + rng.randrange(1, width)
    b.load(base, address)
    name = rng.choice(names)
    offset = rng.choice((0, 4, -4)) if name in ("ll.w", "sc.w") else rng.choice((0, width, -width))
    b.emit(name, b.registers.free(), base, offset)


def cause(b: Builder) -> None:
    """An exception of a random kind."""
    rng = b.rng
    match rng.randrange(8):
        case 0:
            handlers.call_service(b, rng.choice((0, 3, 0, 3, 4, 7, 1, 2, 0xFFFFFFF8)))
        case 1:
            b.emit("break", values.code_15(rng))
        case 2:
            b.asm.word(undefined_word(b))
        case 3:
            handlers.call_service(b, 3)
            b.asm.word(privileged(b))
        case 4 | 5:
            misaligned_access(b)
        case 6:
            handlers.fetch_from(b, rng.choice((b.layout.code, b.page())) + rng.randrange(1, 4))
        case _:
            handlers.call_service(b, 0)
            b.emit("invtlb", rng.randrange(7, 32), b.registers.source(), b.registers.source())


def return_to_label(b: Builder, prmd: int) -> None:
    """A return in the main program to what follows, with chosen levels."""
    label = b.new_label("return")
    b.write_control(control.PRMD, prmd)
    b.write_address(control.ERA, label)
    b.emit("ertn")
    b.asm.label(label)


# Exceptions and the return

def _nesting_handler(b: Builder) -> None:
    """A handler that takes an exception itself, once, and then returns from both."""
    first, second, third, _ = b.roles.handler
    inner = b.new_label("inner")
    for number in (control.ESTAT, control.ERA, control.PRMD, control.CRMD):
        b.fold_control(number, via=third)
    b.emit("addi.w", b.roles.count, b.roles.count, 1)
    b.emit("csrrd", first, control.ERA)
    b.emit("addi.w", first, first, 4)
    b.emit("csrrd", second, control.SAVE0)
    b.asm.branch("bne", second, 0, to=inner)
    b.emit("csrwr", first, control.SAVE1)
    b.emit("csrrd", second, control.PRMD)
    b.emit("csrwr", second, control.SAVE2)
    b.emit("ori", second, 0, 1)
    b.emit("csrwr", second, control.SAVE0)
    b.asm.word(b.rng.choice((0, encode("break", 3), encode("syscall", 9))))
    b.emit("csrwr", 0, control.SAVE0)
    b.emit("csrrd", second, control.SAVE2)
    b.emit("csrwr", second, control.PRMD)
    b.emit("csrrd", first, control.SAVE1)
    b.asm.label(inner)
    b.emit("csrwr", first, control.ERA)
    b.emit("ertn")


def nested_exceptions(b: Builder) -> None:
    """Installs a handler that takes an exception, and takes a few exceptions."""
    handlers.set_up(b, lambda: _nesting_handler(b))
    b.write_control(control.SAVE0, 0)
    for _ in range(b.rng.randint(1, 3)):
        filler.place(b, 2)
        if b.rng.random() < 0.4:
            return_to_label(b, b.rng.choice((0, 3, 4, 7)))
        b.asm.word(b.rng.choice((encode("syscall", 1), encode("break", 2), 0)))
        b.fold(b.roles.count)


def exceptions_and_return(b: Builder) -> Program:
    """Exceptions of every kind that needs no translation, nested ones, and returns."""
    rng = b.rng
    if rng.random() < 0.05:
        cause(b)
        filler.place(b, 3)
        return b.finish(20)
    handlers.install(b)
    b.asm.load_address(b.roles.link, "end")
    for _ in range(rng.randint(4, 10)):
        if rng.random() < 0.25:
            handlers.call_service(b, 0)
            return_to_label(b, rng.choice((0, 1, 2, 3, 4, 5, 6, 7, 0xFFFFFFFB, 0xFFFFFFFC)))
        else:
            cause(b)
        filler.place(b, 3)
    b.asm.label("end")
    handlers.call_service(b, 0)
    if rng.random() < 0.4:
        nested_exceptions(b)
    if rng.random() < 0.15:
        b.write_control(control.EENTRY, rng.choice((0, 0x3F, 0x1C008000, 0xFFFFFFFF)))
        b.emit("syscall", 0)
    return b.finish(900)


def undefined_words(b: Builder) -> Program:
    """Words of no row, most of them near one, in both privilege levels."""
    rng = b.rng
    handlers.install(b, handlers.draw_parts(b, interrupts=False))
    b.asm.load_address(b.roles.link, "end")
    for _ in range(rng.randint(8, 24)):
        if rng.random() < 0.15:
            handlers.call_service(b, rng.choice((0, 3)))
        b.asm.word(undefined_word(b))
        filler.place(b, 1)
    b.asm.label("end")
    return b.finish(1500)


# Control registers

MODE_VALUES = (
    0x00, 0x01, 0x02, 0x03, 0x08, 0x09, 0x0A, 0x0B, 0x10, 0x11, 0x12, 0x13, 0x18, 0x19, 0x1A,
    0x1B, 0xA8, 0x1E8, 0xB0, 0x1F0, 0xFFFFFE08, 0xFFFFFFE3, 0x1FB,
)
SIZE_VALUES = (0, 11, 12, 13, 20, 21, 22, 29, 53, 63)


def control_value(b: Builder, number: int) -> int:
    """A value for a control register, with illegal ones among them."""
    rng = b.rng
    match number:
        case control.CRMD:
            bit = rng.choice((0, 0, control.INTERRUPTS_ON))
            return rng.choice(MODE_VALUES) & ~control.INTERRUPTS_ON | bit
        case control.TLBIDX:
            size, absent = rng.choice(SIZE_VALUES), rng.random() < 0.3
            value = control.tlb_index(rng.getrandbits(4), size, absent)
            return value ^ rng.choice((0, 0, 0x40000000, 0x00FFFFF0, 0x10))
        case control.TCFG:
            return rng.choice((values.word(rng), rng.getrandbits(8), rng.getrandbits(6) | 1))
        case control.ESTAT | control.ECFG:
            return rng.choice((0xFFFFFFFF, 0x1FFF, rng.getrandbits(13), rng.getrandbits(32)))
        case control.BADV | control.PGDL | control.PGDH:
            return rng.getrandbits(32)
    return rng.choice((values.word(rng), rng.getrandbits(32), 0xFFFFFFFF))


def exchange(b: Builder, number: int) -> None:
    """A read, write or exchange of a control register, with registers that are the same."""
    rng = b.rng
    rd, rj = b.registers.some(2)
    b.load(rd, control_value(b, number))
    match rng.randrange(8):
        case 0:
            b.emit("csrrd", rd, number)
        case 1 | 2 | 3:
            b.emit("csrwr", rd, number)
        case 4:
            b.emit(rng.choice(("csrwr", "csrrd")), 0, number)
        case 5:
            rd = rng.choice((rd, rd, 0))
            b.emit("csrxchg", rd, max(rd, 2), number)
        case _:
            b.load(rj, rng.choice((0, 0xFFFFFFFF, values.word(rng), rng.getrandbits(32))))
            rd = rng.choice((rd, rd, rd, 0))
            b.emit("csrxchg", rd, rj, number)
    b.fold(rd)
    b.fold_control(number)


def masked_exchange(b: Builder, number: int) -> None:
    """An exchange of a control register with a mask of some bits."""
    rd, rj = b.registers.some(2)
    b.load(rd, control_value(b, number))
    b.load(rj, b.rng.getrandbits(32))
    b.emit("csrxchg", rd, rj, number)
    b.fold(rd)
    b.fold_control(number)


def _mode_writes(b: Builder) -> None:
    """Writes of CRMD, with windows under which the program goes on in any mode."""
    rng = b.rng
    b.write_control(control.DMW0, control.window(0, 0, True, True))
    for _ in range(rng.randint(1, 4)):
        exchange(b, control.CRMD)
        filler.place(b, 1)
        handlers.call_service(b, rng.choice((0, 0, 0, 1, 2)))
        b.fold_control(control.CRMD)
    handlers.call_service(b, 0)


def csr_masks(b: Builder) -> Program:
    """Reads, writes and exchanges of every control register, known and unknown."""
    rng = b.rng
    handlers.install(b)
    numbers = [number for number in control.ALL if number not in (control.CRMD, control.EENTRY)]
    rng.shuffle(numbers)
    for number in numbers:
        rng.choice((exchange, masked_exchange))(b, number)
    for _ in range(rng.randint(1, 4)):
        exchange(b, control.unknown_number(rng))
    if rng.random() < 0.3:
        exchange(b, control.EENTRY)
    if rng.random() < 0.5:
        _restore_entry(b)
        _mode_writes(b)
    for number in rng.sample(control.ALL, rng.randint(3, 8)):
        b.fold_control(number)
    return b.finish(1600)


def _restore_entry(b: Builder) -> None:
    """Makes sure that the handler of exceptions is where the program has one."""
    label = handlers.install(b)
    handlers.share_with_refills(b, label)
