"""Set-ups and board texts with lines that are malformed, refused or out of place."""

from __future__ import annotations

from collections.abc import Callable
from random import Random

import setups
from boards import BANK_SIZE
from program import RESET

BANK, BANK_END = RESET, RESET + BANK_SIZE
LIMIT = 65_536
WORK = (0x02BFFC04, 0x00101085, 0x14380006, 0x288000C7, 0x58000000)
ODD_BYTES = b"\x00\x09\x0a\x0b\x0c\x0d ,wgr0189AFaf:/@G`-+x.;#\x7f\x80\x85\xe2\xff"


# Lines of a set-up

def _good_write(rng: Random) -> bytes:
    address = BANK + 4 * rng.randrange(16) if rng.random() < 0.8 else BANK_END - 4
    return setups.write_line(address, rng.choice((*WORK, rng.getrandbits(32)))).encode("ascii")


def _refused_write(rng: Random) -> bytes:
    address = rng.choice((
        BANK + rng.randrange(1, 4), BANK - 4, BANK_END, BANK_END + 2, 0, 0xFFFFFFFC, 0xFFFFFFFF,
        BANK_END - 2, BANK_END - 1, rng.getrandbits(32), BANK - 1,
    ))
    return setups.write_line(address, rng.getrandbits(32)).encode("ascii")


def _decimal(rng: Random, number: int) -> str:
    """A decimal field with leading zeros, which may be too long."""
    return f"{number:0{rng.choice((1, 1, 2, 5, 9, 9, 10, 12))}d}"


def _run(rng: Random) -> bytes:
    number = rng.choice((
        0, 1, 2, 3, 7, 20, 100, 65_535, 65_536, 65_537, 70_000, 999_999_999, 10**9,
    ))
    if number > 20_000 and rng.random() < 0.5:
        number = rng.randrange(10)
    return f"g,{_decimal(rng, number)}\n".encode("ascii")


def _read(rng: Random) -> bytes:
    number = rng.choice((rng.randrange(32), 31, 32, 33, 64, 255, 256, 999_999_999, 2**32 + 4))
    return f"r,{_decimal(rng, number)}\n".encode("ascii")


def _empty(rng: Random) -> bytes:
    return rng.choice((b"\n", b"\n\n", b" \n", b"\r\n", b",\n", b"\x00\n"))


GOOD: tuple[Callable[[Random], bytes], ...] = (_good_write, _good_write, _run, _read, _read)
ANY: tuple[Callable[[Random], bytes], ...] = (*GOOD, _refused_write, _empty)


# Ways to spoil a line

def _other_case(rng: Random, line: bytes) -> bytes:
    return rng.choice((line.lower(), line.upper(), line.swapcase()))


def _without_end(rng: Random, line: bytes) -> bytes:
    return line[:-1]


def _with_return(rng: Random, line: bytes) -> bytes:
    return line[:-1] + rng.choice((b"\r\n", b"\r", b" \n", b"\t\n", b"\n\r"))


def _extra_field(rng: Random, line: bytes) -> bytes:
    return line[:-1] + rng.choice((b",\n", b",0\n", b",00000000\n", b",1,2\n"))


def _fewer_fields(rng: Random, line: bytes) -> bytes:
    parts = line[:-1].split(b",")
    return b",".join(parts[: rng.randrange(len(parts))]) + b"\n"


def _blank(rng: Random, line: bytes) -> bytes:
    place = rng.randrange(len(line))
    return line[:place] + rng.choice((b" ", b"\t", b"  ")) + line[place:]


def _longer(rng: Random, line: bytes) -> bytes:
    digits = rng.choice((b"0", b"1", b"F", b"000000000"))
    return line[:-1] + digits * rng.choice((1, 1, 2, 30)) + b"\n"


def _shorter(rng: Random, line: bytes) -> bytes:
    place = rng.randrange(len(line))
    return line[:place] + line[place + 1:]


def _changed_byte(rng: Random, line: bytes) -> bytes:
    changed = bytearray(line)
    for _ in range(rng.randint(1, 2)):
        byte = rng.choice(ODD_BYTES) if rng.random() < 0.7 else rng.randrange(256)
        changed[rng.randrange(len(changed))] = byte
    return bytes(changed)


def _other_number(rng: Random, line: bytes) -> bytes:
    fields = line[:-1].split(b",")
    fields[-1] = rng.choice((
        b"", b"-1", b"+1", b"0x10", b"1.0", b"1e3", b"1_000", b"A", b"'1'", b"1C000000",
        b"\xd9\xa1",
    ))
    return b",".join(fields) + b"\n"


def _prefixed(rng: Random, line: bytes) -> bytes:
    return rng.choice((b"\xef\xbb\xbf", b"#", b"w", b",", b"\x00", b"//")) + line


SPOILS: tuple[Callable[[Random, bytes], bytes], ...] = (
    _other_case, _without_end, _with_return, _extra_field, _fewer_fields, _blank, _longer,
    _shorter, _changed_byte, _changed_byte, _other_number, _prefixed,
)


def _lines_of_all_kinds(rng: Random) -> list[bytes]:
    """Lines in any order, of which some are spoiled."""
    share = rng.choice((0.1, 0.3, 0.5))
    lines = [rng.choice(ANY)(rng) for _ in range(rng.randint(3, 40))]
    return [rng.choice(SPOILS)(rng, line) if rng.random() < share else line for line in lines]


def _in_order(rng: Random) -> list[bytes]:
    """Writes, then runs and reads, with single lines out of place or refused."""
    writes = [setups.write_line(BANK + 4 * n, word).encode("ascii") for n, word in enumerate(WORK)]
    rest = [rng.choice((_run, _read, _read))(rng) for _ in range(rng.randint(3, 15))]
    lines = writes + rest
    for _ in range(rng.randint(1, 4)):
        lines.insert(rng.randrange(len(lines) + 1), rng.choice(ANY)(rng))
    return lines


def _mutated(rng: Random, text: bytes) -> bytes:
    """A text with a few bytes changed, left out, put in, or a piece cut off or doubled."""
    changed = bytearray(text)
    for _ in range(rng.randint(1, 6)):
        place = rng.randrange(len(changed) or 1)
        match rng.randrange(6):
            case 0 | 1:
                changed[place:place + 1] = bytes([rng.choice(ODD_BYTES)])
            case 2:
                del changed[place:place + rng.choice((1, 1, 3, 20))]
            case 3:
                changed[place:place] = bytes([rng.choice(ODD_BYTES)]) * rng.choice((1, 1, 2, 300))
            case 4:
                changed[place:place] = changed[place:place + rng.randrange(60)]
            case _:
                changed[place:place + 1] = bytes([rng.randrange(256)])
    return bytes(changed)


def _at_the_limit(rng: Random) -> bytes:
    """A text of about 65,536 bytes, of which no more are read."""
    head = b"".join(_in_order(rng)) if rng.random() < 0.3 else b""
    tail = b"g,3\nr,4\nr,5\nr,6\n"
    length = LIMIT - len(head) + rng.choice((-len(tail), -len(tail), -1, 0, 3, -len(tail) + 3, 9))
    filler = rng.choice((b"\n", b"w,1C000000,02BFFC04\n", b"x" * 399 + b"\n", b"r,1\n", b"w,0,0\n"))
    if rng.random() < 0.8:
        repeated = filler * (length // len(filler))
        body = repeated + b"y" * max(length - len(repeated) - 1, 0) + b"\n"
    else:
        body = b"z" * length
    return head + body + tail + rng.choice((b"", b"r,31", b"g,1\nr,2\n"))


def odd_lines(rng: Random) -> bytes:
    """A set-up of lines in any order, of which some are malformed."""
    if rng.random() < 0.05:
        return bytes(rng.choice(ODD_BYTES) for _ in range(rng.randrange(400)))
    return b"".join(_lines_of_all_kinds(rng))


def odd_order(rng: Random) -> bytes:
    """A set-up with lines out of place or refused, as a first run that is too long."""
    lines = _in_order(rng)
    if rng.random() < 0.3:
        too_long = f"g,{rng.choice((65_537, 999_999_999))}\n".encode("ascii")
        lines.insert(rng.choice((0, 1, len(WORK))), too_long + rng.choice((b"", b"r,4\n")))
    return b"".join(lines)


def odd_texts(rng: Random) -> bytes:
    """A set-up of which a few bytes or lines are changed."""
    return _mutated(rng, b"".join(_in_order(rng)) + b"r,4\nr,5\n")


def odd_lengths(rng: Random) -> bytes:
    """A set-up of about 65,536 bytes, or one that ends without an LF."""
    if rng.random() < 0.5:
        return _at_the_limit(rng)
    return b"".join(_in_order(rng)) + rng.choice((b"r,4", b"g,1", b"w,1C000000,00000000", b"r,5\r"))


# Board texts

def odd_board_text(rng: Random, good: bytes) -> bytes:
    """A board text with lines that have no form among the good ones."""
    lines = good.splitlines(keepends=True)
    for _ in range(rng.randint(1, 12)):
        line = rng.choice(lines)
        spoiled = rng.choice(SPOILS)(rng, line)
        place = rng.randrange(len(lines) + 1)
        lines.insert(place, spoiled if spoiled else b"\n")
    if rng.random() < 0.3:
        lines[-1] = lines[-1].rstrip(b"\n")
    if rng.random() < 0.2:
        lines.insert(rng.randrange(len(lines)), bytes(rng.choice(ODD_BYTES) for _ in range(30)))
    return b"".join(lines)
