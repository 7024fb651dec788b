"""Programs of windows, modes that change, and user programs."""

from __future__ import annotations

import control
import filler
import handlers
import mapping
import scenarios_exceptions
import scenarios_translation
import values
from mapping import Entry, Half
from program import PAGE, Builder, OutOfRoom, Program


# Windows

def _window_access(b: Builder, segments: list[int]) -> None:
    """An access, fetch or change of level by an address of some segment."""
    rng = b.rng
    page = b.page()
    address = rng.choice((*segments, rng.randrange(8))) << 29 | page & 0x1FFFFFFF
    draw = rng.random()
    if draw < 0.55:
        scenarios_translation.access(b, address + rng.choice((0, 8, 0xFF8)))
    elif draw < 0.8:
        scenarios_translation.call_routine(b, address)
    elif draw < 0.85:
        scenarios_translation.cache_hit(b, address)
    else:
        handlers.call_service(b, rng.choice((0, 3)))


def windows(b: Builder) -> Program:
    """Loads, stores and fetches through windows of both levels, and modes that change."""
    rng = b.rng
    physical = b.layout.pages[0] >> 29
    mapping.install_both(b)
    handlers.interrupt_now_and_then(b, 0.35)
    scenarios_translation.place_routines(b)
    own, other = rng.sample((control.DMW0, control.DMW1), 2)
    b.write_control(own, control.window(b.layout.code_segment, b.layout.code_segment, True, True))
    segments: list[int] = []
    b.write_control(control.CRMD, control.MAPPED)
    for _ in range(rng.randint(2, 4)):
        segment = b.layout.other_segment(rng)
        segments.append(segment)
        value = control.window(segment, physical, rng.random() < 0.8, rng.random() < 0.6)
        b.write_control(other, value | rng.choice((0, 0x11FFFFF6 & ~0x9)))
        if rng.random() < 0.4:
            _entry_behind_window(b, segment)
        for _ in range(rng.randint(2, 5)):
            _window_access(b, segments)
        handlers.call_service(b, 0)
        if rng.random() < 0.3:
            _change_mode(b)
    if rng.random() < 0.3:
        _both_windows(b, own, other)
    elif rng.random() < 0.5:
        _other_segment(b, other)
        _other_segment(b, other)
    b.read_at_end.extend(b.layout.pages)
    return b.finish(1500)


def _entry_behind_window(b: Builder, segment: int) -> None:
    """An entry for addresses of a window's segment, which leads to another page."""
    rng = b.rng
    first, second = rng.sample(b.layout.pages, 2)
    even = Half(first >> 12, dirty=rng.random() < 0.5)
    odd = Half(second >> 12, valid=rng.random() < 0.7)
    address = segment << 29 | rng.choice(b.layout.pages) & 0x1FFFE000
    mapping.write_entry(b, Entry(rng.randrange(16), address, (even, odd)))
    scenarios_translation.access(b, address | rng.choice((0, PAGE)))


def _other_segment(b: Builder, number: int) -> None:
    """An access through a window that leads to any segment; it may be refused."""
    rng = b.rng
    places = [*b.layout.others, b.page() | rng.randrange(1, 8) << 29]
    place = rng.choice(places)
    segment = b.layout.other_segment(rng)
    b.write_control(number, control.window(segment, place >> 29, True, True))
    name = rng.choice(("ld.w", "ld.bu", "st.w", "st.b"))
    scenarios_translation.access(b, segment << 29 | place & 0x1FFFFFFC, name)


def _change_mode(b: Builder) -> None:
    """Writes CRMD with equal DA and PG, and then goes to direct addresses and back."""
    for value in b.rng.sample((0x00, 0x18, 0x08, 0x01, 0x02, 0x1A), 2):
        b.write_control(control.CRMD, value)
        b.fold_control(control.CRMD)
    scenarios_translation.access(b, b.page())
    b.write_control(control.CRMD, control.MAPPED)


def _both_windows(b: Builder, own: int, other: int) -> None:
    """Two windows of one segment, which lead to different places."""
    rng = b.rng
    segment = b.layout.other_segment(rng)
    code = b.layout.code_segment
    alias = b.new_label("alias")
    if own == control.DMW1:
        b.write_control(other, control.window(code, rng.randrange(1, 8), True, True))
        scenarios_translation.access(b, b.page())
    else:
        b.write_control(other, control.window(segment, code, True, True))
        b.asm.load_address(b.roles.value, alias, segment << 29)
        b.emit("jirl", b.registers.free(), b.roles.value, 0)
        b.asm.label(alias)
        b.write_control(own, control.window(segment, code + 1, True, False))
        scenarios_translation.access(b, b.page() & 0x1FFFFFFF | segment << 29)
        b.fold(b.roles.value)


# Users

def user_code(b: Builder) -> None:
    """Places what a user program does; behind a failed fetch goes the supervisor's end."""
    rng = b.rng
    for _ in range(rng.randint(8, 20)):
        match rng.randrange(9):
            case 0 | 1:
                filler.place(b, 3)
            case 2 | 3:
                b.asm.word(scenarios_exceptions.privileged(b))
            case 4:
                b.emit("rdcntvl.w", b.registers.target())
            case 5:
                base = b.registers.free()
                b.emit("pcaddu12i", base, rng.choice((0, 0, 1, 2)))
                name = rng.choice(("ld.w", "ld.bu", "ld.h", "cacop", "st.b"))
                b.emit(name, rng.choice((16, 17, 23)), base, rng.choice((0, 4, 8, 0x10)))
            case 6:
                handlers.call_service(b, 3)
            case 7:
                b.emit("break", values.code_15(rng))
            case _:
                name = rng.choice(("rdcntid.w", "rdcntvh.w"))
                b.emit(name, b.registers.free())
        if rng.random() < 0.3:
            b.fold(b.registers.free())
    last = b.registers.free()
    b.emit("pcaddu12i", last, 0)
    b.fold(last)
    if rng.random() < 0.5:
        handlers.call_service(b, 0)
        b.move(b.roles.value, b.roles.link)
        b.emit("jirl", b.registers.free(), b.roles.value, 0)
    else:
        b.stop()


def _supervisor_end(b: Builder, label: str) -> None:
    b.asm.label(label)
    for number in (control.CRMD, control.ERA, control.PRMD, control.ESTAT):
        b.fold_control(number)
    b.stop()


def user_mode(b: Builder) -> Program:
    """A user program in pages or a window of its own, with calls of the supervisor."""
    rng = b.rng
    mapping.install_both(b)
    handlers.interrupt_now_and_then(b, 0.35)
    page, data = rng.sample(b.layout.pages, 2)
    by_window = rng.random() < 0.3
    if by_window:
        segment = rng.choice((1, 2, 3, 4, 5, 7))
        start = segment << 29 | page & 0x1FFFFFFF
        value = control.window(segment, page >> 29, rng.random() < 0.3, True)
        b.write_control(control.DMW1, value)
    else:
        start = _map_user(b, page, data)
    own = b.layout.code_segment
    b.write_control(control.DMW0, control.window(own, own, True, False))
    b.write_control(control.PRMD, 7 if b.interrupting else 3)
    b.load(b.roles.value, start)
    b.emit("csrwr", b.roles.value, control.ERA)
    end = b.new_label("supervisor")
    b.asm.load_address(b.roles.link, end)
    b.later(lambda: _supervisor_end(b, end))
    b.write_control(control.CRMD, control.MAPPED)
    b.emit("ertn")
    with b.asm.at(page):
        user_code(b)
        if b.asm.position > page + PAGE:
            raise OutOfRoom("a user program of more than a page")
    b.read_at_end.extend((page, data))
    return b.finish(1500)


def _map_user(b: Builder, page: int, data: int) -> int:
    """Maps a page of code and one of data for a user; gives the first address."""
    rng = b.rng
    size = rng.choice((control.SMALL, control.SMALL, control.LARGE))
    space = rng.choice((0, 1, 0x155))
    base = rng.choice(mapping.SEGMENTS) & ~0x3FFFFF
    everywhere = rng.random() < 0.3
    code = Half(mapping.frame_of(rng, page, size), dirty=rng.random() < 0.5, everywhere=everywhere)
    other = Half(
        mapping.frame_of(rng, data, size), privilege=rng.choice((0, 3, 3)),
        dirty=rng.random() < 0.7, everywhere=everywhere,
    )
    mapping.write_entry(b, Entry(rng.randrange(16), base, (code, other), space, size))
    if everywhere:
        b.write_control(control.ASID, space ^ 1)
    return base + mapping.offset_in(page, size)
