//! The state of a core as text, for board texts, and after every run of a set-up (`emulator state`).
//!
//! After each accepted run `state` prints, behind the run's own lines of the listing, one value a line:
//!
//!     pc PC
//!     gr N VALUE                  each general register, N in decimal
//!     csr NNN VALUE               each control register, NNN in three hexadecimal digits
//!     tlb I E G ASID PS VPPN PPN V D PLV MAT PPN V D PLV MAT
//!                                 each TLB entry: itself, its even half, its odd half; I and PS are
//!                                 decimal, all else is hexadecimal without leading zeros
//!     counter C                   64 bits in 16 hexadecimal digits
//!     timer VALUE
//!     link 0 or link 1
//!     waiting 0 or waiting 1
//!     fill I                      the entry that the next tlbfill writes, in decimal
//!
//! PC and values are eight upper-case hexadecimal digits.

use std::io::{self, Write};

use crate::cpu::Core;
use crate::csr;
use crate::setup::{self, Answer, Session};
use crate::text::lines;
use crate::tlb::{Entry, Page, ENTRIES};

pub fn print_states(text: &[u8], out: &mut impl Write) -> io::Result<()> {
    let mut session = Session::new(setup::board());
    for line in lines(text) {
        let answer = session.handle(line);
        session.print(answer, out)?;
        if let (Answer::Run { .. }, Some(core)) = (answer, session.core()) {
            print_state(core, out)?;
        }
    }
    Ok(())
}

fn print_state(core: &Core, out: &mut impl Write) -> io::Result<()> {
    print_pc(core, out)?;
    for number in 0..32 {
        print_register(core, number, out)?;
    }
    for number in csr::NUMBERS {
        print_control_register(core, number, out)?;
    }
    for index in 0..ENTRIES {
        print_tlb_entry(core, index, out)?;
    }
    writeln!(out, "counter {:016X}", core.csr.counter)?;
    writeln!(out, "timer {:08X}", core.csr.timer())?;
    writeln!(out, "link {}", u32::from(core.csr.link))?;
    writeln!(out, "waiting {}", u32::from(core.waiting))?;
    writeln!(out, "fill {}", core.tlb.fill_place())
}

/// What a board text's `d` shows: only what is not as reset leaves it, or not 0.
pub fn print_changes(core: &Core, out: &mut impl Write) -> io::Result<()> {
    print_pc(core, out)?;
    for number in (0..32).filter(|&number| core.register(number) != 0) {
        print_register(core, number, out)?;
    }
    for number in csr::NUMBERS
        .into_iter()
        .filter(|&number| core.csr.read(number) != 0)
    {
        print_control_register(core, number, out)?;
    }
    for index in (0..ENTRIES).filter(|&index| *core.tlb.entry(index) != Entry::AT_RESET) {
        print_tlb_entry(core, index, out)?;
    }
    Ok(())
}

fn print_pc(core: &Core, out: &mut impl Write) -> io::Result<()> {
    writeln!(out, "pc {:08X}", core.pc)
}

fn print_register(core: &Core, number: usize, out: &mut impl Write) -> io::Result<()> {
    writeln!(out, "gr {number} {:08X}", core.register(number))
}

fn print_control_register(core: &Core, number: u32, out: &mut impl Write) -> io::Result<()> {
    writeln!(out, "csr {number:03X} {:08X}", core.csr.read(number))
}

fn print_tlb_entry(core: &Core, index: usize, out: &mut impl Write) -> io::Result<()> {
    let entry = core.tlb.entry(index);
    write!(
        out,
        "tlb {index} {} {}",
        u32::from(entry.exists),
        u32::from(entry.global)
    )?;
    write!(
        out,
        " {:X} {} {:X}",
        entry.address_space, entry.page_size, entry.vppn
    )?;
    for Page {
        frame,
        valid,
        dirty,
        privilege,
        access_type,
    } in entry.pages
    {
        write!(
            out,
            " {frame:X} {} {} {privilege:X} {access_type:X}",
            u32::from(valid),
            u32::from(dirty)
        )?;
    }
    writeln!(out)
}
