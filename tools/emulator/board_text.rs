//! Board texts: a board of every part and layer, and calls of the bus and the core on it.

use std::io::{self, Write};

use crate::bus::{read_any, write_word, Bank, Image, Lock, Refusal, Shift, Span, Split};
use crate::cpu::{Core, Event, RunTooLong, StepRefusal};
use crate::dump::print_changes;
use crate::setup::BANK_LENGTH;
use crate::text::{hex_field, lines};

const IMAGE_LENGTH: usize = 4_096;
const PORTS_LENGTH: usize = 64;

/// A line that says what the board is made of, or one that is handled in its turn.
enum Line {
    Part(Part),
    Call(Call),
}

enum Part {
    Borders(u32, u32),
    LockSpan(u32, u32),
    BankSpan(u32, u32),
    BankBase(u32),
    ImageBase(u32),
    PortsSpan(u32, u32),
    PortsBase(u32),
    ImageWord(u32, u32),
}

enum Call {
    Write { address: u32, word: u32 },
    Read { address: u32, width: u32 },
    Run { count: u32, levels: u8 },
    Step { levels: u8 },
    Reset,
    Show,
}

impl Line {
    fn read(line: &[u8]) -> Option<Line> {
        let mut fields = line.strip_suffix(b"\n")?.split(|&byte| byte == b',');
        let letter = fields.next()?;
        let numbers: Vec<u32> = fields.map(hex_field).collect::<Option<_>>()?;
        Some(match (letter, numbers.as_slice()) {
            (b"s", &[first, second]) => Line::Part(Part::Borders(first, second)),
            (b"l", &[base, length]) => Line::Part(Part::LockSpan(base, length)),
            (b"h", &[base, length]) => Line::Part(Part::BankSpan(base, length)),
            (b"b", &[base]) => Line::Part(Part::BankBase(base)),
            (b"f", &[base]) => Line::Part(Part::ImageBase(base)),
            (b"v", &[base, length]) => Line::Part(Part::PortsSpan(base, length)),
            (b"p", &[base]) => Line::Part(Part::PortsBase(base)),
            (b"i", &[place, word]) => Line::Part(Part::ImageWord(place, word)),
            (b"w", &[address, word]) => Line::Call(Call::Write { address, word }),
            (b"m", &[address, width]) => Line::Call(Call::Read { address, width }),
            (b"g", &[count, levels]) => Line::Call(Call::Run {
                count,
                levels: levels as u8,
            }),
            (b"t", &[levels]) => Line::Call(Call::Step {
                levels: levels as u8,
            }),
            (b"z", []) => Line::Call(Call::Reset),
            (b"d", []) => Line::Call(Call::Show),
            _ => return None,
        })
    }
}

/// The numbers of a board, each 0 until a line gives it.
struct Plan {
    borders: (u32, u32),
    lock_span: (u32, u32),
    bank_span: (u32, u32),
    bank_base: u32,
    image_base: u32,
    ports_span: (u32, u32),
    ports_base: u32,
    image: Vec<u8>,
}

impl Plan {
    fn new() -> Plan {
        Plan {
            borders: (0, 0),
            lock_span: (0, 0),
            bank_span: (0, 0),
            bank_base: 0,
            image_base: 0,
            ports_span: (0, 0),
            ports_base: 0,
            image: vec![0; IMAGE_LENGTH],
        }
    }

    fn take(&mut self, part: &Part) {
        match *part {
            Part::Borders(first, second) => self.borders = (first, second),
            Part::LockSpan(base, length) => self.lock_span = (base, length),
            Part::BankSpan(base, length) => self.bank_span = (base, length),
            Part::BankBase(base) => self.bank_base = base,
            Part::ImageBase(base) => self.image_base = base,
            Part::PortsSpan(base, length) => self.ports_span = (base, length),
            Part::PortsBase(base) => self.ports_base = base,
            Part::ImageWord(place, word) => self.set_image_word(place as usize, word),
        }
    }

    fn set_image_word(&mut self, place: usize, word: u32) {
        if place.is_multiple_of(4) && place < IMAGE_LENGTH {
            self.image[place..place + 4].copy_from_slice(&word.to_le_bytes());
        }
    }

    fn build(self) -> Board {
        let span = |(base, length)| Span::new(base, length);
        let bank = Bank::new(self.bank_base, vec![0; BANK_LENGTH]);
        let image = Image::new(self.image_base, self.image);
        // Ports are 64 open bytes of their own, which is what a bank of that length is.
        let ports = Bank::new(self.ports_base, vec![0; PORTS_LENGTH]);
        Split::new(
            self.borders.0,
            Lock::new(span(self.lock_span), Shift::new(span(self.bank_span), bank)),
            Split::new(
                self.borders.1,
                image,
                Shift::new(span(self.ports_span), ports),
            ),
        )
    }
}

type Board = Split<Lock<Shift<Bank>>, Split<Image, Shift<Bank>>>;

pub fn print_answers(text: &[u8], out: &mut impl Write) -> io::Result<()> {
    let lines: Vec<Option<Line>> = lines(text).map(Line::read).collect();
    let mut plan = Plan::new();
    for line in &lines {
        if let Some(Line::Part(part)) = line {
            plan.take(part);
        }
    }
    let mut board = plan.build();
    let mut core = Core::at_reset();
    for line in &lines {
        match line {
            Some(Line::Part(_)) => {}
            Some(Line::Call(call)) => perform(call, &mut core, &mut board, out)?,
            None => writeln!(out, "no form")?,
        }
    }
    writeln!(out, "counter {:016X}", core.csr.counter)
}

fn perform(
    call: &Call,
    core: &mut Core,
    board: &mut Board,
    out: &mut impl Write,
) -> io::Result<()> {
    match *call {
        Call::Write { address, word } => print_write(write_word(board, address, word), out),
        Call::Read { address, width } => print_read(read_any(board, address, width), out),
        Call::Run { count, levels } => run(core, board, count, levels, out),
        Call::Step { levels } => print_step(core.step(board, levels), out),
        Call::Reset => {
            *core = Core::at_reset();
            writeln!(out, "reset")
        }
        Call::Show => print_changes(core, out),
    }
}

fn print_write(answer: Result<(), Refusal>, out: &mut impl Write) -> io::Result<()> {
    match answer {
        Ok(()) => writeln!(out, "write done"),
        Err(refusal) => writeln!(out, "write {refusal}"),
    }
}

fn print_read(answer: Result<u32, Refusal>, out: &mut impl Write) -> io::Result<()> {
    match answer {
        Ok(value) => writeln!(out, "read {value:08X}"),
        Err(refusal) => writeln!(out, "read {refusal}"),
    }
}

fn run(
    core: &mut Core,
    board: &mut Board,
    count: u32,
    levels: u8,
    out: &mut impl Write,
) -> io::Result<()> {
    match core.run(board, count, levels) {
        Err(RunTooLong) => writeln!(out, "run refused {}", RunTooLong::NUMBER),
        Ok(report) => {
            write!(out, "run {} pc {:08X}", report.steps, core.pc)?;
            match report.refusal {
                Some(refusal) => writeln!(out, " step {}", step_refusal(refusal)),
                None => writeln!(out),
            }
        }
    }
}

fn print_step(answer: Result<Event, StepRefusal>, out: &mut impl Write) -> io::Result<()> {
    match answer {
        Ok(Event::Done) => writeln!(out, "step done"),
        Ok(Event::Waiting) => writeln!(out, "step waiting"),
        Ok(Event::Exception(cause)) => writeln!(out, "step exception {:X} 0", cause.code()),
        Err(refusal) => writeln!(out, "step {}", step_refusal(refusal)),
    }
}

fn step_refusal(refusal: StepRefusal) -> String {
    format!(
        "{} kind {} pc {:08X}",
        refusal.by_bus,
        refusal.kind.number(),
        refusal.pc
    )
}
