//! Set-ups: a text that fills a bank, runs steps and reads registers, and the listing that it gives.

use std::io::{self, Read, Write};

use crate::bus::{write_word, Bank, Bus, Image, Shift, Span, Split};
use crate::cpu::{Core, RunReport, RunTooLong, RESET_ADDRESS};
use crate::text::hex_field;

/// No more of a text is read.
pub const LONGEST_TEXT: u64 = 65_536;

pub const BANK_LENGTH: usize = 32_768;

const BORDER: u32 = 0x8000_0000;

pub fn read_text(source: impl Read) -> io::Result<Vec<u8>> {
    let mut text = Vec::new();
    source.take(LONGEST_TEXT).read_to_end(&mut text)?;
    Ok(text)
}

/// The board of a set-up.
pub fn board() -> Bank {
    Bank::new(RESET_ADDRESS, vec![0; BANK_LENGTH])
}

/// A line of one of the three forms.
#[derive(Clone, Copy, Debug, PartialEq, Eq)]
enum Line {
    Write { address: u32, word: u32 },
    Run { count: u32 },
    Register { number: u32 },
}

impl Line {
    fn read(line: &[u8]) -> Option<Line> {
        let (letter, fields) = line.strip_suffix(b"\n")?.split_first()?;
        let fields = fields.strip_prefix(b",")?;
        match letter {
            b'w' => write_line(fields),
            b'g' => Some(Line::Run {
                count: decimal_field(fields)?,
            }),
            b'r' => Some(Line::Register {
                number: decimal_field(fields)?,
            }),
            _ => None,
        }
    }
}

fn write_line(fields: &[u8]) -> Option<Line> {
    let (address, rest) = fields.split_at_checked(8)?;
    let word = rest.strip_prefix(b",")?;
    Some(Line::Write {
        address: hex_field(address)?,
        word: hex_field(word)?,
    })
}

/// The number that a field of one to nine decimal digits is.
fn decimal_field(field: &[u8]) -> Option<u32> {
    let is_decimal = (1..=9).contains(&field.len()) && field.iter().all(u8::is_ascii_digit);
    is_decimal.then(|| {
        field
            .iter()
            .fold(0, |number, byte| number * 10 + u32::from(byte - b'0'))
    })
}

/// What a line came to.
#[derive(Clone, Copy, Debug, PartialEq, Eq)]
pub enum Answer {
    Written,
    Run { report: RunReport, pc: u32 },
    Register { number: u32, value: u32 },
    Refused(u32),
}

const NO_SUCH_REGISTER: Answer = Answer::Refused(3);
const RUN_TOO_LONG: Answer = Answer::Refused(RunTooLong::NUMBER);
const NO_FORM: Answer = Answer::Refused(10);
const WRONG_TIME: Answer = Answer::Refused(11);

/// A set-up as far as it was read.
pub struct Session<B> {
    board: B,
    /// There is a core from the first line `g` of good form on.
    core: Option<Core>,
    lines: u32,
}

impl<B: Bus> Session<B> {
    pub fn new(board: B) -> Session<B> {
        Session {
            board,
            core: None,
            lines: 0,
        }
    }

    pub fn core(&self) -> Option<&Core> {
        self.core.as_ref()
    }

    pub fn handle(&mut self, line: &[u8]) -> Answer {
        self.lines += 1;
        match Line::read(line) {
            Some(Line::Write { address, word }) => self.write(address, word),
            Some(Line::Run { count }) => self.run(count),
            Some(Line::Register { number }) => self.read_register(number),
            None => NO_FORM,
        }
    }

    fn write(&mut self, address: u32, word: u32) -> Answer {
        if self.core.is_some() {
            return WRONG_TIME;
        }
        match write_word(&mut self.board, address, word) {
            Ok(()) => Answer::Written,
            Err(refusal) => Answer::Refused(refusal.number()),
        }
    }

    /// The first run resets the core, also where it is too long.
    fn run(&mut self, count: u32) -> Answer {
        let core = self.core.get_or_insert_with(Core::at_reset);
        match core.run(&mut self.board, count, 0) {
            Ok(report) => Answer::Run {
                report,
                pc: core.pc,
            },
            Err(_) => RUN_TOO_LONG,
        }
    }

    fn read_register(&self, number: u32) -> Answer {
        match &self.core {
            None => WRONG_TIME,
            Some(_) if number > 31 => NO_SUCH_REGISTER,
            Some(core) => Answer::Register {
                number,
                value: core.register(number as usize),
            },
        }
    }

    /// Writes what the line that was handled last adds to the listing.
    pub fn print(&self, answer: Answer, out: &mut impl Write) -> io::Result<()> {
        match answer {
            Answer::Written => Ok(()),
            Answer::Register { number, value } => writeln!(out, "reg,{number},{value:08X}"),
            Answer::Refused(number) => self.print_refusal(number, out),
            Answer::Run { report, pc } => {
                writeln!(out, "run,{},{pc:08X}", report.steps)?;
                match report.refusal {
                    Some(refusal) => self.print_refusal(refusal.by_bus.number(), out),
                    None => Ok(()),
                }
            }
        }
    }

    fn print_refusal(&self, number: u32, out: &mut impl Write) -> io::Result<()> {
        writeln!(out, "no,{},{number}", self.lines)
    }
}

pub fn print_listing(text: &[u8], out: &mut impl Write) -> io::Result<()> {
    print_listing_on(board(), text, out)
}

/// On a bank under a shift and a split, for the benchmark.
pub fn print_layered_listing(text: &[u8], out: &mut impl Write) -> io::Result<()> {
    let span = Span::new(RESET_ADDRESS, BANK_LENGTH as u32);
    let shifted = Shift::new(span, Bank::new(0, vec![0; BANK_LENGTH]));
    let nothing = Image::new(0, Vec::new());
    print_listing_on(Split::new(BORDER, shifted, nothing), text, out)
}

fn print_listing_on<B: Bus>(board: B, text: &[u8], out: &mut impl Write) -> io::Result<()> {
    let mut session = Session::new(board);
    for line in crate::text::lines(text) {
        let answer = session.handle(line);
        session.print(answer, out)?;
    }
    Ok(())
}
