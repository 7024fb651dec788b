//! The core: its state, a step in the order that the documents give, and runs of steps.

use crate::bus::{Bus, Refusal};
use crate::csr::ControlRegisters;
use crate::decode::Word;
use crate::exception::{Cause, Exception};
use crate::tlb::Tlb;
use crate::translation::{translate, AccessKind};

pub const RESET_ADDRESS: u32 = 0x1C00_0000;
pub const LONGEST_RUN: u32 = 65_536;

#[derive(Clone, Debug, PartialEq, Eq)]
pub struct Core {
    pub pc: u32,
    registers: [u32; 32],
    pub csr: ControlRegisters,
    pub tlb: Tlb,
    pub waiting: bool,
}

/// What an accepted step did.
#[derive(Clone, Copy, Debug, PartialEq, Eq)]
pub enum Event {
    Done,
    Waiting,
    Exception(Cause),
}

/// A step that the bus refused. It changed nothing.
#[derive(Clone, Copy, Debug, PartialEq, Eq)]
pub struct StepRefusal {
    pub by_bus: Refusal,
    pub kind: AccessKind,
    pub pc: u32,
}

/// How many steps a run made, and the refused one that cut it short.
#[derive(Clone, Copy, Debug, PartialEq, Eq)]
pub struct RunReport {
    pub steps: u32,
    pub refusal: Option<StepRefusal>,
}

/// A run of more than `LONGEST_RUN` steps, which is refused as a whole.
#[derive(Clone, Copy, Debug, PartialEq, Eq)]
pub struct RunTooLong;

impl RunTooLong {
    pub const NUMBER: u32 = 6;
}

/// Why an instruction does not come to its end. Nothing of the core has been changed for it by then.
pub enum Stop {
    Exception(Exception),
    Refused(Refusal, AccessKind),
}

impl From<Exception> for Stop {
    fn from(exception: Exception) -> Stop {
        Stop::Exception(exception)
    }
}

impl From<Cause> for Stop {
    fn from(cause: Cause) -> Stop {
        Stop::Exception(cause.into())
    }
}

impl Core {
    pub fn at_reset() -> Core {
        Core {
            pc: RESET_ADDRESS,
            registers: [0; 32],
            csr: ControlRegisters::at_reset(),
            tlb: Tlb::at_reset(),
            waiting: false,
        }
    }

    pub fn register(&self, number: usize) -> u32 {
        self.registers[number]
    }

    /// Writes a register. What is written to r0 is lost.
    pub fn set_register(&mut self, number: usize, value: u32) {
        self.registers[number] = value;
        self.registers[0] = 0;
    }

    /// One step with these levels of the hardware lines.
    #[inline]
    pub fn step<B: Bus>(&mut self, bus: &mut B, levels: u8) -> Result<Event, StepRefusal> {
        let pending_before = self.csr.pending();
        let waiting_before = self.waiting;

        self.csr.take_levels(levels);
        let due = self.csr.is_interrupt_due();
        self.waiting &= !due;
        if self.waiting {
            self.csr.beat();
            return Ok(Event::Waiting);
        }

        let event = match self.instruction(bus, due) {
            Ok(next) => {
                self.pc = next;
                Event::Done
            }
            Err(Stop::Exception(exception)) => {
                self.pc = self.csr.raise(exception, self.pc);
                Event::Exception(exception.cause)
            }
            Err(Stop::Refused(by_bus, kind)) => {
                self.csr.set_pending(pending_before);
                self.waiting = waiting_before;
                return Err(StepRefusal {
                    by_bus,
                    kind,
                    pc: self.pc,
                });
            }
        };
        self.csr.beat();
        Ok(event)
    }

    /// Takes an interrupt that is due, or else fetches and executes an instruction. Gives the next PC.
    #[inline]
    fn instruction<B: Bus>(&mut self, bus: &mut B, interrupt_is_due: bool) -> Result<u32, Stop> {
        if interrupt_is_due && self.csr.are_interrupts_taken() {
            return Err(Cause::Interrupt.into());
        }
        let word = self.fetch(bus)?;
        let Some(operation) = word.operation() else {
            return Err(Cause::UndefinedInstruction.into());
        };
        if self.csr.is_user() && operation.is_privileged() {
            return Err(Cause::PrivilegedInstruction.into());
        }
        self.execute(bus, operation, word)
    }

    #[inline]
    fn fetch<B: Bus>(&self, bus: &B) -> Result<Word, Stop> {
        if !self.pc.is_multiple_of(4) {
            return Err(Exception::at(Cause::FetchAddress, self.pc).into());
        }
        let physical = self.translate(self.pc, AccessKind::Fetch)?;
        match bus.read(physical) {
            Ok(bytes) => Ok(Word(u32::from_le_bytes(bytes))),
            Err(refusal) => Err(Stop::Refused(refusal, AccessKind::Fetch)),
        }
    }

    pub fn translate(&self, address: u32, kind: AccessKind) -> Result<u32, Exception> {
        translate(&self.csr, &self.tlb, address, kind)
    }

    /// Makes so many steps, or as many as come before a refused one.
    pub fn run<B: Bus>(
        &mut self,
        bus: &mut B,
        count: u32,
        levels: u8,
    ) -> Result<RunReport, RunTooLong> {
        if count > LONGEST_RUN {
            return Err(RunTooLong);
        }
        for steps in 0..count {
            if let Err(refusal) = self.step(bus, levels) {
                return Ok(RunReport {
                    steps,
                    refusal: Some(refusal),
                });
            }
        }
        Ok(RunReport {
            steps: count,
            refusal: None,
        })
    }
}
