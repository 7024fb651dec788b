//! What each instruction does. Whatever can stop an instruction comes before its first change to the core.

use crate::bus::Bus;
use crate::cpu::{Core, Stop};
use crate::decode::{Operation, Word};
use crate::exception::{Cause, Exception};
use crate::translation::AccessKind;

use Operation::*;

impl Core {
    /// Executes an instruction that the present privilege admits, and gives the next PC.
    #[inline]
    pub fn execute<B: Bus>(
        &mut self,
        bus: &mut B,
        operation: Operation,
        word: Word,
    ) -> Result<u32, Stop> {
        let following = self.pc.wrapping_add(4);
        match operation {
            RdcntidW => self.set_register(word.rj(), self.csr.timer_number()),
            RdcntvlW => self.set_register(word.rd(), self.csr.counter as u32),
            RdcntvhW => self.set_register(word.rd(), (self.csr.counter >> 32) as u32),

            AddW => self.of_registers(word, u32::wrapping_add),
            SubW => self.of_registers(word, u32::wrapping_sub),
            Slt => self.of_registers(word, less_signed),
            Sltu => self.of_registers(word, less_unsigned),
            Nor => self.of_registers(word, |a, b| !(a | b)),
            And => self.of_registers(word, |a, b| a & b),
            Or => self.of_registers(word, |a, b| a | b),
            Xor => self.of_registers(word, |a, b| a ^ b),
            SllW => self.of_registers(word, u32::wrapping_shl),
            SrlW => self.of_registers(word, u32::wrapping_shr),
            SraW => self.of_registers(word, shift_right_signed),
            MulW => self.of_registers(word, u32::wrapping_mul),
            MulhW => self.of_registers(word, upper_product_signed),
            MulhWu => self.of_registers(word, upper_product_unsigned),
            DivW => self.of_registers(word, quotient_signed),
            ModW => self.of_registers(word, remainder_signed),
            DivWu => self.of_registers(word, quotient_unsigned),
            ModWu => self.of_registers(word, remainder_unsigned),

            Break => return Err(Cause::Break.into()),
            Syscall => return Err(Cause::SystemCall.into()),

            SlliW => self.with_constant(word, word.ui5(), u32::wrapping_shl),
            SrliW => self.with_constant(word, word.ui5(), u32::wrapping_shr),
            SraiW => self.with_constant(word, word.ui5(), shift_right_signed),
            Slti => self.with_constant(word, word.si12(), less_signed),
            Sltui => self.with_constant(word, word.si12(), less_unsigned),
            AddiW => self.with_constant(word, word.si12(), u32::wrapping_add),
            Andi => self.with_constant(word, word.ui12(), |a, b| a & b),
            Ori => self.with_constant(word, word.ui12(), |a, b| a | b),
            Xori => self.with_constant(word, word.ui12(), |a, b| a ^ b),
            Lu12iW => self.set_register(word.rd(), word.upper20()),
            Pcaddu12i => self.set_register(word.rd(), self.pc.wrapping_add(word.upper20())),

            Csrrd => self.set_register(word.rd(), self.csr.read(word.csr())),
            Csrwr => self.exchange(word, !0),
            Csrxchg => self.exchange(word, self.register(word.rj())),
            Tlbsrch => self.search_tlb(),
            Tlbrd => self.csr.take_entry(self.tlb.entry(self.csr.tlb_index())),
            Tlbwr => self.tlb.write(self.csr.tlb_index(), self.csr.new_entry()),
            Tlbfill => self.tlb.fill(self.csr.new_entry()),
            Invtlb => self.invalidate_tlb(word)?,
            Ertn => return Ok(self.csr.return_from_exception()),
            Idle => self.waiting = true,

            // There is no cache, and every access is in order.
            CacopHit => self.hit_cache(word)?,
            CacopOther | Preld | Dbar | Ibar => {}

            LlW => self.load_linked(bus, word)?,
            ScW => self.store_conditional(bus, word)?,
            LdB => self.load(bus, word, |bytes| i8::from_le_bytes(bytes) as u32)?,
            LdH => self.load(bus, word, |bytes| i16::from_le_bytes(bytes) as u32)?,
            LdW => self.load(bus, word, u32::from_le_bytes)?,
            LdBu => self.load(bus, word, |bytes| u32::from(u8::from_le_bytes(bytes)))?,
            LdHu => self.load(bus, word, |bytes| u32::from(u16::from_le_bytes(bytes)))?,
            StB => self.store(bus, word, |value| (value as u8).to_le_bytes())?,
            StH => self.store(bus, word, |value| (value as u16).to_le_bytes())?,
            StW => self.store(bus, word, u32::to_le_bytes)?,

            Jirl => return Ok(self.jump_and_link(word)),
            B => return Ok(self.pc.wrapping_add(word.offset26())),
            Bl => return Ok(self.branch_and_link(word)),
            Beq => return Ok(self.branch(word, |a, b| a == b)),
            Bne => return Ok(self.branch(word, |a, b| a != b)),
            Blt => return Ok(self.branch(word, |a, b| (a as i32) < b as i32)),
            Bge => return Ok(self.branch(word, |a, b| a as i32 >= b as i32)),
            Bltu => return Ok(self.branch(word, |a, b| a < b)),
            Bgeu => return Ok(self.branch(word, |a, b| a >= b)),
        }
        Ok(following)
    }

    /// rd gets a result of rj and rk.
    fn of_registers(&mut self, word: Word, result: impl Fn(u32, u32) -> u32) {
        let value = result(self.register(word.rj()), self.register(word.rk()));
        self.set_register(word.rd(), value);
    }

    /// rd gets a result of rj and a constant.
    fn with_constant(&mut self, word: Word, constant: u32, result: impl Fn(u32, u32) -> u32) {
        let value = result(self.register(word.rj()), constant);
        self.set_register(word.rd(), value);
    }

    /// One write of the whole register: bits outside the mask are written with what they read.
    fn exchange(&mut self, word: Word, mask: u32) {
        let number = word.csr();
        let old = self.csr.read(number);
        self.csr
            .write(number, old & !mask | self.register(word.rd()) & mask);
        self.set_register(word.rd(), old);
    }

    fn search_tlb(&mut self) {
        let found = self
            .tlb
            .find(self.csr.searched_address(), self.csr.address_space());
        self.csr.take_found(found);
    }

    fn invalidate_tlb(&mut self, word: Word) -> Result<(), Stop> {
        if word.op5() > 6 {
            return Err(Cause::UndefinedInstruction.into());
        }
        let address_space = self.register(word.rj()) & 0x3FF;
        self.tlb
            .invalidate(word.op5(), address_space, self.register(word.rk()));
        Ok(())
    }

    /// A `cacop` of the Hit kind is translated as a load of a byte, and then does nothing.
    fn hit_cache(&self, word: Word) -> Result<(), Stop> {
        self.translate(self.address(word, word.si12()), AccessKind::Load)?;
        Ok(())
    }

    fn address(&self, word: Word, offset: u32) -> u32 {
        self.register(word.rj()).wrapping_add(offset)
    }

    /// The physical address of an access of `N` bytes, which has to be aligned.
    fn locate<const N: usize>(&self, address: u32, kind: AccessKind) -> Result<u32, Stop> {
        if !address.is_multiple_of(N as u32) {
            return Err(Exception::at(Cause::Alignment, address).into());
        }
        Ok(self.translate(address, kind)?)
    }

    fn read<const N: usize, B: Bus>(&self, bus: &B, address: u32) -> Result<[u8; N], Stop> {
        let physical = self.locate::<N>(address, AccessKind::Load)?;
        bus.read(physical)
            .map_err(|refusal| Stop::Refused(refusal, AccessKind::Load))
    }

    fn load<const N: usize, B: Bus>(
        &mut self,
        bus: &B,
        word: Word,
        value_of: impl Fn([u8; N]) -> u32,
    ) -> Result<(), Stop> {
        let bytes = self.read(bus, self.address(word, word.si12()))?;
        self.set_register(word.rd(), value_of(bytes));
        Ok(())
    }

    fn store<const N: usize, B: Bus>(
        &self,
        bus: &mut B,
        word: Word,
        bytes_of: impl Fn(u32) -> [u8; N],
    ) -> Result<(), Stop> {
        let physical = self.locate::<N>(self.address(word, word.si12()), AccessKind::Store)?;
        write(bus, physical, bytes_of(self.register(word.rd())))
    }

    fn load_linked<B: Bus>(&mut self, bus: &B, word: Word) -> Result<(), Stop> {
        let bytes = self.read(bus, self.address(word, word.offset14()))?;
        self.set_register(word.rd(), u32::from_le_bytes(bytes));
        self.csr.link = true;
        Ok(())
    }

    /// The address is checked whatever the link is; without it the bus is not asked.
    fn store_conditional<B: Bus>(&mut self, bus: &mut B, word: Word) -> Result<(), Stop> {
        let physical = self.locate::<4>(self.address(word, word.offset14()), AccessKind::Store)?;
        if self.csr.link {
            write(bus, physical, self.register(word.rd()).to_le_bytes())?;
        }
        self.set_register(word.rd(), u32::from(self.csr.link));
        self.csr.link = false;
        Ok(())
    }

    /// The target is made of rj as it was before rd is written: they may be the same register.
    fn jump_and_link(&mut self, word: Word) -> u32 {
        let target = self.address(word, word.offset16());
        self.set_register(word.rd(), self.pc.wrapping_add(4));
        target
    }

    fn branch_and_link(&mut self, word: Word) -> u32 {
        self.set_register(1, self.pc.wrapping_add(4));
        self.pc.wrapping_add(word.offset26())
    }

    fn branch(&self, word: Word, is_taken: impl Fn(u32, u32) -> bool) -> u32 {
        let offset = match is_taken(self.register(word.rj()), self.register(word.rd())) {
            true => word.offset16(),
            false => 4,
        };
        self.pc.wrapping_add(offset)
    }
}

fn write<const N: usize, B: Bus>(bus: &mut B, physical: u32, bytes: [u8; N]) -> Result<(), Stop> {
    bus.write(physical, bytes)
        .map_err(|refusal| Stop::Refused(refusal, AccessKind::Store))
}

fn less_signed(a: u32, b: u32) -> u32 {
    u32::from((a as i32) < b as i32)
}

fn less_unsigned(a: u32, b: u32) -> u32 {
    u32::from(a < b)
}

/// As the other shifts, by the lowest five bits.
fn shift_right_signed(a: u32, b: u32) -> u32 {
    (a as i32).wrapping_shr(b) as u32
}

fn upper_product_signed(a: u32, b: u32) -> u32 {
    ((i64::from(a as i32) * i64::from(b as i32)) >> 32) as u32
}

fn upper_product_unsigned(a: u32, b: u32) -> u32 {
    ((u64::from(a) * u64::from(b)) >> 32) as u32
}

// A division by 0 gives the quotient 0xFFFFFFFF and the dividend as the remainder. The one signed
// quotient that does not fit wraps.

fn quotient_signed(a: u32, b: u32) -> u32 {
    match b {
        0 => !0,
        _ => (a as i32).wrapping_div(b as i32) as u32,
    }
}

fn remainder_signed(a: u32, b: u32) -> u32 {
    match b {
        0 => a,
        _ => (a as i32).wrapping_rem(b as i32) as u32,
    }
}

fn quotient_unsigned(a: u32, b: u32) -> u32 {
    a.checked_div(b).unwrap_or(!0)
}

fn remainder_unsigned(a: u32, b: u32) -> u32 {
    a.checked_rem(b).unwrap_or(a)
}
