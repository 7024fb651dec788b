//! Decoding: which operation an instruction word names, and the fields that stand in it.

/// The integer and privileged instructions, in the order of the manual's table of encodings.
#[derive(Clone, Copy, Debug, PartialEq, Eq)]
pub enum Operation {
    RdcntidW,
    RdcntvlW,
    RdcntvhW,
    AddW,
    SubW,
    Slt,
    Sltu,
    Nor,
    And,
    Or,
    Xor,
    SllW,
    SrlW,
    SraW,
    MulW,
    MulhW,
    MulhWu,
    DivW,
    ModW,
    DivWu,
    ModWu,
    Break,
    Syscall,
    SlliW,
    SrliW,
    SraiW,
    Slti,
    Sltui,
    AddiW,
    Andi,
    Ori,
    Xori,
    Csrrd,
    Csrwr,
    Csrxchg,
    /// `cacop` of the Hit kind, which PLV3 may execute.
    CacopHit,
    /// `cacop` of every other kind.
    CacopOther,
    Tlbsrch,
    Tlbrd,
    Tlbwr,
    Tlbfill,
    Ertn,
    Idle,
    Invtlb,
    Lu12iW,
    Pcaddu12i,
    LlW,
    ScW,
    LdB,
    LdH,
    LdW,
    StB,
    StH,
    StW,
    LdBu,
    LdHu,
    Preld,
    Dbar,
    Ibar,
    Jirl,
    B,
    Bl,
    Beq,
    Bne,
    Blt,
    Bge,
    Bltu,
    Bgeu,
}

use Operation::*;

impl Operation {
    /// Whether it is the exception IPE in PLV3.
    pub fn is_privileged(self) -> bool {
        matches!(
            self,
            Csrrd
                | Csrwr
                | Csrxchg
                | CacopOther
                | Tlbsrch
                | Tlbrd
                | Tlbwr
                | Tlbfill
                | Ertn
                | Idle
                | Invtlb
        )
    }
}

/// An instruction word.
#[derive(Clone, Copy)]
pub struct Word(pub u32);

/// The fields. Offsets of jumps, and of `ll.w` and `sc.w`, are in bytes.
impl Word {
    pub fn rd(self) -> usize {
        (self.0 & 0x1F) as usize
    }

    pub fn rj(self) -> usize {
        (self.0 >> 5 & 0x1F) as usize
    }

    pub fn rk(self) -> usize {
        (self.0 >> 10 & 0x1F) as usize
    }

    pub fn ui5(self) -> u32 {
        self.0 >> 10 & 0x1F
    }

    pub fn ui12(self) -> u32 {
        self.0 >> 10 & 0xFFF
    }

    pub fn si12(self) -> u32 {
        sign_extend(self.0 >> 10, 12)
    }

    pub fn offset14(self) -> u32 {
        sign_extend(self.0 >> 10, 14) << 2
    }

    pub fn offset16(self) -> u32 {
        sign_extend(self.0 >> 10, 16) << 2
    }

    /// The upper 10 bits of this one stand in the lowest bits of the word.
    pub fn offset26(self) -> u32 {
        let low = self.0 >> 10 & 0xFFFF;
        let high = self.0 & 0x3FF;
        sign_extend(high << 16 | low, 26) << 2
    }

    /// si20 above 12 zeros.
    pub fn upper20(self) -> u32 {
        self.0 >> 5 << 12
    }

    pub fn csr(self) -> u32 {
        self.0 >> 10 & 0x3FFF
    }

    /// The op of `invtlb`.
    pub fn op5(self) -> u32 {
        self.0 & 0x1F
    }
}

/// The lowest `bits` bits of a number, the highest of which is its sign.
fn sign_extend(number: u32, bits: u32) -> u32 {
    let unused = 32 - bits;
    ((number << unused) as i32 >> unused) as u32
}

impl Word {
    /// The operation, or none for a word that is no instruction. Every step decodes, so it is not called.
    #[inline(always)]
    pub fn operation(self) -> Option<Operation> {
        match self.0 >> 26 {
            0b000000 => self.arithmetic(),
            0b000001 => self.system(),
            0b000101 => self.if_bit_25_is_0(Lu12iW),
            0b000111 => self.if_bit_25_is_0(Pcaddu12i),
            0b001000 => self.linked(),
            0b001010 => self.load_or_store(),
            0b001110 => self.barrier(),
            0b010011 => Some(Jirl),
            0b010100 => Some(B),
            0b010101 => Some(Bl),
            0b010110 => Some(Beq),
            0b010111 => Some(Bne),
            0b011000 => Some(Blt),
            0b011001 => Some(Bge),
            0b011010 => Some(Bltu),
            0b011011 => Some(Bgeu),
            _ => None,
        }
    }

    fn arithmetic(self) -> Option<Operation> {
        match self.0 >> 22 {
            0b0000000000 | 0b0000000001 => self.of_registers(),
            0b0000001000 => Some(Slti),
            0b0000001001 => Some(Sltui),
            0b0000001010 => Some(AddiW),
            0b0000001101 => Some(Andi),
            0b0000001110 => Some(Ori),
            0b0000001111 => Some(Xori),
            _ => None,
        }
    }

    fn of_registers(self) -> Option<Operation> {
        match self.0 >> 15 {
            0b00000000000000000 => self.counter(),
            0b00000000000100000 => Some(AddW),
            0b00000000000100010 => Some(SubW),
            0b00000000000100100 => Some(Slt),
            0b00000000000100101 => Some(Sltu),
            0b00000000000101000 => Some(Nor),
            0b00000000000101001 => Some(And),
            0b00000000000101010 => Some(Or),
            0b00000000000101011 => Some(Xor),
            0b00000000000101110 => Some(SllW),
            0b00000000000101111 => Some(SrlW),
            0b00000000000110000 => Some(SraW),
            0b00000000000111000 => Some(MulW),
            0b00000000000111001 => Some(MulhW),
            0b00000000000111010 => Some(MulhWu),
            0b00000000001000000 => Some(DivW),
            0b00000000001000001 => Some(ModW),
            0b00000000001000010 => Some(DivWu),
            0b00000000001000011 => Some(ModWu),
            0b00000000001010100 => Some(Break),
            0b00000000001010110 => Some(Syscall),
            0b00000000010000001 => Some(SlliW),
            0b00000000010001001 => Some(SrliW),
            0b00000000010010001 => Some(SraiW),
            _ => None,
        }
    }

    /// The word with neither rj nor rd stands in two rows; both would write r0.
    fn counter(self) -> Option<Operation> {
        match (self.0 >> 10, self.rj(), self.rd()) {
            (0b11000, 0, _) => Some(RdcntvlW),
            (0b11000, _, 0) => Some(RdcntidW),
            (0b11001, 0, _) => Some(RdcntvhW),
            _ => None,
        }
    }

    fn system(self) -> Option<Operation> {
        match self.0 >> 22 {
            0b0000010000..=0b0000010011 => Some(self.csr_access()),
            0b0000011000 => Some(self.cacop()),
            0b0000011001 => self.tlb_and_return(),
            _ => None,
        }
    }

    fn csr_access(self) -> Operation {
        match self.rj() {
            0 => Csrrd,
            1 => Csrwr,
            _ => Csrxchg,
        }
    }

    fn cacop(self) -> Operation {
        match self.0 >> 3 & 0b11 {
            2 => CacopHit,
            _ => CacopOther,
        }
    }

    fn tlb_and_return(self) -> Option<Operation> {
        match (self.0 >> 15, self.0 & 0x7FFF) {
            (0b00000110010010000, 0b010100000000000) => Some(Tlbsrch),
            (0b00000110010010000, 0b010110000000000) => Some(Tlbrd),
            (0b00000110010010000, 0b011000000000000) => Some(Tlbwr),
            (0b00000110010010000, 0b011010000000000) => Some(Tlbfill),
            (0b00000110010010000, 0b011100000000000) => Some(Ertn),
            (0b00000110010010001, _) => Some(Idle),
            (0b00000110010010011, _) => Some(Invtlb),
            _ => None,
        }
    }

    fn if_bit_25_is_0(self, operation: Operation) -> Option<Operation> {
        (self.0 >> 25 & 1 == 0).then_some(operation)
    }

    fn linked(self) -> Option<Operation> {
        match self.0 >> 24 {
            0b00100000 => Some(LlW),
            0b00100001 => Some(ScW),
            _ => None,
        }
    }

    fn load_or_store(self) -> Option<Operation> {
        match self.0 >> 22 {
            0b0010100000 => Some(LdB),
            0b0010100001 => Some(LdH),
            0b0010100010 => Some(LdW),
            0b0010100100 => Some(StB),
            0b0010100101 => Some(StH),
            0b0010100110 => Some(StW),
            0b0010101000 => Some(LdBu),
            0b0010101001 => Some(LdHu),
            0b0010101011 => Some(Preld),
            _ => None,
        }
    }

    fn barrier(self) -> Option<Operation> {
        match self.0 >> 15 {
            0b00111000011100100 => Some(Dbar),
            0b00111000011100101 => Some(Ibar),
            _ => None,
        }
    }
}
