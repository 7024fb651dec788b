//! The control registers, with the timer, the counter and the link, and what exceptions, the return
//! from them, interrupts and the TLB's instructions do to them.

use crate::exception::{Cause, Exception};
use crate::tlb::{Entry, Page, LARGE_PAGE, SMALL_PAGE};

pub const CRMD: u32 = 0x0;
pub const PRMD: u32 = 0x1;
pub const EUEN: u32 = 0x2;
pub const ECFG: u32 = 0x4;
pub const ESTAT: u32 = 0x5;
pub const ERA: u32 = 0x6;
pub const BADV: u32 = 0x7;
pub const EENTRY: u32 = 0xC;
pub const TLBIDX: u32 = 0x10;
pub const TLBEHI: u32 = 0x11;
pub const TLBELO0: u32 = 0x12;
pub const TLBELO1: u32 = 0x13;
pub const ASID: u32 = 0x18;
pub const PGDL: u32 = 0x19;
pub const PGDH: u32 = 0x1A;
pub const PGD: u32 = 0x1B;
pub const CPUID: u32 = 0x20;
pub const SAVE0: u32 = 0x30;
pub const SAVE1: u32 = 0x31;
pub const SAVE2: u32 = 0x32;
pub const SAVE3: u32 = 0x33;
pub const TID: u32 = 0x40;
pub const TCFG: u32 = 0x41;
pub const TVAL: u32 = 0x42;
pub const TICLR: u32 = 0x44;
pub const LLBCTL: u32 = 0x60;
pub const TLBRENTRY: u32 = 0x88;
pub const CTAG: u32 = 0x98;
pub const DMW0: u32 = 0x180;
pub const DMW1: u32 = 0x181;

/// The number of every register, in rising order.
pub const NUMBERS: [u32; 30] = [
    CRMD, PRMD, EUEN, ECFG, ESTAT, ERA, BADV, EENTRY, TLBIDX, TLBEHI, TLBELO0, TLBELO1, ASID, PGDL,
    PGDH, PGD, CPUID, SAVE0, SAVE1, SAVE2, SAVE3, TID, TCFG, TVAL, TICLR, LLBCTL, TLBRENTRY, CTAG,
    DMW0, DMW1,
];

// Fields of CRMD, and PLV and IE of PRMD at the same bits.
const PLV: u32 = 0b11;
const IE: u32 = 1 << 2;
const DA: u32 = 1 << 3;
const PG: u32 = 1 << 4;
const DATF_DATM: u32 = 0b1111 << 5;

// Groups of interrupts in ESTAT and ECFG.
const SOFTWARE_INTERRUPTS: u32 = 0b11;
const HARDWARE_INTERRUPTS: u32 = 0xFF << 2;
const TIMER_INTERRUPT: u32 = 1 << 11;
const INTERPROCESSOR_INTERRUPT: u32 = 1 << 12;
const ENABLED_INTERRUPTS: u32 =
    SOFTWARE_INTERRUPTS | HARDWARE_INTERRUPTS | TIMER_INTERRUPT | INTERPROCESSOR_INTERRUPT;

// Fields of TLBIDX and the TLBELO registers.
const INDEX: u32 = 0xF;
const PS: u32 = 0x3F << 24;
const NE: u32 = 1 << 31;
const VPPN: u32 = !0 << 13;
const VALID: u32 = 1 << 0;
const DIRTY: u32 = 1 << 1;
const GLOBAL: u32 = 1 << 6;
const PAGE_FIELDS: u32 = 0x0FFF_FF7F;

// Fields of other registers.
const ASID_FIELD: u32 = 0x3FF;
const ASIDBITS: u32 = 10 << 16;
const HANDLER_ADDRESS: u32 = !0 << 6;
const DIRECTORY_BASE: u32 = !0 << 12;
const WINDOW_FIELDS: u32 = 0xEE00_0039;
const TIMER_ENABLED: u32 = 1 << 0;
const TIMER_PERIODIC: u32 = 1 << 1;
const TIMER_INITIAL: u32 = !0 << 2;
const CLEAR_TIMER_INTERRUPT: u32 = 1 << 0;
const CLEAR_LINK: u32 = 1 << 1;

/// Registers are kept as the words that a read gives, but for ESTAT, which is kept in two parts.
#[derive(Clone, Debug, PartialEq, Eq)]
pub struct ControlRegisters {
    crmd: u32,
    prmd: u32,
    ecfg: u32,
    /// ESTAT.IS at its bits.
    pending: u32,
    last_cause: Cause,
    era: u32,
    badv: u32,
    eentry: u32,
    tlbidx: u32,
    tlbehi: u32,
    tlbelo: [u32; 2],
    asid: u32,
    pgdl: u32,
    pgdh: u32,
    save: [u32; 4],
    tid: u32,
    tcfg: u32,
    timer: u32,
    tlbrentry: u32,
    windows: [u32; 2],
    pub counter: u64,
    pub link: bool,
}

impl ControlRegisters {
    pub fn at_reset() -> ControlRegisters {
        ControlRegisters {
            crmd: DA,
            prmd: 0,
            ecfg: 0,
            pending: 0,
            last_cause: Cause::Interrupt,
            era: 0,
            badv: 0,
            eentry: 0,
            tlbidx: SMALL_PAGE << 24,
            tlbehi: 0,
            tlbelo: [0; 2],
            asid: 0,
            pgdl: 0,
            pgdh: 0,
            save: [0; 4],
            tid: 0,
            tcfg: 0,
            timer: 0,
            tlbrentry: 0,
            windows: [0; 2],
            counter: 0,
            link: false,
        }
    }

    /// What a register reads. A number without a register reads 0, as do registers without a fitted field.
    pub fn read(&self, number: u32) -> u32 {
        match number {
            CRMD => self.crmd,
            PRMD => self.prmd,
            ECFG => self.ecfg,
            ESTAT => self.last_cause.code() << 16 | self.pending,
            ERA => self.era,
            BADV => self.badv,
            EENTRY => self.eentry,
            TLBIDX => self.tlbidx,
            TLBEHI => self.tlbehi,
            TLBELO0 => self.tlbelo[0],
            TLBELO1 => self.tlbelo[1],
            ASID => ASIDBITS | self.asid,
            PGDL => self.pgdl,
            PGDH => self.pgdh,
            PGD if self.badv >> 31 == 0 => self.pgdl,
            PGD => self.pgdh,
            SAVE0..=SAVE3 => self.save[(number - SAVE0) as usize],
            TID => self.tid,
            TCFG => self.tcfg,
            TVAL => self.timer,
            LLBCTL => u32::from(self.link),
            TLBRENTRY => self.tlbrentry,
            DMW0 => self.windows[0],
            DMW1 => self.windows[1],
            _ => 0,
        }
    }

    /// Writes a whole register. Read-only fields, and numbers without a register, ignore it.
    pub fn write(&mut self, number: u32, value: u32) {
        match number {
            CRMD => self.write_crmd(value),
            PRMD => self.prmd = value & IE | legal_plv(value, self.prmd),
            ECFG => self.ecfg = value & ENABLED_INTERRUPTS,
            ESTAT => {
                self.pending = self.pending & !SOFTWARE_INTERRUPTS | value & SOFTWARE_INTERRUPTS
            }
            ERA => self.era = value,
            BADV => self.badv = value,
            EENTRY => self.eentry = value & HANDLER_ADDRESS,
            TLBIDX => self.write_tlbidx(value),
            TLBEHI => self.tlbehi = value & VPPN,
            TLBELO0 => self.tlbelo[0] = value & PAGE_FIELDS,
            TLBELO1 => self.tlbelo[1] = value & PAGE_FIELDS,
            ASID => self.asid = value & ASID_FIELD,
            PGDL => self.pgdl = value & DIRECTORY_BASE,
            PGDH => self.pgdh = value & DIRECTORY_BASE,
            SAVE0..=SAVE3 => self.save[(number - SAVE0) as usize] = value,
            TID => self.tid = value,
            TCFG => self.write_tcfg(value),
            TICLR => self.write_ticlr(value),
            LLBCTL => self.write_llbctl(value),
            TLBRENTRY => self.tlbrentry = value & HANDLER_ADDRESS,
            DMW0 => self.windows[0] = value & WINDOW_FIELDS,
            DMW1 => self.windows[1] = value & WINDOW_FIELDS,
            _ => {}
        }
    }

    fn write_crmd(&mut self, value: u32) {
        let mode = match value & (DA | PG) {
            DA => DA,
            PG => PG,
            _ => self.crmd & (DA | PG),
        };
        self.crmd = value & (IE | DATF_DATM) | mode | legal_plv(value, self.crmd);
    }

    fn write_tlbidx(&mut self, value: u32) {
        let page_size = match value & PS {
            legal if legal == SMALL_PAGE << 24 || legal == LARGE_PAGE << 24 => legal,
            _ => self.tlbidx & PS,
        };
        self.tlbidx = value & (INDEX | NE) | page_size;
    }

    fn write_tcfg(&mut self, value: u32) {
        self.tcfg = value;
        if value & TIMER_ENABLED != 0 {
            self.timer = value & TIMER_INITIAL;
        }
    }

    fn write_ticlr(&mut self, value: u32) {
        if value & CLEAR_TIMER_INTERRUPT != 0 {
            self.pending &= !TIMER_INTERRUPT;
        }
    }

    fn write_llbctl(&mut self, value: u32) {
        if value & CLEAR_LINK != 0 {
            self.link = false;
        }
    }
}

/// The PLV that a write leaves: 1 and 2 are not legal and leave the old one.
fn legal_plv(value: u32, old: u32) -> u32 {
    match value & PLV {
        legal @ (0 | 3) => legal,
        _ => old & PLV,
    }
}

/// What steps, instructions and translation look at.
impl ControlRegisters {
    pub fn privilege(&self) -> u32 {
        self.crmd & PLV
    }

    pub fn is_user(&self) -> bool {
        self.privilege() != 0
    }

    pub fn has_direct_addresses(&self) -> bool {
        self.crmd & DA != 0
    }

    pub fn address_space(&self) -> u32 {
        self.asid
    }

    pub fn windows(&self) -> [u32; 2] {
        self.windows
    }

    pub fn timer_number(&self) -> u32 {
        self.tid
    }

    pub fn timer(&self) -> u32 {
        self.timer
    }
}

/// Interrupts and the timer.
impl ControlRegisters {
    /// ESTAT.IS, for `set_pending` to put back.
    pub fn pending(&self) -> u32 {
        self.pending
    }

    pub fn set_pending(&mut self, pending: u32) {
        self.pending = pending;
    }

    pub fn take_levels(&mut self, levels: u8) {
        self.pending = self.pending & !HARDWARE_INTERRUPTS | u32::from(levels) << 2;
    }

    pub fn is_interrupt_due(&self) -> bool {
        self.pending & self.ecfg != 0
    }

    pub fn are_interrupts_taken(&self) -> bool {
        self.crmd & IE != 0
    }

    /// What time does at the end of every step.
    pub fn beat(&mut self) {
        self.counter = self.counter.wrapping_add(1);
        if self.tcfg & TIMER_ENABLED != 0 && self.timer > 0 {
            self.timer -= 1;
            if self.timer == 0 {
                self.timer_ran_out();
            }
        }
    }

    fn timer_ran_out(&mut self) {
        self.pending |= TIMER_INTERRUPT;
        if self.tcfg & TIMER_PERIODIC != 0 {
            self.timer = self.tcfg & TIMER_INITIAL;
        }
    }
}

/// Exceptions and the return from them.
impl ControlRegisters {
    /// Enters an exception of the instruction at `pc` and gives the handler's address.
    pub fn raise(&mut self, exception: Exception, pc: u32) -> u32 {
        self.prmd = self.crmd & (PLV | IE);
        self.crmd &= !(PLV | IE);
        self.era = pc;
        self.last_cause = exception.cause;
        if let Some(address) = exception.address {
            self.badv = address;
            if exception.cause.is_of_translation() {
                self.tlbehi = address & VPPN;
            }
        }
        if exception.cause == Cause::TlbRefill {
            self.crmd = self.crmd & !PG | DA;
            return self.tlbrentry;
        }
        self.eentry
    }

    /// `ertn`: gives the address to go on at.
    pub fn return_from_exception(&mut self) -> u32 {
        self.crmd = self.crmd & !(PLV | IE) | self.prmd;
        if self.is_in_refill() {
            self.crmd = self.crmd & !DA | PG;
        }
        self.link = false;
        self.era
    }

    fn is_in_refill(&self) -> bool {
        self.last_cause == Cause::TlbRefill
    }
}

/// What the TLB's instructions read and write.
impl ControlRegisters {
    pub fn tlb_index(&self) -> usize {
        (self.tlbidx & INDEX) as usize
    }

    /// The page pair in TLBEHI as an address.
    pub fn searched_address(&self) -> u32 {
        self.tlbehi
    }

    /// `tlbsrch`: the index stays where nothing was found.
    pub fn take_found(&mut self, found: Option<usize>) {
        match found {
            Some(index) => self.tlbidx = self.tlbidx & PS | index as u32,
            None => self.tlbidx |= NE,
        }
    }

    /// `tlbrd`: an empty entry sets NE and nothing else, and ASID is never written.
    pub fn take_entry(&mut self, entry: &Entry) {
        if !entry.exists {
            self.tlbidx |= NE;
            return;
        }
        self.tlbidx = self.tlbidx & INDEX | entry.page_size << 24;
        self.tlbehi = entry.vppn << 13;
        self.tlbelo = entry.pages.map(|page| page_word(page, entry.global));
    }

    /// `tlbwr` and `tlbfill`: in a refill the entry exists whatever NE is.
    pub fn new_entry(&self) -> Entry {
        Entry {
            exists: self.tlbidx & NE == 0 || self.is_in_refill(),
            address_space: self.asid,
            global: self.tlbelo[0] & self.tlbelo[1] & GLOBAL != 0,
            page_size: (self.tlbidx & PS) >> 24,
            vppn: self.tlbehi >> 13,
            pages: self.tlbelo.map(page_of_word),
        }
    }
}

/// A page as TLBELO0 or TLBELO1 has it.
fn page_word(page: Page, global: bool) -> u32 {
    u32::from(page.valid)
        | u32::from(page.dirty) << 1
        | page.privilege << 2
        | page.access_type << 4
        | u32::from(global) << 6
        | page.frame << 8
}

fn page_of_word(word: u32) -> Page {
    Page {
        valid: word & VALID != 0,
        dirty: word & DIRTY != 0,
        privilege: word >> 2 & 0b11,
        access_type: word >> 4 & 0b11,
        frame: word >> 8,
    }
}
