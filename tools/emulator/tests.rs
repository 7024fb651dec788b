//! Experiments from the manual and the documents, with words encoded by hand.

use crate::board_text::print_answers;
use crate::bus::{read_any, write_word, Bank, Refusal};
use crate::cpu::{Core, Event, StepRefusal, RESET_ADDRESS};
use crate::csr;
use crate::decode::{Operation, Word};
use crate::exception::Cause;
use crate::setup::board;
use crate::translation::AccessKind;

const TLBSRCH: u32 = 0x0648_2800;
const TLBRD: u32 = 0x0648_2C00;
const TLBWR: u32 = 0x0648_3000;
const TLBFILL: u32 = 0x0648_3400;
const ERTN: u32 = 0x0648_3800;
const IDLE: u32 = 0x0648_8000;
const SYSCALL: u32 = 0x002B_0000;

fn with_constant(opcode: u32, rd: u32, rj: u32, constant: u32) -> u32 {
    opcode << 22 | (constant & 0xFFF) << 10 | rj << 5 | rd
}

fn of_registers(opcode: u32, rd: u32, rj: u32, rk: u32) -> u32 {
    opcode << 15 | rk << 10 | rj << 5 | rd
}

fn csr_word(number: u32, rj: u32, rd: u32) -> u32 {
    0b00000100 << 24 | number << 10 | rj << 5 | rd
}

fn ll_w(rd: u32, rj: u32) -> u32 {
    0b00100000 << 24 | rj << 5 | rd
}

fn sc_w(rd: u32, rj: u32) -> u32 {
    0b00100001 << 24 | rj << 5 | rd
}

fn invtlb(op: u32, rj: u32, rk: u32) -> u32 {
    0b00000110010010011 << 15 | rk << 10 | rj << 5 | op
}

fn st_w(rd: u32, rj: u32) -> u32 {
    with_constant(0b0010100110, rd, rj, 0)
}

fn ld_w(rd: u32, rj: u32) -> u32 {
    with_constant(0b0010100010, rd, rj, 0)
}

/// A core on the board of a set-up, which executes words one by one where its PC is.
struct Machine {
    core: Core,
    board: Bank,
}

impl Machine {
    fn new() -> Machine {
        Machine {
            core: Core::at_reset(),
            board: board(),
        }
    }

    fn step(&mut self) -> Result<Event, StepRefusal> {
        self.core.step(&mut self.board, 0)
    }

    /// Puts a word at the PC, which is a physical address, and makes one step.
    fn execute(&mut self, word: u32) -> Result<Event, StepRefusal> {
        write_word(&mut self.board, self.core.pc, word).unwrap();
        self.step()
    }

    fn write_csr(&mut self, number: u32, value: u32) -> u32 {
        self.core.set_register(31, value);
        assert_eq!(self.execute(csr_word(number, 1, 31)), Ok(Event::Done));
        self.core.register(31)
    }

    /// Executes `op rd=5, rj=6, rk=7` and gives the result.
    fn result(&mut self, opcode: u32, a: u32, b: u32) -> u32 {
        self.core.set_register(6, a);
        self.core.set_register(7, b);
        assert_eq!(self.execute(of_registers(opcode, 5, 6, 7)), Ok(Event::Done));
        self.core.register(5)
    }

    /// A write of TLBIDX, TLBEHI, both TLBELOs and ASID.
    fn describe_entry(&mut self, tlbidx: u32, tlbehi: u32, even: u32, odd: u32, asid: u32) {
        self.write_csr(csr::TLBIDX, tlbidx);
        self.write_csr(csr::TLBEHI, tlbehi);
        self.write_csr(csr::TLBELO0, even);
        self.write_csr(csr::TLBELO1, odd);
        self.write_csr(csr::ASID, asid);
    }

    /// Maps addresses; a window for both privileges keeps the bank where it is.
    fn map(&mut self) {
        self.write_csr(csr::DMW0, 0x0000_0009);
        self.write_csr(csr::CRMD, 0x10);
    }

    /// Asserts that the next step is refused and changes nothing, also when the core waits or levels differ.
    fn assert_refused(&mut self, by_bus: Refusal, kind: AccessKind) {
        let before = self.core.clone();
        let refusal = StepRefusal {
            by_bus,
            kind,
            pc: self.core.pc,
        };
        for levels in [0, 0x55, 0xFF] {
            assert_eq!(self.core.step(&mut self.board, levels), Err(refusal));
            assert!(self.core == before);
        }
    }
}

#[test]
fn board_text_example() {
    let text =
        "s,1C008000,1FE00000\nl,1C000000,00000100\nh,1C000000,00008000\nb,00000000\nf,1C008000\n\
                v,1FE00000,00000080\np,00000000\nw,1C000100,00000001\nw,1C000000,00000001\n\
                m,1C000100,00000002\nt,00000000\nt,00000000\nd\n";
    let answers = "write done\nwrite refused 9 at 0x1C000000\nread 00000001\nstep exception D 0\n\
                   step refused 8 at 0x00000000 kind 1 pc 00000000\npc 00000000\ncsr 000 00000008\n\
                   csr 005 000D0000\ncsr 006 1C000000\ncsr 010 0C000000\ncsr 018 000A0000\n\
                   counter 0000000000000001\n";
    assert_eq!(answers_to(text), answers);
}

#[test]
fn layers() {
    let board = "s,1C008000,1FE00000\nl,1C007F00,00000200\nh,1C000000,00010000\nb,00000000\n\
                 f,1C008000\nv,1FE00000,00000080\np,00000000\ni,00000004,12345678\ni,00000002,FFFFFFFF\n";
    let calls = [
        ("m,1C000000,00000003", "read refused 7"),
        ("m,00000001,00000002", "read refused 7"),
        ("w,1C000002,00000000", "write refused 7"),
        ("w,1C007EFC,00000001", "write done"),
        ("w,1C007F00,00000001", "write refused 9 at 0x1C007F00"),
        ("m,1C008004,00000004", "read 12345678"),
        ("m,1C008005,00000001", "read 00000056"),
        ("w,1C008004,00000000", "write refused 9 at 0x1C008004"),
        ("w,1C009000,00000000", "write refused 8 at 0x1C009000"),
        ("w,1FE0003C,89ABCDEF", "write done"),
        ("m,1FE0003E,00000002", "read 000089AB"),
        ("m,1FE00040,00000001", "read refused 8 at 0x1FE00040"),
        ("w,1BFFFFFC,00000000", "write refused 8 at 0x1BFFFFFC"),
        ("g,00010001,00000000", "run refused 6"),
        ("z,", "no form"),
        ("m,1fe00040,00000001", "no form"),
    ];
    let text: String = calls.iter().map(|(call, _)| format!("{call}\n")).collect();
    let answers: String = calls
        .iter()
        .map(|(_, answer)| format!("{answer}\n"))
        .collect();
    assert_eq!(
        answers_to(&(board.to_string() + &text)),
        answers + "counter 0000000000000000\n"
    );
}

fn answers_to(text: &str) -> String {
    let mut answers = Vec::new();
    print_answers(text.as_bytes(), &mut answers).unwrap();
    String::from_utf8(answers).unwrap()
}

#[test]
fn words_easily_read_wrong() {
    let cases = [
        (0x0000_6000, Some(Operation::RdcntvlW)),
        (0x0000_60A0, Some(Operation::RdcntidW)),
        (0x0000_60A5, None),
        (0x0000_6420, None),
        (0x0400_0004, Some(Operation::Csrrd)),
        (0x0400_0024, Some(Operation::Csrwr)),
        (0x0400_0044, Some(Operation::Csrxchg)),
        (0x0648_2801, None),
        (0x0649_8007, Some(Operation::Invtlb)),
        (0x0016_0000, None),
        (0x0016_8000, None),
        (0x0100_8000, None),
    ];
    for (word, operation) in cases {
        assert_eq!(Word(word).operation(), operation, "{word:08X}");
    }
}

#[test]
fn arithmetic() {
    let mut machine = Machine::new();
    let (min, minus_1) = (0x8000_0000, 0xFFFF_FFFF);
    let cases = [
        (0b00000000000100010, 1, 2, minus_1),         // sub.w
        (0b00000000000100100, min, 1, 1),             // slt
        (0b00000000000100101, min, 1, 0),             // sltu
        (0b00000000000101000, 0xF0, 0x0F, !0xFF),     // nor
        (0b00000000000101110, 1, 33, 2),              // sll.w
        (0b00000000000110000, min, 31, minus_1),      // sra.w
        (0b00000000000111000, minus_1, 3, !2),        // mul.w
        (0b00000000000111001, min, minus_1, 0),       // mulh.w
        (0b00000000000111001, minus_1, 1, minus_1),   // mulh.w
        (0b00000000000111010, min, minus_1, min - 1), // mulh.wu
        (0b00000000001000000, min, minus_1, min),     // div.w
        (0b00000000001000000, !6, 2, !2),             // div.w
        (0b00000000001000000, 5, 0, minus_1),         // div.w
        (0b00000000001000001, min, minus_1, 0),       // mod.w
        (0b00000000001000001, !6, 2, minus_1),        // mod.w
        (0b00000000001000001, 5, 0, 5),               // mod.w
        (0b00000000001000010, min, 3, 0x2AAA_AAAA),   // div.wu
        (0b00000000001000010, 5, 0, minus_1),         // div.wu
        (0b00000000001000011, min, 3, 2),             // mod.wu
    ];
    for (opcode, a, b, result) in cases {
        assert_eq!(
            machine.result(opcode, a, b),
            result,
            "{opcode:017b} {a:X} {b:X}"
        );
    }
}

#[test]
fn jumps() {
    let mut machine = Machine::new();
    machine.core.set_register(4, RESET_ADDRESS + 0x100);
    // jirl r4, r4, -4: the old r4 counts
    machine
        .execute(0b010011 << 26 | 0xFFFF << 10 | 4 << 5 | 4)
        .unwrap();
    assert_eq!(
        (machine.core.pc, machine.core.register(4)),
        (RESET_ADDRESS + 0xFC, RESET_ADDRESS + 4)
    );
    // bl -4
    machine
        .execute(0b010101 << 26 | 0xFFFF << 10 | 0x3FF)
        .unwrap();
    assert_eq!(
        (machine.core.pc, machine.core.register(1)),
        (RESET_ADDRESS + 0xF8, RESET_ADDRESS + 0x100)
    );
    // r4 is negative, so bge r0, r4 is taken, and bgeu is not.
    machine.core.set_register(4, 0x8000_0000);
    machine.execute(0b011001 << 26 | 2 << 10 | 4).unwrap();
    assert_eq!(machine.core.pc, RESET_ADDRESS + 0x100);
    machine.execute(0b011011 << 26 | 2 << 10 | 4).unwrap();
    assert_eq!(machine.core.pc, RESET_ADDRESS + 0x104);
}

#[test]
fn control_registers_by_their_fields() {
    // What a register reads after a write of all ones, and then of all zeros.
    let cases = [
        (csr::PRMD, 0x7, 0x0),
        (csr::EUEN, 0, 0),
        (0x3, 0, 0),
        (csr::ECFG, 0x1BFF, 0),
        (csr::ESTAT, 0x3, 0),
        (csr::ERA, !0, 0),
        (csr::BADV, !0, 0),
        (csr::EENTRY, 0xFFFF_FFC0, 0),
        (csr::TLBIDX, 0x8C00_000F, 0x0C00_0000),
        (csr::TLBEHI, 0xFFFF_E000, 0),
        (csr::TLBELO0, 0x0FFF_FF7F, 0),
        (csr::TLBELO1, 0x0FFF_FF7F, 0),
        (csr::ASID, 0x000A_03FF, 0x000A_0000),
        (csr::PGDL, 0xFFFF_F000, 0),
        (csr::PGDH, 0xFFFF_F000, 0),
        (csr::PGD, 0, 0),
        (csr::CPUID, 0, 0),
        (csr::SAVE0, !0, 0),
        (csr::SAVE3, !0, 0),
        (csr::TID, !0, 0),
        (csr::TCFG, !0, 0),
        (csr::TICLR, 0, 0),
        (csr::LLBCTL, 0, 0),
        (csr::TLBRENTRY, 0xFFFF_FFC0, 0),
        (csr::CTAG, 0, 0),
        (csr::DMW0, 0xEE00_0039, 0),
        (csr::DMW1, 0xEE00_0039, 0),
        (0x3FFF, 0, 0),
    ];
    for (number, ones, zeros) in cases {
        let mut machine = Machine::new();
        machine.write_csr(number, !0);
        assert_eq!(machine.write_csr(number, 0), ones, "{number:X}");
        assert_eq!(machine.core.csr.read(number), zeros, "{number:X}");
    }
}

#[test]
fn illegal_values_leave_their_field() {
    let mut machine = Machine::new();
    machine.write_csr(csr::CRMD, 0x01E5);
    assert_eq!(machine.core.csr.read(csr::CRMD), 0x01EC);
    machine.write_csr(csr::CRMD, 0x001E);
    assert_eq!(machine.core.csr.read(csr::CRMD), 0x000C);
    machine.write_csr(csr::PRMD, 0x3);
    machine.write_csr(csr::PRMD, 0x6);
    assert_eq!(machine.core.csr.read(csr::PRMD), 0x7);
    machine.write_csr(csr::TLBIDX, 0x1500_0001);
    machine.write_csr(csr::TLBIDX, 0x8D00_0022);
    assert_eq!(machine.core.csr.read(csr::TLBIDX), 0x9500_0002);
}

#[test]
fn timer() {
    let mut machine = Machine::new();
    machine.write_csr(csr::TCFG, 5);
    assert_eq!(machine.core.csr.read(csr::TVAL), 3);
    for pending in [0, 0, 0x800] {
        machine.execute(with_constant(0b0000001101, 0, 0, 0)).unwrap();
        assert_eq!(machine.core.csr.read(csr::ESTAT), pending);
    }
    machine.write_csr(csr::TICLR, 1);
    assert_eq!(
        (
            machine.core.csr.read(csr::ESTAT),
            machine.core.csr.read(csr::TVAL)
        ),
        (0, 0)
    );
    // Periodic, and an exchange of no bit sets the timer again.
    machine.write_csr(csr::TCFG, 7);
    machine.execute(csr_word(csr::TCFG, 2, 3)).unwrap();
    assert_eq!(machine.core.csr.read(csr::TVAL), 3);
    for left in [2, 1, 4, 3] {
        machine.execute(with_constant(0b0000001101, 0, 0, 0)).unwrap();
        assert_eq!(machine.core.csr.read(csr::TVAL), left);
    }
    assert_eq!(machine.core.csr.read(csr::ESTAT), 0x800);
    // Stopped, it keeps its value.
    machine.write_csr(csr::TCFG, 0x102);
    assert_eq!(machine.core.csr.read(csr::TVAL), 3);
}

#[test]
fn interrupts_and_waiting() {
    let mut machine = Machine::new();
    machine.write_csr(csr::EENTRY, RESET_ADDRESS + 0x1000);
    machine.write_csr(csr::ECFG, 0x4);
    machine.execute(IDLE).unwrap();
    let behind_idle = machine.core.pc;
    assert_eq!(
        machine.core.step(&mut machine.board, 0xFE),
        Ok(Event::Waiting)
    );
    assert_eq!(machine.core.csr.read(csr::ESTAT), 0x3F8);
    // IE is 0: the core wakes and goes on.
    write_word(&mut machine.board, behind_idle, IDLE).unwrap();
    assert_eq!(machine.core.step(&mut machine.board, 1), Ok(Event::Done));
    assert!(machine.core.waiting);
    machine.core.csr.write(csr::CRMD, 0xC);
    assert_eq!(
        machine.core.step(&mut machine.board, 1),
        Ok(Event::Exception(Cause::Interrupt))
    );
    assert_eq!(
        (machine.core.csr.read(csr::ERA), machine.core.pc),
        (behind_idle + 4, RESET_ADDRESS + 0x1000)
    );
    assert_eq!(
        (
            machine.core.csr.read(csr::CRMD),
            machine.core.csr.read(csr::PRMD)
        ),
        (0x8, 0x4)
    );
}

#[test]
fn refused_steps_change_nothing() {
    let mut machine = Machine::new();
    machine.write_csr(csr::ECFG, 0x4);
    machine.write_csr(csr::TCFG, 0x401);
    machine.core.set_register(4, RESET_ADDRESS);
    machine.execute(ll_w(5, 4)).unwrap();
    machine.core.set_register(4, 0x1C00_8000);
    let absent = Refusal::Absent(0x1C00_8000);
    let cases = [
        (ld_w(6, 4), AccessKind::Load),
        (st_w(6, 4), AccessKind::Store),
        (sc_w(6, 4), AccessKind::Store),
        (ll_w(6, 4), AccessKind::Load),
    ];
    for (word, kind) in cases {
        write_word(&mut machine.board, machine.core.pc, word).unwrap();
        machine.assert_refused(absent, kind);
    }
    machine.core.pc = 0x1C00_8000;
    machine.assert_refused(absent, AccessKind::Fetch);
}

#[test]
fn waking_for_a_refused_fetch_is_undone() {
    let mut machine = Machine::new();
    machine.write_csr(csr::ECFG, 0x4);
    machine.core.pc = 0x1C00_7FFC;
    machine.execute(IDLE).unwrap();
    let before = machine.core.clone();
    assert!(machine.core.step(&mut machine.board, 1).is_err());
    assert!(before == machine.core && machine.core.waiting);
}

#[test]
fn link() {
    let mut machine = Machine::new();
    let place = RESET_ADDRESS + 0x100;
    machine.core.set_register(4, place);
    machine.core.set_register(5, 7);
    machine.execute(sc_w(5, 4)).unwrap();
    assert_eq!(
        (machine.core.register(5), read_any(&machine.board, place, 4)),
        (0, Ok(0))
    );
    machine.execute(ll_w(6, 4)).unwrap();
    assert_eq!(machine.core.csr.read(csr::LLBCTL), 1);
    machine.core.set_register(5, 7);
    machine.execute(sc_w(5, 4)).unwrap();
    assert_eq!(
        (machine.core.register(5), read_any(&machine.board, place, 4)),
        (1, Ok(7))
    );
    assert_eq!(machine.core.csr.read(csr::LLBCTL), 0);
    // Without the link the bus is not asked, so an absent address is not refused; a misaligned one is an exception all the same.
    machine.core.set_register(4, 0);
    assert_eq!(machine.execute(sc_w(5, 4)), Ok(Event::Done));
    machine.core.set_register(4, 2);
    assert_eq!(
        machine.execute(sc_w(5, 4)),
        Ok(Event::Exception(Cause::Alignment))
    );
    assert_eq!(machine.core.csr.read(csr::BADV), 2);
}

#[test]
fn privilege() {
    for (word, cause) in [
        (csr_word(0, 0, 4), Cause::PrivilegedInstruction),
        (invtlb(7, 0, 0), Cause::PrivilegedInstruction),
        (
            with_constant(0b0000011000, 0b01000, 0, 0),
            Cause::PrivilegedInstruction,
        ),
        (SYSCALL, Cause::SystemCall),
        (0xFFFF_FFFF, Cause::UndefinedInstruction),
    ] {
        let mut machine = Machine::new();
        machine.write_csr(csr::CRMD, 0xB);
        let pc = machine.core.pc;
        assert_eq!(
            machine.execute(word),
            Ok(Event::Exception(cause)),
            "{word:08X}"
        );
        assert_eq!(
            (
                machine.core.csr.read(csr::CRMD),
                machine.core.csr.read(csr::PRMD)
            ),
            (0x8, 0x3)
        );
        assert_eq!(
            (
                machine.core.csr.read(csr::ERA),
                machine.core.csr.read(csr::BADV)
            ),
            (pc, 0)
        );
    }
    let mut machine = Machine::new();
    assert_eq!(
        machine.execute(invtlb(7, 0, 0)),
        Ok(Event::Exception(Cause::UndefinedInstruction))
    );
    // A Hit is open to PLV3, at any address.
    machine = Machine::new();
    machine.write_csr(csr::CRMD, 0xB);
    assert_eq!(
        machine.execute(with_constant(0b0000011000, 0b10111, 0, 3)),
        Ok(Event::Done)
    );
}

#[test]
fn windows() {
    let mut machine = Machine::new();
    machine.core.csr.write(csr::DMW0, 0xA000_0001);
    machine.core.csr.write(csr::CRMD, 0x10);
    assert_eq!(
        machine.core.translate(0xA000_1234, AccessKind::Load),
        Ok(0x1234)
    );
    machine.core.csr.write(csr::CRMD, 0x13);
    assert!(machine
        .core
        .translate(0xA000_1234, AccessKind::Load)
        .is_err());
    machine.core.csr.write(csr::DMW0, 0xA200_0008);
    machine.core.csr.write(csr::DMW1, 0xAE00_0008);
    assert_eq!(
        machine.core.translate(0xA000_1234, AccessKind::Load),
        Ok(0xE000_1234)
    );
}

#[test]
fn large_page() {
    let mut machine = Machine::new();
    // VPPN 0x200 is the address 0x400000; PPN0 0x800.
    machine.describe_entry(0x1500_0003, 0x0040_0000, 0x0008_0041, 0x0000_0040, 0);
    machine.execute(TLBWR).unwrap();
    machine.map();
    assert_eq!(
        machine.core.translate(0x0040_1234, AccessKind::Load),
        Ok(0x0040_1234)
    );
    machine.core.csr.write(csr::DMW0, 0);
    assert_eq!(
        machine.core.translate(0x0040_1234, AccessKind::Load),
        Ok(0x0080_1234)
    );
    let refused =
        |machine: &Machine, address, kind| machine.core.translate(address, kind).unwrap_err().cause;
    assert_eq!(
        refused(&machine, 0x0040_1234, AccessKind::Store),
        Cause::PageModified
    );
    assert_eq!(
        refused(&machine, 0x0060_1234, AccessKind::Store),
        Cause::StorePageInvalid
    );
    assert_eq!(
        refused(&machine, 0x0060_1234, AccessKind::Load),
        Cause::LoadPageInvalid
    );
    assert_eq!(
        refused(&machine, 0x0060_1234, AccessKind::Fetch),
        Cause::FetchPageInvalid
    );
    assert_eq!(
        refused(&machine, 0x0080_0000, AccessKind::Fetch),
        Cause::TlbRefill
    );
    machine.core.csr.write(csr::CRMD, 0x13);
    assert_eq!(
        refused(&machine, 0x0040_1234, AccessKind::Store),
        Cause::PagePrivilege
    );
}

#[test]
fn refill_and_return() {
    let mut machine = Machine::new();
    let refill = RESET_ADDRESS + 0x1000;
    machine.write_csr(csr::TLBRENTRY, refill);
    machine.describe_entry(0x8C00_0002, 0, 0, 0, 0);
    machine.map();
    machine.core.set_register(4, 0x4000_2344);
    let pc = machine.core.pc;
    assert_eq!(
        machine.execute(ld_w(5, 4)),
        Ok(Event::Exception(Cause::TlbRefill))
    );
    assert_eq!(
        (machine.core.pc, machine.core.csr.read(csr::CRMD)),
        (refill, 0x8)
    );
    assert_eq!(
        (
            machine.core.csr.read(csr::BADV),
            machine.core.csr.read(csr::TLBEHI)
        ),
        (0x4000_2344, 0x4000_2000)
    );
    assert_eq!(machine.core.csr.read(csr::ESTAT), 0x003F_0000);
    // In a refill the entry exists though NE is 1.
    machine.execute(TLBFILL).unwrap();
    assert!(machine.core.tlb.entry(0).exists);
    assert_eq!(machine.core.tlb.fill_place(), 1);
    machine.execute(ERTN).unwrap();
    assert_eq!(
        (machine.core.pc, machine.core.csr.read(csr::CRMD)),
        (pc, 0x10)
    );
    assert_eq!(machine.step(), Ok(Event::Exception(Cause::LoadPageInvalid)));
}

#[test]
fn tlb_instructions() {
    let mut machine = Machine::new();
    machine.describe_entry(0x0C00_0005, 0x1234_6000, 0x0000_1241, 0x0000_3401, 0x155);
    machine.execute(TLBWR).unwrap();
    // Found, not found by another ASID, found again.
    machine.write_csr(csr::TLBIDX, 0x8C00_0000);
    machine.execute(TLBSRCH).unwrap();
    assert_eq!(machine.core.csr.read(csr::TLBIDX), 0x0C00_0005);
    machine.write_csr(csr::ASID, 0x156);
    machine.execute(TLBSRCH).unwrap();
    assert_eq!(machine.core.csr.read(csr::TLBIDX), 0x8C00_0005);
    // Read back: not global, since only one half said so; ASID stays.
    machine.describe_entry(0x9500_0005, 0, 0, 0, 1);
    machine.execute(TLBRD).unwrap();
    let read = [
        csr::TLBIDX,
        csr::TLBEHI,
        csr::TLBELO0,
        csr::TLBELO1,
        csr::ASID,
    ]
    .map(|number| machine.core.csr.read(number));
    assert_eq!(
        read,
        [
            0x0C00_0005,
            0x1234_6000,
            0x0000_1201,
            0x0000_3401,
            0x000A_0001
        ]
    );
    // An empty entry sets NE alone.
    machine.write_csr(csr::TLBIDX, 0x1500_0006);
    machine.execute(TLBRD).unwrap();
    let read = [csr::TLBIDX, csr::TLBEHI, csr::TLBELO0].map(|number| machine.core.csr.read(number));
    assert_eq!(read, [0x9500_0006, 0x1234_6000, 0x0000_1201]);
}

#[test]
fn invalidation() {
    // Entries: 0 global of ASID 1, 1 of ASID 1, 2 of ASID 2, and 3 of ASID 1 elsewhere.
    let cases = [
        (0, 0b0000),
        (1, 0b0000),
        (2, 0b1110),
        (3, 0b0001),
        (4, 0b0101),
        (5, 0b1101),
        (6, 0b1100),
    ];
    for (op, left) in cases {
        let mut machine = Machine::new();
        for (index, tlbehi, global, asid) in [
            (0, 0x6000, 0x40, 1),
            (1, 0x6000, 0, 1),
            (2, 0x6000, 0, 2),
            (3, 0x8000, 0, 1),
        ] {
            machine.describe_entry(0x0C00_0000 | index, tlbehi, global, global, asid);
            machine.execute(TLBWR).unwrap();
        }
        machine.core.set_register(6, 0xFFFF_FC01);
        machine.core.set_register(7, 0x7FFF);
        machine.execute(invtlb(op, 6, 7)).unwrap();
        let existing = (0..4).map(|index| u32::from(machine.core.tlb.entry(index).exists) << index);
        assert_eq!(existing.sum::<u32>(), left, "op {op}");
    }
}
