//! The fourteen examples, held against the library and against the reference simulator.

mod reference;

use fanthrig::ffi::Answer;
use fanthrig::{Instruction, Keys, Memory, Record};
use reference::figure::{self, Fields, Kind};
use reference::machine::{self, Call};

const WHERE: u16 = 0x3000;

/// One step of an example: what differs from the usual record, and the words to stand in memory.
struct Example {
    record: Record,
    memory: Box<Memory>,
}

/// The words that the vectors hold, so that PC tells which one was taken.
const PRIVILEGE: u16 = 0x1100;
const ACCESS: u16 = 0x1102;
const KEYBOARD: u16 = 0x1180;
const TRAP_X25: u16 = 0x1025;

/// A User record at x3000 with the given word there.
fn user(word: u16) -> Example {
    let mut memory = fanthrig::memory();
    memory[usize::from(WHERE)] = word;
    memory[0x0025] = TRAP_X25;
    memory[0x0100] = PRIVILEGE;
    memory[0x0102] = ACCESS;
    memory[0x0180] = KEYBOARD;
    let record = Record {
        regs: [0, 0, 0, 0, 0, 0, 0xFDFF, 0],
        pc: WHERE,
        psr: 0x8002,
        saved_ssp: 0x3000,
        saved_usp: 0,
        kbsr: 0,
        kbdr: 0,
        mcr: 0x8000,
        busy: 0,
        timer_status: 0,
        timer_interval: 0,
        timer_count: 0,
        clock: 0,
    };
    Example { record, memory }
}

impl Example {
    fn with(mut self, change: impl FnOnce(&mut Record)) -> Self {
        change(&mut self.record);
        self
    }

    fn at(mut self, address: u16, word: u16) -> Self {
        self.memory[usize::from(address)] = word;
        self
    }

    /// The record and memory after one step, in which library and reference agree.
    fn step(self) -> (Record, Box<Memory>) {
        let (mut ours, mut theirs) = (self.memory.clone(), self.memory);
        let run = fanthrig::run(self.record, &mut ours, Keys::NONE, &mut [], 1).expect("accepted");
        let call = Call {
            record: self.record,
            memory: &mut theirs[..],
            times: &[],
            bytes: &[],
            output: &mut [],
            n: 1,
        };
        let answer = machine::run(call, |_| ());
        let record = run.record;
        let one_step =
            Answer { record, steps: 1, keys: 0, shown: 0, index: 0, refusal: 0, stop: 0 };
        assert_eq!(answer, one_step);
        assert!(ours == theirs);
        (record, ours)
    }
}

#[test]
fn example_1_reads_an_add() {
    let fields = Fields { kind: Kind::AddImmediate, a: 2, b: 3, c: 0, value: 7 };
    assert_eq!(figure::read(0x14E7), fields);
    assert_eq!(
        fanthrig::read(0x14E7).instruction,
        Instruction::AddImmediate { dr: 2, sr1: 3, imm5: 7 }
    );
}

#[test]
fn examples_2_and_3_add_with_wrapping() {
    let (record, _) = user(0x1021).with(|r| r.regs[0] = 0x7FFF).step();
    assert_eq!((record.regs[0], record.psr), (0x8000, 0x8004));
    let (record, _) = user(0x1021).with(|r| r.regs[0] = 0xFFFF).step();
    assert_eq!((record.regs[0], record.psr), (0x0000, 0x8002));
}

#[test]
fn examples_4_and_5_branch() {
    assert_eq!(user(0x0005).step().0.pc, 0x3001);
    assert_eq!(user(0x0FFF).step().0.pc, 0x3000);
}

#[test]
fn example_6_leaves_the_codes_to_others() {
    let (record, _) = user(0xE1FF).step();
    assert_eq!((record.regs[0], record.psr), (0x3000, 0x8002));
}

#[test]
fn example_7_jumps_to_the_old_base_register() {
    let (record, _) = user(0x41C0).with(|r| r.regs[7] = 0x4000).step();
    assert_eq!((record.pc, record.regs[7]), (0x4000, 0x3001));
}

#[test]
fn example_8_refuses_rti_to_the_user() {
    let (record, memory) = user(0x8000).step();
    assert_eq!((memory[0x2FFF], memory[0x2FFE]), (0x8002, 0x3000));
    assert_eq!((record.regs[6], record.saved_usp), (0x2FFE, 0xFDFF));
    assert_eq!((record.psr, record.pc), (0x0002, PRIVILEGE));
}

#[test]
fn examples_9_and_10_stop_the_user_at_both_borders() {
    let load = |base| user(0x6040).with(|r| r.regs[1] = base).at(0xFDFF, 0x1234).step().0;
    assert_eq!(load(0x2FFF).pc, ACCESS);
    assert_eq!((load(0x3000).pc, load(0x3000).regs[0]), (0x3001, 0x6040));
    assert_eq!(load(0xFE00).pc, ACCESS);
    assert_eq!((load(0xFDFF).pc, load(0xFDFF).regs[0]), (0x3001, 0x1234));
}

#[test]
fn example_11_pushes_the_next_address() {
    let (record, memory) = user(0xF025).step();
    assert_eq!((memory[0x2FFF], memory[0x2FFE], record.pc), (0x8002, 0x3001, TRAP_X25));
}

#[test]
fn example_12_takes_the_vector_after_the_pushes() {
    assert_eq!(user(0xF025).with(|r| r.saved_ssp = 0x0026).step().0.pc, 0x8002);
}

#[test]
fn example_13_returns_with_the_defined_bits() {
    let supervisor = |r: &mut Record| {
        r.psr = 0x0002;
        r.regs[6] = 0x2FFE;
    };
    let example = user(0x8000).with(supervisor).at(0x2FFE, 0x3001).at(0x2FFF, 0xFFFF);
    let (record, _) = example.step();
    assert_eq!((record.psr, record.pc, record.saved_ssp), (0x8707, 0x3001, 0x3000));
}

#[test]
fn example_14_interrupts_below_priority_4() {
    let interrupted = |psr| user(0x0000).with(|r| (r.kbsr, r.psr) = (0xC000, psr)).step().0;
    let record = interrupted(0x8302);
    assert_eq!((record.psr, record.pc, record.kbsr), (0x0402, KEYBOARD, 0xC000));
    let record = interrupted(0x8402);
    assert_eq!((record.psr, record.pc), (0x8402, 0x3001));
}
