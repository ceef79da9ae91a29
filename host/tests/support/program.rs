//! A short program that reaches devices, run by the library and, at every call, by the reference
//! simulator too.

use crate::reference::machine::{self, Call};
use fanthrig::{Keys, Memory, Mode, Record, Run};

/// Where the program stands.
pub const START: u16 = 0x3000;

/// Loads to R1 and stores from R0 at a device register, by R5, which holds xFE00.
pub const LOAD_DSR: u16 = 0x6344; // LDR R1, R5, #4
pub const STORE_DDR: u16 = 0x7146; // STR R0, R5, #6
pub const LOAD_TSR: u16 = 0x6348; // LDR R1, R5, #8
pub const STORE_TSR: u16 = 0x7148; // STR R0, R5, #8
pub const LOAD_TIR: u16 = 0x634A; // LDR R1, R5, #10
pub const STORE_TIR: u16 = 0x714A; // STR R0, R5, #10

#[derive(Clone)]
pub struct Program {
    pub record: Record,
    pub memory: Box<Memory>,
    pub output: Vec<u8>,
    pub shown: usize,
}

impl Program {
    /// These words in Supervisor mode, then words 0: BR that tests nothing.
    pub fn new(words: &[u16], room: usize) -> Program {
        Program::in_mode(Mode::Supervisor, words, room)
    }

    pub fn in_mode(mode: Mode, words: &[u16], room: usize) -> Program {
        let file: Vec<u8> =
            [&[START], words].concat().into_iter().flat_map(u16::to_be_bytes).collect();
        let mut memory = fanthrig::memory();
        let mut record =
            fanthrig::start(&file, &mut memory, mode, 0xFDFF).expect("accepted").record;
        record.regs[5] = 0xFE00;
        Program { record, memory, output: vec![0; room], shown: 0 }
    }

    /// Runs on, and panics unless the reference does the same.
    pub fn run(&mut self, n: u64) -> Run {
        let (record, mut words) = (self.record, self.memory.clone());
        let mut bytes = self.output[self.shown..].to_vec();
        let (memory, output) = (&mut words[..], &mut bytes[..]);
        let call = Call { record, memory, times: &[], bytes: &[], output, n };
        let expected = machine::run(call, |_| ());
        let free = &mut self.output[self.shown..];
        let run = fanthrig::run(record, &mut self.memory, Keys::NONE, free, n).expect("accepted");
        assert_eq!((run.record, run.steps), (expected.record, expected.steps));
        assert_eq!((run.shown as u64, run.stop.code()), (expected.shown, expected.stop));
        assert!(self.output[self.shown..] == bytes && self.memory == words);
        self.record = run.record;
        self.shown += run.shown;
        run
    }

    pub fn step(&mut self) -> Run {
        self.run(1)
    }

    /// Panics unless a run of `n` steps comes to the same wherever it is split in two. Calls `watch`
    /// with the record at each split.
    pub fn assert_splits(&self, n: u64, mut watch: impl FnMut(&Record)) {
        let mut whole = self.clone();
        let run = whole.run(n);
        for k in 0..=run.steps {
            let mut split = self.clone();
            let first = split.run(k);
            watch(&split.record);
            let second = split.run(n - k);
            assert_eq!((first.steps, first.steps + second.steps), (k, run.steps));
            assert_eq!((split.record, second.stop), (whole.record, run.stop));
            assert!(split.output == whole.output && split.memory == whole.memory);
        }
    }
}
