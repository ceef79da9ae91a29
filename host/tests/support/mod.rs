//! What the test programs share: random numbers, guarded buffers and calls of the library.

// Each test program uses its own part of this module.
#![allow(dead_code)]

pub mod candidates;
pub mod cases;
pub mod hosts;
pub mod lines;
pub mod pages;
pub mod pairs;
pub mod program;
pub mod rings;
pub mod sittings;

use crate::reference::machine;
use cases::{Case, FAMILIES};
use fanthrig::ffi::{
    self, Answer, LoggedAnswer, LoggedCall, Report, RunCall, StepCall, TellCall, Told,
};
use fanthrig::Record;
use std::env;
use std::time::{SystemTime, UNIX_EPOCH};

/// Random numbers by SplitMix64.
#[derive(Clone, Debug)]
pub struct Rng(u64);

impl Rng {
    /// The numbers of one case, which depend on nothing but the seed and the case's number.
    pub fn of_case(seed: u64, number: u64) -> Rng {
        Rng(Rng(seed ^ Rng(number).next()).next())
    }

    pub fn next(&mut self) -> u64 {
        self.0 = self.0.wrapping_add(0x9E37_79B9_7F4A_7C15);
        let mut mixed = self.0;
        mixed = (mixed ^ mixed >> 30).wrapping_mul(0xBF58_476D_1CE4_E5B9);
        mixed = (mixed ^ mixed >> 27).wrapping_mul(0x94D0_49BB_1331_11EB);
        mixed ^ mixed >> 31
    }

    pub fn word(&mut self) -> u16 {
        self.next() as u16
    }

    pub fn below(&mut self, limit: u64) -> u64 {
        self.next() % limit
    }

    pub fn between(&mut self, least: i32, greatest: i32) -> i32 {
        least + self.below((greatest - least + 1) as u64) as i32
    }

    /// True once in `times` on average.
    pub fn once_in(&mut self, times: u64) -> bool {
        self.below(times) == 0
    }

    pub fn pick<T: Copy>(&mut self, choices: &[T]) -> T {
        choices[self.below(choices.len() as u64) as usize]
    }
}

fn setting(name: &str) -> Option<u64> {
    let text = env::var(name).ok()?;
    Some(text.parse().unwrap_or_else(|_| panic!("{name} is no number: {text}")))
}

/// The seed from `LC3_SEED`, or else from the clock; it is printed.
pub fn seed() -> u64 {
    let clock = || SystemTime::now().duration_since(UNIX_EPOCH).expect("a clock").as_nanos() as u64;
    let seed = setting("LC3_SEED").unwrap_or_else(clock);
    println!("LC3_SEED={seed}");
    seed
}

/// The number of random runs: 1 if `LC3_CASE` asks for a certain one, or else that of `LC3_RUNS`, or
/// else `usual`.
pub fn runs(usual: u64) -> u64 {
    let only = setting("LC3_CASE").map(|_| 1);
    at_least_one(only.or(setting("LC3_RUNS")).unwrap_or(usual))
}

/// Panics if there is nothing to run: a test of no runs would pass.
pub fn at_least_one(runs: u64) -> u64 {
    assert!(runs > 0, "a test of 0 runs tests nothing");
    runs
}

/// A buffer to lend, with cells on both sides that no call may alter.
pub struct Lent<T> {
    cells: Vec<T>,
    guard: T,
}

const GUARDS: usize = 32;

impl<T: Copy + PartialEq> Lent<T> {
    pub fn new(guard: T) -> Self {
        Lent { cells: vec![guard; 2 * GUARDS], guard }
    }

    pub fn set(&mut self, content: &[T]) {
        self.cells.clear();
        self.cells.resize(GUARDS, self.guard);
        self.cells.extend_from_slice(content);
        self.cells.resize(content.len() + 2 * GUARDS, self.guard);
    }

    pub fn get(&self) -> &[T] {
        &self.cells[GUARDS..self.cells.len() - GUARDS]
    }

    pub fn get_mut(&mut self) -> &mut [T] {
        let end = self.cells.len() - GUARDS;
        &mut self.cells[GUARDS..end]
    }

    /// The buffer as an array of its own length, or none where its length is another.
    pub fn get_array<const N: usize>(&mut self) -> Option<&mut [T; N]> {
        self.get_mut().try_into().ok()
    }

    pub fn guards_intact(&self) -> bool {
        let (before, after) = (&self.cells[..GUARDS], &self.cells[self.cells.len() - GUARDS..]);
        before.iter().chain(after).all(|cell| *cell == self.guard)
    }
}

/// Leaves bytes on the stack, where a call that begins now has its own variables: what reads a byte
/// before it has written it comes to something else by that than on a stack of zeros.
#[inline(never)]
fn fill_stack(byte: u8) {
    std::hint::black_box(&[byte; 32768]);
}

/// The four buffers that a call is lent.
pub struct Buffers {
    pub memory: Lent<u16>,
    pub times: Lent<u64>,
    pub bytes: Lent<u8>,
    pub output: Lent<u8>,
}

impl Buffers {
    pub fn new() -> Self {
        Buffers {
            memory: Lent::new(0x6A6A),
            times: Lent::new(0x6A6A_6A6A_6A6A_6A6A),
            bytes: Lent::new(0x6A),
            output: Lent::new(0x6A),
        }
    }

    /// Fills the buffers as a case has them, over the words of a template.
    pub fn set(&mut self, case: &Case, template: &[u16]) {
        self.memory.set(&template[..case.memory_len]);
        for &(at, word) in &case.patches {
            if let Some(cell) = self.memory.get_mut().get_mut(usize::from(at)) {
                *cell = word;
            }
        }
        self.lend(case);
    }

    /// Fills the lists of keys and the output alone: memory is as the last call left it.
    pub fn lend(&mut self, case: &Case) {
        self.times.set(&case.times);
        self.bytes.set(&case.bytes);
        self.output.set(&case.output);
    }

    /// Panics if a call altered a list of keys or anything beside the buffers.
    pub fn check(&self, case: &Case) {
        assert!(self.memory.guards_intact(), "a word outside memory was altered");
        assert!(self.times.guards_intact(), "a time outside the list was altered");
        assert!(self.bytes.guards_intact(), "a byte outside the list of keys was altered");
        assert!(self.output.guards_intact(), "a byte outside the output was altered");
        assert_eq!(self.times.get(), case.times, "the times were altered");
        assert_eq!(self.bytes.get(), case.bytes, "the keys were altered");
    }

    /// Calls `lc3_run` with the keys and the part of the output that earlier calls left.
    pub fn run(&mut self, record: Record, keys: usize, shown: usize, n: u64) -> Answer {
        self.run_by(ffi::lc3_run, record, keys, shown, n)
    }

    /// Calls `lc3_run_long` likewise.
    pub fn run_long(&mut self, record: Record, keys: usize, shown: usize, n: u64) -> Answer {
        self.run_by(ffi::lc3_run_long, record, keys, shown, n)
    }

    /// Calls `lc3_step` likewise.
    pub fn step(&mut self, record: &mut Record, keys: usize, shown: usize) -> Report {
        self.step_by(ffi::lc3_step, record, keys, shown)
    }

    /// Calls `lc3_run_second` with all keys and the whole output.
    pub fn run_second(&mut self, record: Record, n: u64) -> Answer {
        self.run_by(ffi::lc3_run_second, record, 0, 0, n)
    }

    /// Calls `lc3_step_second` likewise.
    pub fn step_second(&mut self, record: &mut Record) -> Report {
        self.step_by(ffi::lc3_step_second, record, 0, 0)
    }

    /// Calls `lc3_tell`, or `lc3_tell_second`, with all keys.
    pub fn tell_by(&self, call: TellCall, record: Record) -> Told {
        let (memory, times, bytes) = (self.memory.get(), self.times.get(), self.bytes.get());
        // SAFETY: the pointers and lengths are those of three slices, which are only read.
        unsafe {
            call(
                record,
                memory.as_ptr(),
                memory.len(),
                times.as_ptr(),
                times.len(),
                bytes.as_ptr(),
                bytes.len(),
            )
        }
    }

    fn run_by(
        &mut self,
        call: RunCall,
        record: Record,
        keys: usize,
        shown: usize,
        n: u64,
    ) -> Answer {
        let (times, bytes) = (&self.times.get()[keys..], &self.bytes.get()[keys..]);
        let (memory, output) = (self.memory.get_mut(), &mut self.output.get_mut()[shown..]);
        fill_stack(n as u8 | 1);
        // SAFETY: the pointers and lengths are those of four slices that do not overlap.
        unsafe {
            call(
                record,
                memory.as_mut_ptr(),
                memory.len(),
                times.as_ptr(),
                times.len(),
                bytes.as_ptr(),
                bytes.len(),
                output.as_mut_ptr(),
                output.len(),
                n,
            )
        }
    }

    fn step_by(
        &mut self,
        call: StepCall,
        record: &mut Record,
        keys: usize,
        shown: usize,
    ) -> Report {
        let (times, bytes) = (&self.times.get()[keys..], &self.bytes.get()[keys..]);
        let (memory, output) = (self.memory.get_mut(), &mut self.output.get_mut()[shown..]);
        fill_stack(record.pc as u8 | 1);
        // SAFETY: as in `run_by`; `record` is a reference of its own.
        unsafe {
            call(
                record,
                memory.as_mut_ptr(),
                memory.len(),
                times.as_ptr(),
                times.len(),
                bytes.as_ptr(),
                bytes.len(),
                output.as_mut_ptr(),
                output.len(),
            )
        }
    }

    /// Calls `lc3_run_logged` with all keys, the whole output and a log.
    pub fn run_logged(&mut self, record: Record, log: &mut Lent<u16>, n: u64) -> LoggedAnswer {
        self.run_logged_after(record, 0, 0, log.get_mut(), n)
    }

    /// Calls `lc3_run_logged_second` likewise.
    pub fn run_logged_second(
        &mut self,
        record: Record,
        log: &mut Lent<u16>,
        n: u64,
    ) -> LoggedAnswer {
        self.run_logged_by(ffi::lc3_run_logged_second, record, 0, 0, log.get_mut(), n)
    }

    /// Calls `lc3_run_logged` with the keys and the parts of output and log that earlier calls left.
    pub fn run_logged_after(
        &mut self,
        record: Record,
        keys: usize,
        shown: usize,
        log: &mut [u16],
        n: u64,
    ) -> LoggedAnswer {
        self.run_logged_by(ffi::lc3_run_logged, record, keys, shown, log, n)
    }

    fn run_logged_by(
        &mut self,
        call: LoggedCall,
        record: Record,
        keys: usize,
        shown: usize,
        log: &mut [u16],
        n: u64,
    ) -> LoggedAnswer {
        let (times, bytes) = (&self.times.get()[keys..], &self.bytes.get()[keys..]);
        let (memory, output) = (self.memory.get_mut(), &mut self.output.get_mut()[shown..]);
        // SAFETY: as in `run`; the log is a slice of its own.
        unsafe {
            call(
                record,
                memory.as_mut_ptr(),
                memory.len(),
                times.as_ptr(),
                times.len(),
                bytes.as_ptr(),
                bytes.len(),
                output.as_mut_ptr(),
                output.len(),
                log.as_mut_ptr(),
                log.len(),
                n,
            )
        }
    }

    /// What the reference simulator is handed when it is to use these buffers.
    pub fn call(&mut self, record: Record, n: u64) -> machine::Call<'_> {
        machine::Call {
            record,
            memory: self.memory.get_mut(),
            times: self.times.get(),
            bytes: self.bytes.get(),
            output: self.output.get_mut(),
            n,
        }
    }
}

/// The counts of a run and of the one that went on from it, with the answer of the latter.
pub fn joined(first: Answer, second: Answer) -> Answer {
    Answer {
        steps: first.steps + second.steps,
        keys: first.keys + second.keys,
        shown: first.shown + second.shown,
        ..second
    }
}

/// Panics unless two calls left the same words and the same output.
pub fn assert_same_buffers(ours: &Buffers, theirs: &Buffers) {
    if ours.memory.get() != theirs.memory.get() {
        let pairs = ours.memory.get().iter().zip(theirs.memory.get());
        let at = pairs.take_while(|(our, their)| our == their).count();
        let (our, their) = (ours.memory.get()[at], theirs.memory.get()[at]);
        panic!("memory differs, first at x{at:04X}: x{our:04X} and x{their:04X}");
    }
    assert_eq!(ours.output.get(), theirs.output.get(), "the output differs");
}

/// Names the case on standard error if its test panics.
struct Announce<'a> {
    seed: u64,
    number: u64,
    case: &'a Case,
}

impl Drop for Announce<'_> {
    fn drop(&mut self) {
        if std::thread::panicking() {
            eprintln!("LC3_SEED={}, case {}: {:x?}", self.seed, self.number, self.case);
        }
    }
}

/// Cases that share one template of memory. To make one takes longer than to run a case over it;
/// one for all cases would leave every word that none of them plants the same throughout a test.
const CASES_PER_TEMPLATE: u64 = 4096;

/// Calls `law` with random cases and the template that they go over.
pub fn for_cases(count: u64, law: impl FnMut(&mut Rng, &Case, &[u16])) {
    let any = |rng: &mut Rng, _: &[u16]| {
        let family = rng.pick(&FAMILIES);
        cases::case(rng, family)
    };
    for_cases_by(count, any, law);
}

/// The same with cases that `make` makes for the template.
pub fn for_cases_by(
    count: u64,
    mut make: impl FnMut(&mut Rng, &[u16]) -> Case,
    mut law: impl FnMut(&mut Rng, &Case, &[u16]),
) {
    let (seed, first) = (seed(), setting("LC3_CASE").unwrap_or(0));
    let mut template = Vec::new();
    for number in first..first + runs(count) {
        let place = number % CASES_PER_TEMPLATE;
        if place == 0 || template.is_empty() {
            template = cases::template(&mut Rng::of_case(!seed, number - place));
        }
        let mut rng = Rng::of_case(seed, number);
        let case = make(&mut rng, &template);
        let _announce = Announce { seed, number, case: &case };
        law(&mut rng, &case, &template);
    }
}
