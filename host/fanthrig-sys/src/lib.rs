//! The C interface of the LC-3's library, as `lc3.h` declares it.
//!
//! Use it only where the answers to refused calls matter in full: the safe functions of the crate
//! `fanthrig` leave out the record and the counts of a refused call, which are the record handed in
//! and zeros.

#![warn(missing_docs)]

mod constants;
mod record;

pub use constants::*;
pub use record::{Mode, Record};

use std::mem::{align_of, offset_of, size_of};

/// What a run answers: `lc3_answer`.
#[repr(C)]
#[derive(Clone, Copy, Debug, PartialEq, Eq)]
pub struct Answer {
    /// The record after the run, or as handed in if the run was refused.
    pub record: Record,
    /// The steps made.
    pub steps: u64,
    /// The keys that arrived.
    pub keys: u64,
    /// The bytes shown.
    pub shown: u64,
    /// The first key time at fault, counted from 0, if refused under 15 or 19; else 0.
    pub index: u64,
    /// 0, or the number of the refusal: 11 to 15, or 19.
    pub refusal: u32,
    /// 0 done, 1 halted, 2 output full; 0 if refused.
    pub stop: u32,
}

/// What a single step answers, beside the record that it alters: `lc3_report`.
#[repr(C)]
#[derive(Clone, Copy, Debug, PartialEq, Eq)]
pub struct Report {
    /// The steps made, 0 or 1.
    pub steps: u64,
    /// The keys that arrived.
    pub keys: u64,
    /// The bytes shown, 0 or 1.
    pub shown: u64,
    /// The first key time at fault, counted from 0, if refused under 15 or 19; else 0.
    pub index: u64,
    /// 0, or the number of the refusal: 11 to 15, or 19.
    pub refusal: u32,
    /// 0 done, 1 halted, 2 output full; 0 if refused.
    pub stop: u32,
}

/// What a logged run answers: `lc3_logged_answer`.
#[repr(C)]
#[derive(Clone, Copy, Debug, PartialEq, Eq)]
pub struct LoggedAnswer {
    /// The record after the run, or as handed in if the run was refused.
    pub record: Record,
    /// The steps made.
    pub steps: u64,
    /// The keys that arrived.
    pub keys: u64,
    /// The bytes shown.
    pub shown: u64,
    /// The words written to the log, three for each step.
    pub logged: u64,
    /// The first key time at fault, counted from 0, if refused under 15 or 19; else 0.
    pub index: u64,
    /// 0, or the number of the refusal: 11 to 15, or 19.
    pub refusal: u32,
    /// 0 done, 1 halted, 2 output full, 3 log full; 0 if refused.
    pub stop: u32,
}

/// Addresses of words of memory: `lc3_addresses`.
#[repr(C)]
#[derive(Clone, Copy, Debug, Default, PartialEq, Eq)]
pub struct Addresses {
    /// How many there are, 0 to 3.
    pub count: u16,
    /// The addresses in order; the rest is 0.
    pub at: [u16; 3],
}

/// What is told of the next step: `lc3_told`.
#[repr(C)]
#[derive(Clone, Copy, Debug, PartialEq, Eq)]
pub struct Told {
    /// The first key time at fault, counted from 0, if refused under 15 or 19; else 0.
    pub index: u64,
    /// 0, or the number of the refusal: 11 to 15, or 19.
    pub refusal: u32,
    /// 0 done, 1 halted: no step would be made, and what follows is 0; 0 if refused.
    pub stop: u32,
    /// The word fetched, or 0 if none.
    pub word: u16,
    /// The reason, as in a log.
    pub reason: u16,
    /// The words that the step takes.
    pub reads: Addresses,
    /// The words that the step stores to.
    pub writes: Addresses,
}

/// An instruction as the numbers of its fields: `lc3_instruction`.
#[repr(C)]
#[derive(Clone, Copy, Debug, PartialEq, Eq)]
pub struct Fields {
    /// The form, 0 to 18: [`LC3_BR`] and those after it.
    pub kind: u8,
    /// The first register in the assembler's order, or the mask of BR; 0 if unused.
    pub a: u8,
    /// The second register; 0 if unused.
    pub b: u8,
    /// The third register; 0 if unused.
    pub c: u8,
    /// The signed field, trap vector or reserved field; 0 if unused.
    pub value: i32,
}

/// What reading a word answers: `lc3_reading`.
#[repr(C)]
#[derive(Clone, Copy, Debug, PartialEq, Eq)]
pub struct Reading {
    /// The instruction.
    pub instruction: Fields,
    /// The fixed bits that are wrong in the word.
    pub mask: u16,
}

/// What writing an instruction answers: `lc3_written`.
#[repr(C)]
#[derive(Clone, Copy, Debug, PartialEq, Eq)]
pub struct Written {
    /// The word, or 0 if refused.
    pub word: u16,
    /// 0, or the number of the refusal, 1 to 3.
    pub refusal: u32,
}

/// What starting an object file answers: `lc3_started`.
#[repr(C)]
#[derive(Clone, Copy, Debug, PartialEq, Eq)]
pub struct Started {
    /// A fresh record at the file's origin, or all 0 if refused.
    pub record: Record,
    /// The words of the file, its origin not counted, or 0 if refused.
    pub words: u32,
    /// 0, or the number of the refusal: 11, 17, 18 or, of `lc3_start_user`, 21.
    pub refusal: u32,
}

/// What a call answers that writes bytes to a lent output: `lc3_counted`.
#[repr(C)]
#[derive(Clone, Copy, Debug, PartialEq, Eq)]
pub struct Counted {
    /// The bytes written, or 0 if refused.
    pub count: u64,
    /// 0, or the number of the refusal.
    pub refusal: u32,
}

/// The addresses of a monitor's routines: `lc3_routines`.
#[repr(C)]
#[derive(Clone, Copy, Debug, PartialEq, Eq)]
pub struct Routines {
    /// TRAP x20: GETC.
    pub getc: u16,
    /// TRAP x21: OUT.
    pub out: u16,
    /// TRAP x22: PUTS.
    pub puts: u16,
    /// TRAP x23: IN.
    pub input: u16,
    /// TRAP x24: PUTSP.
    pub putsp: u16,
    /// TRAP x25: HALT.
    pub halt: u16,
    /// Every other trap.
    pub trap: u16,
    /// The privilege, illegal opcode and access exceptions.
    pub exception: u16,
    /// Every other word of x0100 to x01FF.
    pub interrupt: u16,
}

impl Routines {
    /// Where the ready-made monitor's routines are.
    ///
    /// ```
    /// let ours = fanthrig_sys::Routines::of_monitor();
    /// assert_eq!((ours.getc, ours.out), (0x0200, 0x0204));
    /// ```
    pub fn of_monitor() -> Routines {
        lc3_monitor_routines()
    }
}

/// What [`lc3_certify`] answers. Where the finding names no word or no state, the number is 0.
#[repr(C)]
#[derive(Clone, Copy, Debug, PartialEq, Eq)]
pub struct Certified {
    /// `LC3_CERTIFIED`, or what is wrong first.
    pub finding: u32,
    /// The word; 65,536 for a state of a row past xFFFF, which is of no word.
    pub address: u32,
    /// The state, counted from 0 over all rows of the table.
    pub state: u32,
}

// The layout that C gives the same declarations.
const _: () = assert!(size_of::<Record>() == 48 && align_of::<Record>() == 8);
const _: () = assert!(offset_of!(Record, regs) == 0 && offset_of!(Record, pc) == 16);
const _: () = assert!(offset_of!(Record, psr) == 18 && offset_of!(Record, saved_ssp) == 20);
const _: () = assert!(offset_of!(Record, saved_usp) == 22 && offset_of!(Record, kbsr) == 24);
const _: () = assert!(offset_of!(Record, kbdr) == 26 && offset_of!(Record, mcr) == 28);
const _: () = assert!(offset_of!(Record, busy) == 30 && offset_of!(Record, timer_status) == 32);
const _: () = assert!(offset_of!(Record, timer_interval) == 34);
const _: () = assert!(offset_of!(Record, timer_count) == 36 && offset_of!(Record, clock) == 40);
const _: () = assert!(size_of::<Certified>() == 12 && align_of::<Certified>() == 4);
const _: () = assert!(offset_of!(Certified, finding) == 0 && offset_of!(Certified, address) == 4);
const _: () = assert!(offset_of!(Certified, state) == 8);
const _: () = assert!(size_of::<Answer>() == 88 && align_of::<Answer>() == 8);
const _: () = assert!(offset_of!(Answer, record) == 0 && offset_of!(Answer, steps) == 48);
const _: () = assert!(offset_of!(Answer, keys) == 56 && offset_of!(Answer, shown) == 64);
const _: () = assert!(offset_of!(Answer, index) == 72 && offset_of!(Answer, refusal) == 80);
const _: () = assert!(offset_of!(Answer, stop) == 84);
const _: () = assert!(size_of::<Report>() == 40 && align_of::<Report>() == 8);
const _: () = assert!(offset_of!(Report, steps) == 0 && offset_of!(Report, keys) == 8);
const _: () = assert!(offset_of!(Report, shown) == 16 && offset_of!(Report, index) == 24);
const _: () = assert!(offset_of!(Report, refusal) == 32 && offset_of!(Report, stop) == 36);
const _: () = assert!(size_of::<LoggedAnswer>() == 96 && align_of::<LoggedAnswer>() == 8);
const _: () = assert!(offset_of!(LoggedAnswer, record) == 0);
const _: () =
    assert!(offset_of!(LoggedAnswer, steps) == 48 && offset_of!(LoggedAnswer, keys) == 56);
const _: () = assert!(offset_of!(LoggedAnswer, shown) == 64);
const _: () = assert!(offset_of!(LoggedAnswer, logged) == 72);
const _: () = assert!(offset_of!(LoggedAnswer, index) == 80);
const _: () = assert!(offset_of!(LoggedAnswer, refusal) == 88);
const _: () = assert!(offset_of!(LoggedAnswer, stop) == 92);
const _: () = assert!(size_of::<Addresses>() == 8 && align_of::<Addresses>() == 2);
const _: () = assert!(offset_of!(Addresses, count) == 0 && offset_of!(Addresses, at) == 2);
const _: () = assert!(size_of::<Told>() == 40 && align_of::<Told>() == 8);
const _: () = assert!(offset_of!(Told, index) == 0 && offset_of!(Told, refusal) == 8);
const _: () = assert!(offset_of!(Told, stop) == 12 && offset_of!(Told, word) == 16);
const _: () = assert!(offset_of!(Told, reason) == 18 && offset_of!(Told, reads) == 20);
const _: () = assert!(offset_of!(Told, writes) == 28);
const _: () = assert!(size_of::<Fields>() == 8 && align_of::<Fields>() == 4);
const _: () = assert!(offset_of!(Fields, kind) == 0 && offset_of!(Fields, a) == 1);
const _: () = assert!(offset_of!(Fields, b) == 2 && offset_of!(Fields, c) == 3);
const _: () = assert!(offset_of!(Fields, value) == 4);
const _: () = assert!(size_of::<Reading>() == 12 && align_of::<Reading>() == 4);
const _: () = assert!(offset_of!(Reading, instruction) == 0 && offset_of!(Reading, mask) == 8);
const _: () = assert!(size_of::<Written>() == 8 && align_of::<Written>() == 4);
const _: () = assert!(offset_of!(Written, word) == 0 && offset_of!(Written, refusal) == 4);
const _: () = assert!(size_of::<Started>() == 56 && align_of::<Started>() == 8);
const _: () = assert!(offset_of!(Started, record) == 0 && offset_of!(Started, words) == 48);
const _: () = assert!(offset_of!(Started, refusal) == 52);
const _: () = assert!(size_of::<Counted>() == 16 && align_of::<Counted>() == 8);
const _: () = assert!(offset_of!(Counted, count) == 0 && offset_of!(Counted, refusal) == 8);
const _: () = assert!(size_of::<Routines>() == 18 && align_of::<Routines>() == 2);
const _: () = assert!(offset_of!(Routines, getc) == 0 && offset_of!(Routines, out) == 2);
const _: () = assert!(offset_of!(Routines, puts) == 4 && offset_of!(Routines, input) == 6);
const _: () = assert!(offset_of!(Routines, putsp) == 8 && offset_of!(Routines, halt) == 10);
const _: () = assert!(offset_of!(Routines, trap) == 12 && offset_of!(Routines, exception) == 14);
const _: () = assert!(offset_of!(Routines, interrupt) == 16);

/// The type of [`lc3_run`], of [`lc3_run_long`] and of [`lc3_run_second`].
pub type RunCall = unsafe extern "C" fn(
    record: Record,
    memory: *mut u16,
    memory_len: usize,
    times: *const u64,
    times_len: usize,
    bytes: *const u8,
    bytes_len: usize,
    output: *mut u8,
    output_len: usize,
    n: u64,
) -> Answer;

/// The type of [`lc3_step`] and of [`lc3_step_second`].
pub type StepCall = unsafe extern "C" fn(
    record: *mut Record,
    memory: *mut u16,
    memory_len: usize,
    times: *const u64,
    times_len: usize,
    bytes: *const u8,
    bytes_len: usize,
    output: *mut u8,
    output_len: usize,
) -> Report;

/// The type of [`lc3_run_logged`] and of [`lc3_run_logged_second`].
pub type LoggedCall = unsafe extern "C" fn(
    record: Record,
    memory: *mut u16,
    memory_len: usize,
    times: *const u64,
    times_len: usize,
    bytes: *const u8,
    bytes_len: usize,
    output: *mut u8,
    output_len: usize,
    log: *mut u16,
    log_len: usize,
    n: u64,
) -> LoggedAnswer;

/// The type of [`lc3_tell`] and of [`lc3_tell_second`].
pub type TellCall = unsafe extern "C" fn(
    record: Record,
    memory: *const u16,
    memory_len: usize,
    times: *const u64,
    times_len: usize,
    bytes: *const u8,
    bytes_len: usize,
) -> Told;

unsafe extern "C" {
    /// The version of the interface that the library was built for.
    pub safe fn lc3_version() -> u32;

    /// Reads a word as an instruction.
    pub safe fn lc3_read(word: u16) -> Reading;

    /// Writes an instruction as a word.
    pub safe fn lc3_write(instruction: Fields) -> Written;

    /// Writes a word as a line of text.
    ///
    /// # Safety
    ///
    /// `output` must be valid for writing `output_len` bytes.
    pub fn lc3_line(word: u16, output: *mut u8, output_len: usize) -> Counted;

    /// Counts the bytes of a word's line.
    pub safe fn lc3_line_length(word: u16) -> usize;

    /// Writes the words of a range of memory as lines of text.
    ///
    /// # Safety
    ///
    /// `memory` must be valid for reading `memory_len` words and `output` for writing `output_len`
    /// bytes, and they may not overlap.
    pub fn lc3_page(
        memory: *const u16,
        memory_len: usize,
        first: u16,
        count: usize,
        output: *mut u8,
        output_len: usize,
    ) -> Counted;

    /// Runs up to `n` steps.
    ///
    /// # Safety
    ///
    /// Each pointer must be valid for its number of elements, `memory` and `output` also for
    /// writing, and no two of the four buffers may overlap.
    pub fn lc3_run(
        record: Record,
        memory: *mut u16,
        memory_len: usize,
        times: *const u64,
        times_len: usize,
        bytes: *const u8,
        bytes_len: usize,
        output: *mut u8,
        output_len: usize,
        n: u64,
    ) -> Answer;

    /// Runs up to `n` steps: what [`lc3_run`] does, faster for long sittings.
    ///
    /// # Safety
    ///
    /// As for [`lc3_run`].
    pub fn lc3_run_long(
        record: Record,
        memory: *mut u16,
        memory_len: usize,
        times: *const u64,
        times_len: usize,
        bytes: *const u8,
        bytes_len: usize,
        output: *mut u8,
        output_len: usize,
        n: u64,
    ) -> Answer;

    /// Runs up to `n` steps, and logs each.
    ///
    /// # Safety
    ///
    /// As for [`lc3_run`]; `log` too must be valid for writing `log_len` words, and not overlap a
    /// buffer.
    pub fn lc3_run_logged(
        record: Record,
        memory: *mut u16,
        memory_len: usize,
        times: *const u64,
        times_len: usize,
        bytes: *const u8,
        bytes_len: usize,
        output: *mut u8,
        output_len: usize,
        log: *mut u16,
        log_len: usize,
        n: u64,
    ) -> LoggedAnswer;

    /// Makes a single step, and alters `record` itself.
    ///
    /// # Safety
    ///
    /// As for [`lc3_run`]; `record` too must be valid for reading and writing, and not overlap a
    /// buffer.
    pub fn lc3_step(
        record: *mut Record,
        memory: *mut u16,
        memory_len: usize,
        times: *const u64,
        times_len: usize,
        bytes: *const u8,
        bytes_len: usize,
        output: *mut u8,
        output_len: usize,
    ) -> Report;

    /// Runs `n` steps by the rules of the second edition, or fewer if the machine halts or the
    /// output is full.
    ///
    /// # Safety
    ///
    /// As for [`lc3_run`].
    pub fn lc3_run_second(
        record: Record,
        memory: *mut u16,
        memory_len: usize,
        times: *const u64,
        times_len: usize,
        bytes: *const u8,
        bytes_len: usize,
        output: *mut u8,
        output_len: usize,
        n: u64,
    ) -> Answer;

    /// Makes a single step by the rules of the second edition, and alters `record` itself.
    ///
    /// # Safety
    ///
    /// As for [`lc3_step`].
    pub fn lc3_step_second(
        record: *mut Record,
        memory: *mut u16,
        memory_len: usize,
        times: *const u64,
        times_len: usize,
        bytes: *const u8,
        bytes_len: usize,
        output: *mut u8,
        output_len: usize,
    ) -> Report;

    /// Runs up to `n` steps by the rules of the second edition, and logs each.
    ///
    /// # Safety
    ///
    /// As for [`lc3_run_logged`].
    pub fn lc3_run_logged_second(
        record: Record,
        memory: *mut u16,
        memory_len: usize,
        times: *const u64,
        times_len: usize,
        bytes: *const u8,
        bytes_len: usize,
        output: *mut u8,
        output_len: usize,
        log: *mut u16,
        log_len: usize,
        n: u64,
    ) -> LoggedAnswer;

    /// Tells what the next step of [`lc3_run`] does, and makes none.
    ///
    /// # Safety
    ///
    /// Each pointer must be valid for reading its number of elements.
    pub fn lc3_tell(
        record: Record,
        memory: *const u16,
        memory_len: usize,
        times: *const u64,
        times_len: usize,
        bytes: *const u8,
        bytes_len: usize,
    ) -> Told;

    /// Tells what the next step of [`lc3_run_second`] does, and makes none.
    ///
    /// # Safety
    ///
    /// Each pointer must be valid for reading its number of elements.
    pub fn lc3_tell_second(
        record: Record,
        memory: *const u16,
        memory_len: usize,
        times: *const u64,
        times_len: usize,
        bytes: *const u8,
        bytes_len: usize,
    ) -> Told;

    /// Loads an object file into memory, and makes a fresh record at its origin.
    ///
    /// # Safety
    ///
    /// Each pointer must be valid for its number of elements, `memory` also for writing, and the
    /// two buffers may not overlap.
    pub fn lc3_start(
        file: *const u8,
        file_len: usize,
        memory: *mut u16,
        memory_len: usize,
        user: bool,
        user_stack: u16,
    ) -> Started;

    /// Loads a candidate's object file, to User mode's words alone, and makes a fresh record at its
    /// origin.
    ///
    /// # Safety
    ///
    /// Each pointer must be valid for its number of elements, `memory` also for writing, and the
    /// two buffers may not overlap.
    pub fn lc3_start_user(
        file: *const u8,
        file_len: usize,
        memory: *mut u16,
        memory_len: usize,
        user_stack: u16,
    ) -> Started;

    /// Writes an object file from a range of memory.
    ///
    /// # Safety
    ///
    /// Each pointer must be valid for its number of elements, `output` also for writing, and the
    /// two buffers may not overlap.
    pub fn lc3_save(
        memory: *const u16,
        memory_len: usize,
        origin: u16,
        words: usize,
        output: *mut u8,
        output_len: usize,
    ) -> Counted;

    /// Puts the ready-made monitor into memory.
    ///
    /// # Safety
    ///
    /// `memory` must be valid for writing `memory_len` words.
    pub fn lc3_monitor(memory: *mut u16, memory_len: usize) -> u32;

    /// Where the ready-made monitor's routines are.
    pub safe fn lc3_monitor_routines() -> Routines;

    /// Writes the vector words for these routines.
    ///
    /// # Safety
    ///
    /// `output` must be valid for writing `output_len` words.
    pub fn lc3_vectors(routines: Routines, output: *mut u16, output_len: usize) -> u32;

    /// Tests a claim about a monitor.
    ///
    /// # Safety
    ///
    /// Each pointer must be valid for its number of elements.
    pub fn lc3_certify(
        memory: *const u16,
        memory_len: usize,
        kinds: *const u8,
        kinds_len: usize,
        lowest: u16,
        watched: *const u16,
        watched_len: usize,
        ends: *const u32,
        ends_len: usize,
        table: *const u32,
        table_len: usize,
    ) -> Certified;
}
