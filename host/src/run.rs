//! Runs and single steps.

use crate::error::accepted_keys;
use crate::{ffi, Error, Memory, Record};
use std::fmt;

/// The most steps that one run may be asked for.
pub const STEP_LIMIT: u64 = ffi::LC3_MAX_STEPS;

/// The highest clock.
pub const CLOCK_LIMIT: u64 = ffi::LC3_MAX_CLOCK;

/// Key presses: the clock at which each arrives, and its byte.
///
/// A key that finds the one before it unread replaces it.
#[derive(Clone, Copy, Debug, Default, PartialEq, Eq)]
pub struct Keys<'a> {
    /// The times, none below the one before it.
    pub times: &'a [u64],
    /// The bytes, as many as there are times.
    pub bytes: &'a [u8],
}

impl<'a> Keys<'a> {
    /// No key presses.
    pub const NONE: Keys<'static> = Keys { times: &[], bytes: &[] };

    /// The keys that are left after the first `arrived` ones, for the run that goes on.
    ///
    /// ```
    /// use fanthrig::Keys;
    ///
    /// let keys = Keys { times: &[3, 5, 9], bytes: b"abc" };
    /// assert_eq!(keys.after(2), Keys { times: &[9], bytes: b"c" });
    /// ```
    ///
    /// # Panics
    ///
    /// If either list is shorter than `arrived`.
    pub fn after(&self, arrived: usize) -> Keys<'a> {
        Keys { times: &self.times[arrived..], bytes: &self.bytes[arrived..] }
    }
}

/// Why a run stopped.
#[derive(Clone, Copy, Debug, PartialEq, Eq, Hash)]
#[non_exhaustive]
pub enum Stop {
    /// All steps asked for were made. The last of them may have halted the machine:
    /// [`Record::is_halted`] tells.
    ///
    /// ```
    /// use fanthrig::{Keys, Mode, Stop};
    ///
    /// let mut memory = fanthrig::memory();
    /// let file = [0x30, 0x00, 0xB0, 0x01, 0x00, 0x00, 0xFF, 0xFE]; // STI R0, x3002; x3002 is xFFFE
    /// let record = fanthrig::start(&file, &mut memory, Mode::Supervisor, 0xFDFF)?.record;
    /// let run = fanthrig::run(record, &mut memory, Keys::NONE, &mut [], 1)?;
    /// assert_eq!(run.stop, Stop::Done);
    /// assert!(run.record.is_halted() && !record.is_halted());
    /// # Ok::<(), fanthrig::Error>(())
    /// ```
    Done,
    /// Bit 15 of MCR is clear.
    Halted,
    /// The next step would show a byte, and the output has no free one.
    OutputFull,
    /// The log has no room for a step more: of logged runs alone. It is
    /// tested between halted and output full.
    LogFull,
}

impl Stop {
    /// The stop's number, 0 to 3.
    ///
    /// ```
    /// assert_eq!(fanthrig::Stop::Halted.code(), 1);
    /// ```
    pub fn code(self) -> u32 {
        match self {
            Stop::Done => ffi::LC3_DONE,
            Stop::Halted => ffi::LC3_HALTED,
            Stop::OutputFull => ffi::LC3_OUTPUT_FULL,
            Stop::LogFull => ffi::LC3_LOG_FULL,
        }
    }

    /// The stop that a number stands for.
    pub(crate) fn from_code(code: u32) -> Stop {
        match code {
            ffi::LC3_DONE => Stop::Done,
            ffi::LC3_HALTED => Stop::Halted,
            ffi::LC3_OUTPUT_FULL => Stop::OutputFull,
            ffi::LC3_LOG_FULL => Stop::LogFull,
            _ => unreachable!("the library answered stop {code}"),
        }
    }
}

impl fmt::Display for Stop {
    fn fmt(&self, f: &mut fmt::Formatter<'_>) -> fmt::Result {
        f.write_str(match self {
            Stop::Done => "all steps asked for were made",
            Stop::Halted => "the machine is halted",
            Stop::OutputFull => "the output is full",
            Stop::LogFull => "the log is full",
        })
    }
}

/// What a run did.
#[derive(Clone, Copy, Debug, PartialEq, Eq)]
pub struct Run {
    /// The record after the run.
    pub record: Record,
    /// The steps made.
    pub steps: u64,
    /// The keys that arrived.
    pub keys: usize,
    /// The bytes shown, from the start of the output.
    pub shown: usize,
    /// Why the run stopped.
    pub stop: Stop,
}

/// What a single step did.
#[derive(Clone, Copy, Debug, PartialEq, Eq)]
pub struct StepReport {
    /// The steps made: 1, or 0 if the machine stopped before the step.
    pub steps: u64,
    /// The keys that arrived.
    pub keys: usize,
    /// The bytes shown, 0 or 1.
    pub shown: usize,
    /// Why the call stopped; [`Stop::Done`] if the step was made.
    pub stop: Stop,
}

/// A count of elements of a lent slice: at most the slice's length.
pub(crate) fn count(number: u64) -> usize {
    usize::try_from(number).expect("a count within a slice")
}

/// What an answer says, or why the run was turned down.
fn made(answer: &ffi::Answer) -> Result<Run, Error> {
    accepted_keys(answer.refusal, answer.index)?;
    Ok(Run {
        record: answer.record,
        steps: answer.steps,
        keys: count(answer.keys),
        shown: count(answer.shown),
        stop: Stop::from_code(answer.stop),
    })
}

/// The same of a single step.
fn reported(report: &ffi::Report) -> Result<StepReport, Error> {
    accepted_keys(report.refusal, report.index)?;
    Ok(StepReport {
        steps: report.steps,
        keys: count(report.keys),
        shown: count(report.shown),
        stop: Stop::from_code(report.stop),
    })
}

/// Runs `n` steps, or fewer if the machine halts or the output is full.
///
/// A refused run alters no buffer.
///
/// ```
/// use fanthrig::{Error, Keys, Mode, Stop};
///
/// let mut memory = fanthrig::memory();
/// let file = [0x30, 0x00, 0x10, 0x21]; // at x3000, ADD R0, R0, #1
/// let record = fanthrig::start(&file, &mut memory, Mode::User, 0xFDFF)?.record;
/// let run = fanthrig::run(record, &mut memory, Keys::NONE, &mut [], 1)?;
/// assert_eq!((run.stop, run.record.regs[0], run.record.pc), (Stop::Done, 1, 0x3001));
///
/// let keys = Keys { times: &[3, 9, 5], bytes: b"abc" };
/// let refused = fanthrig::run(record, &mut memory, keys, &mut [], 1).unwrap_err();
/// assert_eq!((refused, refused.code()), (Error::KeyOrder(2), 19));
/// assert_eq!(refused.to_string(), "times[2] is below the time before it");
/// # Ok::<(), fanthrig::Error>(())
/// ```
pub fn run(
    record: Record,
    memory: &mut Memory,
    keys: Keys<'_>,
    output: &mut [u8],
    n: u64,
) -> Result<Run, Error> {
    run_by(ffi::lc3_run, record, memory, keys, output, n)
}

/// Runs for long sittings: answers and leaves what [`run`] does, on every call.
///
/// It keeps the instructions of four pages of 256 words, read in advance: so it is faster, but for a
/// program that stays only a few steps in each of many pages. A call of fewer than 256 steps reads
/// none in advance.
///
/// ```
/// use fanthrig::{Keys, Mode, STEP_LIMIT};
///
/// let mut memory = fanthrig::memory();
/// let file = [0x30, 0x00, 0x10, 0x21, 0x0F, 0xFE]; // at x3000: ADD R0, R0, #1; BRnzp #-2
/// let record = fanthrig::start(&file, &mut memory, Mode::User, 0xFDFF)?.record;
/// let long = fanthrig::run_long(record, &mut memory, Keys::NONE, &mut [], STEP_LIMIT)?;
/// assert_eq!(long, fanthrig::run(record, &mut memory, Keys::NONE, &mut [], STEP_LIMIT)?);
/// # Ok::<(), fanthrig::Error>(())
/// ```
pub fn run_long(
    record: Record,
    memory: &mut Memory,
    keys: Keys<'_>,
    output: &mut [u8],
    n: u64,
) -> Result<Run, Error> {
    run_by(ffi::lc3_run_long, record, memory, keys, output, n)
}

/// Makes a single step, and alters `record` itself: otherwise [`run`] with `n` = 1.
///
/// A refused step alters neither the record nor a buffer.
///
/// ```
/// use fanthrig::{Keys, Mode};
///
/// let mut memory = fanthrig::memory();
/// memory[0x0025] = 0x0400; // where TRAP x25 goes
/// let file = [0x30, 0x00, 0xF0, 0x25]; // at x3000, TRAP x25
/// let mut record = fanthrig::start(&file, &mut memory, Mode::User, 0xFDFF)?.record;
/// let report = fanthrig::step(&mut record, &mut memory, Keys::NONE, &mut [])?;
/// assert_eq!(report.steps, 1);
/// assert_eq!((record.pc, record.mode()), (0x0400, Mode::Supervisor));
/// assert_eq!(memory[0x2FFE..0x3000], [0x3001, 0x8002]);
/// # Ok::<(), fanthrig::Error>(())
/// ```
pub fn step(
    record: &mut Record,
    memory: &mut Memory,
    keys: Keys<'_>,
    output: &mut [u8],
) -> Result<StepReport, Error> {
    step_by(ffi::lc3_step, record, memory, keys, output)
}

/// Runs `n` steps by the rules of the book's second edition; all else is as in [`run`].
///
/// LEA sets the codes; TRAP puts the next address in R7 and takes PC from its vector word, with no
/// push and no change of mode; there is no access exception; xFFFC is a plain word; JSRR R7 goes on
/// at the next address. A run that meets none of this ends as [`run`] does. User mode is kept from
/// nothing here.
///
/// ```
/// use fanthrig::{Keys, Mode};
///
/// let mut memory = fanthrig::memory();
/// memory[0x0025] = 0x0400; // where TRAP x25 goes
/// let file = [0x30, 0x00, 0xF0, 0x25]; // at x3000, TRAP x25
/// let record = fanthrig::start(&file, &mut memory, Mode::User, 0xFDFF)?.record;
/// let run = fanthrig::run_second(record, &mut memory, Keys::NONE, &mut [], 1)?;
/// assert_eq!((run.record.pc, run.record.regs[7], run.record.mode()), (0x0400, 0x3001, Mode::User));
/// # Ok::<(), fanthrig::Error>(())
/// ```
pub fn run_second(
    record: Record,
    memory: &mut Memory,
    keys: Keys<'_>,
    output: &mut [u8],
    n: u64,
) -> Result<Run, Error> {
    run_by(ffi::lc3_run_second, record, memory, keys, output, n)
}

/// Makes a single step by the rules of the second edition, and alters `record` itself: otherwise
/// [`run_second`] with `n` = 1.
///
/// ```
/// use fanthrig::{Keys, Mode};
///
/// let mut memory = fanthrig::memory();
/// let file = [0x30, 0x00, 0xE1, 0xFF]; // at x3000, LEA R0, #-1
/// let mut record = fanthrig::start(&file, &mut memory, Mode::User, 0xFDFF)?.record;
/// fanthrig::step_second(&mut record, &mut memory, Keys::NONE, &mut [])?;
/// assert_eq!((record.regs[0], record.psr), (0x3000, 0x8001));
/// # Ok::<(), fanthrig::Error>(())
/// ```
pub fn step_second(
    record: &mut Record,
    memory: &mut Memory,
    keys: Keys<'_>,
    output: &mut [u8],
) -> Result<StepReport, Error> {
    step_by(ffi::lc3_step_second, record, memory, keys, output)
}

/// Runs by one of the calls that take and answer the same.
fn run_by(
    call: ffi::RunCall,
    record: Record,
    memory: &mut Memory,
    keys: Keys<'_>,
    output: &mut [u8],
    n: u64,
) -> Result<Run, Error> {
    // SAFETY: each pointer and length come from one slice, and the borrows keep the slices that
    // are written apart from all others.
    let answer = unsafe {
        call(
            record,
            memory.as_mut_ptr(),
            memory.len(),
            keys.times.as_ptr(),
            keys.times.len(),
            keys.bytes.as_ptr(),
            keys.bytes.len(),
            output.as_mut_ptr(),
            output.len(),
            n,
        )
    };
    made(&answer)
}

/// Makes a step by the call of one of the editions.
fn step_by(
    call: ffi::StepCall,
    record: &mut Record,
    memory: &mut Memory,
    keys: Keys<'_>,
    output: &mut [u8],
) -> Result<StepReport, Error> {
    // SAFETY: each pointer and length come from one slice, `record` is a reference, and the
    // borrows keep what is written apart from all else.
    let report = unsafe {
        call(
            record,
            memory.as_mut_ptr(),
            memory.len(),
            keys.times.as_ptr(),
            keys.times.len(),
            keys.bytes.as_ptr(),
            keys.bytes.len(),
            output.as_mut_ptr(),
            output.len(),
        )
    };
    reported(&report)
}
