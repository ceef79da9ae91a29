//! Logged runs: what each step did, and by which rule.

use crate::error::accepted_keys;
use crate::run::count;
use crate::{ffi, line_string, Error, Keys, Memory, Record, Run, Stop};
use std::fmt;

/// The words of one step in a log.
pub const LOG_WORDS: usize = ffi::LC3_LOG_WORDS;

/// By which rule a step was made.
#[derive(Clone, Copy, Debug, PartialEq, Eq, Hash)]
#[non_exhaustive]
pub enum Reason {
    /// An instruction, obeyed to its end.
    Instruction,
    /// The entry for a TRAP.
    Trap,
    /// The exception of an RTI in User mode.
    Privilege,
    /// The exception of the reserved opcode.
    Illegal,
    /// The exception of an access to a privileged address, the fetch included.
    Access,
    /// The keyboard's interrupt.
    Keyboard,
    /// The timer's interrupt.
    Timer,
}

impl Reason {
    /// Every reason, in the order of their numbers.
    pub const ALL: [Reason; 7] = [
        Reason::Instruction,
        Reason::Trap,
        Reason::Privilege,
        Reason::Illegal,
        Reason::Access,
        Reason::Keyboard,
        Reason::Timer,
    ];

    /// The reason's number in a log, from 0.
    ///
    /// ```
    /// assert_eq!(fanthrig::Reason::Access.code(), 4);
    /// ```
    pub fn code(self) -> u16 {
        match self {
            Reason::Instruction => ffi::LC3_REASON_INSTRUCTION,
            Reason::Trap => ffi::LC3_REASON_TRAP,
            Reason::Privilege => ffi::LC3_REASON_PRIVILEGE,
            Reason::Illegal => ffi::LC3_REASON_ILLEGAL,
            Reason::Access => ffi::LC3_REASON_ACCESS,
            Reason::Keyboard => ffi::LC3_REASON_KEYBOARD,
            Reason::Timer => ffi::LC3_REASON_TIMER,
        }
    }

    /// The reason that a number stands for.
    ///
    /// ```
    /// assert_eq!(fanthrig::Reason::from_code(1), Some(fanthrig::Reason::Trap));
    /// assert_eq!(fanthrig::Reason::from_code(99), None);
    /// ```
    pub fn from_code(code: u16) -> Option<Reason> {
        Reason::ALL.into_iter().find(|reason| reason.code() == code)
    }
}

impl fmt::Display for Reason {
    fn fmt(&self, f: &mut fmt::Formatter<'_>) -> fmt::Result {
        f.pad(match self {
            Reason::Instruction => "instruction",
            Reason::Trap => "trap",
            Reason::Privilege => "privilege exception",
            Reason::Illegal => "illegal opcode exception",
            Reason::Access => "access exception",
            Reason::Keyboard => "keyboard interrupt",
            Reason::Timer => "timer interrupt",
        })
    }
}

/// One step, as a log tells of it.
#[derive(Clone, Copy, Debug, PartialEq, Eq, Hash)]
pub struct LoggedStep {
    /// PC before the step.
    pub pc: u16,
    /// The word fetched: none at an interrupt, and where the fetch itself raised the access
    /// exception.
    pub word: Option<u16>,
    /// By which rule the step was made.
    pub reason: Reason,
}

impl LoggedStep {
    /// The step of three words of a log.
    ///
    /// A log has 0 for no word. At an access exception 0 is never a word fetched: x0000 as an
    /// instruction accesses nothing.
    fn of_words(words: &[u16]) -> LoggedStep {
        let (pc, word, code) = (words[0], words[1], words[2]);
        let reason = Reason::from_code(code)
            .unwrap_or_else(|| panic!("reason {code} is none that the library logs"));
        let none = match reason {
            Reason::Keyboard | Reason::Timer => true,
            Reason::Access => word == 0,
            Reason::Instruction | Reason::Trap | Reason::Privilege | Reason::Illegal => false,
        };
        LoggedStep { pc, word: (!none).then_some(word), reason }
    }

    /// The line of text of the word fetched, without its line feed; empty where none was fetched.
    ///
    /// ```
    /// let log = [0x3000, 0x14E7, 0, 0x3001, 0, 5];
    /// let lines: Vec<_> = fanthrig::logged_steps(&log).map(|step| step.line()).collect();
    /// assert_eq!(lines, ["ADD R2, R3, #7", ""]);
    /// ```
    pub fn line(&self) -> String {
        self.word.map(|word| line_string(word).trim_end().to_string()).unwrap_or_default()
    }
}

/// PC, the word fetched, its line and the reason, in columns: as `x3000  x14E7  ADD R2, R3, #7`.
impl fmt::Display for LoggedStep {
    fn fmt(&self, f: &mut fmt::Formatter<'_>) -> fmt::Result {
        let word = self.word.map_or("-".to_string(), |word| format!("x{word:04X}"));
        write!(f, "x{:04X}  {word:<5}  {:<16}  {}", self.pc, self.line(), self.reason)
    }
}

/// The steps that the words of a log tell of. Words that make up no whole step are left out.
///
/// # Panics
///
/// The iterator panics where the third word of a step is no reason's number, which no log has that
/// the library wrote.
pub fn logged_steps(log: &[u16]) -> impl ExactSizeIterator<Item = LoggedStep> + '_ {
    log.chunks_exact(LOG_WORDS).map(LoggedStep::of_words)
}

/// What a logged run did.
#[derive(Clone, Copy, Debug, PartialEq, Eq)]
pub struct LoggedRun {
    /// What a run does. Its stop may be [`Stop::LogFull`].
    pub run: Run,
    /// The words written to the log, from its start.
    pub logged: usize,
}

/// Runs as [`run`](crate::run()) does, and writes [`LOG_WORDS`] words a step to the start of `log`.
///
/// It stops before a step for which the log has no room, with [`Stop::LogFull`]. What lies after
/// the words written is left as it was; a refused run alters no buffer.
///
/// ```
/// use fanthrig::{logged_steps, Keys, Mode, Reason, Stop};
///
/// let mut memory = fanthrig::memory();
/// // At x3000: ADD R0, R0, #1, and the reserved opcode.
/// let file = [0x30, 0x00, 0x10, 0x21, 0xD0, 0x00];
/// let record = fanthrig::start(&file, &mut memory, Mode::User, 0xFDFF)?.record;
/// let mut log = [0; 8];
/// let answer = fanthrig::run_logged(record, &mut memory, Keys::NONE, &mut [], &mut log, 1000)?;
/// assert_eq!((answer.run.stop, answer.run.steps), (Stop::LogFull, 2));
/// let steps: Vec<_> = logged_steps(&log[..answer.logged]).collect();
/// assert_eq!((steps[0].pc, steps[0].line().as_str()), (0x3000, "ADD R0, R0, #1"));
/// assert_eq!((steps[1].pc, steps[1].reason), (0x3001, Reason::Illegal));
/// # Ok::<(), fanthrig::Error>(())
/// ```
pub fn run_logged(
    record: Record,
    memory: &mut Memory,
    keys: Keys<'_>,
    output: &mut [u8],
    log: &mut [u16],
    n: u64,
) -> Result<LoggedRun, Error> {
    logged_by(ffi::lc3_run_logged, record, memory, keys, output, log, n)
}

/// Runs as [`run_second`](crate::run_second) does, by the rules of the book's second edition, and
/// logs as [`run_logged`] does. A TRAP is logged as an instruction, and there is no access exception.
///
/// ```
/// use fanthrig::{logged_steps, Keys, Mode, Reason};
///
/// let mut memory = fanthrig::memory();
/// let file = [0x30, 0x00, 0xF0, 0x25]; // at x3000, TRAP x25
/// let record = fanthrig::start(&file, &mut memory, Mode::User, 0xFDFF)?.record;
/// let mut log = [0; 3];
/// let answer =
///     fanthrig::run_logged_second(record, &mut memory, Keys::NONE, &mut [], &mut log, 1)?;
/// let step = logged_steps(&log[..answer.logged]).next().expect("a step");
/// assert_eq!((step.word, step.reason), (Some(0xF025), Reason::Instruction));
/// assert_eq!((answer.run.record.regs[7], answer.run.record.pc), (0x3001, 0));
/// # Ok::<(), fanthrig::Error>(())
/// ```
pub fn run_logged_second(
    record: Record,
    memory: &mut Memory,
    keys: Keys<'_>,
    output: &mut [u8],
    log: &mut [u16],
    n: u64,
) -> Result<LoggedRun, Error> {
    logged_by(ffi::lc3_run_logged_second, record, memory, keys, output, log, n)
}

/// Runs by one of the calls that take and answer the same.
fn logged_by(
    call: ffi::LoggedCall,
    record: Record,
    memory: &mut Memory,
    keys: Keys<'_>,
    output: &mut [u8],
    log: &mut [u16],
    n: u64,
) -> Result<LoggedRun, Error> {
    // SAFETY: each pointer and length come from one slice, and the borrows keep the slices that
    // are written apart from all others.
    let answer = unsafe {
        call(
            record,
            memory.as_mut_ptr(),
            memory.len(),
            keys.times.as_ptr(),
            keys.times.len(),
            keys.bytes.as_ptr(),
            keys.bytes.len(),
            output.as_mut_ptr(),
            output.len(),
            log.as_mut_ptr(),
            log.len(),
            n,
        )
    };
    accepted_keys(answer.refusal, answer.index)?;
    let run = Run {
        record: answer.record,
        steps: answer.steps,
        keys: count(answer.keys),
        shown: count(answer.shown),
        stop: Stop::from_code(answer.stop),
    };
    Ok(LoggedRun { run, logged: count(answer.logged) })
}
