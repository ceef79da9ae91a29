//! What the next step of a run does, told without making it.

use crate::error::accepted_keys;
use crate::{ffi, logged_steps, Error, Keys, LoggedStep, Memory, Record, Stop};

/// The addresses of at most three words of memory, in the order of a step.
#[derive(Clone, Copy, Debug, PartialEq, Eq)]
pub struct Addresses(ffi::Addresses);

impl std::ops::Deref for Addresses {
    type Target = [u16];

    fn deref(&self) -> &[u16] {
        &self.0.at[..usize::from(self.0.count)]
    }
}

/// What a step does: in the words of a log, and with the words of memory that it takes and stores to.
#[derive(Clone, Copy, Debug, PartialEq, Eq)]
pub struct Told {
    /// The step as a log tells of it.
    pub step: LoggedStep,
    /// The words that the step takes: first the one fetched, if one is; last the vector word of an
    /// entry, also where a push of the same step has just replaced it.
    pub reads: Addresses,
    /// The word that the step stores to, or the two that an entry pushes.
    pub writes: Addresses,
}

/// Tells what the next step of [`run`](crate::run()) does, and makes none; `None` if the machine is
/// halted. It is refused as a run of one step is. Whether the output has room is not asked.
///
/// ```
/// use fanthrig::{Keys, Mode, Reason};
///
/// let mut memory = fanthrig::memory();
/// let file = [0x30, 0x00, 0xF0, 0x25]; // at x3000, TRAP x25
/// let record = fanthrig::start(&file, &mut memory, Mode::User, 0xFDFF)?.record;
/// let told = fanthrig::tell(record, &memory, Keys::NONE)?.expect("a step");
/// assert_eq!(told.step.reason, Reason::Trap);
/// assert_eq!((&told.reads[..], &told.writes[..]), (&[0x3000, 0x0025][..], &[0x2FFF, 0x2FFE][..]));
/// # Ok::<(), fanthrig::Error>(())
/// ```
pub fn tell(record: Record, memory: &Memory, keys: Keys<'_>) -> Result<Option<Told>, Error> {
    tell_by(ffi::lc3_tell, record, memory, keys)
}

/// Tells what the next step of [`run_second`](crate::run_second) does, as [`tell`] does.
///
/// ```
/// use fanthrig::{Keys, Mode, Reason};
///
/// let mut memory = fanthrig::memory();
/// let file = [0x30, 0x00, 0xF0, 0x25]; // at x3000, TRAP x25
/// let record = fanthrig::start(&file, &mut memory, Mode::User, 0xFDFF)?.record;
/// let told = fanthrig::tell_second(record, &memory, Keys::NONE)?.expect("a step");
/// assert_eq!((told.step.reason, told.writes.len()), (Reason::Instruction, 0));
/// # Ok::<(), fanthrig::Error>(())
/// ```
pub fn tell_second(record: Record, memory: &Memory, keys: Keys<'_>) -> Result<Option<Told>, Error> {
    tell_by(ffi::lc3_tell_second, record, memory, keys)
}

/// Tells by one of the calls that take and answer the same.
fn tell_by(
    call: ffi::TellCall,
    record: Record,
    memory: &Memory,
    keys: Keys<'_>,
) -> Result<Option<Told>, Error> {
    // SAFETY: each pointer and length come from one slice, and the call writes to none.
    let told = unsafe {
        call(
            record,
            memory.as_ptr(),
            memory.len(),
            keys.times.as_ptr(),
            keys.times.len(),
            keys.bytes.as_ptr(),
            keys.bytes.len(),
        )
    };
    accepted_keys(told.refusal, told.index)?;
    if Stop::from_code(told.stop) != Stop::Done {
        return Ok(None);
    }
    let step = logged_steps(&[record.pc, told.word, told.reason]).next().expect("one step");
    Ok(Some(Told { step, reads: Addresses(told.reads), writes: Addresses(told.writes) }))
}
