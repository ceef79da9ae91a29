//! Object files.

use crate::error::accepted;
use crate::{ffi, Error, Memory, Mode, Record};

/// What starting a file answers.
#[derive(Clone, Copy, Debug, PartialEq, Eq)]
pub struct Started {
    /// A machine that has not run yet, at the file's origin.
    pub record: Record,
    /// The words loaded, from the origin on.
    pub words: usize,
}

/// Loads an object file into memory, and answers the record of a machine that is to run it.
///
/// The first word of the file is the origin, and the others are stored from there on, each with its
/// high byte first. No other word of memory changes.
///
/// The record stands at the origin in the given mode, with the code Z and priority 0. The
/// supervisor's stack begins at x3000. R6 is the stack pointer of the mode, and that of the other
/// mode is saved. No run is refused for this record.
///
/// A host with several files starts each, the one that is to run last, and keeps the last record. A
/// file of two bytes starts a machine at an address, with nothing loaded.
///
/// A refused call alters nothing.
///
/// # What this does not protect
///
/// A file may lie anywhere, in privileged memory too: it may replace vector words, the monitor and
/// an examiner's words. User mode is no protection: it limits what a program does, not where its
/// file is loaded. A file that replaces the word x0102 decides where an access exception leads, and
/// so runs its own words in Supervisor mode. A file that is not trusted is started by
/// [`start_user`].
///
/// ```
/// use fanthrig::{Error, Mode};
///
/// let mut memory = fanthrig::memory();
/// let file = [0x30, 0x00, 0x14, 0xE7, 0xF0, 0x25];
/// let started = fanthrig::start(&file, &mut memory, Mode::User, 0xFDFF)?;
/// assert_eq!(memory[0x3000..0x3003], [0x14E7, 0xF025, 0]);
/// assert_eq!(started.words, 2);
///
/// let record = started.record;
/// assert_eq!((record.pc, record.psr, record.mcr), (0x3000, 0x8002, 0x8000));
/// assert_eq!((record.regs[6], record.saved_ssp), (0xFDFF, 0x3000));
/// assert_eq!(record.mode(), Mode::User);
///
/// let refused = fanthrig::start(&file[..5], &mut memory, Mode::User, 0xFDFF);
/// assert_eq!(refused, Err(Error::File));
/// # Ok::<(), fanthrig::Error>(())
/// ```
pub fn start(
    file: &[u8],
    memory: &mut Memory,
    mode: Mode,
    user_stack: u16,
) -> Result<Started, Error> {
    // SAFETY: each pointer and length come from one slice, and the borrow keeps memory apart from
    // the file.
    let answer = unsafe {
        ffi::lc3_start(
            file.as_ptr(),
            file.len(),
            memory.as_mut_ptr(),
            memory.len(),
            mode == Mode::User,
            user_stack,
        )
    };
    accepted(answer.refusal)?;
    Ok(Started { record: answer.record, words: answer.words as usize })
}

/// Starts a file that is not trusted, such as a candidate's: as [`start`] does it in User mode, but
/// the origin and every word of the file must lie in x3000 to xFDFF. No other file is loaded, so no
/// word of memory outside them is replaced.
///
/// Beside the [ready-made monitor](crate::install_monitor) no program that is started so learns or
/// changes a word of x02A5 to x2FF9, or a lent word from xFE00 on, however long it is run from the
/// record answered, by [`run`](crate::run()), [`run_long`](crate::run_long),
/// [`step`](crate::step()) or [`run_logged`](crate::run_logged). Beside another monitor that depends
/// on the monitor.
///
/// A refused call alters nothing.
///
/// ```
/// use fanthrig::Error;
///
/// let mut memory = fanthrig::memory();
/// let started = fanthrig::start_user(&[0x30, 0x00, 0xF0, 0x25], &mut memory, 0xFDFF)?;
/// assert_eq!((started.record.pc, memory[0x3000]), (0x3000, 0xF025));
///
/// // The word that says where an access exception leads.
/// let refused = fanthrig::start_user(&[0x01, 0x02, 0x01, 0x03], &mut memory, 0xFDFF);
/// assert_eq!(refused, Err(Error::User));
/// # Ok::<(), fanthrig::Error>(())
/// ```
pub fn start_user(file: &[u8], memory: &mut Memory, user_stack: u16) -> Result<Started, Error> {
    // SAFETY: each pointer and length come from one slice, and the borrow keeps memory apart from
    // the file.
    let answer = unsafe {
        ffi::lc3_start_user(
            file.as_ptr(),
            file.len(),
            memory.as_mut_ptr(),
            memory.len(),
            user_stack,
        )
    };
    accepted(answer.refusal)?;
    Ok(Started { record: answer.record, words: answer.words as usize })
}

/// Writes the object file of `words` words of memory from `origin` on to the start of `output`, and
/// answers its length: two bytes for the origin and for each word. The rest of the output stays as
/// it is.
///
/// A refused call alters nothing.
///
/// ```
/// use fanthrig::Error;
///
/// let mut memory = fanthrig::memory();
/// memory[0x3000] = 0xF025;
/// let mut output = [0xAA; 5];
/// assert_eq!(fanthrig::save(&memory, 0x3000, 1, &mut output), Ok(4));
/// assert_eq!(output, [0x30, 0x00, 0xF0, 0x25, 0xAA]);
///
/// assert_eq!(fanthrig::save(&memory, 0x3000, 2, &mut output), Err(Error::Output));
/// ```
pub fn save(memory: &Memory, origin: u16, words: usize, output: &mut [u8]) -> Result<usize, Error> {
    // SAFETY: each pointer and length come from one slice, and the borrow keeps the output apart
    // from memory.
    let answer = unsafe {
        ffi::lc3_save(
            memory.as_ptr(),
            memory.len(),
            origin,
            words,
            output.as_mut_ptr(),
            output.len(),
        )
    };
    accepted(answer.refusal)?;
    Ok(usize::try_from(answer.count).expect("a count within a slice"))
}
