//! The ready-made monitor, and the vector words of any other.

use crate::{ffi, Memory};

/// The vector words: x0000 to x01FF.
pub const VECTOR_WORDS: usize = ffi::LC3_VECTOR_WORDS;

/// The words of the ready-made monitor, from x0000 on.
pub const MONITOR_WORDS: usize = ffi::LC3_MONITOR_WORDS;

pub use ffi::{Certified, Routines};

/// The watched words of a claim about a monitor.
pub const WATCHED_WORDS: usize = ffi::LC3_WATCHED_WORDS;

/// Puts the ready-made monitor into memory: words x0000 to x02A4, and no other.
///
/// Its routines are GETC, OUT, PUTS, IN, PUTSP and HALT of the book's Table A.3; every other trap
/// and the three exceptions halt and show nothing; interrupts return at once. The program that it
/// serves starts in User mode; a candidate's is started by [`start_user`](crate::start_user).
///
/// ```
/// use fanthrig::{Keys, Stop};
///
/// let mut memory = fanthrig::memory();
/// fanthrig::install_monitor(&mut memory);
/// let file = [0x30, 0x00, 0xF0, 0x25]; // at x3000, TRAP x25: HALT
/// let record = fanthrig::start_user(&file, &mut memory, 0xFDFF)?.record;
/// let mut output = [0; 80];
/// let run = fanthrig::run(record, &mut memory, Keys::NONE, &mut output, 1000)?;
/// assert_eq!(run.stop, Stop::Halted);
/// assert_eq!(&output[..run.shown], b"Halted\n");
/// # Ok::<(), fanthrig::Error>(())
/// ```
pub fn install_monitor(memory: &mut Memory) {
    // SAFETY: pointer and length come from one array.
    let refusal = unsafe { ffi::lc3_monitor(memory.as_mut_ptr(), memory.len()) };
    assert_eq!(refusal, ffi::LC3_ACCEPTED, "a memory has its length by its type");
}

/// The vector words, x0000 to x01FF, of a monitor with these routines.
///
/// ```
/// // The ready-made monitor, but for PUTS, which is the class's own.
/// let routines = fanthrig::Routines { puts: 0x1000, ..fanthrig::Routines::of_monitor() };
/// let words = fanthrig::vectors(routines);
/// assert_eq!((words[0x21], words[0x22]), (0x0204, 0x1000));
/// ```
pub fn vectors(routines: Routines) -> [u16; VECTOR_WORDS] {
    let mut words = [0; VECTOR_WORDS];
    // SAFETY: pointer and length come from one array.
    let refusal = unsafe { ffi::lc3_vectors(routines, words.as_mut_ptr(), words.len()) };
    assert_eq!(refusal, ffi::LC3_ACCEPTED, "the table fits");
    words
}

/// Tests a claim about a monitor, any class's. Where the finding is 0, a sitting on this memory tells
/// nothing of the secret words: the header says what the numbers mean.
///
/// ```
/// // No word is claimed, so that the first vector is secret.
/// let memory = fanthrig::memory();
/// let found = fanthrig::certify(&memory[..], &[], 0x2FF8, &[0; 8], &[], &[]);
/// assert_eq!((found.finding, found.address), (3, 0x0000));
/// ```
pub fn certify(
    memory: &[u16],
    kinds: &[u8],
    lowest: u16,
    watched: &[u16; WATCHED_WORDS],
    ends: &[u32],
    table: &[u32],
) -> Certified {
    // SAFETY: each pointer and length come from one slice.
    unsafe {
        ffi::lc3_certify(
            memory.as_ptr(),
            memory.len(),
            kinds.as_ptr(),
            kinds.len(),
            lowest,
            watched.as_ptr(),
            watched.len(),
            ends.as_ptr(),
            ends.len(),
            table.as_ptr(),
            table.len(),
        )
    }
}
