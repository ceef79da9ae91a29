//! The machine's memory.

use crate::ffi;

/// The number of words of memory.
pub const WORDS: usize = ffi::LC3_MEMORY_WORDS;

/// The whole memory, as it is lent to a call. A slice of the right length is one by `try_into`:
///
/// ```
/// let mut words = vec![0; fanthrig::WORDS];
/// let memory: &mut fanthrig::Memory = words.as_mut_slice().try_into()?;
/// fanthrig::install_monitor(memory);
/// assert_eq!(words[0x21], 0x0204);
/// # Ok::<(), std::array::TryFromSliceError>(())
/// ```
///
/// One of another length does not compile, and so there is no refusal for it:
///
/// ```compile_fail,E0308
/// fanthrig::install_monitor(&mut [0; fanthrig::WORDS - 1]);
/// ```
pub type Memory = [u16; WORDS];

/// A memory with 0 in every word.
///
/// ```
/// let mut memory = fanthrig::memory();
/// memory[0x3000] = 0xF025;
/// assert_eq!(memory.len(), 65_536);
/// ```
pub fn memory() -> Box<Memory> {
    // By way of a vector, so that 128 KB never lie on the stack.
    vec![0; WORDS].into_boxed_slice().try_into().expect("the length is that of a memory")
}
