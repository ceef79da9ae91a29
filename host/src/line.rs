//! Words as lines of text, and ranges of memory as pages of lines.

use crate::error::accepted;
use crate::{ffi, Error, Memory};

/// The bytes of the longest line, its line feed included.
pub const LINE_LIMIT: usize = ffi::LC3_MAX_LINE;

/// Writes a word as a line of text to the start of `output`, and answers its length.
///
/// The line ends in a line feed. Hexadecimal digits are capitals, and the codes of a BR stand in
/// the order n, z, p. A reserved word, one with wrong fixed bits and a BR that tests nothing are
/// data, as `.FILL x0005`. What lies after the line is left as it was; where the line does not fit,
/// all of `output` is.
///
/// ```
/// let mut output = [0; fanthrig::LINE_LIMIT];
/// let count = fanthrig::line(0x14E7, &mut output)?;
/// assert_eq!(&output[..count], b"ADD R2, R3, #7\n");
/// assert_eq!(fanthrig::line(0x14E7, &mut output[..14]), Err(fanthrig::Error::Output));
/// # Ok::<(), fanthrig::Error>(())
/// ```
pub fn line(word: u16, output: &mut [u8]) -> Result<usize, Error> {
    // SAFETY: the slice is valid for writing its length.
    let counted = unsafe { ffi::lc3_line(word, output.as_mut_ptr(), output.len()) };
    accepted(counted.refusal)?;
    Ok(counted.count as usize)
}

/// The bytes of a word's line, its line feed included.
///
/// ```
/// assert_eq!(fanthrig::line_length(0x14E7), "ADD R2, R3, #7\n".len());
/// ```
pub fn line_length(word: u16) -> usize {
    ffi::lc3_line_length(word)
}

/// The line of a word, its line feed included.
///
/// ```
/// assert_eq!(fanthrig::line_string(0xF025), "TRAP x25\n");
/// assert_eq!(fanthrig::line_string(0x0005), ".FILL x0005\n");
/// ```
pub fn line_string(word: u16) -> String {
    let mut output = [0; LINE_LIMIT];
    let count = line(word, &mut output).expect("no line is longer than LINE_LIMIT");
    output[..count].iter().copied().map(char::from).collect()
}

/// Writes the lines of `count` words from `first` on, one after the other, to the start of
/// `output`, and answers their length: at most `count` times [`LINE_LIMIT`].
///
/// What lies after the page is left as it was; where the page is refused, all of `output` is.
///
/// ```
/// let mut memory = fanthrig::memory();
/// memory[0x3000..0x3002].copy_from_slice(&[0x1021, 0x0FFE]);
/// let mut output = [0; 2 * fanthrig::LINE_LIMIT];
/// let count = fanthrig::page(&memory, 0x3000, 2, &mut output)?;
/// assert_eq!(&output[..count], b"ADD R0, R0, #1\nBRnzp #-2\n");
/// assert_eq!(fanthrig::page(&memory, 0xFFFF, 2, &mut output), Err(fanthrig::Error::Page));
/// # Ok::<(), fanthrig::Error>(())
/// ```
pub fn page(memory: &Memory, first: u16, count: usize, output: &mut [u8]) -> Result<usize, Error> {
    // SAFETY: each pointer and length come from one slice, and the borrow keeps the output apart
    // from memory.
    let counted = unsafe {
        let (text, room) = (output.as_mut_ptr(), output.len());
        ffi::lc3_page(memory.as_ptr(), memory.len(), first, count, text, room)
    };
    accepted(counted.refusal)?;
    Ok(counted.count as usize)
}
