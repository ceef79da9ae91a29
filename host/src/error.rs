//! Why a call was refused: one type for every call.

use crate::ffi;
use std::fmt;

/// Why a call was refused. Where several apply, the first that the call's rules name is answered.
///
/// The library's refusal 11, a memory of another length, is none of them: memory is lent as a
/// [`Memory`](crate::Memory), which has its length by its type.
///
/// ```
/// use fanthrig::{Error, Mode};
///
/// fn first_line(file: &[u8]) -> Result<String, Error> {
///     let mut memory = fanthrig::memory();
///     let started = fanthrig::start(file, &mut memory, Mode::User, 0xFDFF)?;
///     let mut output = [0; fanthrig::LINE_LIMIT];
///     let count = fanthrig::line(memory[usize::from(started.record.pc)], &mut output)?;
///     Ok(String::from_utf8_lossy(&output[..count]).into_owned())
/// }
///
/// assert_eq!(first_line(&[0x30, 0x00, 0xF0, 0x25]).as_deref(), Ok("TRAP x25\n"));
/// let refused = first_line(&[0x30]).unwrap_err();
/// assert_eq!((refused, refused.code()), (Error::File, 17));
/// assert_eq!(refused.to_string(), "the file has an odd number of bytes, or fewer than two");
/// ```
#[derive(Clone, Copy, Debug, PartialEq, Eq, Hash)]
#[non_exhaustive]
pub enum Error {
    /// 1: a register is above 7.
    Register,
    /// 2: a signed field, trap vector or reserved field is out of range.
    Value,
    /// 3: the mask of BR is above 7.
    Mask,
    /// 12: the record has an undefined bit, a busy count above 8, a timer count above the interval,
    /// or 0 with an interval set, or a clock above [`CLOCK_LIMIT`](crate::CLOCK_LIMIT).
    Record,
    /// 13: more than [`STEP_LIMIT`](crate::STEP_LIMIT) steps, or a clock that would pass
    /// [`CLOCK_LIMIT`](crate::CLOCK_LIMIT).
    Steps,
    /// 14: the key lists differ in length.
    KeyLists,
    /// 15: the time of the key with this index, from 0, is below the clock.
    KeyTime(usize),
    /// 16: the line, the page or the file does not fit the output.
    Output,
    /// 17: the file has an odd number of bytes, or fewer than two.
    File,
    /// 18: the range of an object file goes beyond the last word of memory.
    Range,
    /// 19: the time of the key with this index, from 0, is below the one before it, and not below
    /// the clock.
    KeyOrder(usize),
    /// 20: the page goes beyond the last word of memory.
    Page,
    /// 21: the origin or a word of the file lies outside x3000 to xFDFF: of
    /// [`start_user`](crate::start_user()) alone.
    User,
}

impl Error {
    /// The refusal that a number stands for, if any; those of a key with this index.
    fn from_code(number: u32, index: usize) -> Option<Error> {
        use Error::{File, KeyLists, KeyOrder, KeyTime, Mask, Output, Page, Range, Record};
        use Error::{Register, Steps, User, Value};
        let words = [Register, Value, Mask];
        let runs = [Record, Steps, KeyLists, KeyTime(index), KeyOrder(index)];
        let files = [Output, File, Range, Page, User];
        let mut all = words.into_iter().chain(runs).chain(files);
        all.find(|refusal| refusal.code() == number)
    }

    /// The refusal's number.
    ///
    /// ```
    /// assert_eq!(fanthrig::Error::KeyOrder(3).code(), 19);
    /// ```
    pub fn code(self) -> u32 {
        match self {
            Error::Register => ffi::LC3_REFUSED_REGISTER,
            Error::Value => ffi::LC3_REFUSED_FIELD,
            Error::Mask => ffi::LC3_REFUSED_MASK,
            Error::Record => ffi::LC3_REFUSED_RECORD,
            Error::Steps => ffi::LC3_REFUSED_STEPS,
            Error::KeyLists => ffi::LC3_REFUSED_LISTS,
            Error::KeyTime(_) => ffi::LC3_REFUSED_TIME,
            Error::Output => ffi::LC3_REFUSED_OUTPUT,
            Error::File => ffi::LC3_REFUSED_FILE,
            Error::Range => ffi::LC3_REFUSED_RANGE,
            Error::KeyOrder(_) => ffi::LC3_REFUSED_ORDER,
            Error::Page => ffi::LC3_REFUSED_PAGE,
            Error::User => ffi::LC3_REFUSED_USER,
        }
    }
}

impl fmt::Display for Error {
    fn fmt(&self, f: &mut fmt::Formatter<'_>) -> fmt::Result {
        f.write_str(match self {
            Error::Register => "a register is above 7",
            Error::Value => "a field's value is out of range",
            Error::Mask => "the mask of BR is above 7",
            Error::Record => {
                "the record has an undefined bit, a busy or timer count out of range, or a clock above \
                 2^48"
            }
            Error::Steps => "more than 1,048,576 steps, or a clock that would pass 2^48",
            Error::KeyLists => "the lists of key times and key bytes differ in length",
            Error::KeyTime(i) => return write!(f, "times[{i}] is below the clock"),
            Error::Output => "the text or the file does not fit the output",
            Error::File => "the file has an odd number of bytes, or fewer than two",
            Error::Range => "the range goes beyond the last word of memory",
            Error::KeyOrder(i) => return write!(f, "times[{i}] is below the time before it"),
            Error::Page => "the page goes beyond the last word of memory",
            Error::User => "the file does not lie in x3000 to xFDFF",
        })
    }
}

impl std::error::Error for Error {}

/// Nothing if the library accepted the call, or else the refusal that it answered.
pub(crate) fn accepted(number: u32) -> Result<(), Error> {
    accepted_keys(number, 0)
}

/// The same of a call that is lent keys, and names the first one at fault.
pub(crate) fn accepted_keys(number: u32, index: u64) -> Result<(), Error> {
    if number == ffi::LC3_ACCEPTED {
        return Ok(());
    }
    let index = usize::try_from(index).expect("an index into a slice");
    let refusal = Error::from_code(number, index);
    Err(refusal.unwrap_or_else(|| unreachable!("the library answered refusal {number}")))
}
