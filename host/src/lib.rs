//! The LC-3 with privilege, interrupts, a console and a timer.
//!
//! This crate is a safe wrapper of the static library `libfanthrig.a`. It has the library's calls:
//!
//! - [`version()`], the version of the interface;
//! - [`start`] for an object file and a machine that is to run it, and [`start_user`] for a file
//!   that is not trusted, such as a candidate's;
//! - [`run`](run()) for a number of steps over lent memory, and [`step`] for one step, which alters
//!   the record that it is lent;
//! - [`run_long`], which does what [`run`](run()) does, faster for long sittings;
//! - [`run_second`] and [`step_second`], the same by the rules of the book's second edition;
//! - [`run_logged`] for a run that logs each step, and [`run_logged_second`], with [`logged_steps`]
//!   to read the log;
//! - [`tell`] for what the next step of a run does, which is not made, and [`tell_second`];
//! - [`read`] for a word as an instruction, [`write`](write()) for an instruction as a word;
//! - [`line`](line()) for a word as a line of text, [`line_length`] for the bytes of that line, and
//!   [`page`] for a range of memory as lines;
//! - [`save`] for a range of memory as an object file;
//! - [`install_monitor`] for the ready-made monitor, [`Routines::of_monitor`] for the addresses of its
//!   routines, and [`vectors`] for the vector words of any monitor.
//!
//! One tool is made of these calls:
//!
//! - [`reach`](reach()) for a run that tells how far one altered word of memory can reach.
//!
//! Memory is lent as a [`Memory`], which has its length by its type; [`memory()`] makes one. Nothing is
//! kept between calls. A call that cannot be obeyed is refused with an [`Error`] and alters nothing.
//! The C interface itself, with the constants of `lc3.h` under their names, is in [`ffi`].
//!
//! When the crate is built, the archive is taken from the folder in the environment variable
//! `FANTHRIG_LIB_DIR`, or else from `build` of the source tree, or else from where pkg-config finds
//! it.
//!
//! A program in Supervisor mode that shows one byte and then clears bit 15 of MCR:
//!
//! ```
//! use fanthrig::{Keys, Mode, Stop};
//!
//! let file = [
//!     0x30, 0x00, // the origin
//!     0x20, 0x03, // LD R0, x3004
//!     0xB0, 0x03, // STI R0, x3005
//!     0x50, 0x20, // AND R0, R0, #0
//!     0xB0, 0x02, // STI R0, x3006
//!     0x00, 0x41, // the letter A
//!     0xFE, 0x06, // DDR
//!     0xFF, 0xFE, // MCR
//! ];
//! let mut memory = fanthrig::memory();
//! let mut output = [0; 8];
//! let record = fanthrig::start(&file, &mut memory, Mode::Supervisor, 0xFDFF)?.record;
//! let run = fanthrig::run(record, &mut memory, Keys::NONE, &mut output, 1000)?;
//! assert_eq!(run.stop, Stop::Halted);
//! assert_eq!((run.steps, run.shown), (4, 1));
//! assert_eq!(output[0], b'A');
//! # Ok::<(), fanthrig::Error>(())
//! ```

#![warn(missing_docs)]

mod error;
mod instruction;
mod line;
mod log;
mod memory;
mod monitor;
mod object;
mod reach;
mod run;
mod telling;

pub use error::Error;
pub use fanthrig_sys as ffi;
pub use fanthrig_sys::{Mode, Record};
pub use instruction::{read, write, Instruction, Reading};
pub use line::{line, line_length, line_string, page, LINE_LIMIT};
pub use log::{logged_steps, run_logged, run_logged_second};
pub use log::{LoggedRun, LoggedStep, Reason, LOG_WORDS};
pub use memory::{memory, Memory, WORDS};
pub use monitor::{certify, install_monitor, vectors, Certified, Routines};
pub use monitor::{MONITOR_WORDS, VECTOR_WORDS, WATCHED_WORDS};
pub use object::{save, start, start_user, Started};
pub use reach::{reach, Fate, Reach, Replacing, Taking};
pub use run::{run, run_long, run_second, step, step_second};
pub use run::{Keys, Run, StepReport, Stop, CLOCK_LIMIT, STEP_LIMIT};
pub use telling::{tell, tell_second, Addresses, Told};

/// The version of the interface that the library was built for.
///
/// ```
/// assert_eq!(fanthrig::version(), fanthrig::ffi::LC3_VERSION);
/// ```
pub fn version() -> u32 {
    ffi::lc3_version()
}

// The examples of the guide and of the crate's README are tests.
#[cfg(doctest)]
#[doc = include_str!("../../docs/GUIDE.md")]
#[doc = include_str!("../README.md")]
struct Readme;
