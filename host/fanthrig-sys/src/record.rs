//! The machine's record.

use crate::{LC3_MCR_CLOCK, LC3_PSR_USER};

/// The two modes of privilege.
#[derive(Clone, Copy, Debug, PartialEq, Eq, Hash)]
pub enum Mode {
    /// Everything is allowed.
    Supervisor,
    /// Only addresses x3000 to xFDFF may be reached.
    User,
}

/// The whole state of the machine beside its memory. Starting an object file makes a fresh one.
///
/// It has the layout of `lc3_record` in C.
#[repr(C)]
#[derive(Clone, Copy, Debug, PartialEq, Eq, Hash)]
pub struct Record {
    /// R0 to R7. R6 is the stack pointer of the current mode.
    pub regs: [u16; 8],
    /// The address of the next instruction.
    pub pc: u16,
    /// The processor status: bit 15 is User mode, bits 10 to 8 are the priority, bits 2 to 0 the
    /// codes N, Z and P. No other bit is defined.
    pub psr: u16,
    /// The supervisor's stack pointer while in User mode.
    pub saved_ssp: u16,
    /// The user's stack pointer while in Supervisor mode.
    pub saved_usp: u16,
    /// The keyboard's status: bit 15 is ready, bit 14 interrupt enable. No other bit is defined.
    pub kbsr: u16,
    /// The last key, in bits 7 to 0. No other bit is defined.
    pub kbdr: u16,
    /// The machine control: bit 15 is clock enable. No other bit is defined.
    pub mcr: u16,
    /// The steps until the display is ready, at most 8: 8 after a step that showed a byte, one less
    /// after each later step, and 0 once it is ready. While it is busy, DSR gives 0 and a byte
    /// stored to DDR is lost.
    pub busy: u16,
    /// The timer's status: bit 15 is ready, bit 14 interrupt enable. No other bit is defined.
    pub timer_status: u16,
    /// The steps from one time that the timer is ready to the next, 0 while it is off.
    pub timer_interval: u16,
    /// The steps until the timer is ready next: from 1 to the interval, or 0 while it is off.
    pub timer_count: u16,
    /// The number of steps made so far, at most 2^48.
    pub clock: u64,
}

impl Record {
    /// The mode in bit 15 of PSR.
    pub fn mode(&self) -> Mode {
        if self.psr & LC3_PSR_USER == 0 {
            Mode::Supervisor
        } else {
            Mode::User
        }
    }

    /// Whether the machine is halted: bit 15 of MCR is clear.
    ///
    /// A machine that halts in the last step that was asked for answers [`LC3_DONE`](crate::LC3_DONE),
    /// so this is what a host asks at its own limit of steps.
    pub fn is_halted(&self) -> bool {
        self.mcr & LC3_MCR_CLOCK == 0
    }
}
