//! Random hosts: what they make of the record of a machine that was just started, and the calls by
//! which they run it.

use super::Rng;
use crate::reference::machine;
use fanthrig::{Record, LOG_WORDS, STEP_LIMIT};

/// Interrupt enable of KBSR and TSR, and clock enable of MCR.
pub const INTERRUPT: u16 = 0x4000;
pub const CLOCK: u16 = 0x8000;

/// What a host alters in a record.
#[derive(Clone, Copy, Debug)]
pub enum Host {
    Nothing,
    Devices(Record),
    /// Registers, PSR, display and clock too; the machine may be halted.
    Everything(Record),
}

impl Host {
    pub fn random(rng: &mut Rng) -> Host {
        const STATUS: [u16; 5] = [0x0000, INTERRUPT, INTERRUPT, INTERRUPT, 0x8000];
        let limit = rng.pick(&[1, 20, 800, 800]);
        let timer_interval = rng.below(limit) as u16;
        let record = Record {
            regs: [(); 8].map(|()| rng.word()),
            psr: 0x8000 | rng.word() & 0x0707,
            kbsr: rng.pick(&STATUS),
            kbdr: rng.word() & 0x00FF,
            mcr: if rng.once_in(8) { 0 } else { CLOCK },
            busy: rng.below(9) as u16,
            timer_status: rng.pick(&STATUS),
            timer_interval,
            timer_count: timer_interval.min(1 + rng.below(1000) as u16),
            clock: rng.below(1 << 40),
            ..machine::fresh(0, true, 0)
        };
        match rng.below(4) {
            0 | 1 => Host::Nothing,
            2 => Host::Devices(record),
            _ => Host::Everything(record),
        }
    }

    /// The record that it hands in. Where the program begins and the stacks are as started.
    pub fn alter(self, started: Record) -> Record {
        match self {
            Host::Nothing => started,
            Host::Devices(Record {
                kbsr, kbdr, timer_status, timer_interval, timer_count, ..
            }) => Record { kbsr, kbdr, timer_status, timer_interval, timer_count, ..started },
            Host::Everything(record) => {
                let Record { pc, saved_ssp, saved_usp, .. } = started;
                Record { pc, saved_ssp, saved_usp, ..record }
            }
        }
    }

    /// How many devices may interrupt.
    pub fn enabled_devices(self) -> usize {
        let Record { kbsr, timer_status, .. } = self.alter(machine::fresh(0, true, 0));
        [kbsr, timer_status].iter().filter(|status| **status & INTERRUPT != 0).count()
    }
}

/// By which function a call is made.
#[derive(Clone, Copy, Debug, PartialEq, Eq)]
pub enum Way {
    Run,
    Long,
    Logged,
}

/// A call with fresh keys, a fresh output, and a fresh log if it is a logged one.
#[derive(Clone, Debug)]
pub struct Call {
    pub way: Way,
    pub n: u64,
    pub times: Vec<u64>,
    pub bytes: Vec<u8>,
    /// The bytes of the output, and the words of the log.
    pub room: usize,
    pub log: usize,
}

impl Call {
    /// A logged call with keys at these times, and room for all.
    pub fn logged(n: u64, times: Vec<u64>) -> Call {
        let bytes = times.iter().map(|time| *time as u8).collect();
        Call { way: Way::Logged, n, times, bytes, room: n as usize, log: LOG_WORDS * n as usize }
    }

    /// A random call of a machine at this clock; one in forty is refused.
    pub fn random(rng: &mut Rng, clock: u64) -> Call {
        let n = match rng.below(8) {
            0 => rng.below(4),
            1..=3 => rng.below(100),
            _ => rng.below(600),
        };
        let count = rng.pick(&[0, 1, 1, 3]);
        let mut times: Vec<u64> = (0..count).map(|_| clock + rng.below(n + 2)).collect();
        times.sort_unstable();
        let mut call = Call::logged(n, times);
        call.bytes.fill_with(|| rng.next() as u8);
        call.way = rng.pick(&[Way::Run, Way::Long, Way::Logged, Way::Logged]);
        call.room = rng.pick(&[0, 1, 3, 20, 200, 200, 200]);
        call.log = match call.way {
            Way::Logged if rng.once_in(8) => rng.below(call.log as u64 + 1) as usize,
            Way::Logged => call.log,
            Way::Run | Way::Long => 0,
        };
        if rng.once_in(40) {
            call.spoil(rng, clock);
        }
        call
    }

    /// Too many steps, a key without a time, or a key before the clock.
    fn spoil(&mut self, rng: &mut Rng, clock: u64) {
        match rng.below(3) {
            0 => self.n = STEP_LIMIT + 1,
            1 if clock > 0 => {
                self.times.insert(0, clock - 1);
                self.bytes.insert(0, 0);
            }
            _ => self.bytes.push(0),
        }
    }
}
