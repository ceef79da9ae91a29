//! Random sittings in pages full of code, which stores into itself and its stack, traps into a
//! monitor, polls the devices and shows; and the calls that follow each other on one memory. The
//! loops of `sittings` seldom leave a few pages and seldom wait for a device.

use super::cases::Case;
use super::sittings::{placed, written};
use super::Rng;
use crate::reference::bus;
use crate::reference::figure::Kind;
use fanthrig::{Record, MONITOR_WORDS, WORDS};
use std::sync::LazyLock;

/// The words of the ready-made monitor.
static MONITOR: LazyLock<Vec<u16>> = LazyLock::new(|| {
    let mut memory = fanthrig::memory();
    fanthrig::install_monitor(&mut memory);
    memory[..MONITOR_WORDS].to_vec()
});

/// What stands in code as it does in a monitor: to wait for the display and show R0, and to wait for
/// a key and load it. Each ends in a branch over its pointers, or in RTI.
const SHOW: [u16; 6] = [0xA203, 0x07FE, 0xB002, 0x0E02, bus::DSR, bus::DDR];
const TAKE: [u16; 6] = [0xA003, 0x07FE, 0xA002, 0x0E02, bus::KBSR, bus::KBDR];
const RTI: u16 = 0x8000;

/// The first and last addresses of the regions, with their neighbours.
const BORDERS: [u16; 9] = [0x0000, 0x2FFE, 0x2FFF, 0x3000, 0xFDFE, 0xFDFF, 0xFE00, 0xFE01, 0xFFFF];

/// A status of the keyboard or of the timer.
const STATUS: [u16; 4] = [0x0000, 0x0000, 0x4000, 0x8000];

/// A routine for the timer's interrupt, so that a sitting does not end in a loop that alters nothing:
/// it makes the next of a row of numbers, and of that an address in a page of code. By the two words
/// in the middle it stores the number there, and has the interrupted program go on there. The words
/// after these are the pointer to TSR, the number, the mask and the page.
const STIR: [u16; 15] = [
    0xA00E, // LDI R0, TSR
    0x220E, // LD R1, NUMBER
    0x1441, // ADD R2, R1, R1
    0x1242, // ADD R1, R1, R2
    0x126D, // ADD R1, R1, #13
    0x320A, // ST R1, NUMBER
    0x240A, // LD R2, MASK
    0x5481, // AND R2, R2, R1
    0x2009, // LD R0, PAGE
    0x1002, // ADD R0, R0, R2
    0x7200, // STR R1, R0, #0
    0x7180, // STR R0, R6, #0
    RTI, RTI, RTI,
];

struct Planter<'a> {
    rng: &'a mut Rng,
    pages: Vec<u8>,
    patches: Vec<(u16, u16)>,
    /// The routine STIR is there.
    stirred: bool,
}

/// A random sitting, in either mode, with the keys and the output of its first call.
pub fn sitting(rng: &mut Rng) -> Case {
    let mut pages: Vec<u8> = (0..=rng.below(7)).map(|_| page(rng)).collect();
    // A store by a label in the last two pages may reach what MCR or a ready DSR is as a pointer.
    if pages.iter().any(|page| *page >= 0xFE) {
        pages.push(0x80);
    }
    let stirred = !rng.once_in(3);
    let mut planter = Planter { rng, pages, patches: Vec::new(), stirred };
    planter.plant_pages();
    planter.plant_vectors();
    if stirred {
        planter.plant_stir();
    }
    let record = planter.record();
    let Planter { rng, patches, .. } = planter;
    let mut case = Case {
        record,
        memory_len: WORDS,
        patches,
        times: vec![],
        bytes: vec![],
        output: vec![],
        n: 0,
    };
    set_call(rng, &mut case);
    case
}

/// The page of a piece of code: most often one of User mode's first or the monitor's, and now and then
/// one beside a border of User mode's memory, or one of the last two, where device registers are.
fn page(rng: &mut Rng) -> u8 {
    match rng.below(50) {
        0..=2 => rng.pick(&[0xFE, 0xFF]),
        3..=5 => rng.pick(&[0x2F, 0xFD]),
        6..=15 => 0x02,
        16..=20 => rng.below(3) as u8,
        21..=30 => rng.below(256) as u8,
        _ => 0x30 + rng.below(4) as u8,
    }
}

/// A number of steps, keys in order from the record's clock on, and an output, which may be small.
pub fn set_call(rng: &mut Rng, case: &mut Case) {
    case.n = match rng.below(10) {
        0 => rng.below(12),
        1 => rng.pick(&[255, 256, 257, 512, 1023, 1024, 1025, 3072]),
        2 | 3 => rng.below(400),
        4..=8 => 256 + rng.below(1200),
        _ => rng.below(9000),
    };
    let count = rng.pick(&[0, 0, 1, 12, 60]);
    let gap = rng.pick(&[2, 10, 100, 400]);
    let mut time = case.record.clock;
    case.times.clear();
    case.times.extend((0..count).map(|_| {
        time += rng.below(gap);
        time
    }));
    case.bytes = case.times.iter().map(|_| rng.next() as u8).collect();
    let room = rng.pick(&[4, 300, 1000, 1000, 1000]);
    case.output = vec![0x6A; rng.below(room) as usize];
}

/// What a host makes of a record between two calls. A halted machine is set going most often; and
/// often the machine is to go on at a word that was planted, or to let the timer interrupt.
pub fn alter(rng: &mut Rng, case: &mut Case) {
    let record = &mut case.record;
    if record.is_halted() && !rng.once_in(4) {
        record.mcr = 0x8000;
    }
    if rng.once_in(2) {
        (record.pc, _) = rng.pick(&case.patches);
        record.regs[rng.below(8) as usize] = rng.word();
    }
    if rng.once_in(3) {
        record.psr &= 0x8007;
        record.timer_status = 0x4000;
        record.timer_interval = 16 + rng.below(60) as u16;
        record.timer_count = record.timer_interval;
    }
}

impl Planter<'_> {
    fn plant(&mut self, at: u16, words: &[u16]) {
        self.patches.extend(placed(at, words));
    }

    /// An address of code: often near the beginning of its page, or at its end.
    fn code(&mut self) -> u16 {
        let offset = match self.rng.below(6) {
            0 => self.rng.below(256),
            1 => 250 + self.rng.below(6),
            _ => self.rng.below(48),
        };
        u16::from(self.rng.pick(&self.pages)) * 256 + offset as u16
    }

    /// An address that something is loaded from or stored to.
    fn address(&mut self) -> u16 {
        match self.rng.below(20) {
            0..=9 => self.code(),
            10..=13 => self.rng.pick(&bus::REGISTERS[..7]),
            14 => self.rng.pick(&bus::REGISTERS),
            15 => 0xFE00 + self.rng.below(0x0200) as u16,
            16 => 0x3000 + self.rng.below(0x0400) as u16,
            17 => self.rng.below(0x0300) as u16,
            18 => self.rng.word(),
            _ => self.rng.pick(&BORDERS),
        }
    }

    /// The offset of a label or of a jump from the instruction at `at`: to a device register if one is
    /// in reach, or any, or most often small.
    fn offset9(&mut self, at: u16) -> i32 {
        let register = self.rng.pick(&bus::REGISTERS).wrapping_sub(at.wrapping_add(1)) as i16;
        match self.rng.below(8) {
            0 | 1 if (-256..=255).contains(&register) => i32::from(register),
            0 => self.rng.between(-256, 255),
            _ => self.rng.between(-14, 9),
        }
    }

    fn offset6(&mut self) -> i32 {
        if self.rng.once_in(3) {
            self.rng.between(-32, 31)
        } else {
            self.rng.between(0, 3)
        }
    }

    fn value(&mut self, kind: Kind, at: u16) -> i32 {
        use Kind::*;
        match kind {
            Br | Ld | Ldi | Lea | St | Sti => self.offset9(at),
            Jsr => self.offset9(at) * self.rng.pick(&[1, 4]),
            Ldr | Str => self.offset6(),
            AddImmediate | AndImmediate => self.rng.between(-16, 15),
            Trap if self.rng.once_in(2) => self.rng.between(0x20, 0x25),
            Trap => self.rng.between(0, 0xFF),
            _ => 0,
        }
    }

    fn kind(&mut self) -> Kind {
        use Kind::*;
        const PLAIN: [Kind; 7] =
            [Br, AddRegister, AddImmediate, AndRegister, AndImmediate, Not, Lea];
        const DATA: [Kind; 8] = [Ld, St, St, Ldi, Ldi, Sti, Ldr, Str];
        const FLOW: [Kind; 8] = [Br, Br, Br, Jsr, Jsrr, Jmp, Trap, Rti];
        match self.rng.below(8) {
            0..=2 => self.rng.pick(&PLAIN),
            3..=5 => self.rng.pick(&DATA),
            _ => self.rng.pick(&FLOW),
        }
    }

    fn instruction(&mut self, at: u16) -> u16 {
        let kind = self.kind();
        let mut register = || self.rng.below(8) as u8;
        let (a, b, c) = (register(), register(), register());
        let always = kind == Kind::Br && self.rng.once_in(4);
        let value = self.value(kind, at);
        written(kind, if always { 7 } else { a }, b, c, value)
    }

    /// A word of code at `at`; some are addresses, as a pointer's word is, and some are any word.
    fn word(&mut self, at: u16) -> u16 {
        match self.rng.below(32) {
            0 => self.rng.word(),
            1..=3 => self.address(),
            _ => self.instruction(at),
        }
    }

    /// Each page: code at its beginning and its end, and throughout or with words 0 between.
    fn plant_pages(&mut self) {
        let dense = self.rng.once_in(3);
        for page in self.pages.clone() {
            for offset in 0..256 {
                let at = u16::from(page) * 256 + offset;
                let code = dense || !(64..=240).contains(&offset) || self.rng.once_in(2);
                let word = if code { self.word(at) } else { 0 };
                self.plant(at, &[word]);
            }
            for _ in 0..self.rng.below(4) {
                let mut words = self.rng.pick(&[SHOW, SHOW, TAKE]);
                if self.rng.once_in(3) {
                    words[3] = RTI;
                }
                let at = self.code();
                self.plant(at, &words);
            }
            // STI R1 to a word at an end of its own page, and BRnzp over the pointer.
            let first = u16::from(page) * 256;
            let (at, end) = (self.rng.below(48) as u16, self.rng.pick(&[0, 1, 254, 255]));
            self.plant(first + at, &[0xB201, 0x0E01, first + end]);
        }
    }

    /// The vector words lead to code; or the ready-made monitor is there, and traps into it in every
    /// page above it.
    fn plant_vectors(&mut self) {
        for vector in 0..0x0200 {
            if !self.rng.once_in(20) {
                let routine = self.code();
                self.plant(vector, &[routine]);
            }
        }
        if self.rng.once_in(3) {
            self.plant(0, &MONITOR);
            for page in self.pages.clone().into_iter().filter(|page| *page > 2) {
                for _ in 0..6 {
                    let at = u16::from(page) * 256 + self.rng.below(64) as u16;
                    let trap = 0xF020 + self.rng.below(5) as u16;
                    self.plant(at, &[trap]);
                }
            }
        }
    }

    /// The routine STIR, with both of its middle words or without one of them, in any page.
    fn plant_stir(&mut self) {
        let routine = self.rng.below(0x3000) as u16;
        let (number, page) = (self.rng.word(), u16::from(self.rng.pick(&self.pages)) * 256);
        let mut words = STIR;
        // ADD R0, R0, #0 in the place of a word.
        match self.rng.below(3) {
            0 => words[10] = 0x1020,
            1 => words[11] = 0x1020,
            _ => (),
        }
        self.plant(0x0181, &[routine]);
        self.plant(routine, &words);
        let mask = self.rng.pick(&[0x000F, 0x003F, 0x00FF]);
        self.plant(routine.wrapping_add(STIR.len() as u16), &[bus::TSR, number, mask, page]);
    }

    /// A stack: sound, or so that pushes replace code, or about to wrap.
    fn stack(&mut self) -> u16 {
        match self.rng.below(8) {
            0..=2 => self.address(),
            3 => self.rng.pick(&[0, 1, 2]),
            4 | 5 => 0x2FF0,
            _ => 0x3000,
        }
    }

    fn psr(&mut self) -> u16 {
        let user = self.rng.pick(&[0x0000, 0x8000]);
        let low = self.stirred || self.rng.once_in(2);
        let priority = if low { 0 } else { self.rng.below(8) as u16 };
        let codes =
            if self.rng.once_in(5) { self.rng.below(8) as u16 } else { self.rng.pick(&[1, 2, 4]) };
        user | priority << 8 | codes
    }

    fn record(&mut self) -> Record {
        let mut regs = [0; 8];
        for register in &mut regs {
            *register = match self.rng.below(5) {
                0 => self.rng.below(16) as u16,
                1 => self.rng.word(),
                _ => self.address(),
            };
        }
        if self.rng.once_in(2) {
            regs[6] = self.stack();
        }
        let timer_interval = match self.rng.below(6) {
            _ if self.stirred => 16 + self.rng.below(60) as u16,
            0 => 1 + self.rng.below(40) as u16,
            1 => 1 + self.rng.below(2000) as u16,
            _ => 0,
        };
        let timer_status = if self.stirred { 0x4000 } else { self.rng.pick(&STATUS) };
        Record {
            regs,
            pc: self.code(),
            psr: self.psr(),
            saved_ssp: self.stack(),
            saved_usp: self.stack(),
            kbsr: self.rng.pick(&STATUS),
            kbdr: self.rng.below(256) as u16,
            mcr: 0x8000,
            busy: if self.rng.once_in(2) { 0 } else { self.rng.below(9) as u16 },
            timer_status,
            timer_interval,
            timer_count: timer_interval.min(1 + self.rng.below(600) as u16),
            clock: self.rng.pick(&[0, 1000, 1 << 40]),
        }
    }
}
