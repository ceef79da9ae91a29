//! Random runs. Random memory alone seldom meets a device, a full output, an interrupt or an edge
//! of the address space, so these are planted.

use super::Rng;
use crate::reference::bus;
use crate::reference::figure::{self, Kind};
use crate::reference::machine;
use fanthrig::{Record, CLOCK_LIMIT, STEP_LIMIT, WORDS};

/// What a run is handed, with memory as changes to a template.
#[derive(Clone, Debug)]
pub struct Case {
    pub record: Record,
    pub memory_len: usize,
    pub patches: Vec<(u16, u16)>,
    pub times: Vec<u64>,
    pub bytes: Vec<u8>,
    pub output: Vec<u8>,
    pub n: u64,
}

/// What a case is to meet more often than others.
#[derive(Clone, Copy, Debug, PartialEq, Eq)]
pub enum Family {
    Anything,
    Devices,
    Display,
    Keyboard,
    Timer,
    Stacks,
    Borders,
    Rewriting,
    /// A loop that stays in User memory and seldom meets an entry.
    Computing,
    Refusals,
}

pub const FAMILIES: [Family; 10] = [
    Family::Anything,
    Family::Devices,
    Family::Display,
    Family::Keyboard,
    Family::Timer,
    Family::Stacks,
    Family::Borders,
    Family::Rewriting,
    Family::Computing,
    Family::Refusals,
];

/// The first and last addresses of the regions, with their neighbours.
const BORDERS: [u16; 16] = [
    0x0000, 0x0001, 0x0002, 0x2FFE, 0x2FFF, 0x3000, 0x3001, 0xFDFE, 0xFDFF, 0xFE00, 0xFE01, 0xFE07,
    0xFE09, 0xFE0B, 0xFFFD, 0xFFFF,
];

/// Stack pointers from which the two pushes of an entry reach a vector word, and the words.
const VECTORS: [u16; 11] =
    [0x0025, 0x0026, 0x0027, 0x0100, 0x0102, 0x0103, 0x0104, 0x0180, 0x0181, 0x0182, 0x0183];

/// The vector words that get a service routine.
const SERVED: [u16; 6] = [0x0025, 0x0100, 0x0101, 0x0102, 0x0180, 0x0181];

/// The instructions of a program, beside the branch back to the first.
const LENGTH: i32 = 24;

/// A case that is accepted: one step, BR that tests no code, in Supervisor mode.
pub fn accepted() -> Case {
    Case {
        record: machine::fresh(0x3000, false, 0xFDFF),
        memory_len: WORDS,
        patches: vec![(0x3000, 0x0000)],
        times: vec![],
        bytes: vec![],
        output: vec![1, 2, 3],
        n: 1,
    }
}

/// One word more than memory has, so that a case may lend one too many.
pub fn template(rng: &mut Rng) -> Vec<u16> {
    (0..=WORDS).map(|_| rng.word()).collect()
}

struct Generator<'a> {
    rng: &'a mut Rng,
    family: Family,
    pc: u16,
    patches: Vec<(u16, u16)>,
}

/// A random case of the family, in either mode; devices are out of User mode's reach.
pub fn case(rng: &mut Rng, family: Family) -> Case {
    let user = rng.once_in(match family {
        Family::Display | Family::Timer => 8,
        _ => 2,
    });
    case_in_mode(rng, family, user)
}

/// A random case of the family, in User mode or in Supervisor mode.
pub fn case_in_mode(rng: &mut Rng, family: Family, user: bool) -> Case {
    let pc = start(rng, user);
    let mut generator = Generator { rng, family, pc, patches: Vec::new() };
    generator.plant_program();
    generator.plant_services();
    let record = generator.record(user);
    let output = generator.output();
    let Generator { rng, patches, .. } = generator;
    let n = rng.pick(&[0, 1, 2, 5, 20, 60, 150]);
    let mut case =
        Case { record, memory_len: WORDS, patches, times: vec![], bytes: vec![], output, n };
    set_clock(rng, &mut case);
    set_keys(rng, &mut case, family);
    if family == Family::Refusals {
        spoil(rng, &mut case);
    }
    case
}

fn start(rng: &mut Rng, user: bool) -> u16 {
    let near = |rng: &mut Rng, at: u16| at.wrapping_add_signed(rng.between(-12, 4) as i16);
    match (rng.below(8), user) {
        (0, _) => rng.word(),
        (1, _) => {
            let border = rng.pick(&BORDERS);
            near(rng, border)
        }
        (2..=4, false) => {
            let register = rng.pick(&bus::REGISTERS);
            near(rng, register)
        }
        (5, false) => 0x0200,
        _ => 0x3000 + rng.below(0xC000) as u16,
    }
}

impl Generator<'_> {
    /// An address that the family is about, or else any that matters.
    fn address(&mut self) -> u16 {
        let any = self.rng.once_in(3);
        let nearby = self.pc.wrapping_add_signed(self.rng.between(-4, 12) as i16);
        match (self.family, any) {
            (Family::Display, false) => self.rng.pick(&[bus::DDR, bus::DDR, bus::DSR]),
            (Family::Keyboard, false) => self.rng.pick(&[bus::KBSR, bus::KBDR]),
            (Family::Timer, false) => self.rng.pick(&[bus::TSR, bus::TIR]),
            (Family::Devices, false) => self.rng.pick(&bus::REGISTERS),
            (Family::Stacks, false) => self.rng.pick(&VECTORS),
            (Family::Borders, false) => self.rng.pick(&BORDERS),
            (Family::Rewriting, false) => nearby,
            (Family::Computing, _) => 0x3000 + self.rng.below(0xCE00) as u16,
            _ => match self.rng.below(6) {
                0 => self.rng.pick(&bus::REGISTERS),
                1 => self.rng.pick(&BORDERS),
                2 => self.rng.pick(&VECTORS),
                3 => nearby,
                _ => self.rng.word(),
            },
        }
    }

    /// An offset to an address of interest if one is in reach of the instruction at `at`.
    fn offset9(&mut self, at: u16) -> i32 {
        let wanted = self.address().wrapping_sub(at.wrapping_add(1)) as i16;
        match wanted {
            -256..=255 => i32::from(wanted),
            _ if self.family == Family::Computing => self.rng.between(LENGTH, 255),
            _ => self.rng.between(-20, 20),
        }
    }

    fn kind(&mut self) -> Kind {
        use Kind::*;
        const PLAIN: [Kind; 8] =
            [AddRegister, AddImmediate, AndRegister, AndImmediate, Not, Lea, Br, Br];
        const DATA: [Kind; 8] = [Ld, Ldi, Ldr, Ldr, St, Sti, Sti, Str];
        const FLOW: [Kind; 8] = [Br, Jsr, Jsrr, Jmp, Rti, Rti, Trap, Reserved];
        match self.rng.below(8) {
            0..=2 => self.rng.pick(&PLAIN),
            7 if self.family != Family::Computing || self.rng.once_in(8) => self.rng.pick(&FLOW),
            _ => self.rng.pick(&DATA),
        }
    }

    fn value(&mut self, kind: Kind, at: u16) -> i32 {
        match kind {
            Kind::AddImmediate | Kind::AndImmediate => self.rng.between(-16, 15),
            Kind::Ldr | Kind::Str if self.rng.once_in(4) => self.rng.between(-32, 31),
            Kind::Br if self.rng.once_in(8) => self.rng.pick(&[-256, 255]),
            Kind::Jsr if self.rng.once_in(4) => self.rng.pick(&[-1024, 1023]),
            Kind::Br | Kind::Jsr => self.rng.between(-6, 10),
            Kind::Reserved => self.rng.between(0, 4095),
            Kind::Trap if self.rng.once_in(2) => self.rng.between(0, 255),
            Kind::Trap => 0x25,
            Kind::Ld | Kind::St | Kind::Ldi | Kind::Sti | Kind::Lea => self.offset9(at),
            _ => 0,
        }
    }

    /// An instruction to stand at `at`; one that follows a pointer gets the pointer planted.
    fn instruction(&mut self, at: u16) -> u16 {
        let kind = self.kind();
        let value = self.value(kind, at);
        if matches!(kind, Kind::Ldi | Kind::Sti) {
            let pointer = at.wrapping_add(1).wrapping_add_signed(value as i16);
            let address = self.address();
            self.patches.push((pointer, address));
        }
        let mut register = || self.rng.below(8) as u8;
        let (a, b, c) = (register(), register(), register());
        figure::write(kind as u8, a, b, c, value).expect("fields within their ranges")
    }

    /// Instructions from PC on, among them words whose fixed bits may be wrong, and a branch back.
    fn plant_program(&mut self) {
        let tame = self.family == Family::Computing;
        for i in 0..LENGTH as u16 {
            let at = self.pc.wrapping_add(i);
            let wild = !tame && self.rng.once_in(8);
            let word = if wild { self.rng.word() } else { self.instruction(at) };
            self.patches.push((at, word));
        }
        let back = figure::write(Kind::Br as u8, 7, 0, 0, -LENGTH - 1).expect("in range");
        self.patches.push((self.pc.wrapping_add(LENGTH as u16), back));
    }

    /// Service routines of a few instructions and RTI, and the vector words to reach them.
    fn plant_services(&mut self) {
        for vector in SERVED {
            let routine = match self.rng.below(4) {
                0 => self.address(),
                _ => 0x0200 + self.rng.below(0x2D00) as u16,
            };
            self.patches.push((vector, routine));
            let length = self.rng.below(4) as u16;
            for at in routine..routine.saturating_add(length) {
                let word = self.instruction(at);
                self.patches.push((at, word));
            }
            self.patches.push((routine.saturating_add(length), 0x8000));
        }
    }

    fn record(&mut self, user: bool) -> Record {
        let tame = self.family == Family::Computing;
        let mut regs = [0; 8];
        for register in &mut regs {
            *register = match self.rng.below(4) {
                0 if !tame => self.rng.word(),
                1 if !tame => self.rng.below(4) as u16,
                _ => self.address(),
            };
        }
        if self.rng.once_in(2) {
            regs[6] = self.stack();
        }
        let priority = match self.family {
            Family::Keyboard => self.rng.below(5) as u16,
            _ => self.rng.below(8) as u16,
        };
        let (timer_interval, timer_count) = self.timer();
        Record {
            regs,
            pc: self.pc,
            psr: u16::from(user) << 15 | priority << 8 | self.rng.below(8) as u16,
            saved_ssp: self.stack(),
            saved_usp: self.stack(),
            kbsr: self.rng.pick(&[0x0000, 0x4000, 0x8000, 0xC000]),
            kbdr: self.rng.below(256) as u16,
            mcr: if self.rng.once_in(40) { 0 } else { 0x8000 },
            busy: if self.rng.once_in(2) { 0 } else { self.rng.below(9) as u16 },
            timer_status: self.timer_status(),
            timer_interval,
            timer_count,
            clock: 0,
        }
    }

    /// A timer that interrupts is more than most families are about: there it is seldom enabled.
    fn timer_status(&mut self) -> u16 {
        let ready = self.rng.pick(&[0x0000, 0x8000]);
        let enabled = match self.family {
            Family::Timer => self.rng.once_in(2),
            _ => self.rng.once_in(8),
        };
        ready | u16::from(enabled) << 14
    }

    /// An interval, most often short, and what may be left of it.
    fn timer(&mut self) -> (u16, u16) {
        let off = match self.family {
            Family::Timer => self.rng.once_in(8),
            _ => self.rng.once_in(2),
        };
        let interval = match self.rng.below(8) {
            _ if off => return (0, 0),
            0 => self.rng.pick(&[u16::MAX, 0x8000, 1000]),
            1 => 1 + self.rng.below(u16::MAX.into()) as u16,
            2 | 3 => 1 + self.rng.below(40) as u16,
            _ => 1 + self.rng.below(4) as u16,
        };
        (interval, 1 + self.rng.below(u64::from(interval).min(60)) as u16)
    }

    /// A stack pointer: sound, about to wrap, or over a vector, the code or a border.
    fn stack(&mut self) -> u16 {
        match self.rng.below(6) {
            0 => self.rng.pick(&[0, 1, 2, 0xFFFE, 0xFFFF]),
            1 => self.rng.pick(&VECTORS),
            2 => self.pc.wrapping_add_signed(self.rng.between(-2, 4) as i16),
            3 => self.address(),
            _ => 0x2F00 + self.rng.below(0x101) as u16,
        }
    }

    fn output(&mut self) -> Vec<u8> {
        let room = match self.family {
            Family::Display => self.rng.below(5),
            _ => self.rng.pick(&[0, 1, 2, 3, 4, 40]),
        };
        (0..room).map(|_| self.rng.next() as u8).collect()
    }
}

fn set_clock(rng: &mut Rng, case: &mut Case) {
    case.record.clock = match rng.below(8) {
        0..=2 => 0,
        3 => rng.below(100),
        // The last clock from which all steps may be made.
        4 => CLOCK_LIMIT - case.n,
        _ => rng.below(CLOCK_LIMIT - case.n),
    };
}

/// Keys at and near the clock, several of them at one time, in order.
fn set_keys(rng: &mut Rng, case: &mut Case, family: Family) {
    let count = match family {
        Family::Keyboard | Family::Display => rng.below(10),
        _ => rng.pick(&[0, 0, 1, 3]),
    };
    let mut time = case.record.clock;
    for _ in 0..count {
        time += rng.pick(&[0, 0, 1, 1, 2, 5, 30]);
        case.times.push(time);
        case.bytes.push(rng.next() as u8);
    }
    if let (true, Some(last)) = (rng.once_in(16), case.times.last_mut()) {
        *last = u64::MAX;
    }
}

/// Goes to or over the border of one or more refusals.
pub fn spoil(rng: &mut Rng, case: &mut Case) {
    // The times come after the clock that they go by, and before their number is spoilt.
    for spoiler in [spoil_memory, spoil_record, spoil_steps, spoil_times, spoil_lists] {
        if rng.once_in(3) {
            spoiler(rng, case);
        }
    }
}

fn spoil_memory(rng: &mut Rng, case: &mut Case) {
    case.memory_len = rng.pick(&[0, 1, 0x3000, WORDS - 1, WORDS + 1]);
}

fn spoil_record(rng: &mut Rng, case: &mut Case) {
    let bit = 1 << rng.below(16);
    let interval = case.record.timer_interval;
    match rng.below(8) {
        0 => case.record.psr |= bit,
        1 => case.record.kbsr |= bit,
        2 => case.record.kbdr |= bit,
        3 => case.record.mcr |= bit,
        4 => case.record.busy = rng.pick(&[8, 9, 0x8000, u16::MAX]),
        5 => case.record.timer_status |= bit,
        6 => case.record.timer_count = rng.pick(&[0, interval, interval.saturating_add(1)]),
        _ => case.record.clock = rng.pick(&[CLOCK_LIMIT, CLOCK_LIMIT + 1, u64::MAX]),
    }
}

fn spoil_steps(rng: &mut Rng, case: &mut Case) {
    let left = CLOCK_LIMIT.saturating_sub(case.record.clock);
    case.n = rng.pick(&[0, 1, left.min(100), left.saturating_add(1), u64::MAX]);
    if rng.once_in(2) {
        // A halted machine makes a long run short.
        case.record.mcr &= 0x7FFF;
        case.n = rng.pick(&[STEP_LIMIT, STEP_LIMIT + 1, left]);
    }
}

fn spoil_lists(rng: &mut Rng, case: &mut Case) {
    if rng.once_in(2) {
        case.bytes.push(0);
    } else {
        case.times.push(case.times.last().copied().unwrap_or(case.record.clock));
    }
}

fn spoil_times(rng: &mut Rng, case: &mut Case) {
    let clock = case.record.clock;
    let (soon, late) = (clock.saturating_add(6), clock.saturating_add(7));
    let times = match rng.below(5) {
        0 => vec![clock],
        1 => vec![clock.saturating_sub(1)],
        2 => vec![clock, late, soon],
        3 => vec![clock, late, soon, 0],
        _ => vec![clock, clock, soon, 0],
    };
    case.times.extend(times);
    case.bytes.resize(case.times.len(), 0);
}
