//! Random long sittings: loops of thousands of steps that alter their own code, go on in other
//! pages, and are interrupted. The programs of `cases` leave what was planted too soon for that.

use super::cases::Case;
use super::Rng;
use crate::reference::bus;
use crate::reference::figure::{self, Kind};
use fanthrig::{Record, WORDS};

/// The words after a block's body: what counts its turns and leads to the next block.
const TAIL: u16 = 7;

/// The vector words that get a routine: a trap's, and those of exceptions and interrupts.
const SERVED: [u16; 6] = [0x0025, 0x0100, 0x0101, 0x0102, 0x0180, 0x0181];

/// What an exception's routine does with the PC pushed before RTI: adds 1 to it, so that the program
/// goes on after the instruction, or puts the word after these in its place.
const SKIP: [u16; 4] = [0x6180, 0x1021, 0x7180, 0x8000]; // LDR R0, R6; ADD; STR R0, R6; RTI
const BACK: [u16; 3] = [0x2002, 0x7180, 0x8000]; // LD R0, #2; STR R0, R6; RTI

/// A loop: a body, and from there on its tail.
#[derive(Clone, Copy)]
struct Block {
    start: u16,
    body: u16,
}

struct Planter<'a> {
    rng: &'a mut Rng,
    blocks: Vec<Block>,
    patches: Vec<(u16, u16)>,
}

/// A random sitting, in either mode.
pub fn sitting(rng: &mut Rng) -> Case {
    let user = rng.once_in(2);
    let blocks = blocks(rng, user);
    let n = match rng.below(8) {
        0 => rng.pick(&[0, 1, 255, 256, 257, 511, 512, 513]),
        1 => rng.below(600),
        _ => 600 + rng.below(2400),
    };
    let mut planter = Planter { rng, blocks, patches: Vec::new() };
    planter.plant_services();
    planter.plant_blocks();
    let mut record = planter.record(user);
    let Planter { rng, patches, .. } = planter;
    record.clock = rng.pick(&[0, 1000]);
    let times = times(rng, record.clock, n);
    let bytes = times.iter().map(|_| rng.next() as u8).collect();
    let output = vec![0x6A; rng.pick(&[0, 1, 2, 5, 300])];
    Case { record, memory_len: WORDS, patches, times, bytes, output, n }
}

/// Keys throughout the sitting, in order.
fn times(rng: &mut Rng, clock: u64, n: u64) -> Vec<u64> {
    let count = rng.pick(&[0, 0, 1, 4]);
    let mut times: Vec<u64> = (0..count).map(|_| clock + rng.below(n + 2)).collect();
    times.sort_unstable();
    times
}

/// Up to four blocks; half of them stand close to the first, in its page or the next.
fn blocks(rng: &mut Rng, user: bool) -> Vec<Block> {
    let first = place(rng, user);
    let others = rng.below(4);
    let mut starts = vec![first];
    for _ in 0..others {
        let near = first.wrapping_add_signed(rng.between(-200, 300) as i16);
        starts.push(if rng.once_in(2) { near } else { place(rng, user) });
    }
    starts.into_iter().map(|start| Block { start, body: 3 + rng.below(18) as u16 }).collect()
}

/// Where a block may stand: in User mode also at the ends of its memory, in Supervisor mode often in
/// the last two pages, where device registers are and memory ends.
fn place(rng: &mut Rng, user: bool) -> u16 {
    match (rng.below(8), user) {
        (0, true) => rng.pick(&[0x2FF8, 0x3000, 0x30F4, 0xFD00, 0xFDE8]),
        (_, true) => 0x3000 + rng.below(0xCD00) as u16,
        (0..=2, false) => 0xFE00 + rng.below(0x0200) as u16,
        (3..=4, false) => 0x0200 + rng.below(0x2E00) as u16,
        (_, false) => rng.word(),
    }
}

/// The word of an instruction.
pub fn written(kind: Kind, a: u8, b: u8, c: u8, value: i32) -> u16 {
    figure::write(kind as u8, a, b, c, value).expect("fields within their ranges")
}

/// Words one after the other, each with its address.
pub fn placed(at: u16, words: &[u16]) -> impl Iterator<Item = (u16, u16)> + '_ {
    (0..).map(move |i| at.wrapping_add(i)).zip(words.iter().copied())
}

impl Planter<'_> {
    fn plant(&mut self, at: u16, words: &[u16]) {
        self.patches.extend(placed(at, words));
    }

    /// An address in a block, or a word or two beside it.
    fn code(&mut self) -> u16 {
        let Block { start, body } = self.rng.pick(&self.blocks);
        start.wrapping_add_signed(self.rng.between(-2, i32::from(body + TAIL)) as i16)
    }

    /// An offset to such an address if one is in reach of the instruction at `at`.
    fn offset9(&mut self, at: u16) -> i32 {
        match self.code().wrapping_sub(at.wrapping_add(1)) as i16 {
            wanted @ -256..=255 => i32::from(wanted),
            _ => self.rng.between(-12, 12),
        }
    }

    /// R0 to R3; seldom the pointer, the counter, the stack or the link.
    fn target(&mut self) -> u8 {
        let registers = if self.rng.once_in(40) { 8 } else { 4 };
        self.rng.below(registers) as u8
    }

    /// An instruction that leaves a loop alone.
    fn plain(&mut self) -> u16 {
        use Kind::{AddImmediate, AddRegister, AndImmediate, AndRegister, Br, Lea, Not};
        const PLAIN: [Kind; 7] =
            [AddRegister, AddImmediate, AndRegister, AndImmediate, Not, Lea, Br];
        let (target, b, c) = (self.target(), self.rng.below(8) as u8, self.rng.below(8) as u8);
        match self.rng.pick(&PLAIN) {
            Br => written(Br, b, 0, 0, self.rng.between(0, 2)),
            kind @ (AddImmediate | AndImmediate) => {
                written(kind, target, b, 0, self.rng.between(-16, 15))
            }
            Lea => written(Lea, target, 0, 0, self.rng.between(-20, 20)),
            Not => written(Not, target, b, 0, 0),
            kind => written(kind, target, b, c, 0),
        }
    }

    /// A load or a store, most often of code: R4 points to it.
    fn access(&mut self, at: u16) -> u16 {
        use Kind::{Ld, Ldi, Ldr, St, Sti, Str};
        match self.rng.pick(&[Ld, Ldr, Ldi, St, St, Str, Str, Sti]) {
            kind @ (Ld | St) => {
                let offset = self.offset9(at);
                written(kind, self.target(), 0, 0, offset)
            }
            kind @ (Ldr | Str) => {
                let offset = self.rng.between(-8, 24);
                written(kind, self.target(), 4, 0, offset)
            }
            kind => {
                let offset = self.rng.between(40, 90);
                let device = self.rng.once_in(4);
                let address = if device { self.rng.pick(&bus::REGISTERS) } else { self.code() };
                self.plant(at.wrapping_add(1 + offset as u16), &[address]);
                written(kind, self.target(), 0, 0, offset)
            }
        }
    }

    fn flow(&mut self) -> u16 {
        use Kind::{Jmp, Jsr, Jsrr, Reserved, Rti, Trap};
        match self.rng.pick(&[Jmp, Jsr, Jsr, Jsrr, Reserved, Rti, Trap, Trap, Trap, Trap]) {
            kind @ (Jmp | Jsrr) => written(kind, self.rng.pick(&[4, 7]), 0, 0, 0),
            Jsr => written(Jsr, 0, 0, 0, self.rng.between(0, 3)),
            Trap => written(Trap, 0, 0, 0, 0x25),
            Rti => written(Rti, 0, 0, 0, 0),
            _ => self.rng.word(),
        }
    }

    fn instruction(&mut self, at: u16) -> u16 {
        match self.rng.below(16) {
            0 => self.flow(),
            1..=5 => self.access(at),
            _ => self.plain(),
        }
    }

    /// Each block: its body as many turns as R5 says, then the next block.
    fn plant_blocks(&mut self) {
        for (i, Block { start, body }) in self.blocks.clone().into_iter().enumerate() {
            // Some loops lead to where User mode may not fetch.
            let next = match self.rng.below(6) {
                0 => self.rng.pick(&[0x0000, 0x2FFF, 0xFE00]),
                _ => self.blocks[(i + 1) % self.blocks.len()].start,
            };
            let mut words: Vec<u16> =
                (0..body).map(|i| self.instruction(start.wrapping_add(i))).collect();
            words.push(written(Kind::AddImmediate, 5, 5, 0, -1));
            words.push(written(Kind::Br, 1, 0, 0, -i32::from(body) - 2));
            words.push(written(Kind::Ld, 5, 0, 0, 2));
            words.push(written(Kind::Ld, 7, 0, 0, 2));
            words.push(written(Kind::Jmp, 7, 0, 0, 0));
            words.extend([self.turns(), next]);
            self.plant(start, &words);
        }
    }

    fn turns(&mut self) -> u16 {
        self.rng.pick(&[1, 3, 20, 60, 200, 1000])
    }

    /// Routines that come back, most of them, and the vector words that lead there. One routine in
    /// eight is a block.
    fn plant_services(&mut self) {
        for vector in SERVED {
            let routine = match self.rng.below(8) {
                0 => self.code(),
                _ => 0x0200 + self.rng.below(0x2D00) as u16,
            };
            self.plant(vector, &[routine]);
            match vector {
                0x0100..=0x0102 if self.rng.once_in(2) => self.plant(routine, &SKIP),
                0x0100..=0x0102 => {
                    self.plant(routine, &BACK);
                    let to = self.rng.pick(&self.blocks).start;
                    self.plant(routine.wrapping_add(BACK.len() as u16), &[to]);
                }
                0x0180 => self.plant(routine, &[0xA001, 0x8000, bus::KBDR]), // LDI R0; RTI
                0x0181 => self.plant(routine, &[0xA001, 0x8000, bus::TSR]),
                _ => {
                    let words = [self.plain(), self.instruction(routine.wrapping_add(1)), 0x8000];
                    self.plant(routine, &words);
                }
            }
        }
    }

    /// A stack: sound, or so that pushes replace code.
    fn stack(&mut self) -> u16 {
        match self.rng.below(3) {
            0 => self.code().wrapping_add(2),
            _ => 0x2F00 + self.rng.below(0x0101) as u16,
        }
    }

    fn record(&mut self, user: bool) -> Record {
        let start = self.blocks[0].start;
        let mut regs = [0; 8];
        for register in &mut regs[..4] {
            *register = if self.rng.once_in(3) { self.rng.word() } else { self.plain() };
        }
        (regs[4], regs[5], regs[6], regs[7]) =
            (self.code(), self.turns(), self.stack(), self.code());
        let timer_interval = match self.rng.below(6) {
            0 => 1 + self.rng.below(40) as u16,
            1 => 1 + self.rng.below(1000) as u16,
            _ => 0,
        };
        Record {
            regs,
            pc: start,
            psr: u16::from(user) << 15 | self.rng.pick(&[0x0001, 0x0002, 0x0004, 0x0501, 0x0003]),
            saved_ssp: self.stack(),
            saved_usp: self.stack(),
            kbsr: self.rng.pick(&[0x0000, 0x4000]),
            kbdr: 0,
            mcr: 0x8000,
            busy: self.rng.below(9) as u16,
            timer_status: self.rng.pick(&[0x0000, 0x4000]),
            timer_interval,
            timer_count: timer_interval.min(1 + self.rng.below(600) as u16),
            clock: 0,
        }
    }
}
