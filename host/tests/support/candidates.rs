//! Random candidates: programs for User mode that call the monitor, hand it strings that begin in
//! privileged memory or run into it, reach for both borders, alter themselves, and go wrong in
//! every way. Random words alone go wrong within a few steps, so a program is a row of short parts,
//! most of which go on to the next.

use super::Rng;
use std::ops::Range;

/// The addresses that User mode may reach.
pub const USER: Range<usize> = 0x3000..0xFE00;

/// Privileged addresses that matter: vector words, routines, the ends of the monitor, its stack and
/// the words beside it, device registers and the lent words beside them.
const PRIVILEGED: [u16; 28] = [
    0x0000, 0x0022, 0x0102, 0x0200, 0x0211, 0x02A4, 0x02A5, 0x0400, 0x2FF4, 0x2FF5, 0x2FF6, 0x2FF7,
    0x2FF8, 0x2FF9, 0x2FFA, 0x2FFE, 0x2FFF, 0xFE00, 0xFE01, 0xFE02, 0xFE04, 0xFE06, 0xFE07, 0xFE08,
    0xFE0B, 0xFFFC, 0xFFFE, 0xFFFF,
];

/// The first and the last addresses of User mode.
const BORDERS: [u16; 6] = [0x3000, 0x3001, 0xFDFC, 0xFDFD, 0xFDFE, 0xFDFF];

/// The most words of a program.
const LENGTH: usize = 250;

const LD: u16 = 0x2000;
const ST: u16 = 0x3000;
const LDR: u16 = 0x6000;
const STR: u16 = 0x7000;
const RTI: u16 = 0x8000;
const LDI: u16 = 0xA000;
const STI: u16 = 0xB000;
const RET: u16 = 0xC1C0;
const RESERVED: u16 = 0xD000;
const LEA: u16 = 0xE000;
const TRAP: u16 = 0xF000;

/// The traps that come back, and the last one, which halts.
const GETC: u16 = 0xF020;
const OUT: u16 = 0xF021;
const PUTS: u16 = 0xF022;
const IN: u16 = 0xF023;
const PUTSP: u16 = 0xF024;
const HALT: u16 = 0xF025;

/// A file as a candidate hands it in: its words, and where they are to stand.
#[derive(Clone, Debug)]
pub struct Candidate {
    pub origin: u16,
    pub words: Vec<u16>,
}

impl Candidate {
    pub fn file(&self) -> Vec<u8> {
        [&[self.origin], &self.words[..]].concat().into_iter().flat_map(u16::to_be_bytes).collect()
    }

    /// The word that the file has for an address.
    pub fn word_at(&self, address: u16) -> Option<u16> {
        self.words.get(usize::from(address.wrapping_sub(self.origin))).copied()
    }
}

/// A random program within User mode's words.
pub fn candidate(rng: &mut Rng) -> Candidate {
    let origin = match rng.below(8) {
        0 => 0x3000,
        // Cut off at xFDFF: what runs off its end fetches a privileged word.
        1 => 0xFE00 - 1 - rng.below(120) as u16,
        _ => rng.between(0x3000, 0xFDFF) as u16,
    };
    let room = (USER.end - usize::from(origin)).min(LENGTH);
    let care = rng.pick(&[4, 12, 40]);
    let mut writer = Writer { rng, origin, words: Vec::new(), care };
    for _ in 0..=writer.rng.below(14) {
        writer.part();
    }
    writer.end();
    let mut words = writer.words;
    words.truncate(room);
    Candidate { origin, words }
}

/// LD, ST, LDI, STI, LEA and BR: a register, or the mask of BR, and an offset to the next address.
fn by_pc(opcode: u16, register: u16, offset: i32) -> u16 {
    opcode | register << 9 | offset as u16 & 0x01FF
}

/// LDR and STR.
fn by_base(opcode: u16, register: u16, base: u16, offset: i32) -> u16 {
    opcode | register << 9 | base << 6 | offset as u16 & 0x003F
}

/// BRnzp.
fn branch(offset: i32) -> u16 {
    by_pc(0x0000, 7, offset)
}

struct Writer<'a> {
    rng: &'a mut Rng,
    origin: u16,
    words: Vec<u16>,
    /// One part in so many goes wrong.
    care: u64,
}

impl Writer<'_> {
    fn add(&mut self, words: &[u16]) {
        self.words.extend_from_slice(words);
    }

    fn privileged(&mut self) -> u16 {
        match self.rng.below(4) {
            0 => self.rng.between(0xFE00, 0xFFFF) as u16,
            1 => self.rng.between(0x0000, 0x2FFF) as u16,
            _ => self.rng.pick(&PRIVILEGED),
        }
    }

    /// An address of User mode's: at a border, in the program or a few words beside it, or any.
    fn open(&mut self) -> u16 {
        let near = i32::from(self.origin) + self.rng.between(-8, LENGTH as i32);
        match self.rng.below(4) {
            0 => self.rng.pick(&BORDERS),
            1 => self.rng.between(0x3000, 0xFDFF) as u16,
            _ => near.clamp(0x3000, 0xFDFF) as u16,
        }
    }

    /// A part that most often goes on, or else one of the many ways to go wrong.
    fn part(&mut self) {
        if self.rng.once_in(self.care) {
            return self.wrong();
        }
        match self.rng.below(12) {
            0 | 1 => self.compute(),
            2 | 3 => self.show_text(),
            4 => {
                let address = self.open();
                self.show(address);
            }
            5 | 6 => {
                let trap = self.rng.pick(&[GETC, OUT, IN, IN]);
                self.add(&[trap]);
            }
            7 => {
                let address = self.open();
                self.access(address);
            }
            8 | 9 => self.alter(),
            10 => self.repeat(),
            _ => self.call(),
        }
    }

    fn wrong(&mut self) {
        let (address, any) = (self.privileged(), self.rng.word());
        match self.rng.below(16) {
            0..=3 => self.show(address),
            // A string that runs into xFE00, unless a word x0000 comes first.
            4 => self.show(0xFDFF - (any & 0x0003)),
            5..=8 => self.add(&[TRAP | any & 0x00FF]),
            9 | 10 => self.access(address),
            11 => self.jump(address),
            12 => self.add(&[RTI]),
            13 => self.add(&[RESERVED | any & 0x0FFF]),
            14 => self.add(&[HALT]),
            _ => self.add(&[any]),
        }
    }

    /// ADD, AND or NOT, or LEA, on R0 to R3.
    fn compute(&mut self) {
        let (target, source) = (self.rng.below(4) as u16, self.rng.below(8) as u16);
        let last = self.rng.below(64) as u16;
        let word = match self.rng.below(4) {
            0 => 0x1000 | target << 9 | source << 6 | last & 0x0027,
            1 => 0x5000 | target << 9 | source << 6 | last & 0x0027,
            2 => 0x903F | target << 9 | source << 6,
            _ => by_pc(LEA, target, i32::from(last)),
        };
        self.add(&[word]);
    }

    /// Puts an address into a register: from a word, from a table of pointers, or by a sum.
    fn point(&mut self, register: u16, address: u16) {
        match self.rng.below(3) {
            0 => self.add(&[by_pc(LD, register, 1), branch(1), address]),
            1 => {
                let (place, other) = (self.rng.below(3) as usize, self.open());
                let mut table = [other; 3];
                table[place] = address;
                let load = by_base(LDR, register, 5, place as i32);
                self.add(&[by_pc(LEA, 5, 2), load, branch(3)]);
                self.add(&table);
            }
            _ => {
                let sum = self.rng.below(16) as u16;
                let less = address.wrapping_sub(sum);
                let add = 0x1020 | register << 9 | register << 6 | sum;
                self.add(&[by_pc(LD, register, 1), branch(1), less, add]);
            }
        }
    }

    /// Hands an address to PUTS or PUTSP.
    fn show(&mut self, address: u16) {
        self.point(0, address);
        let trap = self.rng.pick(&[PUTS, PUTSP]);
        self.add(&[trap]);
    }

    /// The same with a string that stands in the program.
    fn show_text(&mut self) {
        let mask = self.rng.pick(&[0x007F, 0xFFFF, 0x7F7F, 0xFF00]);
        let mut text: Vec<u16> = (0..self.rng.below(6)).map(|_| self.rng.word() & mask).collect();
        text.push(0);
        let trap = self.rng.pick(&[PUTS, PUTSP]);
        self.add(&[by_pc(LEA, 0, 2), trap, branch(text.len() as i32)]);
        self.add(&text);
    }

    /// A load or a store at an address, by a register or by a pointer.
    fn access(&mut self, address: u16) {
        let register = self.rng.below(4) as u16;
        if self.rng.once_in(2) {
            let offset = self.rng.between(-32, 31);
            self.point(3, address.wrapping_add_signed(-offset as i16));
            let opcode = self.rng.pick(&[LDR, STR]);
            self.add(&[by_base(opcode, register, 3, offset)]);
        } else {
            let opcode = self.rng.pick(&[LDI, STI]);
            self.add(&[by_pc(opcode, register, 1), branch(1), address]);
        }
    }

    fn jump(&mut self, address: u16) {
        self.point(2, address);
        let jump = self.rng.pick(&[0xC080, 0x4080]); // JMP R2, JSRR R2
        self.add(&[jump]);
    }

    /// Stores another instruction over one of the program, most often one that comes next.
    fn alter(&mut self) {
        let word = match self.rng.below(6) {
            0 => self.rng.word(),
            1 => 0x0000,
            _ => self.rng.pick(&[GETC, OUT, PUTS, IN, PUTSP]),
        };
        let offset = if self.rng.once_in(4) { self.rng.between(-20, -1) } else { 2 };
        let added = 0x1260 | self.rng.pick(&[0, 0, 0, 1]); // ADD R1, R1
        self.add(&[by_pc(LD, 1, 3), added, by_pc(ST, 1, offset), branch(1), word]);
    }

    /// Parts that are obeyed several times, counted by R4.
    fn repeat(&mut self) {
        let turns = 1 + self.rng.below(5) as u16;
        self.add(&[0x5920, 0x1920 | turns]); // AND R4, R4, #0; ADD R4, R4, #turns
        let start = self.words.len();
        if self.rng.once_in(2) {
            self.show_text();
        } else {
            self.alter();
            self.compute();
        }
        let back = start as i32 - self.words.len() as i32 - 2;
        self.add(&[0x193F, by_pc(0x0000, 1, back)]); // ADD R4, R4, #-1; BRp
    }

    /// A subroutine that returns at once, or a jump to anywhere in User memory.
    fn call(&mut self) {
        if self.rng.once_in(3) {
            let address = self.open();
            self.jump(address);
        } else {
            self.add(&[0x4801, branch(1), RET]); // JSR #1
        }
    }

    /// The program begins again, ends by a trap, or runs on into whatever comes next.
    fn end(&mut self) {
        let (back, vector) = (-(self.words.len() as i32) - 1, self.rng.word() & 0x00FF);
        match self.rng.below(5) {
            0 | 1 if back >= -256 => self.add(&[branch(back)]),
            2 => self.add(&[HALT]),
            3 => self.add(&[TRAP | vector]),
            _ => {}
        }
    }
}
