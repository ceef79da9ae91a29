//! Instruction words.

use crate::error::accepted;
use crate::ffi::{self, Fields};
use crate::Error;

/// An instruction, with its operands in the order of the assembler.
///
/// The variants stand in the order of their numbers in C, from 0. Registers are numbers, 0 to 7.
#[derive(Clone, Copy, Debug, PartialEq, Eq, Hash)]
pub enum Instruction {
    /// `BR`: branch if a tested code is set. In the mask N is 4, Z is 2 and P is 1.
    Br {
        /// The codes tested, 0 to 7.
        mask: u8,
        /// From -256 to 255, added to the next PC.
        offset9: i16,
    },
    /// `ADD DR, SR1, SR2`.
    AddRegister {
        /// The destination.
        dr: u8,
        /// The first source.
        sr1: u8,
        /// The second source.
        sr2: u8,
    },
    /// `ADD DR, SR1, imm5`.
    AddImmediate {
        /// The destination.
        dr: u8,
        /// The first source.
        sr1: u8,
        /// From -16 to 15.
        imm5: i16,
    },
    /// `LD`: load from an address near PC.
    Ld {
        /// The destination.
        dr: u8,
        /// From -256 to 255, added to the next PC.
        offset9: i16,
    },
    /// `ST`: store to an address near PC.
    St {
        /// The source.
        sr: u8,
        /// From -256 to 255, added to the next PC.
        offset9: i16,
    },
    /// `JSR`: jump to a subroutine near PC.
    Jsr {
        /// From -1024 to 1023, added to the next PC.
        offset11: i16,
    },
    /// `JSRR`: jump to the subroutine at the base register.
    Jsrr {
        /// The base register.
        base: u8,
    },
    /// `AND DR, SR1, SR2`.
    AndRegister {
        /// The destination.
        dr: u8,
        /// The first source.
        sr1: u8,
        /// The second source.
        sr2: u8,
    },
    /// `AND DR, SR1, imm5`.
    AndImmediate {
        /// The destination.
        dr: u8,
        /// The first source.
        sr1: u8,
        /// From -16 to 15.
        imm5: i16,
    },
    /// `LDR`: load from the base register plus an offset.
    Ldr {
        /// The destination.
        dr: u8,
        /// The base register.
        base: u8,
        /// From -32 to 31, added to the base.
        offset6: i16,
    },
    /// `STR`: store to the base register plus an offset.
    Str {
        /// The source.
        sr: u8,
        /// The base register.
        base: u8,
        /// From -32 to 31, added to the base.
        offset6: i16,
    },
    /// `RTI`: return from a trap, exception or interrupt.
    Rti,
    /// `NOT DR, SR`.
    Not {
        /// The destination.
        dr: u8,
        /// The source.
        sr: u8,
    },
    /// `LDI`: load from the address that a word near PC holds.
    Ldi {
        /// The destination.
        dr: u8,
        /// From -256 to 255, added to the next PC.
        offset9: i16,
    },
    /// `STI`: store to the address that a word near PC holds.
    Sti {
        /// The source.
        sr: u8,
        /// From -256 to 255, added to the next PC.
        offset9: i16,
    },
    /// `JMP`: jump to the base register; `RET` is `JMP R7`.
    Jmp {
        /// The base register.
        base: u8,
    },
    /// The reserved opcode 13.
    Reserved {
        /// The low 12 bits, 0 to 4095.
        field: u16,
    },
    /// `LEA`: load an address near PC.
    Lea {
        /// The destination.
        dr: u8,
        /// From -256 to 255, added to the next PC.
        offset9: i16,
    },
    /// `TRAP`: call the routine whose address a vector word holds.
    Trap {
        /// The address of the vector word, 0 to 255.
        vector: u16,
    },
}

/// Fields with up to three registers, or a mask in place of the first, and a value.
fn fields(kind: u8, [a, b, c]: [u8; 3], value: i32) -> Fields {
    Fields { kind, a, b, c, value }
}

impl From<Instruction> for Fields {
    fn from(instruction: Instruction) -> Fields {
        match instruction {
            Instruction::Br { mask, offset9 } => fields(ffi::LC3_BR, [mask, 0, 0], offset9.into()),
            Instruction::AddRegister { dr, sr1, sr2 } => {
                fields(ffi::LC3_ADD_REGISTER, [dr, sr1, sr2], 0)
            }
            Instruction::AddImmediate { dr, sr1, imm5 } => {
                fields(ffi::LC3_ADD_IMMEDIATE, [dr, sr1, 0], imm5.into())
            }
            Instruction::Ld { dr, offset9 } => fields(ffi::LC3_LD, [dr, 0, 0], offset9.into()),
            Instruction::St { sr, offset9 } => fields(ffi::LC3_ST, [sr, 0, 0], offset9.into()),
            Instruction::Jsr { offset11 } => fields(ffi::LC3_JSR, [0, 0, 0], offset11.into()),
            Instruction::Jsrr { base } => fields(ffi::LC3_JSRR, [base, 0, 0], 0),
            Instruction::AndRegister { dr, sr1, sr2 } => {
                fields(ffi::LC3_AND_REGISTER, [dr, sr1, sr2], 0)
            }
            Instruction::AndImmediate { dr, sr1, imm5 } => {
                fields(ffi::LC3_AND_IMMEDIATE, [dr, sr1, 0], imm5.into())
            }
            Instruction::Ldr { dr, base, offset6 } => {
                fields(ffi::LC3_LDR, [dr, base, 0], offset6.into())
            }
            Instruction::Str { sr, base, offset6 } => {
                fields(ffi::LC3_STR, [sr, base, 0], offset6.into())
            }
            Instruction::Rti => fields(ffi::LC3_RTI, [0, 0, 0], 0),
            Instruction::Not { dr, sr } => fields(ffi::LC3_NOT, [dr, sr, 0], 0),
            Instruction::Ldi { dr, offset9 } => fields(ffi::LC3_LDI, [dr, 0, 0], offset9.into()),
            Instruction::Sti { sr, offset9 } => fields(ffi::LC3_STI, [sr, 0, 0], offset9.into()),
            Instruction::Jmp { base } => fields(ffi::LC3_JMP, [base, 0, 0], 0),
            Instruction::Reserved { field } => fields(ffi::LC3_RESERVED, [0, 0, 0], field.into()),
            Instruction::Lea { dr, offset9 } => fields(ffi::LC3_LEA, [dr, 0, 0], offset9.into()),
            Instruction::Trap { vector } => fields(ffi::LC3_TRAP, [0, 0, 0], vector.into()),
        }
    }
}

impl Instruction {
    /// The instruction that the library read; its fields are within their ranges.
    fn from_read(fields: Fields) -> Instruction {
        let Fields { kind, a, b, c, value } = fields;
        let (signed, unsigned) = (value as i16, value as u16);
        match kind {
            ffi::LC3_BR => Instruction::Br { mask: a, offset9: signed },
            ffi::LC3_ADD_REGISTER => Instruction::AddRegister { dr: a, sr1: b, sr2: c },
            ffi::LC3_ADD_IMMEDIATE => Instruction::AddImmediate { dr: a, sr1: b, imm5: signed },
            ffi::LC3_LD => Instruction::Ld { dr: a, offset9: signed },
            ffi::LC3_ST => Instruction::St { sr: a, offset9: signed },
            ffi::LC3_JSR => Instruction::Jsr { offset11: signed },
            ffi::LC3_JSRR => Instruction::Jsrr { base: a },
            ffi::LC3_AND_REGISTER => Instruction::AndRegister { dr: a, sr1: b, sr2: c },
            ffi::LC3_AND_IMMEDIATE => Instruction::AndImmediate { dr: a, sr1: b, imm5: signed },
            ffi::LC3_LDR => Instruction::Ldr { dr: a, base: b, offset6: signed },
            ffi::LC3_STR => Instruction::Str { sr: a, base: b, offset6: signed },
            ffi::LC3_RTI => Instruction::Rti,
            ffi::LC3_NOT => Instruction::Not { dr: a, sr: b },
            ffi::LC3_LDI => Instruction::Ldi { dr: a, offset9: signed },
            ffi::LC3_STI => Instruction::Sti { sr: a, offset9: signed },
            ffi::LC3_JMP => Instruction::Jmp { base: a },
            ffi::LC3_RESERVED => Instruction::Reserved { field: unsigned },
            ffi::LC3_LEA => Instruction::Lea { dr: a, offset9: signed },
            ffi::LC3_TRAP => Instruction::Trap { vector: unsigned },
            _ => unreachable!("the library read kind {kind}"),
        }
    }
}

/// What reading a word answers.
#[derive(Clone, Copy, Debug, PartialEq, Eq, Hash)]
pub struct Reading {
    /// The instruction that the word is.
    pub instruction: Instruction,
    /// The bits that the encoding fixes and that are wrong in the word; 0 for a proper word.
    pub mask: u16,
}

/// Reads a word as an instruction, and tells which of the bits that the encoding fixes are wrong.
///
/// The instruction is the same whether they are right or wrong; written again, it differs from the
/// word in exactly the bits of the mask.
///
/// ```
/// use fanthrig::Instruction;
///
/// let add = Instruction::AddImmediate { dr: 2, sr1: 3, imm5: 7 };
/// assert_eq!(fanthrig::read(0x14E7).instruction, add);
/// assert_eq!(fanthrig::read(0x14E7).mask, 0);
/// assert_eq!(fanthrig::read(0x8001).mask, 0x0001);
/// ```
pub fn read(word: u16) -> Reading {
    let reading = ffi::lc3_read(word);
    Reading { instruction: Instruction::from_read(reading.instruction), mask: reading.mask }
}

/// Writes an instruction as a word, with the fixed bits as the encoding has them.
///
/// ```
/// use fanthrig::{Error, Instruction};
///
/// assert_eq!(fanthrig::write(&Instruction::Trap { vector: 0x25 }), Ok(0xF025));
/// assert_eq!(fanthrig::write(&Instruction::Trap { vector: 256 }), Err(Error::Value));
/// ```
pub fn write(instruction: &Instruction) -> Result<u16, Error> {
    let written = ffi::lc3_write((*instruction).into());
    accepted(written.refusal)?;
    Ok(written.word)
}
