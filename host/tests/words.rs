//! Every word and the edges of every field, held against Figure A.2.

mod reference;

use fanthrig::ffi::{self, Written};
use fanthrig::{Error, Instruction};
use reference::figure::{self, FIGURE};

/// An instruction of the C interface.
fn fields(kind: u8, [a, b, c]: [u8; 3], value: i32) -> ffi::Fields {
    ffi::Fields { kind, a, b, c, value }
}

/// Panics unless the library writes the instruction, or refuses it, as the figure says.
fn check_write(instruction: ffi::Fields) {
    let ffi::Fields { kind, a, b, c, value } = instruction;
    let expected = match figure::write(kind, a, b, c, value) {
        Ok(word) => Written { word, refusal: 0 },
        Err(refusal) => Written { word: 0, refusal },
    };
    assert_eq!(ffi::lc3_write(instruction), expected, "{instruction:?}");
}

/// The values at and around the edges of a range, of 16 bits and of 32.
fn edges(range: Option<(i32, i32)>) -> Vec<i32> {
    let (least, greatest) = range.unwrap_or((0, 0));
    let mut values = vec![i32::MIN, i32::MAX, 0, -1, 1];
    for edge in [least, greatest, -32_768, 32_767, 65_535, 1 << 16, -(1 << 16)] {
        values.extend([edge - 1, edge, edge + 1]);
    }
    // Values that would be in range if only their low 16 bits counted.
    values.extend([least + (1 << 16), greatest + (1 << 16), greatest - (1 << 16)]);
    values
}

#[test]
fn every_word_reads_as_in_the_figure() {
    for word in 0..=u16::MAX {
        let expected = figure::read(word);
        let [a, b, c] = [expected.a, expected.b, expected.c];
        let reading = ffi::lc3_read(word);
        assert_eq!(reading.instruction, fields(expected.kind as u8, [a, b, c], expected.value));
        assert_eq!(reading.mask, figure::mask(word), "the mask of x{word:04X}");
    }
}

#[test]
fn every_word_is_written_back_with_its_fixed_bits_set() {
    let mut exact = 0;
    for word in 0..=u16::MAX {
        let ffi::Reading { instruction, mask } = ffi::lc3_read(word);
        check_write(instruction);
        let Written { word: written, refusal } = ffi::lc3_write(instruction);
        assert_eq!(refusal, 0);
        assert_eq!(written ^ word, mask, "x{word:04X} and x{written:04X}");
        let again = ffi::Reading { instruction, mask: 0 };
        assert_eq!(ffi::lc3_read(written), again, "reading x{written:04X} again");
        exact += u32::from(mask == 0);
    }
    // Of each form, 2 to the number of bits in its fields.
    let field_bits = |row: &str| row.chars().filter(char::is_ascii_alphabetic).count();
    assert_eq!(exact, FIGURE.iter().map(|(_, row)| 1 << field_bits(row)).sum());
}

#[test]
fn every_value_at_an_edge_is_written_or_refused_as_in_the_figure() {
    for (kind, &(_, row)) in (0..).zip(&FIGURE) {
        for value in edges(figure::range(row)) {
            for registers in [[0, 0, 0], [7, 7, 7], [8, 0, 0], [0, 8, 0], [0, 0, 8], [255; 3]] {
                check_write(fields(kind, registers, value));
            }
        }
    }
}

#[test]
fn every_value_of_16_bits_is_written_or_refused_as_in_the_figure() {
    for kind in 0..FIGURE.len() as u8 {
        for value in -65_536..=65_536 {
            check_write(fields(kind, [3, 5, 6], value));
        }
    }
}

#[test]
fn every_register_and_mask_is_written_or_refused_as_in_the_figure() {
    for kind in 0..FIGURE.len() as u8 {
        for number in 0..=255 {
            for value in [0, -1, 1 << 20] {
                check_write(fields(kind, [number, 0, 0], value));
                check_write(fields(kind, [0, number, 0], value));
                check_write(fields(kind, [0, 0, number], value));
                check_write(fields(kind, [number, 255 - number, number], value));
            }
        }
    }
}

#[test]
fn every_unknown_kind_is_refused() {
    for kind in FIGURE.len() as u8..=255 {
        for registers in [[0; 3], [255; 3]] {
            let written = ffi::lc3_write(fields(kind, registers, 0));
            assert_eq!(written, Written { word: 0, refusal: 2 });
            check_write(fields(kind, registers, i32::MIN));
        }
    }
}

#[test]
fn a_register_is_refused_before_a_value_and_a_value_before_a_mask() {
    let refusal = |instruction| fanthrig::write(&instruction).unwrap_err();
    let load = |dr, offset9| Instruction::Ld { dr, offset9 };
    assert_eq!(refusal(load(8, 256)), Error::Register);
    assert_eq!(refusal(load(7, 256)), Error::Value);
    let branch = |mask, offset9| Instruction::Br { mask, offset9 };
    assert_eq!(refusal(branch(8, -257)), Error::Value);
    assert_eq!(refusal(branch(8, -256)), Error::Mask);
    assert_eq!([Error::Register.code(), Error::Mask.code()], [1, 3]);
}

#[test]
fn the_wrapper_names_the_fields_of_each_form() {
    use Instruction::*;
    let table = [
        (0x0BFE, Br { mask: 5, offset9: -2 }),
        (0x1283, AddRegister { dr: 1, sr1: 2, sr2: 3 }),
        (0x12BD, AddImmediate { dr: 1, sr1: 2, imm5: -3 }),
        (0x23FE, Ld { dr: 1, offset9: -2 }),
        (0x3202, St { sr: 1, offset9: 2 }),
        (0x4FFE, Jsr { offset11: -2 }),
        (0x4080, Jsrr { base: 2 }),
        (0x5283, AndRegister { dr: 1, sr1: 2, sr2: 3 }),
        (0x52A3, AndImmediate { dr: 1, sr1: 2, imm5: 3 }),
        (0x62BD, Ldr { dr: 1, base: 2, offset6: -3 }),
        (0x7283, Str { sr: 1, base: 2, offset6: 3 }),
        (0x8000, Rti),
        (0x92BF, Not { dr: 1, sr: 2 }),
        (0xA202, Ldi { dr: 1, offset9: 2 }),
        (0xB3FE, Sti { sr: 1, offset9: -2 }),
        (0xC1C0, Jmp { base: 7 }),
        (0xDABC, Reserved { field: 0xABC }),
        (0xE3FE, Lea { dr: 1, offset9: -2 }),
        (0xF0FE, Trap { vector: 0xFE }),
    ];
    for (word, instruction) in table {
        assert_eq!(fanthrig::read(word), fanthrig::Reading { instruction, mask: 0 });
        assert_eq!(fanthrig::write(&instruction), Ok(word));
    }
}

#[test]
fn the_wrapper_gives_each_instruction_the_fields_of_its_word() {
    for word in 0..=u16::MAX {
        let fanthrig::Reading { instruction, mask } = fanthrig::read(word);
        let reading = ffi::lc3_read(word);
        assert_eq!((ffi::Fields::from(instruction), mask), (reading.instruction, reading.mask));
        assert_eq!(fanthrig::write(&instruction), Ok(ffi::lc3_write(reading.instruction).word));
    }
}
