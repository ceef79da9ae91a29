//! Every word's line, held against a formatter and an assembler of the tests' own; and pages, held
//! against the formatter's lines joined.

mod reference;
mod support;

use fanthrig::ffi::{self, Counted};
use std::collections::HashSet;
use support::Rng;

/// The low `bits` bits of a word as a signed number.
fn signed(word: u16, bits: u32) -> i32 {
    let field = i32::from(word) % (1 << bits);
    if field < 1 << (bits - 1) {
        field
    } else {
        field - (1 << bits)
    }
}

/// The line of a word but its line feed, by the bit patterns of Figure A.2.
fn formatted(word: u16) -> String {
    let [dr, sr1, sr2] = [9, 6, 0].map(|shift| format!("R{}", word >> shift & 7));
    let near = format!("#{}", signed(word, 9));
    let codes: String = [(0x0800, 'n'), (0x0400, 'z'), (0x0200, 'p')]
        .iter()
        .filter(|(bit, _)| word & bit != 0)
        .map(|(_, letter)| *letter)
        .collect();
    let operate = |name: &str| match word & 0x0038 {
        0 => Some(format!("{name} {dr}, {sr1}, {sr2}")),
        low if low & 0x0020 != 0 => Some(format!("{name} {dr}, {sr1}, #{}", signed(word, 5))),
        _ => None,
    };
    let based = |name: &str| Some(format!("{name} {dr}, {sr1}, #{}", signed(word, 6)));
    let relative = |name: &str| Some(format!("{name} {dr}, {near}"));
    let line = match word >> 12 {
        0x0 => (!codes.is_empty()).then(|| format!("BR{codes} {near}")),
        0x1 => operate("ADD"),
        0x2 => relative("LD"),
        0x3 => relative("ST"),
        0x4 if word & 0x0800 != 0 => Some(format!("JSR #{}", signed(word, 11))),
        0x4 => (word & 0x0E3F == 0).then(|| format!("JSRR {sr1}")),
        0x5 => operate("AND"),
        0x6 => based("LDR"),
        0x7 => based("STR"),
        0x8 => (word == 0x8000).then(|| String::from("RTI")),
        0x9 => (word & 0x003F == 0x003F).then(|| format!("NOT {dr}, {sr1}")),
        0xA => relative("LDI"),
        0xB => relative("STI"),
        0xC if word == 0xC1C0 => Some(String::from("RET")),
        0xC => (word & 0x0E3F == 0).then(|| format!("JMP {sr1}")),
        0xE => relative("LEA"),
        0xF => (word & 0x0F00 == 0).then(|| format!("TRAP x{:02X}", word & 0x00FF)),
        _ => None,
    };
    line.unwrap_or_else(|| format!(".FILL x{word:04X}"))
}

/// The bits of an operand `R3`, `#-7` or `x25`, the number in a field of `bits` bits.
fn operand(text: &str, bits: u32) -> u16 {
    let (kind, rest) = text.split_at(1);
    match kind {
        "R" => rest.parse::<u16>().expect("a register"),
        "#" => rest.parse::<i32>().expect("a number").rem_euclid(1 << bits) as u16,
        "x" => u16::from_str_radix(rest, 16).expect("hexadecimal digits"),
        _ => panic!("no operand: {text}"),
    }
}

/// The word that an instruction's line stands for.
fn assembled(line: &str) -> u16 {
    let (name, rest) = line.split_once(' ').unwrap_or((line, ""));
    let operands: Vec<&str> = rest.split(", ").filter(|text| !text.is_empty()).collect();
    let field = |index: usize, bits| operand(operands[index], bits);
    let first = || field(0, 3) << 9;
    let three = |opcode: u16| {
        let immediate = u16::from(operands[2].starts_with('#')) << 5;
        opcode << 12 | first() | field(1, 3) << 6 | immediate | field(2, 5)
    };
    let based = |opcode: u16| opcode << 12 | first() | field(1, 3) << 6 | field(2, 6);
    let relative = |opcode: u16| opcode << 12 | first() | field(1, 9);
    match name {
        "ADD" => three(0x1),
        "AND" => three(0x5),
        "LD" => relative(0x2),
        "LDI" => relative(0xA),
        "LDR" => based(0x6),
        "LEA" => relative(0xE),
        "ST" => relative(0x3),
        "STI" => relative(0xB),
        "STR" => based(0x7),
        "NOT" => 0x903F | first() | field(1, 3) << 6,
        "JMP" => 0xC000 | field(0, 3) << 6,
        "JSR" => 0x4800 | field(0, 11),
        "JSRR" => 0x4000 | field(0, 3) << 6,
        "RET" => 0xC1C0,
        "RTI" => 0x8000,
        "TRAP" => 0xF000 | field(0, 8),
        _ => {
            let codes = name.strip_prefix("BR").expect("a mnemonic");
            let bit = |letter, bit: u16| u16::from(codes.contains(letter)) * bit;
            bit('n', 0x0800) | bit('z', 0x0400) | bit('p', 0x0200) | field(0, 9)
        }
    }
}

#[test]
fn the_example_of_the_request() {
    assert_eq!(fanthrig::line_string(0x14E7), "ADD R2, R3, #7\n");
    assert_eq!(fanthrig::line_string(0x0005), ".FILL x0005\n");
}

#[test]
fn every_line_is_the_formatters() {
    for word in 0..=u16::MAX {
        assert_eq!(fanthrig::line_string(word), formatted(word) + "\n", "x{word:04X}");
    }
}

#[test]
fn every_length_is_the_formatters() {
    for word in 0..=u16::MAX {
        assert_eq!(fanthrig::line_length(word), formatted(word).len() + 1, "x{word:04X}");
    }
}

#[test]
fn all_lines_are_distinct_and_the_longest_has_17_bytes() {
    let lines: HashSet<String> = (0..=u16::MAX).map(fanthrig::line_string).collect();
    assert_eq!(lines.len(), 65_536);
    assert_eq!(lines.iter().map(String::len).max(), Some(fanthrig::LINE_LIMIT));
    assert_eq!(fanthrig::LINE_LIMIT, 17);
}

#[test]
fn every_line_but_data_assembles_to_its_word() {
    let mut instructions = 0;
    for word in 0..=u16::MAX {
        let line = fanthrig::line_string(word);
        if !line.starts_with(".FILL") {
            assert_eq!(assembled(line.trim_end()), word, "{line}");
            instructions += 1;
        }
    }
    // The words with right fixed bits but the reserved ones and the BR that test nothing.
    assert_eq!(instructions, 44_369 - 4096 - 512);
}

#[test]
fn a_line_is_written_where_it_fits_and_nothing_else_is() {
    const GUARD: u8 = 0xAA;
    for word in 0..=u16::MAX {
        let line = formatted(word) + "\n";
        for lent in 0..=line.len() + 1 {
            let mut output = [GUARD; 24];
            // SAFETY: the pointer is valid for more than the bytes lent, which lie in the middle.
            let counted = unsafe { ffi::lc3_line(word, output.as_mut_ptr().add(2), lent) };
            let mut expected = [GUARD; 24];
            if line.len() <= lent {
                expected[2..2 + line.len()].copy_from_slice(line.as_bytes());
                assert_eq!(counted, Counted { count: line.len() as u64, refusal: 0 });
            } else {
                assert_eq!(counted, Counted { count: 0, refusal: 16 });
            }
            assert_eq!(output, expected, "x{word:04X} in {lent} bytes");
        }
    }
}

/// What surrounds a lent output, and what it holds before the call.
const GUARD: usize = 8;
const BYTE: u8 = 0xA5;

/// The lines of a range joined, or the number of the refusal.
fn joined(memory: &[u16], first: u16, count: usize, room: usize) -> Result<String, u32> {
    if memory.len() != 1 << 16 {
        return Err(11);
    }
    let range = usize::from(first).checked_add(count).and_then(|end| memory.get(first.into()..end));
    let page: String = range.ok_or(20u32)?.iter().map(|&word| formatted(word) + "\n").collect();
    if room < page.len() {
        return Err(16);
    }
    Ok(page)
}

/// Lends an output of `room` bytes between guards, and panics unless the answer and every byte are
/// as the lines joined.
fn check_page(memory: &[u16], first: u16, count: usize, room: usize) -> Counted {
    let mut output = vec![BYTE; GUARD + room + GUARD];
    let mut expected = output.clone();
    let answer = match joined(memory, first, count, room) {
        Ok(page) => {
            expected[GUARD..GUARD + page.len()].copy_from_slice(page.as_bytes());
            Counted { count: page.len() as u64, refusal: 0 }
        }
        Err(refusal) => Counted { count: 0, refusal },
    };
    // SAFETY: both pointers are valid for what is lent, the output between its guards.
    let counted = unsafe {
        let text = output.as_mut_ptr().add(GUARD);
        ffi::lc3_page(memory.as_ptr(), memory.len(), first, count, text, room)
    };
    assert_eq!(counted, answer, "{count} lines from x{first:04X} in {room} bytes");
    assert_eq!(output, expected, "{count} lines from x{first:04X} in {room} bytes");
    counted
}

/// All words in order, so that each stands at its own address.
fn all_words() -> Vec<u16> {
    (0..=u16::MAX).collect()
}

#[test]
fn a_page_of_the_whole_memory_is_every_line() {
    let counted = check_page(&all_words(), 0, 1 << 16, (1 << 16) * fanthrig::LINE_LIMIT);
    let lines: usize = (0..=u16::MAX).map(|word| formatted(word).len() + 1).sum();
    assert_eq!(counted, Counted { count: lines as u64, refusal: 0 });
}

#[test]
fn a_page_is_written_where_it_fits_whole_and_nothing_else_is() {
    let memory = all_words();
    for (first, count) in [(0x0000, 0), (0x14E7, 1), (0x8000, 3), (0xFFF0, 16), (0x01F0, 40)] {
        let page = joined(&memory, first, count, usize::MAX).expect("a page of memory");
        for room in page.len().saturating_sub(40)..=page.len() + 20 {
            check_page(&memory, first, count, room);
        }
        for room in 0..page.len().min(40) {
            check_page(&memory, first, count, room);
        }
    }
}

#[test]
fn random_pages_of_random_memories() {
    let mut rng = Rng::of_case(5, 0);
    for _ in 0..300 {
        let memory: Vec<u16> = (0..1 << 16).map(|_| rng.word()).collect();
        for _ in 0..5 {
            let first = rng.word();
            let left = (1 << 16) - u64::from(first);
            let count = rng.below(left.min(300) + 1) as usize;
            let room = rng.below(count as u64 * 17 + 20) as usize;
            check_page(&memory, first, count, room);
            check_page(&memory, first, count, count * fanthrig::LINE_LIMIT);
        }
    }
}

#[test]
fn a_page_is_refused_in_the_order_memory_range_output() {
    let memory = all_words();
    for words in [0, 1, (1 << 16) - 1] {
        check_page(&memory[..words], 0xFFFF, usize::MAX, 0);
    }
    let longer: Vec<u16> = memory.iter().copied().chain([0]).collect();
    check_page(&longer, 0, 1, 100);
    for first in [0x0000, 0x0001, 0x3000, 0x7FFF, 0xFFFE, 0xFFFF] {
        let left = (1 << 16) - usize::from(first);
        for count in [left, left + 1, left + 2, 1 << 16, usize::MAX / 2, usize::MAX] {
            check_page(&memory, first, count, 0);
            check_page(&memory, first, count, 40);
        }
        // Counts whose sum with the address is small again where it wraps.
        for sum in 0..4 {
            let count = usize::MAX.wrapping_sub(usize::from(first)).wrapping_add(sum);
            check_page(&memory, first, count, 40);
        }
    }
}
