//! Figure A.2 as text, and the reading and writing of words by that text.

use std::sync::LazyLock;

/// The forms of instruction, in the order of their numbers in the C interface.
#[derive(Clone, Copy, Debug, PartialEq, Eq)]
pub enum Kind {
    Br,
    AddRegister,
    AddImmediate,
    Ld,
    St,
    Jsr,
    Jsrr,
    AndRegister,
    AndImmediate,
    Ldr,
    Str,
    Rti,
    Not,
    Ldi,
    Sti,
    Jmp,
    Reserved,
    Lea,
    Trap,
}

/// The number of forms.
pub const KINDS: usize = 19;

/// One row for each form, bit 15 first.
///
/// `0` and `1` are the bits that tell the forms apart. `-` and `+` are bits that the figure fixes
/// at 0 and 1: reading ignores them. The letters are the bits of fields: `a`, `b` and `c` are
/// registers in the assembler's order, `m` is the mask of BR, `s` a signed and `u` an unsigned
/// value.
pub const FIGURE: [(Kind, &str); KINDS] = [
    (Kind::Br, "0000mmmsssssssss"),
    (Kind::AddRegister, "0001aaabbb0--ccc"),
    (Kind::AddImmediate, "0001aaabbb1sssss"),
    (Kind::Ld, "0010aaasssssssss"),
    (Kind::St, "0011aaasssssssss"),
    (Kind::Jsr, "01001sssssssssss"),
    (Kind::Jsrr, "01000--aaa------"),
    (Kind::AndRegister, "0101aaabbb0--ccc"),
    (Kind::AndImmediate, "0101aaabbb1sssss"),
    (Kind::Ldr, "0110aaabbbssssss"),
    (Kind::Str, "0111aaabbbssssss"),
    (Kind::Rti, "1000------------"),
    (Kind::Not, "1001aaabbb++++++"),
    (Kind::Ldi, "1010aaasssssssss"),
    (Kind::Sti, "1011aaasssssssss"),
    (Kind::Jmp, "1100---aaa------"),
    (Kind::Reserved, "1101uuuuuuuuuuuu"),
    (Kind::Lea, "1110aaasssssssss"),
    (Kind::Trap, "1111----uuuuuuuu"),
];

/// An instruction as the numbers of its fields; a field that its form lacks is 0.
#[derive(Clone, Copy, Debug, PartialEq, Eq)]
pub struct Fields {
    pub kind: Kind,
    /// The first register, or the mask of BR.
    pub a: u8,
    pub b: u8,
    pub c: u8,
    pub value: i32,
}

/// The number that the bits of `word` under the letter `field` spell, or 0 without such a letter.
fn gather(row: &str, word: u16, field: char) -> i32 {
    let bits = row.chars().zip((0..16).rev());
    bits.filter(|&(letter, _)| letter == field)
        .fold(0, |number, (_, bit)| 2 * number + i32::from(word >> bit & 1))
}

/// The number of bits under the letter `field`.
fn width(row: &str, field: char) -> usize {
    row.matches(field).count()
}

/// The least and the greatest value that a form can hold, or nothing if it has no value.
pub fn range(row: &str) -> Option<(i32, i32)> {
    match (width(row, 's'), width(row, 'u')) {
        (0, 0) => None,
        (signed, 0) => Some((-(1 << (signed - 1)), (1 << (signed - 1)) - 1)),
        (_, unsigned) => Some((0, (1 << unsigned) - 1)),
    }
}

/// True if the bits that tell the forms apart are those of `row`.
fn matches(row: &str, word: u16) -> bool {
    row.chars().zip((0..16).rev()).all(|(letter, bit)| match letter {
        '0' => word >> bit & 1 == 0,
        '1' => word >> bit & 1 == 1,
        _ => true,
    })
}

/// Reads a word by looking for its row.
fn interpret(word: u16) -> Fields {
    let &(kind, row) =
        FIGURE.iter().find(|(_, row)| matches(row, word)).expect("a row for each word");
    let signed = gather(row, word, 's');
    let negative = width(row, 's') > 0 && signed >> (width(row, 's') - 1) == 1;
    Fields {
        kind,
        a: (gather(row, word, 'a') + gather(row, word, 'm')) as u8,
        b: gather(row, word, 'b') as u8,
        c: gather(row, word, 'c') as u8,
        value: gather(row, word, 'u') + signed - if negative { 1 << width(row, 's') } else { 0 },
    }
}

/// Every word read once, since a simulator reads a word in each step.
static ALL: LazyLock<Vec<Fields>> = LazyLock::new(|| (0..=u16::MAX).map(interpret).collect());

/// Reads a word.
pub fn read(word: u16) -> Fields {
    ALL[usize::from(word)]
}

/// The bits that the figure fixes and that are wrong in a word.
pub fn mask(word: u16) -> u16 {
    let (_, row) = FIGURE[read(word).kind as usize];
    let wrong = row.chars().zip((0..16).rev()).filter(|&(letter, bit)| match letter {
        '-' => word >> bit & 1 == 1,
        '+' => word >> bit & 1 == 0,
        _ => false,
    });
    wrong.map(|(_, bit)| 1 << bit).sum()
}

/// The bit that `row` puts at its place `bit` for the given numbers.
fn spell(row: &str, bit: usize, letter: char, number: impl Fn(char) -> i32) -> u16 {
    match letter {
        '0' | '-' => 0,
        '1' | '+' => 1,
        // The letters of one field stand together, so those to the right count its lower bits.
        field => (number(field) >> width(&row[16 - bit..], field) & 1) as u16,
    }
}

/// Writes an instruction given as the numbers of the C interface, or tells why not: 1, 2 or 3.
pub fn write(kind: u8, a: u8, b: u8, c: u8, value: i32) -> Result<u16, u32> {
    let &(_, row) = FIGURE.get(usize::from(kind)).ok_or(2u16)?;
    let too_high = |number: u8, field| row.contains(field) && number > 7;
    if too_high(a, 'a') || too_high(b, 'b') || too_high(c, 'c') {
        return Err(1);
    }
    if range(row).is_some_and(|(least, greatest)| value < least || value > greatest) {
        return Err(2);
    }
    if too_high(a, 'm') {
        return Err(3);
    }
    let number = |field| match field {
        'a' | 'm' => i32::from(a),
        'b' => i32::from(b),
        'c' => i32::from(c),
        _ => value,
    };
    let letters = row.chars().zip((0..16).rev());
    Ok(letters.fold(0, |word, (letter, bit)| word << 1 | spell(row, bit, letter, number)))
}
