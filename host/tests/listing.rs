//! docs/monitor.lst against the monitor's words, and the comments of the sources against both; the
//! words of the example `turns` against their comments.

use fanthrig::{Memory, MONITOR_WORDS, VECTOR_WORDS};
use std::collections::HashMap;
use std::fs;
use std::path::Path;

/// A line of the listing: address, word, label and the statement of the assembler.
#[derive(Debug, PartialEq)]
struct Line {
    address: u16,
    word: u16,
    label: String,
    statement: String,
}

fn source(path: &str) -> String {
    let path = Path::new(env!("CARGO_MANIFEST_DIR")).join("..").join(path);
    fs::read_to_string(&path).unwrap_or_else(|error| panic!("{}: {error}", path.display()))
}

fn number(text: &str) -> Option<u16> {
    let digits = text.strip_prefix("0x").or(text.strip_prefix('x'))?;
    u16::from_str_radix(digits, 16).ok().filter(|_| digits.len() == 4)
}

/// A label, if the words begin with one, and the statement: a label is what no mnemonic follows.
fn statement(words: &[&str]) -> (String, String) {
    let mnemonics =
        ["ADD", "AND", "LD", "LDI", "LDR", "LEA", "RTI", "ST", "STI", "STR", "TRAP", ".FILL"];
    let is_mnemonic = |word: &str| mnemonics.contains(&word) || word.starts_with("BR");
    match words {
        [label, rest @ ..] if !is_mnemonic(label) => (label.to_string(), rest.join(" ")),
        _ => (String::new(), words.join(" ")),
    }
}

fn listing() -> Vec<Line> {
    let mut lines = Vec::new();
    for line in source("docs/monitor.lst").lines() {
        let code = line.split(';').next().unwrap_or_default();
        let words: Vec<&str> = code.split_whitespace().collect();
        if let [address, word, rest @ ..] = &words[..] {
            let address = number(address).expect("an address");
            let word = number(word).expect("a word");
            let (label, statement) = statement(rest);
            lines.push(Line { address, word, label, statement });
        }
    }
    lines
}

fn monitor() -> Box<Memory> {
    let mut memory = fanthrig::memory();
    fanthrig::install_monitor(&mut memory);
    memory
}

#[test]
fn every_routine_word_is_listed_once_and_in_order() {
    let words: Vec<(u16, u16)> = listing().iter().map(|line| (line.address, line.word)).collect();
    let memory = monitor();
    let wanted: Vec<(u16, u16)> =
        (VECTOR_WORDS..MONITOR_WORDS).map(|at| (at as u16, memory[at])).collect();
    assert_eq!(words, wanted);
}

/// The statement with its label, if it names one, as the offset from the next address.
fn with_offset(line: &Line, labels: &HashMap<&str, u16>) -> String {
    let (rest, last) = line.statement.rsplit_once(' ').unwrap_or(("", &line.statement));
    match labels.get(last) {
        Some(address) => {
            format!("{rest} #{}", i32::from(*address) - i32::from(line.address) - 1)
        }
        None => line.statement.clone(),
    }
}

/// Panics unless each line's statement, with its label as an offset, is its word.
fn assert_statements(lines: &[Line]) {
    let labels: HashMap<&str, u16> = lines
        .iter()
        .filter(|line| !line.label.is_empty())
        .map(|line| (line.label.as_str(), line.address))
        .collect();
    for line in lines {
        let wanted = match line.statement.strip_prefix(".FILL ") {
            Some(_) => format!(".FILL x{:04X}", line.word),
            None => fanthrig::line_string(line.word).trim_end().to_string(),
        };
        assert_eq!(with_offset(line, &labels), wanted, "x{:04X}", line.address);
    }
}

#[test]
fn every_statement_is_its_word() {
    assert_statements(&listing());
}

#[test]
fn every_statement_of_the_example_is_its_word() {
    let lines = commented("host/examples/turns.rs", "//");
    assert_eq!(lines.len(), 42);
    assert_statements(&lines);
}

#[test]
fn every_vector_leads_to_a_label() {
    let lines = listing();
    let address = |label: &str| {
        lines.iter().find(|line| line.label == label).expect("a listed label").address
    };
    let ours = fanthrig::Routines::of_monitor();
    let services = [ours.getc, ours.out, ours.puts, ours.input, ours.putsp, ours.halt];
    assert_eq!(services, ["GETC", "OUT", "PUTS", "IN", "PUTSP", "HALT"].map(address));
    let others = [ours.trap, ours.exception, ours.interrupt];
    assert_eq!(others, ["STOP", "STOP", "BACK"].map(address));
}

/// The words of a source with the address, label and statement in the comment behind each.
fn commented(path: &str, comment: &str) -> Vec<Line> {
    let mut lines = Vec::new();
    for line in source(path).lines() {
        let Some((code, note)) = line.split_once(comment) else { continue };
        let note = note.split(';').next().unwrap_or_default();
        let note: Vec<&str> = note.split_whitespace().collect();
        let Some(word) = code.split(['∷', ',']).find_map(|word| number(word.trim())) else {
            continue;
        };
        let [address, rest @ ..] = &note[..] else { continue };
        let (label, statement) = statement(rest);
        let address = number(address).expect("an address");
        lines.push(Line { address, word, label, statement });
    }
    lines
}

#[test]
fn the_sources_have_the_lines_of_the_listing() {
    assert_eq!(commented("crates/installer/src/listing.rt", "//"), listing());
    let defined = commented("crates/monitor/specs/Routines.antt", "--");
    assert_eq!(defined.len(), MONITOR_WORDS - VECTOR_WORDS);
    for (defined, listed) in defined.iter().zip(listing()) {
        assert_eq!((defined.address, defined.word), (listed.address, listed.word));
        // The characters of the two texts stand there as themselves.
        if listed.statement.starts_with(".FILL x00") {
            continue;
        }
        assert_eq!(*defined, listed);
    }
}
