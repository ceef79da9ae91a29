//! That header, library and shared library have one version and the wrapper the header's constants,
//! and that every refusal and stop has its number and a text of its own.

use fanthrig::{ffi, Error, Mode, Stop};
use std::collections::{BTreeMap, HashSet};
use std::env;
use std::fs;
use std::path::Path;

/// A number as the header writes it: decimal, hexadecimal, or `(UINT64_C(1) << 48)`.
fn number(text: &str) -> u64 {
    if let Some((base, shift)) = text.split_once(" << ") {
        let base = base.trim_start_matches("(UINT64_C(").trim_end_matches(')');
        return number(base) << number(shift.trim_end_matches(')'));
    }
    match text.strip_prefix("0x") {
        Some(digits) => u64::from_str_radix(digits, 16).expect("hexadecimal digits"),
        None => text.parse().expect("decimal digits"),
    }
}

/// The constants of the header: what it defines with a value, and its enumerators.
fn of_the_header() -> BTreeMap<String, u64> {
    let path = Path::new(env!("CARGO_MANIFEST_DIR")).join("../include/fanthrig/lc3.h");
    let header = fs::read_to_string(path).expect("the header");
    let mut constants = BTreeMap::new();
    let mut next = 0;
    for line in header.lines() {
        let line = line.split("/*").next().unwrap_or_default().trim();
        if let Some((name, value)) = line.strip_prefix("#define ").and_then(|d| d.split_once(' ')) {
            if !name.contains('(') {
                constants.insert(name.to_string(), number(value));
            }
        } else if line == "enum {" {
            next = 0;
        } else if line.starts_with("LC3_") && !line.starts_with("LC3_LAYOUT") {
            let line = line.trim_end_matches(',');
            let (name, value) =
                line.split_once(" = ").map_or((line, next), |(n, v)| (n, number(v)));
            constants.insert(name.to_string(), value);
            next = value + 1;
        }
    }
    constants
}

macro_rules! constants {
    ($($name:ident)*) => { [$((stringify!($name).to_string(), ffi::$name as u64)),*] };
}

#[test]
fn the_constants_are_those_of_the_header() {
    let of_the_wrapper = constants! {
        LC3_VERSION
        LC3_MEMORY_WORDS LC3_MAX_STEPS LC3_MAX_CLOCK LC3_MAX_LINE LC3_LOG_WORDS LC3_VECTOR_WORDS
        LC3_MONITOR_WORDS LC3_MAX_BUSY
        LC3_PSR_USER LC3_PSR_PRIORITY LC3_PSR_N LC3_PSR_Z LC3_PSR_P
        LC3_KBSR_READY LC3_KBSR_INTERRUPT LC3_KBDR_BYTE LC3_MCR_CLOCK LC3_TSR_READY
        LC3_TSR_INTERRUPT
        LC3_ADDRESS_KBSR LC3_ADDRESS_KBDR LC3_ADDRESS_DSR LC3_ADDRESS_DDR LC3_ADDRESS_PSR
        LC3_ADDRESS_MCR LC3_ADDRESS_TSR LC3_ADDRESS_TIR
        LC3_ACCEPTED LC3_REFUSED_REGISTER LC3_REFUSED_FIELD LC3_REFUSED_MASK LC3_REFUSED_MEMORY
        LC3_REFUSED_RECORD LC3_REFUSED_STEPS LC3_REFUSED_LISTS LC3_REFUSED_TIME
        LC3_REFUSED_OUTPUT LC3_REFUSED_FILE LC3_REFUSED_RANGE LC3_REFUSED_ORDER LC3_REFUSED_PAGE
        LC3_REFUSED_USER
        LC3_DONE LC3_HALTED LC3_OUTPUT_FULL LC3_LOG_FULL
        LC3_REASON_INSTRUCTION LC3_REASON_TRAP LC3_REASON_PRIVILEGE LC3_REASON_ILLEGAL
        LC3_REASON_ACCESS LC3_REASON_KEYBOARD LC3_REASON_TIMER
        LC3_BR LC3_ADD_REGISTER LC3_ADD_IMMEDIATE LC3_LD LC3_ST LC3_JSR LC3_JSRR LC3_AND_REGISTER
        LC3_AND_IMMEDIATE LC3_LDR LC3_STR LC3_RTI LC3_NOT LC3_LDI LC3_STI LC3_JMP LC3_RESERVED
        LC3_LEA LC3_TRAP
        LC3_WATCHED_WORDS LC3_STATE_NUMBERS
        LC3_CERTIFIED LC3_WRONG_WATCHED LC3_WRONG_ROOM LC3_WRONG_VECTOR LC3_WRONG_INTERRUPT
        LC3_WRONG_WORD LC3_WRONG_STACK LC3_WRONG_INSTRUCTION
    };
    assert_eq!(BTreeMap::from(of_the_wrapper), of_the_header());
}

#[test]
fn header_library_and_shared_library_have_one_version() {
    let version = of_the_header()["LC3_VERSION"];
    assert_eq!(u64::from(fanthrig::version()), version);
    // The name by which hosts ask for the shared library stands in its table of strings.
    let folder = env::var("FANTHRIG_LIB_DIR").unwrap_or_else(|_| String::from("../build"));
    let shared = Path::new(env!("CARGO_MANIFEST_DIR")).join(folder).join("libfanthrig.so");
    let name = format!("libfanthrig.so.{version}");
    assert_eq!(fs::read_link(&shared).expect("a link"), Path::new(&name));
    let bytes = fs::read(shared).expect("the shared library");
    let string = format!("\0{name}\0");
    assert!(bytes.windows(string.len()).any(|window| window == string.as_bytes()));
}

#[test]
fn every_refusal_has_its_number_and_text() {
    use Error::{File, KeyLists, KeyOrder, KeyTime, Mask, Output, Page, Range, Record};
    use Error::{Register, Steps, User, Value};
    let words = [Register, Value, Mask];
    let runs = [Record, Steps, KeyLists, KeyTime(7), Output, File, Range, KeyOrder(7), Page, User];
    assert_eq!(words.map(Error::code), [1, 2, 3]);
    assert_eq!(runs.map(Error::code), [12, 13, 14, 15, 16, 17, 18, 19, 20, 21]);
    let texts: HashSet<String> = words.iter().chain(&runs).map(ToString::to_string).collect();
    assert_eq!(texts.len(), words.len() + runs.len());
    for refusal in [KeyTime(7), KeyOrder(7)] {
        assert!(refusal.to_string().starts_with("times[7] "), "{refusal}");
    }
}

#[test]
fn every_stop_has_its_number_and_text() {
    let stops = [Stop::Done, Stop::Halted, Stop::OutputFull];
    assert_eq!(stops.map(Stop::code), [ffi::LC3_DONE, ffi::LC3_HALTED, ffi::LC3_OUTPUT_FULL]);
    let texts: HashSet<String> = stops.iter().map(ToString::to_string).collect();
    assert_eq!(texts.len(), stops.len());
}

#[test]
fn a_machine_is_halted_exactly_if_its_clock_is_disabled() {
    let mut memory = fanthrig::memory();
    let started = fanthrig::start(&[0x30, 0x00], &mut memory, Mode::User, 0xFDFF);
    let mut record = started.expect("accepted").record;
    assert!(!record.is_halted());
    record.mcr = 0;
    assert!(record.is_halted());
}
