//! Runs of the reference simulator, stored in tests/reference/runs.txt for tests in other languages.
//!
//! The file is what the simulator makes of the cases of one seed, by both editions in turn.
//! `LC3_STORE=1` writes it anew. Each line is a run, as parts `name=value` with a space between two:
//!
//! ```text
//! edition   2 or 3
//! record    R0 to R7 and the fields after them in the order of lc3_record, the clock in decimal
//! length    the words of memory lent; at address a stands a * x9E37 + x79B9, cut to 16 bits, but for
//! words     addresses, each with the word planted there
//! times     of the keys, in decimal
//! bytes     the keys
//! output    the bytes lent
//! n         the steps asked for
//! answer    refusal, index, steps, keys, shown and stop
//! after     the record then
//! changed   the addresses whose words are others than before, each with its word
//! left      the bytes of the output then
//! log       the three words of each step; - where the run is stored without them
//! ```
//!
//! Words and bytes are hexadecimal, of four and two digits; a list has commas and may be empty.

mod reference;
mod support;

use reference::machine::Edition;
use std::path::Path;
use std::{env, fs};
use support::cases::{case, FAMILIES};
use support::lines::{line, template};
use support::Rng;

const FILE: &str = "tests/reference/runs.txt";
const SEED: u64 = 23;
const RUNS: u64 = 300;

#[test]
fn the_stored_runs_are_those_of_the_reference() {
    let template = template();
    let mut text = String::new();
    for number in 0..RUNS {
        let mut rng = Rng::of_case(SEED, number);
        let edition = if number % 2 == 0 { Edition::Third } else { Edition::Second };
        let family = FAMILIES[number as usize / 2 % FAMILIES.len()];
        text += &line(&case(&mut rng, family), &template, edition, true);
        text += "\n";
    }
    let file = Path::new(env!("CARGO_MANIFEST_DIR")).join(FILE);
    if env::var_os("LC3_STORE").is_some() {
        fs::write(&file, &text).expect("the file can be written");
    }
    let stored = fs::read_to_string(&file).expect("the file is there");
    assert!(stored == text, "{FILE} is not what the reference makes: LC3_STORE=1 writes it anew");
}
