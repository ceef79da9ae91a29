//! Runs of the reference simulator for `make page-test`, which holds the library for browsers to them.
//!
//! `LC3_RUNS_IN=FOLDER` names the folder to which these two are written, in the form of tests/stored.rs:
//!
//! ```text
//! runs.txt    40,000 cases by both editions in turn, with their logs
//! longs.txt   20,000 long runs without logs: sittings, and every third any case of 20 times its steps
//! ```

mod reference;
mod support;

use reference::machine::Edition;
use std::fs::File;
use std::io::{BufWriter, Write};
use std::path::PathBuf;
use std::{env, fs};
use support::cases::{case, Case, FAMILIES};
use support::lines::{line, template};
use support::sittings::sitting;
use support::Rng;

const RUNS: u64 = 40_000;
const LONG_RUNS: u64 = 20_000;

/// Writes so many runs to a file of the folder; `make` makes a case of its random numbers and its number.
fn write(
    name: &str,
    runs: u64,
    seed: u64,
    logged: bool,
    make: fn(&mut Rng, u64) -> (Case, Edition),
) {
    let folder = PathBuf::from(env::var_os("LC3_RUNS_IN").expect("LC3_RUNS_IN names a folder"));
    fs::create_dir_all(&folder).expect("the folder can be made");
    let mut file = BufWriter::new(File::create(folder.join(name)).expect("the file can be made"));
    let template = template();
    for number in 0..runs {
        let (case, edition) = make(&mut Rng::of_case(seed, number), number);
        writeln!(file, "{}", line(&case, &template, edition, logged))
            .expect("a line can be written");
    }
    file.flush().expect("the file can be written");
}

#[test]
#[ignore = "writes a large file for make page-test"]
fn runs() {
    write("runs.txt", RUNS, 4242, true, |rng, number| {
        let edition = if number % 2 == 0 { Edition::Third } else { Edition::Second };
        (case(rng, FAMILIES[number as usize / 2 % FAMILIES.len()]), edition)
    });
}

#[test]
#[ignore = "writes a large file for make page-test"]
fn longs() {
    write("longs.txt", LONG_RUNS, 777, false, |rng, number| {
        let edition = if number % 9 == 8 { Edition::Second } else { Edition::Third };
        if number % 3 < 2 {
            return (sitting(rng), edition);
        }
        let mut made = case(rng, FAMILIES[number as usize / 3 % FAMILIES.len()]);
        made.n = made.n.saturating_mul(20);
        (made, edition)
    });
}
