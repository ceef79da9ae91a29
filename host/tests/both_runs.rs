//! Whole sittings by `lc3_run` and by `lc3_run_long` against the reference simulator: programs that
//! alter their own code, trap, poll and show, in calls that follow each other on one memory.
//!
//! `LC3_SEED` repeats the sittings of an earlier test, `LC3_RUNS` asks for another number of them,
//! and `LC3_CASE` for the one of this number alone.

mod reference;
mod support;

use fanthrig::ffi::Answer;
use fanthrig::WORDS;
use reference::bus::{DDR, DSR, KBDR, KBSR, REGISTERS};
use reference::machine::{self, Event, CAUSES};
use std::time::Instant;
use support::cases::{self, Case};
use support::{assert_same_buffers, for_cases_by, pages, rings, sittings, Buffers, Rng};

/// The steps from which on a call of the long run has windows, and how many it has.
const WINDOW_STEPS: u64 = 256;
const WINDOWS: usize = 4;

/// What the calls meet.
#[derive(Debug, Default)]
struct Tally {
    calls: u64,
    steps: u64,
    /// Calls that have windows, their steps, and those of the calls that fetch from more pages than
    /// there are windows.
    windowed: u64,
    windowed_steps: u64,
    wide: u64,
    /// Calls with windows that fetch a word from where they fetched another before, and such steps.
    altering: u64,
    altered: u64,
    causes: [u64; CAUSES],
    /// Polls of KBSR and DSR, loads of KBDR, stores to DDR, and keys and bytes.
    polls: [u64; 2],
    taken: u64,
    stored: u64,
    keys: u64,
    shown: u64,
    stops: [u64; 3],
    refused: u64,
}

impl Tally {
    fn event(&mut self, event: &Event, fetched: &mut Fetched) {
        self.causes[event.cause as usize] += 1;
        if let Some(word) = event.word {
            fetched.note(event.pc, word);
        }
        let reads = |register| {
            let accesses = [event.reached.pointer, event.reached.load];
            accesses.into_iter().flatten().any(|place| REGISTERS[place] == register)
        };
        self.polls[0] += u64::from(reads(KBSR));
        self.polls[1] += u64::from(reads(DSR));
        self.taken += u64::from(reads(KBDR));
        self.stored += u64::from(event.reached.store.is_some_and(|place| REGISTERS[place] == DDR));
    }

    fn answer(&mut self, n: u64, answer: &Answer, fetched: &Fetched) {
        let windowed = u64::from(n >= WINDOW_STEPS);
        self.calls += 1;
        self.refused += u64::from(answer.refusal != 0);
        self.steps += answer.steps;
        self.windowed += windowed;
        self.windowed_steps += windowed * answer.steps;
        self.wide += windowed * u64::from(fetched.pages() > WINDOWS);
        self.altering += windowed * u64::from(fetched.altered > 0);
        self.altered += windowed * fetched.altered;
        self.keys += answer.keys;
        self.shown += answer.shown;
        self.stops[answer.stop as usize] += 1;
    }

    /// Panics unless the calls met everything, and what matters often.
    fn check(&self) {
        let Tally { causes, polls, taken, stored, keys, shown, stops, .. } = self;
        let counts = [*taken, *stored, *keys, *shown, self.refused];
        let all = causes.iter().chain(polls).chain(stops).chain(&counts).all(|&count| count > 0);
        let often = 2 * self.windowed > self.calls
            && 6 * self.altering > self.windowed
            && 5 * self.wide > self.windowed;
        assert!(all && often, "met too seldom");
    }
}

/// The words that a call fetched last from each address, the pages that it fetched from, and how many
/// words it fetched from where it had fetched another.
struct Fetched {
    words: Vec<Option<u16>>,
    pages: [bool; 256],
    altered: u64,
}

impl Fetched {
    fn new() -> Self {
        Fetched { words: vec![None; WORDS], pages: [false; 256], altered: 0 }
    }

    fn clear(&mut self) {
        self.altered = 0;
        for page in 0..256 {
            if std::mem::take(&mut self.pages[page]) {
                self.words[256 * page..256 * (page + 1)].fill(None);
            }
        }
    }

    fn note(&mut self, at: u16, word: u16) {
        self.pages[usize::from(at) / 256] = true;
        let before = self.words[usize::from(at)].replace(word);
        self.altered += u64::from(before.is_some_and(|before| before != word));
    }

    fn pages(&self) -> usize {
        self.pages.iter().filter(|met| **met).count()
    }
}

/// The buffers of both runs and of the reference.
struct Bench {
    run: Buffers,
    long: Buffers,
    reference: Buffers,
    fetched: Fetched,
    tally: Tally,
}

impl Bench {
    fn new() -> Self {
        let [run, long, reference] = [(); 3].map(|()| Buffers::new());
        Bench { run, long, reference, fetched: Fetched::new(), tally: Tally::default() }
    }

    /// Memory and what the first call is lent.
    fn set(&mut self, case: &Case, template: &[u16]) {
        for buffers in [&mut self.run, &mut self.long, &mut self.reference] {
            buffers.set(case, template);
        }
    }

    /// What a later call is lent beside memory.
    fn lend(&mut self, case: &Case) {
        for buffers in [&mut self.run, &mut self.long, &mut self.reference] {
            buffers.lend(case);
        }
    }

    /// Makes a call by both runs and by the reference, and panics unless all that they answer and
    /// leave is the same.
    fn compare(&mut self, case: &Case) -> Answer {
        let (tally, fetched) = (&mut self.tally, &mut self.fetched);
        fetched.clear();
        let call = self.reference.call(case.record, case.n);
        let expected = machine::run(call, |event| tally.event(event, fetched));
        tally.answer(case.n, &expected, fetched);
        let answer = self.run.run(case.record, 0, 0, case.n);
        assert!(answer == expected, "lc3_run: {answer:x?}\nreference: {expected:x?}");
        let answer = self.long.run_long(case.record, 0, 0, case.n);
        assert!(answer == expected, "lc3_run_long: {answer:x?}\nreference: {expected:x?}");
        for buffers in [&self.run, &self.long] {
            buffers.check(case);
            assert_same_buffers(buffers, &self.reference);
        }
        expected
    }
}

/// Sittings from which on everything that is counted is to be met.
const ENOUGH: u64 = 10_000;

/// A sitting of one of three kinds; a first call in forty goes to the border of a refusal.
fn make(rng: &mut Rng) -> Case {
    let mut case = match rng.below(30) {
        0 | 1 => rings::sitting(rng),
        2..=10 => sittings::sitting(rng),
        _ => pages::sitting(rng),
    };
    if rng.once_in(40) {
        cases::spoil(rng, &mut case);
    }
    if rng.once_in(400) {
        case.record.kbdr = 0x0100;
    }
    case
}

fn compare_sittings(usual: u64) {
    let (start, mut bench) = (Instant::now(), Bench::new());
    for_cases_by(
        usual,
        |rng, _| make(rng),
        |rng, case, template| {
            let mut case = case.clone();
            bench.set(&case, template);
            for call in 0..=rng.below(6) {
                if call > 0 {
                    pages::alter(rng, &mut case);
                    pages::set_call(rng, &mut case);
                    bench.lend(&case);
                }
                let answer = bench.compare(&case);
                if answer.refusal != 0 {
                    break;
                }
                case.record = answer.record;
            }
        },
    );
    let (runs, tally) = (support::runs(usual), bench.tally);
    println!("{runs} sittings in {:.1} s: {tally:?}", start.elapsed().as_secs_f64());
    if runs >= ENOUGH {
        tally.check();
    }
}

#[test]
fn both_runs_come_to_what_the_reference_comes_to() {
    compare_sittings(20_000);
}

#[test]
#[ignore = "takes several minutes"]
fn soak() {
    compare_sittings(1_000_000);
}
