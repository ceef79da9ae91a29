//! The run for long sittings against the run: sittings that alter their own code, hostile calls,
//! sittings in pieces, and the numbers of steps at which something changes.
//!
//! `LC3_SEED` repeats the cases of an earlier test, and `LC3_RUNS` asks for another number of them.

mod reference;
mod support;

use fanthrig::ffi::Answer;
use fanthrig::{logged_steps, STEP_LIMIT, WORDS};
use reference::machine::CAUSES;
use std::collections::HashMap;
use std::time::Instant;
use support::cases::{accepted, Case, FAMILIES};
use support::sittings::sitting;
use support::{assert_same_buffers, cases, for_cases_by, joined, Buffers, Lent, Rng};

/// The buffers of the long run and of the run.
struct Bench {
    long: Buffers,
    plain: Buffers,
}

impl Bench {
    fn new() -> Self {
        Bench { long: Buffers::new(), plain: Buffers::new() }
    }

    /// Runs a case by both calls, and panics unless all that they answer and leave is the same.
    fn compare(&mut self, case: &Case, template: &[u16]) -> Answer {
        self.plain.set(case, template);
        let expected = self.plain.run(case.record, 0, 0, case.n);
        self.long.set(case, template);
        let answer = self.long.run_long(case.record, 0, 0, case.n);
        self.check(case, &answer, &expected);
        answer
    }

    fn check(&self, case: &Case, answer: &Answer, expected: &Answer) {
        assert!(answer == expected, "long run: {answer:x?}\nrun: {expected:x?}");
        self.long.check(case);
        assert_same_buffers(&self.long, &self.plain);
    }
}

/// What the sittings are to meet, in a sample of them.
#[derive(Debug, Default)]
struct Tally {
    sittings: u64,
    /// Those of more than 600 steps, which read a window and use it.
    long: u64,
    /// Those of them that, after 600 steps, fetch a word from where they fetched another before; and
    /// how many such steps they make.
    altered: u64,
    altered_steps: u64,
    /// Those in whose steps after 600 there are more pages than one.
    pages: u64,
    /// Steps after 600, by reason.
    reasons: [u64; CAUSES],
    stops: [u64; 3],
}

impl Tally {
    /// Counts what a sitting meets, by a logged run.
    fn count(&mut self, buffers: &mut Buffers, case: &Case, template: &[u16]) {
        let mut log = Lent::new(0);
        log.set(&vec![0; fanthrig::LOG_WORDS * case.n as usize]);
        buffers.set(case, template);
        let answer = buffers.run_logged(case.record, &mut log, case.n);
        self.sittings += 1;
        self.stops[answer.stop as usize] += 1;
        self.long += u64::from(answer.steps > 600);
        let (mut words, mut pages) = (HashMap::new(), HashMap::new());
        let mut altered = 0;
        for (i, step) in logged_steps(&log.get()[..answer.logged as usize]).enumerate() {
            let before = words.insert(step.pc, step.word);
            if i > 600 {
                altered += u64::from(before.is_some_and(|word| word != step.word));
                pages.insert(step.pc / 256, ());
                self.reasons[step.reason as usize] += 1;
            }
        }
        self.altered += u64::from(altered > 0);
        self.altered_steps += altered;
        self.pages += u64::from(pages.len() > 1);
    }
}

/// One sitting in so many is counted.
const SAMPLE: u64 = 16;

/// Sittings from which on everything that is counted is to be met, and most of it often.
const ENOUGH: u64 = 100_000;

fn compare_sittings(usual: u64) {
    let (start, mut bench, mut tally) = (Instant::now(), Bench::new(), Tally::default());
    for_cases_by(
        usual,
        |rng, _| sitting(rng),
        |rng, case, template| {
            bench.compare(case, template);
            if rng.once_in(SAMPLE) {
                tally.count(&mut bench.plain, case, template);
            }
        },
    );
    let runs = support::runs(usual);
    println!("{runs} sittings in {:.1} s: {tally:?}", start.elapsed().as_secs_f64());
    let Tally { sittings, long, altered, pages, reasons, stops, .. } = tally;
    let all = reasons.iter().chain(&stops).all(|&count| count > 0);
    let often = 2 * long > sittings && 5 * altered > long && 4 * pages > long;
    assert!(runs < ENOUGH || (all && often), "met too seldom");
}

#[test]
fn sittings_come_to_what_the_run_comes_to() {
    compare_sittings(200_000);
}

#[test]
#[ignore = "takes several minutes"]
fn soak() {
    compare_sittings(2_000_000);
}

/// Hostile records, devices and lists, of few steps and of many, and every refusal.
#[test]
fn any_call_comes_to_what_the_run_comes_to() {
    let mut bench = Bench::new();
    let (mut refused, mut long) = (0, 0);
    let make = |rng: &mut Rng, _: &[u16]| {
        let family = rng.pick(&FAMILIES);
        let mut case = cases::case(rng, family);
        case.n = case.n.saturating_mul(rng.pick(&[1, 20]));
        case
    };
    for_cases_by(100_000, make, |_, case, template| {
        let answer = bench.compare(case, template);
        refused += u64::from(answer.refusal != 0);
        long += u64::from(answer.steps > 600);
    });
    println!("{refused} calls refused, {long} of more than 600 steps");
    assert!(support::runs(100_000) < ENOUGH || (refused > 0 && long > 0), "never met");
}

#[test]
fn a_sitting_in_pieces_comes_to_the_whole() {
    let mut bench = Bench::new();
    for_cases_by(
        20_000,
        |rng, _| sitting(rng),
        |rng, case, template| {
            bench.plain.set(case, template);
            let expected = bench.plain.run(case.record, 0, 0, case.n);
            bench.long.set(case, template);
            let mut whole = bench.long.run_long(case.record, 0, 0, 0);
            while whole.steps < case.n && whole.stop == 0 {
                let n = rng.pick(&[1, 100, 255, 256, 257, 1000]).min(case.n - whole.steps);
                let (keys, shown) = (whole.keys as usize, whole.shown as usize);
                whole = joined(whole, bench.long.run_long(whole.record, keys, shown, n));
            }
            bench.check(case, &whole, &expected);
        },
    );
}

/// Memory for a case that says itself what matters in it.
static ZEROS: [u16; WORDS] = [0; WORDS];

#[test]
fn every_number_of_steps_up_to_the_limit_is_made_and_one_more_refused() {
    let mut bench = Bench::new();
    let few = 0..=1100;
    for n in few.chain([STEP_LIMIT - 1, STEP_LIMIT, STEP_LIMIT + 1, u64::MAX]) {
        // ADD R0, R0, #1 and BR to it: a loop that never stops by itself.
        let patches = vec![(0x3000, 0x1021), (0x3001, 0x0FFE)];
        let answer = bench.compare(&Case { patches, n, ..accepted() }, &ZEROS);
        let expected = if n > STEP_LIMIT { (13, 0) } else { (0, n) };
        assert_eq!((answer.refusal, answer.steps), expected);
    }
}

/// The last page holds device registers. A program comes there after each of these numbers of steps,
/// through up to five other pages: so the page has one window or another, or none.
#[test]
fn code_at_the_end_of_memory_is_run_as_it_stands_whenever_it_is_entered() {
    // Adds 1 to the fourth of these each turn: ADD R1, R1, #0 and on.
    const LOOP: [u16; 5] = [0x2002, 0x1021, 0x3000, 0x1260, 0x0FFB]; // LD, ADD, ST, ADD, BRnzp
    let mut bench = Bench::new();
    for before in 0..1200 {
        // Words 0, BR that tests nothing, and then JMP R4.
        let mut case = Case { n: u64::from(before) + 150, ..accepted() };
        case.record.regs[4] = 0xFFF0;
        case.patches = vec![(0x3000 + before, 0xC100)];
        case.patches.extend((0xFFF0..).zip(LOOP));
        let answer = bench.compare(&case, &ZEROS);
        assert_eq!((answer.steps, bench.long.memory.get()[0xFFF3]), (case.n, 0x1260 + 30));
    }
}
