//! The second edition: random runs against the reference simulator, runs without what the editions
//! treat differently against the third edition's, the single step, and the five rules one by one.

mod reference;
mod support;

use fanthrig::ffi::{Answer, Report};
use fanthrig::{Keys, Memory, Mode, Record};
use reference::machine::{self, Difference, Edition, DIFFERENCES};
use support::cases::Case;
use support::{assert_same_buffers, for_cases, Buffers};

/// Runs from which on everything that is counted is to be met.
const ENOUGH: u64 = 100_000;

#[derive(Debug, Default)]
struct Tally {
    /// Runs that met each difference, and runs that met none: all, those of steps made, those
    /// stopped for a full output, and refused ones.
    met: [u64; DIFFERENCES],
    common: u64,
    common_with_steps: u64,
    common_stopped: u64,
    refused: u64,
    single_steps: u64,
}

/// The buffers of the library and of the reference.
struct Bench {
    ours: Buffers,
    theirs: Buffers,
}

impl Bench {
    /// Runs a case on both, and panics unless all that they answer and leave is the same; then
    /// likewise by the third edition and by the single step, where they are to do the same.
    fn compare(&mut self, case: &Case, template: &[u16], tally: &mut Tally) {
        self.theirs.set(case, template);
        let mut met = [false; DIFFERENCES];
        let meet = |difference: Difference| met[difference as usize] = true;
        let call = self.theirs.call(case.record, case.n);
        let expected = machine::run_by(Edition::Second, call, |_| (), meet);

        self.ours.set(case, template);
        let answer = self.ours.run_second(case.record, case.n);
        assert!(answer == expected, "library: {answer:x?}\nreference: {expected:x?}");
        self.ours.check(case);
        assert_same_buffers(&self.ours, &self.theirs);

        for (count, met) in tally.met.iter_mut().zip(met) {
            *count += u64::from(met);
        }
        if !met.contains(&true) {
            tally.common += 1;
            tally.common_with_steps += u64::from(answer.steps > 1);
            tally.common_stopped += u64::from(answer.stop == machine::OUTPUT_FULL);
            tally.refused += u64::from(answer.refusal != 0);
            self.compare_third(case, template, &answer);
        }
        if case.n == 1 {
            tally.single_steps += 1;
            self.compare_step(case, template, &answer);
        }
    }

    /// Panics unless the third edition answers and leaves the same.
    fn compare_third(&mut self, case: &Case, template: &[u16], answer: &Answer) {
        self.ours.set(case, template);
        let newer = self.ours.run(case.record, 0, 0, case.n);
        assert!(*answer == newer, "second: {answer:x?}\nthird: {newer:x?}");
        assert_same_buffers(&self.ours, &self.theirs);
    }

    /// Panics unless the single step answers and leaves the same as the run of one step.
    fn compare_step(&mut self, case: &Case, template: &[u16], answer: &Answer) {
        let &Answer { record: expected, steps, keys, shown, index, refusal, stop } = answer;
        self.ours.set(case, template);
        let mut record = case.record;
        let report = self.ours.step_second(&mut record);
        assert_eq!(record, expected);
        assert_eq!(report, Report { steps, keys, shown, index, refusal, stop });
        self.ours.check(case);
        assert_same_buffers(&self.ours, &self.theirs);
    }
}

#[test]
fn random_runs_agree_with_the_reference_and_common_ones_with_the_third_edition() {
    let mut tally = Tally::default();
    let mut bench = Bench { ours: Buffers::new(), theirs: Buffers::new() };
    for_cases(200_000, |_, case, template| bench.compare(case, template, &mut tally));
    let runs = support::runs(200_000);
    println!("{runs} runs by the second edition: {tally:?}");
    let Tally { met, common, common_with_steps, common_stopped, refused, single_steps } = tally;
    let counts = [common, common_with_steps, common_stopped, refused, single_steps];
    assert!(runs < ENOUGH || !met.iter().chain(&counts).any(|count| *count == 0), "never met");
}

/// One step of a word at x3000 in a mode, with R1 and R7 and one word more, by both editions.
fn both(
    mode: Mode,
    word: u16,
    r1: u16,
    r7: u16,
    at: u16,
    holds: u16,
) -> [(Record, Box<Memory>); 2] {
    let mut record =
        fanthrig::start(&[0x30, 0x00], &mut fanthrig::memory(), mode, 0xFDFF).unwrap().record;
    (record.regs[1], record.regs[7]) = (r1, r7);
    let memory = || {
        let mut memory = fanthrig::memory();
        memory[0x3000] = word;
        memory[usize::from(at)] = holds;
        memory
    };
    let (mut second, mut third) = (memory(), memory());
    let by_second = fanthrig::run_second(record, &mut second, Keys::NONE, &mut [0], 1).unwrap();
    let by_third = fanthrig::run(record, &mut third, Keys::NONE, &mut [0], 1).unwrap();
    [(by_second.record, second), (by_third.record, third)]
}

#[test]
fn lea_sets_the_codes() {
    let [(second, _), (third, _)] = both(Mode::User, 0xE1FF, 0, 0, 0, 0);
    assert_eq!((second.regs[0], second.psr, third.psr), (0x3000, 0x8001, 0x8002));
}

#[test]
fn trap_links_and_neither_pushes_nor_changes_the_mode() {
    let [(second, memory), (third, _)] = both(Mode::User, 0xF025, 0, 0x1234, 0x0025, 0x0400);
    assert_eq!((second.pc, second.regs[7], second.psr), (0x0400, 0x3001, 0x8002));
    assert_eq!((second.regs[6], memory[0x2FFE], memory[0x2FFF]), (0xFDFF, 0, 0));
    assert_eq!((third.regs[7], third.psr), (0x1234, 0x0002));
}

#[test]
fn user_mode_reaches_privileged_addresses() {
    // LDR R0, R1, #0
    let [(second, _), (third, _)] = both(Mode::User, 0x6040, 0x0100, 0, 0x0100, 0x9ABC);
    assert_eq!((second.regs[0], second.pc), (0x9ABC, 0x3001));
    assert_eq!((third.regs[0], third.pc), (0, 0));
}

#[test]
fn xfffc_is_a_plain_word() {
    // LDR R0, R1, #0
    let [(second, _), (third, _)] = both(Mode::Supervisor, 0x6040, 0xFFFC, 0, 0xFFFC, 0x9ABC);
    assert_eq!((second.regs[0], third.regs[0]), (0x9ABC, 0x0002));
}

#[test]
fn jsrr_r7_goes_on_at_the_next_instruction() {
    let [(second, _), (third, _)] = both(Mode::User, 0x41C0, 0, 0x4000, 0, 0);
    assert_eq!((second.pc, second.regs[7]), (0x3001, 0x3001));
    assert_eq!((third.pc, third.regs[7]), (0x4000, 0x3001));
}
