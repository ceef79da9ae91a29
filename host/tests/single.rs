//! The single step, whose code stands beside the runs' loops: random and hostile calls, by both
//! editions, against the run of one step and against the reference simulator.

mod reference;
mod support;

use fanthrig::ffi::{Answer, Report};
use fanthrig::WORDS;
use reference::machine::{self, Cause, Edition, Event, CAUSES};
use support::cases::{accepted, Case};
use support::{assert_same_buffers, for_cases, Buffers};

/// Calls from which on everything that is counted is to be met.
const ENOUGH: u64 = 50_000;

/// The highest clock that a record may have.
const LAST_CLOCK: u64 = 1 << 48;

/// What the calls met: steps by cause, stops, refusals by number.
#[derive(Debug, Default)]
struct Tally {
    causes: [u64; CAUSES],
    stops: [u64; 3],
    refusals: [u64; 20],
}

impl Tally {
    /// Whether everything was met that there is: by the second edition TRAP is no entry, and there is
    /// no access exception.
    fn is_full(&self, edition: Edition) -> bool {
        let absent = [Cause::Trap as usize, Cause::Access as usize];
        let there = |cause: &usize| edition == Edition::Third || !absent.contains(cause);
        (0..CAUSES).filter(there).all(|cause| self.causes[cause] > 0)
            && self.stops.iter().all(|&count| count > 0)
            && [11, 12, 13, 14, 15, 19].iter().all(|&number: &usize| self.refusals[number] > 0)
    }
}

/// The buffers of the single step, of the run and of the reference.
struct Bench {
    stepped: Buffers,
    run: Buffers,
    theirs: Buffers,
    tally: Tally,
}

impl Bench {
    fn new() -> Self {
        Bench {
            stepped: Buffers::new(),
            run: Buffers::new(),
            theirs: Buffers::new(),
            tally: Tally::default(),
        }
    }

    /// The single step, in the form of a run's answer.
    fn step(&mut self, edition: Edition, case: &Case) -> Answer {
        let mut record = case.record;
        let Report { steps, keys, shown, index, refusal, stop } = match edition {
            Edition::Third => self.stepped.step(&mut record, 0, 0),
            Edition::Second => self.stepped.step_second(&mut record),
        };
        Answer { record, steps, keys, shown, index, refusal, stop }
    }

    /// Panics unless the single step, the run of one step and the reference answer and leave the
    /// same.
    fn compare(&mut self, edition: Edition, case: &Case, template: &[u16]) -> Answer {
        self.stepped.set(case, template);
        let answer = self.step(edition, case);
        self.stepped.check(case);

        self.run.set(case, template);
        let by_run = match edition {
            Edition::Third => self.run.run(case.record, 0, 0, 1),
            Edition::Second => self.run.run_second(case.record, 1),
        };
        assert!(answer == by_run, "step: {answer:x?}\nrun: {by_run:x?}");
        assert_same_buffers(&self.stepped, &self.run);

        self.theirs.set(case, template);
        let call = self.theirs.call(case.record, 1);
        let causes = &mut self.tally.causes;
        let watch = |event: &Event| causes[event.cause as usize] += 1;
        let expected = machine::run_by(edition, call, watch, |_| ());
        assert!(answer == expected, "step: {answer:x?}\nreference: {expected:x?}");
        assert_same_buffers(&self.stepped, &self.theirs);

        self.tally.stops[answer.stop as usize] += 1;
        self.tally.refusals[answer.refusal as usize] += 1;
        answer
    }
}

#[test]
fn random_and_hostile_steps_agree_with_the_run_of_one_and_with_the_reference() {
    let mut bench = Bench::new();
    for edition in [Edition::Third, Edition::Second] {
        for_cases(100_000, |_, case, template| {
            bench.compare(edition, case, template);
        });
        println!("single steps, {edition:?} edition: {:?}", bench.tally);
        let tally = std::mem::take(&mut bench.tally);
        assert!(support::runs(100_000) < ENOUGH || tally.is_full(edition), "never met");
    }
}

#[test]
fn each_refusal_has_its_border_at_one_step() {
    let mut bench = Bench::new();
    let template = vec![0; WORDS];
    let mut refusal = |change: &dyn Fn(&mut Case)| {
        let mut case = accepted();
        change(&mut case);
        let both = [Edition::Third, Edition::Second]
            .map(|edition| bench.compare(edition, &case, &template[..]));
        assert_eq!(both[0].refusal, both[1].refusal);
        (both[0].refusal, both[0].index)
    };
    let keys = |case: &mut Case, times: &[u64]| {
        (case.times, case.bytes) = (times.to_vec(), vec![0x61; times.len()]);
    };
    assert_eq!(refusal(&|_| ()), (0, 0));
    assert_eq!(refusal(&|case| case.memory_len = WORDS - 1), (11, 0));
    assert_eq!(refusal(&|case| case.memory_len = 0), (11, 0));
    assert_eq!(refusal(&|case| case.record.psr |= 0x0008), (12, 0));
    assert_eq!(refusal(&|case| case.record.kbsr = 0x0001), (12, 0));
    assert_eq!(refusal(&|case| case.record.kbdr = 0x0100), (12, 0));
    assert_eq!(refusal(&|case| case.record.mcr = 0x8001), (12, 0));
    assert_eq!(refusal(&|case| case.record.busy = 8), (0, 0));
    assert_eq!(refusal(&|case| case.record.busy = 9), (12, 0));
    assert_eq!(refusal(&|case| case.record.timer_status = 0x0001), (12, 0));
    assert_eq!(refusal(&|case| case.record.timer_count = 1), (12, 0));
    assert_eq!(refusal(&|case| case.record.timer_interval = 1), (12, 0));
    assert_eq!(refusal(&|case| case.record.clock = LAST_CLOCK - 1), (0, 0));
    assert_eq!(refusal(&|case| case.record.clock = LAST_CLOCK), (13, 0));
    assert_eq!(refusal(&|case| case.record.clock = LAST_CLOCK + 1), (12, 0));
    assert_eq!(refusal(&|case| case.record.clock = u64::MAX), (12, 0));
    assert_eq!(refusal(&|case| case.bytes = vec![0x61]), (14, 0));
    assert_eq!(refusal(&|case| keys(case, &[case.record.clock, u64::MAX])), (0, 0));
    assert_eq!(refusal(&|case| (case.record.clock = 7, keys(case, &[7, 8, 6])).1), (15, 2));
    assert_eq!(refusal(&|case| keys(case, &[5, 4])), (19, 1));
}
