//! Laws between runs of the library: whole and split runs, single steps, and pairs of User runs.

mod reference;
mod support;

use fanthrig::ffi::Answer;
use fanthrig::{Error, Keys, Record};
use reference::machine::{self, Cause, Entry, Event, CAUSES};
use support::cases::{self, accepted, Case, Family};
use support::{assert_same_buffers, for_cases, for_cases_by, joined, Buffers, Rng};

#[test]
fn a_run_split_in_two_equals_the_whole() {
    let (mut whole, mut split) = (Buffers::new(), Buffers::new());
    // Splits between two steps, by what the display has left; and those within the timer's interval.
    let (mut busy, mut within_interval) = ([0u64; 9], 0u64);
    for_cases(40_000, |rng, case, template| {
        whole.set(case, template);
        let expected = whole.run(case.record, 0, 0, case.n);
        if expected.refusal != 0 {
            return;
        }
        split.set(case, template);
        let k = rng.below(case.n.min(200) + 1);
        let first = split.run(case.record, 0, 0, k);
        let (keys, shown) = (first.keys as usize, first.shown as usize);
        // Where all k steps were made this is n - k.
        let second = split.run(first.record, keys, shown, case.n - first.steps);
        assert_eq!(joined(first, second), expected);
        let Record { timer_interval, timer_count, .. } = first.record;
        let between = u64::from(first.steps > 0 && second.steps > 0);
        busy[usize::from(first.record.busy)] += between;
        within_interval += between * u64::from(timer_count < timer_interval);
        split.check(case);
        assert_same_buffers(&split, &whole);
    });
    println!("splits by the display's busy count: {busy:?}; within an interval: {within_interval}");
    let all = within_interval > 0 && busy.iter().all(|&splits| splits > 0);
    assert!(support::runs(40_000) < 40_000 || all, "a kind of split was never met");
}

#[test]
fn single_steps_equal_a_run() {
    let (mut whole, mut stepped) = (Buffers::new(), Buffers::new());
    for_cases(20_000, |_, case, template| {
        whole.set(case, template);
        let expected = whole.run(case.record, 0, 0, case.n);
        if expected.refusal != 0 {
            return;
        }
        stepped.set(case, template);
        let mut record = case.record;
        let (mut steps, mut keys, mut shown, mut stop) = (0, 0, 0, 0);
        while steps < case.n && stop == 0 {
            let report = stepped.step(&mut record, keys as usize, shown as usize);
            assert_eq!(report.refusal, 0);
            assert_eq!(report.steps == 1, report.stop == 0, "done is a step made");
            (steps, stop) = (steps + report.steps, report.stop);
            (keys, shown) = (keys + report.keys, shown + report.shown);
        }
        assert_eq!(Answer { record, steps, keys, shown, index: 0, refusal: 0, stop }, expected);
        stepped.check(case);
        assert_same_buffers(&stepped, &whole);
    });
}

/// The wrapper's refusal of a number and an index.
fn wrapped(refusal: u32, index: u64) -> Error {
    match refusal {
        12 => Error::Record,
        13 => Error::Steps,
        14 => Error::KeyLists,
        15 => Error::KeyTime(index as usize),
        19 => Error::KeyOrder(index as usize),
        _ => panic!("refusal {refusal}"),
    }
}

#[test]
fn the_wrapper_answers_what_the_library_answers() {
    let (mut raw, mut safe) = (Buffers::new(), Buffers::new());
    for_cases(20_000, |_, case, template| {
        raw.set(case, template);
        let expected = raw.run(case.record, 0, 0, case.n);
        safe.set(case, template);
        let keys = Keys { times: &case.times, bytes: &case.bytes };
        let output = safe.output.get_mut();
        let Some(memory) = safe.memory.get_array() else {
            return assert_eq!(expected.refusal, 11);
        };
        match fanthrig::run(case.record, memory, keys, output, case.n) {
            Err(refusal) => assert_eq!(refusal, wrapped(expected.refusal, expected.index)),
            Ok(run) => {
                assert_eq!((run.record, run.steps), (expected.record, expected.steps));
                assert_eq!((run.keys as u64, run.shown as u64), (expected.keys, expected.shown));
                assert_eq!((run.stop.code(), 0), (expected.stop, expected.refusal));
            }
        }
        assert_same_buffers(&safe, &raw);
    });
}

#[test]
fn the_wrapper_steps_as_the_library_does() {
    let (mut raw, mut safe) = (Buffers::new(), Buffers::new());
    for_cases(20_000, |_, case, template| {
        raw.set(case, template);
        let mut expected_record = case.record;
        let expected = raw.step(&mut expected_record, 0, 0);
        safe.set(case, template);
        let mut record = case.record;
        let keys = Keys { times: &case.times, bytes: &case.bytes };
        let output = safe.output.get_mut();
        let Some(memory) = safe.memory.get_array() else {
            return assert_eq!(expected.refusal, 11);
        };
        match fanthrig::step(&mut record, memory, keys, output) {
            Err(refusal) => assert_eq!(refusal, wrapped(expected.refusal, expected.index)),
            Ok(report) => {
                assert_eq!((report.steps, report.keys as u64), (expected.steps, expected.keys));
                assert_eq!(report.shown as u64, expected.shown);
                assert_eq!((report.stop.code(), 0), (expected.stop, expected.refusal));
            }
        }
        assert_eq!(record, expected_record);
        assert_same_buffers(&safe, &raw);
    });
}

/// What a User program may reach.
const USER_SPACE: std::ops::Range<usize> = 0x3000..0xFE00;

fn in_user_space(&(at, _): &(u16, u16)) -> bool {
    USER_SPACE.contains(&usize::from(at))
}

/// One run of a pair.
struct Side {
    case: Case,
    /// The words that it is lent: the template with the case's own words already in it.
    lent: Vec<u16>,
    buffers: Buffers,
}

/// How far a run goes until its first trap, exception or interrupt, by the reference simulator.
struct Meeting {
    /// The steps before it, or all steps made if there is none.
    before: u64,
    first: Option<Event>,
}

impl Meeting {
    fn cause(&self) -> Cause {
        self.first.map_or(Cause::Instruction, |event| event.cause)
    }

    fn entry(&self) -> Option<Entry> {
        self.first.and_then(|event| event.entry)
    }
}

impl Side {
    fn new() -> Self {
        Side { case: accepted(), lent: Vec::new(), buffers: Buffers::new() }
    }

    fn take(&mut self, case: Case, template: &[u16]) {
        self.buffers.set(&case, template);
        self.lent.clear();
        self.lent.extend_from_slice(self.buffers.memory.get());
        self.case = case;
    }

    /// The library's answer to `n` steps from the start.
    fn run(&mut self, n: u64) -> Answer {
        self.buffers.set(&self.case, &self.lent);
        let answer = self.buffers.run(self.case.record, 0, 0, n);
        self.buffers.check(&self.case);
        answer
    }

    /// The words that the library logs for `n` steps from the start.
    fn log(&mut self, n: u64) -> Vec<u16> {
        self.buffers.set(&self.case, &self.lent);
        let mut log = vec![0; 3 * n as usize];
        let answer = self.buffers.run_logged_after(self.case.record, 0, 0, &mut log, n);
        assert_eq!(answer.logged, 3 * n);
        log
    }

    fn meeting(&mut self) -> Meeting {
        self.buffers.set(&self.case, &self.lent);
        let mut meeting = Meeting { before: 0, first: None };
        machine::run(self.buffers.call(self.case.record, self.case.n), |event| {
            if meeting.first.is_none() && event.cause == Cause::Instruction {
                meeting.before += 1;
            } else {
                meeting.first.get_or_insert(*event);
            }
        });
        meeting
    }

    /// The words that a User program may reach, as the last run left them.
    fn user_words(&self) -> &[u16] {
        &self.buffers.memory.get()[USER_SPACE]
    }

    /// Panics unless the last run showed nothing, and left all that User mode cannot alter as it was.
    fn assert_undisturbed(&self, answer: &Answer) {
        assert_eq!(answer.shown, 0);
        assert_eq!(self.buffers.output.get(), self.case.output);
        assert_eq!(hidden(&answer.record), hidden(&self.case.record));
        let (words, lent) = (self.buffers.memory.get(), &self.lent);
        let (below, above) = (..USER_SPACE.start, USER_SPACE.end..);
        assert!(words[below] == lent[below], "a word below User memory was altered");
        assert!(words[above.clone()] == lent[above], "a word above User memory was altered");
    }

    /// PSR and PC as the library pushes them in the entry after so many steps.
    fn pushed(&mut self, before: u64, vector: u16) -> (u16, u16) {
        let record = self.run(before + 1).record;
        let word = |at: u16| self.buffers.memory.get()[usize::from(at)];
        let stack = record.regs[6];
        assert_eq!(stack, self.case.record.saved_ssp.wrapping_sub(2));
        assert_eq!(record.pc, word(vector));
        (word(stack.wrapping_add(1)), word(stack))
    }
}

/// The part of a record that a User program may see, and MCR, which may halt it.
fn visible(record: &Record) -> ([u16; 8], u16, u16, u16) {
    (record.regs, record.pc, record.psr, record.mcr)
}

/// The part of a record that a User program cannot alter: MCR, both saved stack pointers, and the
/// timer's interval.
fn hidden(record: &Record) -> (u16, u16, u16, u16) {
    (record.mcr, record.saved_ssp, record.saved_usp, record.timer_interval)
}

/// The timer's part of a record.
fn timer(record: &Record) -> (u16, u16, u16) {
    (record.timer_status, record.timer_interval, record.timer_count)
}

/// An accepted case in User mode, most often deaf to the keyboard and to the timer.
fn user_case(rng: &mut Rng) -> Case {
    const USUAL: [Family; 4] =
        [Family::Anything, Family::Borders, Family::Rewriting, Family::Computing];
    let family = rng.pick(&USUAL);
    let mut case = cases::case_in_mode(rng, family, true);
    case.record.psr |= rng.pick(&[0x0000, 0x0400, 0x0600, 0x0600]);
    case
}

/// A case with all that a User program may see in `one`, and all that is privileged different.
fn privileged_twin(rng: &mut Rng, one: &Case) -> Case {
    let family = rng.pick(&[Family::Keyboard, Family::Timer]);
    let mut other = cases::case(rng, family);
    let Record { regs, pc, psr, mcr, .. } = one.record;
    other.record = Record { regs, pc, psr, mcr, ..other.record };
    other.patches.retain(|patch| !in_user_space(patch));
    other.patches.extend(one.patches.iter().copied().filter(in_user_space));
    // The twin's clock left room for its own number of steps only.
    other.record.clock = other.record.clock.saturating_sub(one.n);
    other.n = one.n;
    other
}

/// The template for the twin: the privileged words one place further down, so that each address has
/// another random word; to draw new ones for each pair would take too long.
fn twin_template(template: &[u16]) -> Vec<u16> {
    let mut twin = template.to_vec();
    twin[..USER_SPACE.start].rotate_left(1);
    twin[USER_SPACE.end..].rotate_left(1);
    twin
}

/// Panics unless the library's two runs agree after `k` steps in all that a User program may see.
fn check_after(one: &mut Side, other: &mut Side, k: u64) {
    let (first, second) = (one.run(k), other.run(k));
    assert_eq!((first.steps, second.steps), (k, k));
    assert_eq!(visible(&first.record), visible(&second.record));
    assert!(one.user_words() == other.user_words(), "the words of User memory differ");
    one.assert_undisturbed(&first);
    other.assert_undisturbed(&second);
}

/// Panics unless the library's two runs agree up to and with the first trap or exception, or to
/// their end. The reference tells where that is in each.
fn check_pair(one: &mut Side, other: &mut Side, meeting: &Meeting, other_meeting: &Meeting) {
    let before = meeting.before;
    assert_eq!((before, meeting.cause()), (other_meeting.before, other_meeting.cause()));
    check_after(one, other, before / 2);
    check_after(one, other, before);
    let (entry, other_entry) = (meeting.entry(), other_meeting.entry());
    let logged = before + u64::from(entry.is_some());
    assert_eq!(one.log(logged), other.log(logged), "the logs differ");
    assert_eq!(entry.map(|entry| entry.vector), other_entry.map(|entry| entry.vector));
    if let Some(Entry { vector, psr, pc, .. }) = entry {
        assert_eq!(one.pushed(before, vector), (psr, pc));
        assert_eq!(other.pushed(before, vector), (psr, pc));
    } else {
        let (first, second) = (one.run(one.case.n), other.run(other.case.n));
        assert_eq!((first.steps, first.stop), (second.steps, second.stop));
    }
}

#[test]
fn user_runs_that_differ_in_what_is_privileged_agree_up_to_a_trap_or_exception() {
    let (mut one, mut other) = (Side::new(), Side::new());
    let (mut met, mut steps) = ([0u64; CAUSES], 0);
    let (mut timers_differ, mut interrupted) = (0u64, 0u64);
    let make = |rng: &mut Rng, _: &[u16]| user_case(rng);
    for_cases_by(30_000, make, |rng, case, template| {
        one.take(case.clone(), template);
        other.take(privileged_twin(rng, case), &twin_template(template));
        let (meeting, other_meeting) = (one.meeting(), other.meeting());
        let causes = [meeting.cause(), other_meeting.cause()];
        if causes.iter().any(|cause| matches!(cause, Cause::Keyboard | Cause::Timer)) {
            interrupted += 1;
        } else {
            check_pair(&mut one, &mut other, &meeting, &other_meeting);
            met[meeting.cause() as usize] += 1;
            steps += meeting.before;
            timers_differ += u64::from(timer(&one.case.record) != timer(&other.case.record));
        }
    });
    println!("{steps} steps, pairs without cause, by trap and by exception: {:?}", &met[..5]);
    println!("pairs whose timers differ: {timers_differ}; passed over, interrupted: {interrupted}");
    assert!(met[..5].iter().all(|&pairs| pairs > 0), "a cause was never met");
    assert!(timers_differ > 0 && interrupted > 0);
}
