//! Random runs of the library against the reference simulator.
//!
//! `LC3_SEED` repeats the cases of an earlier test, and `LC3_RUNS` asks for another number of them.

mod reference;
mod support;

use fanthrig::ffi::Answer;
use fanthrig::{CLOCK_LIMIT, STEP_LIMIT, WORDS};
use reference::bus::{DDR, DSR, REGISTERS, TIR, TSR};
use reference::figure::FIGURE;
use reference::machine::{self, Cause, Event, CAUSES, OUTPUT_FULL};
use std::time::Instant;
use support::cases::{accepted, Case};
use support::{assert_same_buffers, for_cases, Buffers};

/// How often each thing was met that the runs are to meet.
#[derive(Default)]
struct Tally {
    kinds: [u64; FIGURE.len()],
    /// By cause, and for entries by the mode that they came from.
    causes: [[u64; 2]; CAUSES],
    pointers: [u64; REGISTERS.len()],
    loads: [u64; REGISTERS.len()],
    stores: [u64; REGISTERS.len()],
    /// Pointers and loads from DSR, by the display's busy count.
    dsr_loads: [u64; BUSY_COUNTS],
    /// Stores to DDR, by the busy count: those at 0 show a byte.
    ddr_stores: [u64; BUSY_COUNTS],
    /// Stores to DDR while the display was busy and the output full, which is not answered then.
    busy_without_room: u64,
    interrupts_while_busy: u64,
    /// Keyboard and timer interrupts, by the priority that they met.
    keyboard_interrupts: [u64; 4],
    timer_interrupts: [u64; 6],
    /// Steps in which a device was ready and enabled and the priority, from 4 or 6 on, forbade it.
    keyboard_waits: [u64; 8],
    timer_waits: [u64; 8],
    /// Timer interrupts where the keyboard might have interrupted too.
    timer_goes_first: u64,
    /// Steps at which an interval passed, and those of them that were the interrupt.
    intervals_passed: u64,
    interrupts_at_once: u64,
    /// Loads from TSR, as pointer or data, that cleared ready; stores to TIR while the timer counted.
    ready_cleared: u64,
    intervals_replaced: u64,
    vectors_pushed_on: u64,
    stacks_wrapped: u64,
    stops: [u64; 3],
    full_with_a_key_due: u64,
    full_with_the_interval_passing: u64,
    keys: u64,
    shown: u64,
    refusals: [u64; REFUSALS.len()],
    /// By the refusal answered and a later one that applied too.
    refusals_over: [[u64; REFUSALS.len()]; REFUSALS.len()],
    /// Refusals 15 at another entry than the first; 19 always is.
    later_entries_below_clock: u64,
}

/// How often a step loaded from a device register, as pointer or data, and stored to it.
fn loads(event: &Event, register: u16) -> u64 {
    let accesses = [event.reached.pointer, event.reached.load];
    accesses.into_iter().flatten().filter(|&place| REGISTERS[place] == register).count() as u64
}

fn stores(event: &Event, register: u16) -> u64 {
    u64::from(event.reached.store.is_some_and(|place| REGISTERS[place] == register))
}

/// The busy counts of a display, 0 to 8.
const BUSY_COUNTS: usize = 9;

/// The refusals of a run in the order in which they are tested; the last two are tested together.
const REFUSALS: [u32; 6] = [11, 12, 13, 14, 15, 19];

/// The place of a refusal among them.
fn place(refusal: u32) -> usize {
    REFUSALS.iter().position(|&known| known == refusal).expect("a refusal of a run")
}

impl Tally {
    fn event(&mut self, event: &Event) {
        if let Some(kind) = event.kind {
            self.kinds[kind as usize] += 1;
        }
        let user = event.entry.is_some_and(|entry| entry.psr & 0x8000 != 0);
        self.causes[event.cause as usize][usize::from(user)] += 1;
        let count = |counts: &mut [u64; REGISTERS.len()], place: Option<usize>| {
            if let Some(place) = place {
                counts[place] += 1;
            }
        };
        count(&mut self.pointers, event.reached.pointer);
        count(&mut self.loads, event.reached.load);
        count(&mut self.stores, event.reached.store);
        self.display(event);
        self.interrupts(event);
        if let Some(entry) = event.entry {
            let above = entry.stack.wrapping_add(1);
            self.vectors_pushed_on += u64::from([entry.stack, above].contains(&entry.vector));
            self.stacks_wrapped += u64::from(entry.stack >= 0xFFFE);
        }
    }

    fn display(&mut self, event: &Event) {
        let busy = usize::from(event.found.busy);
        self.dsr_loads[busy] += loads(event, DSR);
        self.ddr_stores[busy] += stores(event, DDR);
        if busy > 0 {
            self.busy_without_room += stores(event, DDR) * u64::from(!event.found.room);
            self.interrupts_while_busy +=
                u64::from(matches!(event.cause, Cause::Keyboard | Cause::Timer));
        }
    }

    fn interrupts(&mut self, event: &Event) {
        let found = &event.found;
        let priority = usize::from(found.priority);
        let (keyboard, timer) = (found.keyboard_wants_service, found.timer.wants_service());
        match event.cause {
            Cause::Keyboard => self.keyboard_interrupts[priority] += 1,
            Cause::Timer => {
                self.timer_interrupts[priority] += 1;
                self.timer_goes_first += u64::from(keyboard && priority < 4);
                self.interrupts_at_once += u64::from(found.passed);
            }
            _ => {
                self.keyboard_waits[priority] += u64::from(keyboard);
                self.timer_waits[priority] += u64::from(timer);
            }
        }
        self.intervals_passed += u64::from(found.passed);
        self.ready_cleared += loads(event, TSR) * u64::from(found.timer.status() & 0x8000 != 0);
        self.intervals_replaced += stores(event, TIR) * u64::from(found.timer.interval() != 0);
    }

    fn answer(&mut self, case: &Case, answer: &Answer, objections: &[(u32, u64)]) {
        if let [(first, index), later @ ..] = objections {
            self.refusals[place(*first)] += 1;
            for (refusal, _) in later {
                self.refusals_over[place(*first)][place(*refusal)] += 1;
            }
            self.later_entries_below_clock += u64::from(*first == 15 && *index > 0);
            return;
        }
        self.stops[answer.stop as usize] += 1;
        self.keys += answer.keys;
        self.shown += answer.shown;
        let next_key = case.times.get(answer.keys as usize);
        self.full_with_a_key_due +=
            u64::from(answer.stop == OUTPUT_FULL && next_key == Some(&answer.record.clock));
        self.full_with_the_interval_passing +=
            u64::from(answer.stop == OUTPUT_FULL && answer.record.timer_count == 1);
    }

    fn step_lines(&self) -> Vec<(String, u64)> {
        use Cause::{Access, Illegal, Instruction, Keyboard, Privilege, Timer, Trap};
        let mut lines = Vec::new();
        for ((kind, _), count) in FIGURE.iter().zip(self.kinds) {
            lines.push((format!("{kind:?}"), count));
        }
        lines.push(("steps without entry".into(), self.causes[Instruction as usize][0]));
        for cause in [Trap, Illegal, Keyboard, Timer] {
            let count = self.causes[cause as usize][0];
            lines.push((format!("entries from Supervisor mode: {cause:?}"), count));
        }
        for cause in [Trap, Privilege, Illegal, Access, Keyboard, Timer] {
            let count = self.causes[cause as usize][1];
            lines.push((format!("entries from User mode: {cause:?}"), count));
        }
        lines.push(("entries that pushed on their vector word".into(), self.vectors_pushed_on));
        lines.push(("entries whose stack wrapped".into(), self.stacks_wrapped));
        lines
    }

    fn device_lines(&self) -> Vec<(String, u64)> {
        let mut lines = Vec::new();
        for (i, register) in REGISTERS.iter().enumerate() {
            lines.push((format!("pointers from x{register:04X}"), self.pointers[i]));
            lines.push((format!("loads from x{register:04X}"), self.loads[i]));
            lines.push((format!("stores to x{register:04X}"), self.stores[i]));
        }
        for busy in 0..BUSY_COUNTS {
            lines.push((format!("loads from DSR at busy {busy}"), self.dsr_loads[busy]));
            lines.push((format!("stores to DDR at busy {busy}"), self.ddr_stores[busy]));
        }
        lines.push(("stores to DDR while busy, output full".into(), self.busy_without_room));
        lines.push(("interrupts while busy".into(), self.interrupts_while_busy));
        lines
    }

    fn interrupt_lines(&self) -> Vec<(String, u64)> {
        let mut lines = Vec::new();
        let mut by_priority = |name: &str, first: usize, counts: &[u64]| {
            for (priority, count) in counts.iter().enumerate().skip(first) {
                lines.push((format!("{name} at priority {priority}"), *count));
            }
        };
        by_priority("keyboard interrupts", 0, &self.keyboard_interrupts);
        by_priority("timer interrupts", 0, &self.timer_interrupts);
        by_priority("keyboard waits", 4, &self.keyboard_waits);
        by_priority("timer waits", 6, &self.timer_waits);
        lines.push(("timer interrupts before the keyboard's".into(), self.timer_goes_first));
        lines.push(("intervals passed".into(), self.intervals_passed));
        lines.push(("timer interrupts as the interval passed".into(), self.interrupts_at_once));
        lines.push(("loads from TSR that cleared ready".into(), self.ready_cleared));
        lines.push(("stores to TIR of a timer that counts".into(), self.intervals_replaced));
        lines
    }

    fn answer_lines(&self) -> Vec<(String, u64)> {
        let mut lines = vec![
            ("stops: done".into(), self.stops[0]),
            ("stops: halted".into(), self.stops[1]),
            ("stops: output full".into(), self.stops[2]),
            ("stops: output full with a key due".into(), self.full_with_a_key_due),
            ("stops: output full, interval passing".into(), self.full_with_the_interval_passing),
            ("keys".into(), self.keys),
            ("bytes shown".into(), self.shown),
        ];
        for (i, first) in REFUSALS.iter().enumerate() {
            lines.push((format!("refusals {first}"), self.refusals[i]));
            // One key list offends under one of 15 and 19.
            for (j, later) in REFUSALS.iter().enumerate().skip(i + 1).filter(|_| i < 4) {
                lines
                    .push((format!("refusals {first} with {later} due"), self.refusals_over[i][j]));
            }
        }
        lines.push(("refusals 15 at a later entry".into(), self.later_entries_below_clock));
        lines
    }

    /// Prints the table, and panics if all was to be met and something was not.
    fn check(&self, all: bool) {
        let lines =
            [self.step_lines(), self.device_lines(), self.interrupt_lines(), self.answer_lines()]
                .concat();
        for (name, count) in &lines {
            println!("{count:>12} {name}");
        }
        let missed: Vec<_> = lines.iter().filter(|(_, count)| *count == 0).collect();
        assert!(!all || missed.is_empty(), "never met: {missed:?}");
    }
}

/// The buffers of the library and of the reference.
struct Bench {
    ours: Buffers,
    theirs: Buffers,
}

impl Bench {
    fn new() -> Self {
        Bench { ours: Buffers::new(), theirs: Buffers::new() }
    }

    /// Runs a case on both, and panics unless all that they answer and leave is the same.
    fn compare(&mut self, case: &Case, template: &[u16], tally: &mut Tally) -> Answer {
        self.ours.set(case, template);
        self.theirs.set(case, template);
        let call = self.theirs.call(case.record, case.n);
        let objections = call.objections();
        let expected = machine::run(call, |event| tally.event(event));
        tally.answer(case, &expected, &objections);
        let answer = self.ours.run(case.record, 0, 0, case.n);
        assert!(answer == expected, "library: {answer:x?}\nreference: {expected:x?}");
        self.ours.check(case);
        assert_same_buffers(&self.ours, &self.theirs);
        answer
    }
}

/// Runs from which on everything in the table is to be met.
const ENOUGH: u64 = 100_000;

fn compare_random_runs(usual: u64) {
    let start = Instant::now();
    let (mut bench, mut tally) = (Bench::new(), Tally::default());
    for_cases(usual, |_, case, template| {
        bench.compare(case, template, &mut tally);
    });
    let runs = support::runs(usual);
    println!("{runs} runs in {:.1} s", start.elapsed().as_secs_f64());
    tally.check(runs >= ENOUGH);
}

#[test]
fn random_runs_agree_with_the_reference() {
    compare_random_runs(400_000);
}

#[test]
#[ignore = "takes several minutes"]
fn soak() {
    compare_random_runs(20_000_000);
}

#[test]
#[should_panic(expected = "0 runs")]
fn a_count_of_0_runs_is_no_test() {
    support::at_least_one(0);
}

/// Memory for a case that says itself what matters in it, with the one word more of a template.
static ZEROS: [u16; WORDS + 1] = [0; WORDS + 1];

/// Panics unless the accepted case, changed so, gets the refusal from both; 0 is none.
fn expect(bench: &mut Bench, refusal: u32, change: impl FnOnce(&mut Case)) {
    let mut case = accepted();
    change(&mut case);
    let answer = bench.compare(&case, &ZEROS, &mut Tally::default());
    assert_eq!(answer.refusal, refusal, "{case:x?}");
}

#[test]
fn memory_of_any_other_length_is_refused() {
    let mut bench = Bench::new();
    for words in [0, 1, WORDS / 2, WORDS - 1, WORDS + 1] {
        expect(&mut bench, 11, |case| case.memory_len = words);
    }
    expect(&mut bench, 0, |_| ());
}

#[test]
fn each_undefined_bit_is_refused_and_each_defined_one_accepted() {
    let mut bench = Bench::new();
    for bit in (0..16).map(|number| 1u16 << number) {
        let code = |defined: u16| if bit & defined != 0 { 0 } else { 12 };
        expect(&mut bench, code(0x8707), |case| case.record.psr |= bit);
        expect(&mut bench, code(0xC000), |case| case.record.kbsr |= bit);
        expect(&mut bench, code(0x00FF), |case| case.record.kbdr |= bit);
        expect(&mut bench, code(0x8000), |case| case.record.mcr |= bit);
        expect(&mut bench, code(0xC000), |case| case.record.timer_status |= bit);
    }
}

#[test]
fn a_busy_count_above_8_is_refused() {
    let mut bench = Bench::new();
    for busy in 0..=u16::MAX {
        expect(&mut bench, if busy > 8 { 12 } else { 0 }, |case| case.record.busy = busy);
    }
}

#[test]
fn a_timer_count_is_within_its_interval() {
    const VALUES: [u16; 9] = [0, 1, 2, 3, 1000, 0x7FFF, 0x8000, 0xFFFE, 0xFFFF];
    let mut bench = Bench::new();
    for (interval, count) in VALUES.iter().flat_map(|&i| VALUES.map(|count| (i, count))) {
        let refused = count > interval || (count == 0 && interval != 0);
        expect(&mut bench, if refused { 12 } else { 0 }, |case| {
            (case.record.timer_interval, case.record.timer_count) = (interval, count);
        });
    }
}

#[test]
fn the_clock_ends_at_two_to_the_48() {
    let mut bench = Bench::new();
    let mut at = |refusal, clock, n| {
        expect(&mut bench, refusal, |case| (case.record.clock, case.n) = (clock, n));
    };
    at(0, CLOCK_LIMIT, 0);
    at(13, CLOCK_LIMIT, 1);
    at(13, CLOCK_LIMIT, u64::MAX);
    at(0, CLOCK_LIMIT - 1, 1);
    at(13, CLOCK_LIMIT - 1, 2);
    at(12, CLOCK_LIMIT + 1, 0);
    at(12, CLOCK_LIMIT + 1, u64::MAX);
    at(12, u64::MAX, 0);
    at(12, u64::MAX, 1);
}

#[test]
fn the_longest_run_is_made_and_one_step_more_is_refused() {
    let mut bench = Bench::new();
    let mut run = |refusal, n| {
        expect(&mut bench, refusal, |case| {
            // ADD R0, R0, #1 and BR to it: a loop that never stops by itself.
            case.patches = vec![(0x3000, 0x1021), (0x3001, 0x0FFE)];
            case.n = n;
        });
    };
    run(0, STEP_LIMIT);
    run(13, STEP_LIMIT + 1);
    run(13, u64::MAX);
}

#[test]
fn keys_must_come_in_order_and_not_before_the_clock() {
    let mut bench = Bench::new();
    let mut keys = |refusal, times: &[u64], bytes: &[u8]| {
        expect(&mut bench, refusal, |case| {
            case.record.clock = 100;
            (case.times, case.bytes) = (times.to_vec(), bytes.to_vec());
        });
    };
    keys(0, &[100], b"a");
    keys(0, &[100, 100, 101, 101, u64::MAX, u64::MAX], b"abcdef");
    keys(15, &[99], b"a");
    keys(19, &[100, 102, 101], b"abc");
    keys(15, &[100, u64::MAX, 0], b"abc");
    keys(14, &[100], b"");
    keys(14, &[], b"a");
    keys(14, &[100, 101], b"a");
    keys(14, &[99], b"ab");
    keys(14, &[100, 102, 101], b"ab");
}

/// What brings about each of [`REFUSALS`] by itself.
const SPOILERS: [fn(&mut Case); REFUSALS.len()] = [
    |case| case.memory_len = WORDS - 1,
    |case| case.record.kbsr |= 1,
    |case| case.n = STEP_LIMIT + 1,
    |case| case.bytes.push(0),
    |case| (case.record.clock, case.times, case.bytes) = (1, vec![0], vec![0]),
    |case| (case.times, case.bytes) = (vec![5, 4], vec![0, 0]),
];

#[test]
fn of_several_refusals_the_first_is_answered() {
    let mut bench = Bench::new();
    for set in 0..1u32 << SPOILERS.len() {
        let applies = |i: usize| set >> i & 1 == 1;
        let first = (0..SPOILERS.len()).find(|&i| applies(i));
        expect(&mut bench, first.map_or(0, |i| REFUSALS[i]), |case| {
            // From the last: the lists are filled before they are made unequal.
            for (_, spoil) in SPOILERS.iter().enumerate().rev().filter(|(i, _)| applies(*i)) {
                spoil(case);
            }
        });
    }
}
