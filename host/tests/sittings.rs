//! Pairs of whole sittings beside the ready-made monitor, started by `start_user` in memories that
//! differ in every secret word: whatever the candidate's program does and however the host goes on,
//! the two stay alike after every call, and no secret word changes.
//!
//! `LC3_SEED` repeats the pairs of an earlier test, and `LC3_RUNS` asks for another number of them.

mod reference;
mod support;

use fanthrig::ffi::LoggedAnswer;
use fanthrig::{logged_steps, LoggedStep, Reason, Record};
use reference::machine;
use std::ops::Range;
use support::candidates::{candidate, Candidate};
use support::hosts::{Call, Host, INTERRUPT};
use support::pairs::{lowest_stack_word, template, Pair};
use support::Rng;

/// Pairs from which on everything that is counted is to be met often.
const ENOUGH: u64 = 100_000;

/// Pairs that share one template: to make one takes longer than a sitting.
const PAIRS_PER_TEMPLATE: u64 = 1024;

/// Random sittings beside the monitor, with this word of it altered, if any. Tells what differs.
fn sit(
    rng: &mut Rng,
    pair: &mut Pair,
    template: &[u16],
    hole: Option<(usize, u16)>,
    tally: &mut Tally,
) -> Result<(), String> {
    let host = Host::random(rng);
    let stack = lowest_stack_word(host.enabled_devices());
    pair.furnish(rng, template, stack);
    if let Some((address, word)) = hole {
        pair.plant(address, word);
    }
    sit_once(rng, pair, host, tally)?;
    // The same memories may serve another candidate.
    if rng.once_in(8) {
        sit_once(rng, pair, host, tally)?;
    }
    let written = pair.word(stack) != template[stack];
    tally.full_stacks[host.enabled_devices()] += u64::from(written);
    Ok(())
}

/// A random program's sitting in both memories, in up to eight calls. Tells what differs.
fn sit_once(rng: &mut Rng, pair: &mut Pair, host: Host, tally: &mut Tally) -> Result<(), String> {
    let candidate = candidate(rng);
    pair.start(&candidate.file(), rng.word(), |started| host.alter(started));
    for _ in 0..=rng.below(8) {
        let was_halted = pair.record().is_halted();
        if rng.once_in(2) {
            pair.set_going();
        }
        let call = Call::random(rng, pair.record().clock);
        let answer = pair.call(&call)?;
        tally.count_call(&answer, was_halted);
        tally.count_log(&candidate, pair.log(&answer));
    }
    Ok(())
}

// ---- what is met

/// The monitor's routines, the steps by which PUTS and PUTSP show a byte, and those where they are
/// refused a word: see docs/monitor.lst.
const ROUTINES: Range<usize> = 0x0200..0x0280;
const SHOWN_OF_STRINGS: [u16; 3] = [0x021C, 0x0251, 0x025F];
const REFUSED_STRINGS: [u16; 2] = [0x0224, 0x0268];

#[derive(Default)]
struct Tally {
    steps: u64,
    keys: u64,
    shown: u64,
    /// Calls by stop, refused calls, calls that left the machine halted, and those that found it
    /// halted and went on.
    stops: [u64; 4],
    refused: u64,
    halts: u64,
    restarts: u64,
    /// Sittings that wrote the lowest word of the stack, by the number of devices enabled.
    full_stacks: [u64; 3],
    /// Of logged calls, as all that follows: steps by reason, and traps by vector.
    reasons: [u64; Reason::ALL.len()],
    traps: Vec<u64>,
    /// Fetches that were denied; the other access exceptions are of loads and stores.
    denied_fetches: u64,
    /// Strings refused by PUTS and by PUTSP, and those of them of which a part was shown.
    refused_strings: [u64; 2],
    refused_in_part: u64,
    /// Steps that fetch another word than the file has there.
    altered_words: u64,
    /// Instructions obeyed, and interrupts taken, at each word of the routines.
    obeyed: Vec<u64>,
    interrupted: Vec<u64>,
}

impl Tally {
    fn new() -> Self {
        let words = vec![0; ROUTINES.len()];
        let (obeyed, interrupted) = (words.clone(), words);
        Tally { traps: vec![0; 256], obeyed, interrupted, ..Tally::default() }
    }

    fn count_call(&mut self, answer: &LoggedAnswer, was_halted: bool) {
        if answer.refusal != 0 {
            self.refused += 1;
            return;
        }
        self.steps += answer.steps;
        self.keys += answer.keys;
        self.shown += answer.shown;
        self.stops[answer.stop as usize] += 1;
        self.halts += u64::from(answer.record.is_halted() && answer.steps > 0);
        self.restarts += u64::from(was_halted && answer.steps > 0);
    }

    fn count_log(&mut self, candidate: &Candidate, log: &[u16]) {
        let mut shown = false;
        for step in logged_steps(log) {
            self.count_step(&step);
            shown &= step.reason != Reason::Trap;
            shown |= SHOWN_OF_STRINGS.contains(&step.pc);
            if let Some(routine) = REFUSED_STRINGS.iter().position(|at| *at == step.pc) {
                self.refused_strings[routine] += 1;
                self.refused_in_part += u64::from(shown);
            }
            if let (Some(word), Some(own)) = (step.word, candidate.word_at(step.pc)) {
                self.altered_words += u64::from(word != own);
            }
        }
    }

    fn count_step(&mut self, step: &LoggedStep) {
        self.reasons[usize::from(step.reason.code())] += 1;
        let at = usize::from(step.pc);
        let routine = ROUTINES.contains(&at).then(|| at - ROUTINES.start);
        match (step.reason, routine) {
            (Reason::Trap, _) => self.traps[usize::from(step.word.unwrap_or(0) & 0x00FF)] += 1,
            (Reason::Access, _) => self.denied_fetches += u64::from(step.word.is_none()),
            (Reason::Instruction, Some(word)) => self.obeyed[word] += 1,
            (Reason::Keyboard | Reason::Timer, Some(word)) => self.interrupted[word] += 1,
            _ => {}
        }
    }

    /// Each kind of call, and of what calls lead to, with the number of times that it was met.
    fn calls(&self) -> Vec<(&str, u64)> {
        vec![
            ("steps", self.steps),
            ("keys arrived", self.keys),
            ("bytes shown", self.shown),
            ("calls that made all steps", self.stops[0]),
            ("calls stopped by a halted machine", self.stops[1]),
            ("by a full output", self.stops[2]),
            ("by a full log", self.stops[3]),
            ("calls refused", self.refused),
            ("calls that halted the machine", self.halts),
            ("calls that set it going again", self.restarts),
            ("sittings that wrote x2FFA, without a device enabled", self.full_stacks[0]),
            ("x2FF8, with one", self.full_stacks[1]),
            ("x2FF6, with two", self.full_stacks[2]),
        ]
    }

    /// The same of the steps of logged calls.
    fn logged(&self) -> Vec<(&str, u64)> {
        let [_, traps, privilege, illegal, access, keyboard, timer] = self.reasons;
        let service = |vector: usize| self.traps[vector];
        vec![
            ("GETC", service(0x20)),
            ("OUT", service(0x21)),
            ("PUTS", service(0x22)),
            ("IN", service(0x23)),
            ("PUTSP", service(0x24)),
            ("HALT", service(0x25)),
            ("other traps", traps - self.traps[0x20..=0x25].iter().sum::<u64>()),
            ("privilege exceptions", privilege),
            ("illegal opcode exceptions", illegal),
            ("access exceptions of fetches", self.denied_fetches),
            ("of loads and stores", access - self.denied_fetches),
            ("keyboard interrupts", keyboard),
            ("timer interrupts", timer),
            ("interrupts of a routine", self.interrupted.iter().sum()),
            ("strings refused by PUTS", self.refused_strings[0]),
            ("by PUTSP", self.refused_strings[1]),
            ("after a part was shown", self.refused_in_part),
            ("steps at altered words of the program", self.altered_words),
            ("at each word of the routines, at least", least(&self.obeyed)),
        ]
    }

    /// Prints what was met; panics, after enough pairs, if a kind was met seldom or a trap never.
    fn report(&self, pairs: u64) {
        let enough = pairs >= ENOUGH;
        for (of, kinds) in [("all calls", self.calls()), ("logged calls", self.logged())] {
            println!("{pairs} pairs, of {of}:");
            for (kind, times) in kinds {
                println!("  {kind}: {times}");
                assert!(!enough || times >= 100, "seldom met: {kind}");
            }
        }
        let each_trap = least(&self.traps);
        println!("  each vector of a trap, at least: {each_trap}");
        assert!(!enough || each_trap > 0, "a trap was never met");
    }
}

fn least(counts: &[u64]) -> u64 {
    counts.iter().copied().min().unwrap_or(0)
}

// ---- random sittings

#[test]
fn sittings_that_differ_in_secret_words_alone_stay_alike() {
    let (seed, pairs) = (support::seed(), support::runs(ENOUGH));
    let (mut pair, mut tally, mut words) = (Pair::new(), Tally::new(), Vec::new());
    for number in 0..pairs {
        if number % PAIRS_PER_TEMPLATE == 0 {
            words = template(&mut Rng::of_case(!seed, number));
        }
        sit(&mut Rng::of_case(seed, number), &mut pair, &words, None, &mut tally)
            .unwrap_or_else(|difference| panic!("LC3_SEED={seed}, pair {number}: {difference}"));
    }
    tally.report(pairs);
}

/// Holes in the monitor, each of one altered word: a program learns or changes a secret word, or
/// secret words are obeyed.
const HOLES: [(usize, u16, &str); 11] = [
    (0x0211, 0x0E06, "PUTS does not look at the caller's PSR"),
    (0x0243, 0x0E06, "PUTSP does not look at the caller's PSR"),
    (0x021E, 0x0FF9, "PUTS looks at the first address only"),
    (0x0261, 0x0FE8, "PUTSP looks at the first address only"),
    (0x0285, 0x01FE, "xFE01 is taken for a word of User mode's"),
    (0x0286, 0xCE07, "x2FF9 is taken for a word of User mode's"),
    (0x0209, 0x63BC, "OUT restores R1 from x2FF9"),
    (0x020F, 0x75BE, "PUTS keeps R2 at x2FF9"),
    (0x0241, 0x77BF, "PUTSP keeps R3 at x2FF9"),
    (0x0102, 0x1000, "an access exception leads to x1000"),
    (0x0181, 0x1000, "the timer's interrupt leads to x1000"),
];

#[test]
fn random_sittings_notice_a_hole_in_the_monitor() {
    let (mut pair, words) = (Pair::new(), template(&mut Rng::of_case(60, 0)));
    for (address, word, hole) in HOLES {
        let noticed = (0..5_000).any(|number| {
            let mut rng = Rng::of_case(61, number);
            sit(&mut rng, &mut pair, &words, Some((address, word)), &mut Tally::new()).is_err()
        });
        assert!(noticed, "{hole}");
    }
}

// ---- single sittings

/// A program at x3000.
fn at_x3000(words: &[u16]) -> Candidate {
    Candidate { origin: 0x3000, words: words.to_vec() }
}

/// LD R0, #1; TRAP x22: asks PUTS for x0400, where the answers are.
const ASKING: [u16; 3] = [0x2001, 0xF022, 0x0400];

#[test]
fn puts_tells_an_answer_only_if_one_of_its_words_is_altered() {
    let mut rng = Rng::of_case(62, 0);
    let (mut pair, words) = (Pair::new(), template(&mut rng));
    // BRnzp for BRzp: the string is read whatever the caller's mode is.
    for altered in [None, Some(0x0E06)] {
        pair.furnish(&mut rng, &words, lowest_stack_word(0));
        pair.hide(0x0400, [0x0041, 0x0042]);
        altered.into_iter().for_each(|word| pair.plant(0x0211, word));
        pair.start(&at_x3000(&ASKING).file(), 0xFDFF, |started| started);
        let told = pair.call(&Call::logged(13, vec![]));
        match altered {
            None => assert_eq!(told.map(|answer| answer.shown), Ok(0)),
            Some(_) => assert!(told.is_err() && pair.first_bytes() == *b"AB"),
        }
    }
}

/// PUTSP is interrupted by the keyboard, and the lone RTI to which that leads by the timer.
#[test]
fn where_both_devices_are_enabled_the_stack_is_of_ten_words() {
    let mut rng = Rng::of_case(63, 0);
    let (mut pair, words) = (Pair::new(), template(&mut rng));
    let enabled = |started| Record {
        kbsr: INTERRUPT,
        timer_status: INTERRUPT,
        timer_interval: 4,
        timer_count: 4,
        ..started
    };
    for devices in 0..=2 {
        pair.furnish(&mut rng, &words, lowest_stack_word(devices));
        pair.start(&at_x3000(&[0xF024]).file(), 0xFDFF, enabled);
        let told = pair.call(&Call::logged(4, vec![2]));
        assert_eq!(told.is_ok(), devices == 2, "{told:?}");
        assert_eq!([0x2FF6, 0x2FF7].map(|address| pair.word(address)), [0x027F, 0x0401]);
    }
}

/// Programs that call each routine: with R0 at a text of the program's, and PUTS and PUTSP with R0
/// at a secret word too.
fn callers() -> Vec<Candidate> {
    // LEA R0, #2; TRAP; HALT; two words and the end of the text.
    let shown = (0xF020..=0xF026).map(|trap| at_x3000(&[0xE002, trap, 0xF025, 0x6261, 0x0063, 0]));
    // LD R0, #2; TRAP; HALT; x0400.
    let refused = [0xF022, 0xF024].map(|trap| at_x3000(&[0x2002, trap, 0xF025, 0x0400]));
    shown.chain(refused).collect()
}

/// A host that lets the keyboard interrupt, and the timer with the step of this number, from 1.
fn interrupting(keyboard: bool, timer: Option<u16>) -> Host {
    let timer_count = timer.unwrap_or(0);
    Host::Devices(Record {
        kbsr: if keyboard { INTERRUPT } else { 0 },
        timer_status: if timer.is_some() { INTERRUPT } else { 0 },
        timer_interval: timer_count,
        timer_count,
        ..machine::fresh(0, true, 0)
    })
}

/// In step k, whichever it is, the timer interrupts; or the keyboard does; or the keyboard does,
/// and in the next step the timer.
#[test]
fn an_interrupt_in_any_step_of_any_routine_tells_nothing() {
    let mut rng = Rng::of_case(64, 0);
    let (mut pair, mut tally, words) = (Pair::new(), Tally::new(), template(&mut rng));
    for (candidate, k) in callers().iter().flat_map(|caller| (1..=400).map(move |k| (caller, k))) {
        let (timer, keyboard) = (interrupting(false, Some(k)), interrupting(true, None));
        let both = interrupting(true, Some(k + 1));
        let key = u64::from(k) - 1;
        for (host, key) in [(timer, 0), (keyboard, key), (both, key)] {
            pair.furnish(&mut rng, &words, lowest_stack_word(host.enabled_devices()));
            pair.start(&candidate.file(), 0xFDFF, |started| host.alter(started));
            for call in [Call::logged(key + 8, vec![key]), Call::logged(u64::from(k), vec![])] {
                let answer = pair.call(&call).unwrap_or_else(|told| panic!("step {k}: {told}"));
                tally.count_log(candidate, pair.log(&answer));
                pair.set_going();
            }
        }
    }
    let mut counts = ROUTINES.zip(&tally.interrupted);
    let missed = counts.find(|(_, interrupts)| **interrupts == 0);
    assert_eq!(missed, None, "a word of the routines at which no interrupt was taken");
}
