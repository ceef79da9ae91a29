//! Logged runs: against the reference simulator's own log, and against the ordinary run, by both
//! editions.

mod reference;
mod support;

use fanthrig::ffi::{Answer, LoggedAnswer};
use fanthrig::{logged_steps, Keys, LoggedStep, Memory, Mode, Reason, Record, Stop};
use reference::machine::{self, Cause, Edition, Event, CAUSES, LOG_FULL};
use support::cases::Case;
use support::{assert_same_buffers, for_cases, Buffers, Lent};

/// What a log holds before a call.
const LENT_WORD: u16 = 0xB00C;

/// The part of a logged run's answer that a run answers too.
fn without_log(answer: &LoggedAnswer) -> Answer {
    let &LoggedAnswer { record, steps, keys, shown, index, refusal, stop, .. } = answer;
    Answer { record, steps, keys, shown, index, refusal, stop }
}

/// A machine at x3000: that of a file with nothing else in it.
fn at_x3000(memory: &mut Memory, mode: Mode) -> Record {
    fanthrig::start(&[0x30, 0x00], memory, mode, 0xFDFF).expect("accepted").record
}

/// What was met: the steps made by each rule, those of them whose fetch was denied, the stops, and
/// the refused calls.
#[derive(Debug, Default)]
struct Tally {
    reasons: [u64; CAUSES],
    denied_fetches: u64,
    stops: [u64; 4],
    refused: u64,
}

impl Tally {
    fn step(&mut self, event: &Event) {
        self.reasons[event.cause as usize] += 1;
        self.denied_fetches += u64::from(event.cause == Cause::Access && event.word.is_none());
    }

    fn answer(&mut self, answer: &LoggedAnswer) {
        match answer.refusal {
            0 => self.stops[answer.stop as usize] += 1,
            _ => self.refused += 1,
        }
    }

    /// Whether everything was met that there is: by the second edition TRAP is no entry, and there is
    /// no access exception.
    fn is_full(&self, edition: Edition) -> bool {
        let entries = [Cause::Trap, Cause::Access].map(|cause| self.reasons[cause as usize]);
        let counts = self.reasons.iter().chain(&self.stops).chain([&self.refused]);
        let missing = counts.filter(|&&count| count == 0).count();
        match edition {
            Edition::Third => {
                missing == 0 && 0 < self.denied_fetches && self.denied_fetches < entries[1]
            }
            Edition::Second => missing == 2 && entries == [0, 0],
        }
    }
}

/// The buffers of the library and of the reference, with a log for each.
struct Bench {
    ours: Buffers,
    theirs: Buffers,
    our_log: Lent<u16>,
    their_log: Vec<u16>,
}

impl Bench {
    fn new() -> Self {
        Bench {
            ours: Buffers::new(),
            theirs: Buffers::new(),
            our_log: Lent::new(0x6A6A),
            their_log: Vec::new(),
        }
    }

    /// The run of a case by the library, where no log limits it.
    fn run(&mut self, edition: Edition, case: &Case, template: &[u16], n: u64) -> Answer {
        self.theirs.set(case, template);
        match edition {
            Edition::Third => self.theirs.run(case.record, 0, 0, n),
            Edition::Second => self.theirs.run_second(case.record, n),
        }
    }

    /// Runs a case on both with logs of so many words, and panics unless all that they answer and
    /// leave is the same.
    fn compare(
        &mut self,
        edition: Edition,
        case: &Case,
        template: &[u16],
        log: usize,
        watch: impl FnMut(&Event),
    ) -> LoggedAnswer {
        self.ours.set(case, template);
        self.theirs.set(case, template);
        self.their_log = vec![LENT_WORD; log];
        self.our_log.set(&self.their_log);
        let call = self.theirs.call(case.record, case.n);
        let (expected, logged) = machine::run_logged(edition, call, &mut self.their_log, watch);
        let answer = match edition {
            Edition::Third => self.ours.run_logged(case.record, &mut self.our_log, case.n),
            Edition::Second => self.ours.run_logged_second(case.record, &mut self.our_log, case.n),
        };
        assert_eq!(without_log(&answer), expected);
        assert_eq!(answer.logged, logged);
        assert_eq!(self.our_log.get(), self.their_log, "the log differs");
        assert!(self.our_log.guards_intact(), "a word outside the log was altered");
        self.ours.check(case);
        assert_same_buffers(&self.ours, &self.theirs);
        answer
    }

    /// Panics unless the case, run without a log, ends as the logged run did but for a stop by log
    /// full.
    fn compare_with_run(
        &mut self,
        edition: Edition,
        case: &Case,
        template: &[u16],
        logged: &LoggedAnswer,
    ) {
        let full = logged.stop == LOG_FULL;
        let n = if full { logged.steps } else { case.n };
        let run = self.run(edition, case, template, n);
        let expected = Answer { stop: if full { LOG_FULL } else { run.stop }, ..run };
        assert_eq!(without_log(logged), expected);
        assert_same_buffers(&self.ours, &self.theirs);
    }
}

#[test]
fn random_logged_runs_agree_with_the_reference_and_with_the_run() {
    let mut bench = Bench::new();
    for edition in [Edition::Third, Edition::Second] {
        let mut tally = Tally::default();
        for_cases(100_000, |rng, case, template| {
            // About as many words as the case needs, or room for all.
            let needed = 3 * bench.run(edition, case, template, case.n).steps;
            let words = if rng.once_in(2) { needed + rng.below(8) } else { rng.below(needed + 4) };
            let watch = |event: &Event| tally.step(event);
            let answer = bench.compare(edition, case, template, words as usize, watch);
            bench.compare_with_run(edition, case, template, &answer);
            tally.answer(&answer);
        });
        println!("logged runs, {edition:?} edition: {tally:?}");
        assert!(tally.is_full(edition), "a reason or a stop was never met");
    }
}

/// A program that never stops by itself in its first nineteen steps. Timer and keyboard interrupt
/// before it begins; TRAP x40 and its way back, the illegal opcode, RTI in User mode and a fetch
/// below x3000 lead to routines that go on; the last routine halts.
fn every_reason() -> (Record, Box<Memory>) {
    let mut memory = fanthrig::memory();
    memory[0x0040] = 0x0200; // TRAP x40: RTI at x0200
    memory[0x0101] = 0x0210; // the illegal opcode: to x3002
    memory[0x0100] = 0x0220; // RTI in User mode: to x1000, which is privileged
    memory[0x0102] = 0x0230; // the access exception: clears the clock enable
    memory[0x0180] = 0x0240; // the keyboard: clears ready
    memory[0x0181] = 0x0250; // the timer: clears ready
    memory[0x0200] = 0x8000; // RTI
    memory[0x0210..0x0216].copy_from_slice(&[
        0x6180, // LDR R0, R6, #0   the address pushed
        0x1021, // ADD R0, R0, #1
        0x7180, // STR R0, R6, #0
        0x8000, // RTI
        0x0000, 0x0000,
    ]);
    memory[0x0220..0x0224].copy_from_slice(&[
        0x2002, // LD R0, x0223
        0x7180, // STR R0, R6, #0
        0x8000, // RTI
        0x1000, // privileged
    ]);
    memory[0x0230..0x0233].copy_from_slice(&[
        0x5020, // AND R0, R0, #0
        0xB000, // STI R0, x0232
        0xFFFE, // MCR
    ]);
    for (routine, register) in [(0x0240, 0xFE02), (0x0250, 0xFE08)] {
        memory[routine..routine + 3].copy_from_slice(&[
            0xA001, // LDI R0, #1   KBDR, or the timer's status
            0x8000, // RTI
            register,
        ]);
    }
    memory[0x3000..0x3003].copy_from_slice(&[0xF040, 0xD123, 0x8000]);
    let record = at_x3000(&mut memory, Mode::User);
    (Record { kbsr: 0xC000, timer_status: 0xC000, ..record }, memory)
}

/// The steps of [`every_reason`].
const STEPS: [(u16, u16, Reason); 19] = [
    (0x3000, 0x0000, Reason::Timer),
    (0x0250, 0xA001, Reason::Instruction),
    (0x0251, 0x8000, Reason::Instruction),
    (0x3000, 0x0000, Reason::Keyboard),
    (0x0240, 0xA001, Reason::Instruction),
    (0x0241, 0x8000, Reason::Instruction),
    (0x3000, 0xF040, Reason::Trap),
    (0x0200, 0x8000, Reason::Instruction),
    (0x3001, 0xD123, Reason::Illegal),
    (0x0210, 0x6180, Reason::Instruction),
    (0x0211, 0x1021, Reason::Instruction),
    (0x0212, 0x7180, Reason::Instruction),
    (0x0213, 0x8000, Reason::Instruction),
    (0x3002, 0x8000, Reason::Privilege),
    (0x0220, 0x2002, Reason::Instruction),
    (0x0221, 0x7180, Reason::Instruction),
    (0x0222, 0x8000, Reason::Instruction),
    (0x1000, 0x0000, Reason::Access),
    (0x0230, 0x5020, Reason::Instruction),
];

fn words_of(steps: &[(u16, u16, Reason)]) -> Vec<u16> {
    steps.iter().flat_map(|&(pc, word, reason)| [pc, word, reason.code()]).collect()
}

#[test]
fn every_log_length_is_filled_from_the_start_and_no_further() {
    let (record, words) = every_reason();
    let mut log = Lent::new(0x6A6A);
    for length in 0..3 * STEPS.len() + 6 {
        for n in 0..STEPS.len() + 1 {
            let mut memory = words.clone();
            log.set(&vec![LENT_WORD; length]);
            let (m, l) = (&mut memory, log.get_mut());
            let answer = fanthrig::run_logged(record, m, Keys::NONE, &mut [], l, n as u64).unwrap();
            let steps = n.min(length / 3).min(STEPS.len());
            let mut expected = words_of(&STEPS[..steps]);
            assert_eq!(answer.logged, expected.len());
            expected.resize(length, LENT_WORD);
            assert_eq!(log.get(), expected, "{length} words, {n} steps");
            assert!(log.guards_intact(), "a word outside the log was altered");
            let stop = if steps == n { Stop::Done } else { Stop::LogFull };
            assert_eq!((answer.run.steps, answer.run.stop), (steps as u64, stop));
        }
    }
}

#[test]
fn the_stops_come_in_their_order() {
    let mut memory = fanthrig::memory();
    memory[0x3000] = 0xB001; // STI R0, x3002
    memory[0x3002] = 0xFE06; // DDR
    let record = at_x3000(&mut memory, Mode::Supervisor);
    let halted = Record { mcr: 0, ..record };
    let mut stop = |record, output: &mut [u8], log: &mut [u16], n| {
        fanthrig::run_logged(record, &mut memory, Keys::NONE, output, log, n).unwrap().run.stop
    };
    // Done comes first, with everything else due.
    assert_eq!(stop(halted, &mut [], &mut [], 0), Stop::Done);
    assert_eq!(stop(halted, &mut [], &mut [], 1), Stop::Halted);
    assert_eq!(stop(record, &mut [], &mut [], 1), Stop::LogFull);
    assert_eq!(stop(record, &mut [], &mut [0; 2], 1), Stop::LogFull);
    assert_eq!(stop(record, &mut [], &mut [0; 3], 1), Stop::OutputFull);
    assert_eq!(stop(record, &mut [0], &mut [0; 3], 1), Stop::Done);
    let codes = [Stop::Done, Stop::Halted, Stop::OutputFull, Stop::LogFull].map(Stop::code);
    assert_eq!(codes, [0, 1, 2, 3]);
}

#[test]
fn the_word_logged_is_the_one_fetched() {
    let mut memory = fanthrig::memory();
    memory[0x0102] = 0x0400;
    memory[0x0180] = 0x0500;
    memory[0x3000..0x3003].copy_from_slice(&[
        0x3FFF, // ST R7, x3000   over itself
        0xA001, // LDI R0, x3003  a pointer that is 0
        0x0000,
    ]);
    let record = at_x3000(&mut memory, Mode::User);
    let mut logged = |record: Record, keys: Keys| {
        let mut log = [0; 3];
        fanthrig::run_logged(record, &mut memory, keys, &mut [], &mut log, 1).unwrap();
        log
    };
    // The word before the step, also where the step stores another there.
    assert_eq!(logged(record, Keys::NONE), [0x3000, 0x3FFF, 0]);
    // A data access that is denied has fetched its word; a fetch that is denied has none.
    assert_eq!(logged(Record { pc: 0x3001, ..record }, Keys::NONE), [0x3001, 0xA001, 4]);
    assert_eq!(logged(Record { pc: 0x2FFF, ..record }, Keys::NONE), [0x2FFF, 0, 4]);
    // An interrupt fetches none, whatever stands at PC.
    let key = Keys { times: &[0], bytes: b"a" };
    let listening = Record { pc: 0x3001, kbsr: 0x4000, ..record };
    assert_eq!(logged(listening, key), [0x3001, 0, 5]);
    let ticking = Record { timer_status: 0x4000, timer_interval: 9, timer_count: 1, ..listening };
    assert_eq!(logged(ticking, key), [0x3001, 0, 6]);
}

#[test]
fn the_second_edition_logs_a_trap_and_a_privileged_fetch_as_instructions() {
    let mut memory = fanthrig::memory();
    memory[0x0040] = 0x0200;
    memory[0x0200] = 0xA000; // LDI R0, x0201  a privileged pointer, in User mode
    memory[0x3000] = 0xF040; // TRAP x40
    let record = at_x3000(&mut memory, Mode::User);
    let mut log = [LENT_WORD; 7];
    let answer =
        fanthrig::run_logged_second(record, &mut memory, Keys::NONE, &mut [], &mut log, 9).unwrap();
    assert_eq!((answer.run.steps, answer.run.stop, answer.logged), (2, Stop::LogFull, 6));
    assert_eq!(log, [0x3000, 0xF040, 0, 0x0200, 0xA000, 0, LENT_WORD]);
    assert_eq!((answer.run.record.regs[7], answer.run.record.psr), (0x3001, 0x8002));
}

#[test]
fn the_log_of_two_runs_is_that_of_one() {
    let (mut whole, mut split) = (Buffers::new(), Buffers::new());
    let mut log = Lent::new(0x6A6A);
    for_cases(20_000, |rng, case, template| {
        let length = rng.below(3 * case.n.min(200) + 4) as usize;
        whole.set(case, template);
        log.set(&vec![LENT_WORD; length]);
        let expected = whole.run_logged(case.record, &mut log, case.n);
        if expected.refusal != 0 {
            return;
        }
        split.set(case, template);
        let mut parts = vec![LENT_WORD; length];
        let k = rng.below(case.n.min(200) + 1);
        let first = split.run_logged_after(case.record, 0, 0, &mut parts, k);
        let (keys, shown) = (first.keys as usize, first.shown as usize);
        let rest = &mut parts[first.logged as usize..];
        let second = split.run_logged_after(first.record, keys, shown, rest, case.n - first.steps);
        let joined = LoggedAnswer {
            steps: first.steps + second.steps,
            keys: first.keys + second.keys,
            shown: first.shown + second.shown,
            logged: first.logged + second.logged,
            ..second
        };
        assert_eq!(joined, expected);
        assert_eq!(parts, log.get());
        assert_same_buffers(&split, &whole);
    });
}

#[test]
fn the_iterator_tells_each_step_with_its_line() {
    let (record, mut memory) = every_reason();
    let mut log = vec![0; 3 * STEPS.len()];
    let n = STEPS.len() as u64;
    let answer =
        fanthrig::run_logged(record, &mut memory, Keys::NONE, &mut [], &mut log, n).unwrap();
    let steps: Vec<LoggedStep> = logged_steps(&log[..answer.logged]).collect();
    assert_eq!(steps.len(), STEPS.len());
    for (step, (pc, word, reason)) in steps.iter().zip(STEPS) {
        assert_eq!((step.pc, step.word.unwrap_or(0), step.reason), (pc, word, reason));
    }
    assert_eq!(steps[0].to_string(), "x3000  -                        timer interrupt");
    assert_eq!(steps[6].to_string(), "x3000  xF040  TRAP x40          trap");
    assert_eq!(steps[8].to_string(), "x3001  xD123  .FILL xD123       illegal opcode exception");
    assert_eq!(steps[17].to_string(), "x1000  -                        access exception");
    assert_eq!((steps[17].word, steps[17].line().as_str()), (None, ""));
    // Words that make up no whole step are left out.
    assert_eq!(logged_steps(&log[..5]).len(), 1);
    for (code, reason) in Reason::ALL.into_iter().enumerate() {
        assert_eq!(
            (usize::from(reason.code()), Reason::from_code(code as u16)),
            (code, Some(reason))
        );
    }
}

#[test]
#[should_panic(expected = "reason 99")]
fn a_number_that_is_no_reason_is_told() {
    logged_steps(&[0x3000, 0, 99]).for_each(drop);
}
