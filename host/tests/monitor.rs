//! The ready-made monitor: every routine from both modes, held against what Table A.3 and the
//! request say of it, on the library and on the reference simulator.

mod reference;
mod support;

use fanthrig::{Keys, Memory, Mode, Record, Routines, Stop};
use fanthrig::{MONITOR_WORDS, VECTOR_WORDS, WORDS};
use reference::machine::{self, Call};
use std::ops::{Range, RangeInclusive};
use support::{Lent, Rng};

const GETC: u8 = 0x20;
const OUT: u8 = 0x21;
const PUTS: u8 = 0x22;
const IN: u8 = 0x23;
const PUTSP: u8 = 0x24;
const HALT: u8 = 0x25;

const PROMPT: &[u8] = b"Input a character> ";
const MESSAGE: &[u8] = b"Halted\n";

/// The words of stack that the routines may alter.
const STACK: RangeInclusive<usize> = 0x2FF8..=0x2FFF;

/// The addresses that User mode may read.
const OPEN: Range<usize> = 0x3000..0xFE00;

const MODES: [Mode; 2] = [Mode::User, Mode::Supervisor];

// ---- a call of a routine

/// A program that calls a routine in its first step.
struct Caller {
    record: Record,
    memory: Box<Memory>,
    times: Vec<u64>,
    bytes: Vec<u8>,
}

/// What came of the call: the caller goes on, or the machine has stopped.
struct Called {
    record: Record,
    memory: Box<Memory>,
    shown: Vec<u8>,
    steps: u64,
    /// The steps made when the last byte had been shown.
    last_shown: Option<u64>,
    stop: Stop,
}

impl Caller {
    /// A word at a place where the mode may have it, with random registers, codes and priority, and
    /// random words everywhere else. The supervisor stack begins at x3000.
    fn at_word(rng: &mut Rng, mode: Mode, word: u16) -> Caller {
        let pc = match mode {
            Mode::User => rng.between(0x3000, 0xFDFE),
            Mode::Supervisor => rng.between(0x0400, 0x23FF),
        } as u16;
        let mut memory = fanthrig::memory();
        memory.fill_with(|| rng.word());
        fanthrig::install_monitor(&mut memory);
        let file = [pc.to_be_bytes(), word.to_be_bytes()].concat();
        let mut record =
            fanthrig::start(&file, &mut memory, mode, rng.word()).expect("accepted").record;
        for number in [0, 1, 2, 3, 4, 5, 7] {
            record.regs[number] = rng.word();
        }
        record.psr = record.psr & 0x8000 | rng.word() & 0x0707;
        record.clock = rng.below(1 << 20);
        record.kbdr = rng.word() & 0x00FF;
        record.busy = rng.below(9) as u16;
        // From priority 4 on the keyboard may be enabled, from 6 on the timer: they do not interrupt.
        if record.psr & 0x0400 != 0 {
            record.kbsr = rng.pick(&[0x0000, 0x4000]);
        }
        record.timer_status = rng.pick(&[0x0000, 0x8000]);
        if record.psr & 0x0600 == 0x0600 {
            record.timer_status |= rng.pick(&[0x0000, 0x4000]);
        }
        if rng.once_in(2) {
            record.timer_interval = 1 + rng.below(300) as u16;
            record.timer_count = 1 + rng.below(record.timer_interval.into()) as u16;
        }
        Caller { record, memory, times: Vec::new(), bytes: Vec::new() }
    }

    fn of_trap(rng: &mut Rng, mode: Mode, vector: u8) -> Caller {
        Caller::at_word(rng, mode, 0xF000 | u16::from(vector))
    }

    /// A key, so many steps after the first.
    fn press(&mut self, after: u64, byte: u8) {
        self.times.push(self.record.clock + after);
        self.bytes.push(byte);
    }

    fn keys(&self) -> Keys<'_> {
        Keys { times: &self.times, bytes: &self.bytes }
    }

    fn next(&self) -> u16 {
        self.record.pc.wrapping_add(1)
    }

    /// Stores a string and lets R0 point to it. False, with nothing stored, if it would overwrite
    /// the program or go beyond the end of memory.
    fn string(&mut self, at: usize, words: &[u16]) -> bool {
        let place = at..at + words.len();
        if place.contains(&usize::from(self.record.pc)) || place.end > WORDS {
            return false;
        }
        self.memory[place].copy_from_slice(words);
        self.record.regs[0] = at as u16;
        true
    }

    /// Makes the call in single steps, until the caller goes on or the machine stops.
    fn call(&self, room: usize) -> Called {
        let (mut record, mut memory) = (self.record, self.memory.clone());
        let mut output = vec![0xAA; room];
        let (mut steps, mut keys, mut shown, mut stop) = (0, 0, 0, Stop::Done);
        let mut last_shown = None;
        while stop == Stop::Done && (steps == 0 || record.pc != self.next()) {
            let (left, free) = (self.keys().after(keys), &mut output[shown..]);
            let report = fanthrig::step(&mut record, &mut memory, left, free).expect("accepted");
            steps += report.steps;
            keys += report.keys;
            shown += report.shown;
            stop = report.stop;
            if report.shown > 0 {
                last_shown = Some(steps);
            }
            assert!(steps < fanthrig::STEP_LIMIT, "the call does not end");
        }
        output.truncate(shown);
        let called = Called { record, memory, shown: output, steps, last_shown, stop };
        self.compare(room, &called);
        called
    }

    /// The same steps in one run of the library, and on the reference simulator.
    fn compare(&self, room: usize, called: &Called) {
        let n = called.steps + u64::from(called.stop != Stop::Done);
        let (mut ours, mut theirs) = (self.memory.clone(), self.memory.clone());
        let (mut our_output, mut their_output) = (vec![0; room], vec![0; room]);
        let run = fanthrig::run(self.record, &mut ours, self.keys(), &mut our_output, n);
        let answer = machine::run(
            Call {
                record: self.record,
                memory: &mut theirs[..],
                times: &self.times,
                bytes: &self.bytes,
                output: &mut their_output,
                n,
            },
            |_| {},
        );
        let run = run.expect("accepted");
        assert_eq!((run.record, run.steps, run.stop), (called.record, called.steps, called.stop));
        assert_eq!((answer.record, answer.steps), (called.record, called.steps));
        assert!(ours == called.memory && theirs == called.memory, "memory");
        assert_eq!(our_output[..run.shown], called.shown);
        assert_eq!(their_output[..answer.shown as usize], called.shown);
    }

    /// KBSR and KBDR after the steps of a call that does not read the keyboard.
    fn keyboard_after(&self, steps: u64) -> (u16, u16) {
        let arrived = self.times.iter().filter(|&&time| time < self.record.clock + steps).count();
        match arrived.checked_sub(1) {
            None => (self.record.kbsr, self.record.kbdr),
            Some(last) => (self.record.kbsr | 0x8000, self.bytes[last].into()),
        }
    }
}

fn assert_only_the_stack_changed(before: &Memory, after: &Memory) {
    for (at, (old, new)) in before.iter().zip(after).enumerate() {
        assert!(old == new || STACK.contains(&at), "x{at:04X} was changed");
    }
}

impl Called {
    /// The caller's record with the clock and what goes on by itself: display and timer.
    fn later(&self, caller: &Caller) -> Record {
        let before = caller.record;
        let (count, since) = match self.last_shown {
            Some(steps) => (8, self.steps - steps),
            None => (u64::from(before.busy), self.steps),
        };
        let busy = count.saturating_sub(since) as u16;
        let mut later = Record { busy, clock: before.clock + self.steps, ..before };
        let (interval, left) = (u64::from(before.timer_interval), u64::from(before.timer_count));
        if interval > 0 && self.steps < left {
            later.timer_count = (left - self.steps) as u16;
        } else if interval > 0 {
            later.timer_count = (interval - (self.steps - left) % interval) as u16;
            later.timer_status |= 0x8000;
        }
        later
    }

    /// The caller goes on at Next, with R0 and the keyboard as given and all else as before.
    fn assert_back(&self, caller: &Caller, r0: u16, (kbsr, kbdr): (u16, u16), shown: &[u8]) {
        let before = caller.record;
        let mut wanted = Record { pc: caller.next(), kbsr, kbdr, ..self.later(caller) };
        wanted.regs[0] = r0;
        if before.mode() == Mode::User {
            wanted.saved_usp = before.regs[6];
        }
        assert_eq!(self.stop, Stop::Done);
        assert_eq!(self.record, wanted);
        assert_eq!(self.shown, shown);
        assert_only_the_stack_changed(&caller.memory, &self.memory);
    }

    /// The machine has halted, with R0 to R5 and R7, and what the keyboard holds, as before.
    fn assert_halted(&self, caller: &Caller, shown: &[u8]) {
        let before = caller.record;
        let mut wanted = self.later(caller);
        wanted.regs[6] = 0x2FFE;
        wanted.mcr = 0;
        (wanted.pc, wanted.psr) = (self.record.pc, before.psr & 0x0700 | self.record.psr & 0x0007);
        if before.mode() == Mode::User {
            wanted.saved_usp = before.regs[6];
        }
        assert_eq!(self.stop, Stop::Halted);
        assert_eq!(self.record, wanted);
        assert_eq!(self.shown, shown);
        assert_only_the_stack_changed(&caller.memory, &self.memory);
        self.assert_halts_again();
    }

    /// A host that sets MCR's clock enable finds the machine halted again, and nothing shown.
    fn assert_halts_again(&self) {
        let mut memory = self.memory.clone();
        let record = Record { mcr: 0x8000, ..self.record };
        let run =
            fanthrig::run(record, &mut memory, Keys::NONE, &mut [0; 8], 50).expect("accepted");
        assert_eq!((run.stop, run.shown, run.record.regs), (Stop::Halted, 0, self.record.regs));
        assert!(memory == self.memory, "memory");
    }
}

// ---- the words

/// The rule of the vector words.
fn vector_word(routines: &Routines, at: usize) -> u16 {
    match at {
        0x20 => routines.getc,
        0x21 => routines.out,
        0x22 => routines.puts,
        0x23 => routines.input,
        0x24 => routines.putsp,
        0x25 => routines.halt,
        0x00..=0xFF => routines.trap,
        0x100 | 0x101 | 0x102 => routines.exception,
        _ => routines.interrupt,
    }
}

fn random_routines(rng: &mut Rng) -> Routines {
    let [getc, out, puts, input, putsp, halt, trap, exception, interrupt] =
        [(); 9].map(|()| rng.word());
    Routines { getc, out, puts, input, putsp, halt, trap, exception, interrupt }
}

#[test]
fn the_generator_follows_the_rule() {
    let mut rng = Rng::of_case(40, 0);
    for _ in 0..100 {
        let routines = random_routines(&mut rng);
        let words = fanthrig::vectors(routines);
        for (at, word) in words.into_iter().enumerate() {
            assert_eq!(word, vector_word(&routines, at), "x{at:04X}");
        }
    }
}

#[test]
fn vectors_are_written_to_the_start_or_not_at_all() {
    let mut rng = Rng::of_case(41, 0);
    for length in [0, 1, 511, 512, 513, 1000, WORDS] {
        let routines = random_routines(&mut rng);
        let mut wanted: Vec<u16> = (0..length).map(|_| rng.word()).collect();
        let mut lent = Lent::new(0x6A6A);
        lent.set(&wanted);
        let words = lent.get_mut();
        // SAFETY: pointer and length are of one slice.
        let refusal =
            unsafe { fanthrig::ffi::lc3_vectors(routines, words.as_mut_ptr(), words.len()) };
        assert_eq!(refusal, if length < VECTOR_WORDS { 16 } else { 0 });
        if length >= VECTOR_WORDS {
            wanted[..VECTOR_WORDS].copy_from_slice(&fanthrig::vectors(routines));
        }
        assert!(lent.get() == wanted && lent.guards_intact(), "{length} words");
    }
}

#[test]
fn the_monitor_is_its_vector_words_and_routines() {
    let mut rng = Rng::of_case(42, 0);
    let before: Vec<u16> = (0..WORDS).map(|_| rng.word()).collect();
    let mut lent = Lent::new(0x6A6A);
    lent.set(&before);
    fanthrig::install_monitor(lent.get_array().expect("a whole memory"));
    assert!(lent.guards_intact());
    assert_eq!(lent.get()[..VECTOR_WORDS], fanthrig::vectors(Routines::of_monitor()));
    assert_eq!(lent.get()[MONITOR_WORDS..], before[MONITOR_WORDS..]);
    assert!(MONITOR_WORDS <= *STACK.start());
}

#[test]
fn other_sizes_of_memory_are_refused() {
    for length in [0, 1, VECTOR_WORDS, MONITOR_WORDS, WORDS - 1, WORDS + 1, 2 * WORDS] {
        let mut lent = Lent::new(0x6A6A);
        lent.set(&vec![0x1234; length]);
        let words = lent.get_mut();
        // SAFETY: pointer and length are of one slice.
        let refusal = unsafe { fanthrig::ffi::lc3_monitor(words.as_mut_ptr(), words.len()) };
        assert_eq!(refusal, fanthrig::ffi::LC3_REFUSED_MEMORY);
        assert!(lent.get().iter().all(|&word| word == 0x1234) && lent.guards_intact());
    }
}

// ---- GETC, OUT, IN

#[test]
fn out_shows_the_low_byte_of_r0() {
    for mode in MODES {
        for number in 0..512 {
            let mut rng = Rng::of_case(43, number);
            let mut caller = Caller::of_trap(&mut rng, mode, OUT);
            let r0 = rng.word() & 0xFF00 | number as u16 & 0x00FF;
            caller.record.regs[0] = r0;
            for key in 0..rng.below(4) {
                caller.press(3 * key, rng.word() as u8);
            }
            let called = caller.call(1);
            let keyboard = caller.keyboard_after(called.steps);
            called.assert_back(&caller, r0, keyboard, &[number as u8]);
            assert!(called.steps <= 32);
        }
    }
}

#[test]
fn out_waits_for_a_free_byte() {
    for mode in MODES {
        let caller = Caller::of_trap(&mut Rng::of_case(44, 0), mode, OUT);
        let mut full = caller.call(0);
        assert_eq!((full.stop, full.shown.len()), (Stop::OutputFull, 0));
        let mut output = [0];
        let run =
            fanthrig::run(full.record, &mut full.memory, Keys::NONE, &mut output, 32 - full.steps);
        assert_eq!(run.map(|run| run.shown), Ok(1));
        assert_eq!(u16::from(output[0]), caller.record.regs[0] & 0x00FF);
    }
}

/// A key that is there before the call, arrives with its first step, or comes late.
fn strike(rng: &mut Rng, caller: &mut Caller, byte: u8) {
    match rng.below(3) {
        0 => (caller.record.kbsr, caller.record.kbdr) = (caller.record.kbsr | 0x8000, byte.into()),
        1 => caller.press(0, byte),
        _ => caller.press(rng.below(400), byte),
    }
}

#[test]
fn getc_and_in_take_the_key() {
    for (mode, vector) in MODES.iter().flat_map(|&mode| [(mode, GETC), (mode, IN)]) {
        for number in 0..1024 {
            let mut rng = Rng::of_case(45, number);
            let mut caller = Caller::of_trap(&mut rng, mode, vector);
            let byte = number as u8;
            strike(&mut rng, &mut caller, byte);
            let called = caller.call(64);
            let shown = if vector == IN { [PROMPT, &[byte]].concat() } else { Vec::new() };
            let taken = (caller.record.kbsr & 0x4000, byte.into());
            called.assert_back(&caller, byte.into(), taken, &shown);
        }
    }
}

// ---- PUTS, PUTSP

/// What PUTS or PUTSP shows of these words.
fn text(vector: u8, words: &[u16]) -> Vec<u8> {
    if vector == PUTS {
        return words.iter().map(|word| *word as u8).collect();
    }
    words.iter().flat_map(|word| word.to_le_bytes()).filter(|byte| *byte != 0).collect()
}

/// A string of so many words, none of them x0000, and the word x0000 after it.
fn random_string(rng: &mut Rng, length: usize) -> Vec<u16> {
    let mut words = Vec::with_capacity(length + 1);
    while words.len() < length {
        let word = rng.word() & rng.pick(&[0xFFFF, 0x00FF, 0xFF00, 0x7F7F]);
        if word != 0 {
            words.push(word);
        }
    }
    words.push(0);
    words
}

/// The string at an address is shown whole, and the caller goes on.
fn assert_shown(mut caller: Caller, vector: u8, at: usize, words: &[u16]) {
    if caller.string(at, words) {
        let called = caller.call(WORDS);
        let (text, keyboard) = (text(vector, words), caller.keyboard_after(called.steps));
        // PUTS shows no byte for the word at the end.
        let text = &text[..text.len() - usize::from(vector == PUTS)];
        called.assert_back(&caller, at as u16, keyboard, text);
    }
}

/// Strings of all lengths below 300 and some long ones, anywhere and up to the last open word.
#[test]
fn strings_are_shown() {
    for (mode, vector) in MODES.iter().flat_map(|&mode| [(mode, PUTS), (mode, PUTSP)]) {
        for number in 0..310 {
            let mut rng = Rng::of_case(46, number);
            let length = if number < 300 { number } else { 1000 + rng.below(6000) } as usize;
            let words = random_string(&mut rng, length);
            let last = OPEN.end - words.len();
            let anywhere = OPEN.start + rng.below((last - OPEN.start) as u64) as usize;
            for at in [anywhere, last, OPEN.start] {
                let mut caller = Caller::of_trap(&mut rng, mode, vector);
                caller.press(rng.below(100), rng.word() as u8);
                assert_shown(caller, vector, at, &words);
            }
        }
    }
}

/// Supervisor mode reads privileged words too, also across the end of memory.
#[test]
fn supervisor_mode_shows_any_words() {
    for vector in [PUTS, PUTSP] {
        for number in 0..100 {
            let mut rng = Rng::of_case(47, number);
            let words = random_string(&mut rng, number as usize);
            for at in [0x2400, 0xFE0B, 0xFFFC - words.len() - rng.below(200) as usize] {
                let caller = Caller::of_trap(&mut rng, Mode::Supervisor, vector);
                assert_shown(caller, vector, at, &words);
            }
            let mut caller = Caller::of_trap(&mut rng, Mode::Supervisor, vector);
            (caller.memory[0xFFFF], caller.record.regs[0]) = (0x4241, 0xFFFF);
            let end = caller.memory.iter().position(|&word| word == 0).expect("the prompt's end");
            let shown = [&[0x4241], &caller.memory[..end]].concat();
            let called = caller.call(WORDS);
            called.assert_back(&caller, 0xFFFF, caller.keyboard_after(0), &text(vector, &shown));
        }
    }
}

/// A string that begins at KBDR is the key, whose ready bit the load clears.
#[test]
fn supervisor_mode_reads_device_registers() {
    for vector in [PUTS, PUTSP] {
        let mut caller = Caller::of_trap(&mut Rng::of_case(48, 0), Mode::Supervisor, vector);
        (caller.memory[0xFE03], caller.record.regs[0]) = (0, 0xFE02);
        (caller.record.kbsr, caller.record.kbdr) = (0x8000, 0x006B);
        caller.call(WORDS).assert_back(&caller, 0xFE02, (0, 0x006B), b"k");
    }
}

/// Privileged addresses at the edges, and in between.
fn privileged(rng: &mut Rng, number: usize) -> u16 {
    const EDGES: [u16; 8] = [0x0000, 0x2FFE, 0x2FFF, 0xFE00, 0xFE01, 0xFE02, 0xFFFE, 0xFFFF];
    let between = [rng.between(0x0000, 0x2FFF) as u16, rng.between(0xFE00, 0xFFFF) as u16];
    *EDGES.iter().chain(&between).nth(number % 10).expect("ten addresses")
}

/// For User mode no privileged word is read: a string that begins with one halts the machine.
#[test]
fn user_mode_shows_no_privileged_word() {
    for vector in [PUTS, PUTSP] {
        for number in 0..200 {
            let mut rng = Rng::of_case(49, number);
            let mut caller = Caller::of_trap(&mut rng, Mode::User, vector);
            caller.record.kbsr |= 0x8000;
            caller.record.regs[0] = privileged(&mut rng, number as usize);
            caller.call(WORDS).assert_halted(&caller, &[]);
        }
    }
}

/// And so does a string of words that User mode may read, up to xFDFF, and that goes on at xFE00.
#[test]
fn user_mode_shows_a_string_up_to_a_privileged_word() {
    for vector in [PUTS, PUTSP] {
        for number in 0..200 {
            let mut rng = Rng::of_case(53, number);
            let mut words = random_string(&mut rng, 1 + number as usize % 60);
            words.pop();
            let mut caller = Caller::of_trap(&mut rng, Mode::User, vector);
            caller.record.kbsr |= 0x8000;
            if caller.string(OPEN.end - words.len(), &words) {
                caller.call(WORDS).assert_halted(&caller, &text(vector, &words));
            }
        }
    }
}

// ---- what halts, and what returns

#[test]
fn halt_and_every_other_trap_halt() {
    for mode in MODES {
        for vector in (0..=0xFF).filter(|vector| !(GETC..HALT).contains(vector)) {
            let mut rng = Rng::of_case(50, vector.into());
            let caller = Caller::of_trap(&mut rng, mode, vector);
            let shown = if vector == HALT { MESSAGE } else { &[] };
            caller.call(WORDS).assert_halted(&caller, shown);
            // Also where the supervisor stack is elsewhere, at an address with bit 15 set.
            let mut caller = Caller::of_trap(&mut rng, mode, vector);
            match mode {
                Mode::User => caller.record.saved_ssp = 0xC000,
                Mode::Supervisor => caller.record.regs[6] = 0xC000,
            }
            let called = caller.call(WORDS);
            assert_eq!((called.stop, &called.shown[..]), (Stop::Halted, shown));
        }
    }
}

/// RTI and a privileged load in User mode, and the reserved opcode in both modes.
#[test]
fn exceptions_halt_and_show_nothing() {
    let user = [0x8000, 0x6040, 0xD123].map(|word| (Mode::User, word));
    for (mode, word) in user.into_iter().chain([(Mode::Supervisor, 0xD456)]) {
        for number in 0..50 {
            let mut rng = Rng::of_case(51, number);
            let mut caller = Caller::at_word(&mut rng, mode, word);
            caller.record.regs[1] = rng.pick(&[0x0000, 0x2FFF, 0xFE00, 0xFFFF]);
            let called = caller.call(WORDS);
            called.assert_halted(&caller, &[]);
            let pushed = &called.memory[0x2FFE..0x3000];
            assert_eq!(pushed, [caller.record.pc, caller.record.psr]);
        }
    }
}

#[test]
fn an_interrupt_returns_at_once() {
    for (kbsr, timer_status) in [(0xC000, 0x0000), (0x0000, 0xC000), (0xC000, 0xC000)] {
        let mut caller = Caller::at_word(&mut Rng::of_case(52, 0), Mode::User, 0x0000);
        let before = caller.record;
        let (timer_interval, timer_count, busy) = (0, 0, 0);
        caller.record =
            Record { psr: 0x8002, kbsr, timer_status, timer_interval, timer_count, busy, ..before };
        let mut memory = caller.memory.clone();
        let run =
            fanthrig::run(caller.record, &mut memory, Keys::NONE, &mut [], 2).expect("accepted");
        let (saved_usp, clock) = (caller.record.regs[6], caller.record.clock + 2);
        assert_eq!(run.record, Record { saved_usp, clock, ..caller.record });
        assert_only_the_stack_changed(&caller.memory, &memory);
    }
}
