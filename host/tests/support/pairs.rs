//! Two sittings beside the ready-made monitor, in memories that differ in every secret word and are
//! alike but for them. A word is secret if it is privileged, and neither the monitor's nor its
//! stack's.

use super::candidates::USER;
use super::hosts::{Call, Way};
use super::{Buffers, Lent, Rng};
use crate::reference::machine;
use fanthrig::ffi::{Answer, LoggedAnswer};
use fanthrig::{Record, MONITOR_WORDS, WORDS};
use std::ops::Range;

/// What output and log hold before a call.
const LENT_BYTE: u8 = 0xAA;
const LENT_WORD: u16 = 0xB00C;

/// The lowest word of the monitor's stack, where so many devices may interrupt: it is of six words,
/// and of two more for each.
pub fn lowest_stack_word(enabled_devices: usize) -> usize {
    0x2FFA - 2 * enabled_devices
}

/// Words that are not secret: a quarter of them 0, so that strings end, and a quarter bytes.
pub fn template(rng: &mut Rng) -> Vec<u16> {
    (0..WORDS).map(|_| rng.word() & rng.pick(&[0x0000, 0x00FF, 0xFFFF, 0xFFFF])).collect()
}

/// Random words for two memories, none equal to the other's: any words, texts, or small numbers
/// that are often 0, so that a string of them may end in one memory alone.
fn draw_secrets(rng: &mut Rng, count: usize, secrets: [&mut Vec<u16>; 2]) {
    const MASKS: [u16; 4] = [0xFFFF, 0xFFFF, 0x007F, 0x0003];
    let (mask, other_mask) = (rng.pick(&MASKS), rng.pick(&MASKS));
    let [one, other] = secrets;
    one.clear();
    other.clear();
    while one.len() < count {
        let (four, other_four) = (rng.next(), rng.next());
        for shift in [0, 16, 32, 48] {
            let word = (four >> shift) as u16 & mask;
            let other_word = (other_four >> shift) as u16 & other_mask;
            one.push(word);
            other.push(other_word ^ u16::from(word == other_word));
        }
    }
    one.truncate(count);
    other.truncate(count);
}

/// Tells of the first address, from one on, at which two ranges differ.
fn same(what: &str, from: usize, one: &[u16], other: &[u16]) -> Result<(), String> {
    if one == other {
        return Ok(());
    }
    let at = one.iter().zip(other).take_while(|(one, other)| one == other).count();
    Err(format!("{what} at x{:04X}: x{:04X}, x{:04X}", from + at, one[at], other[at]))
}

/// One of the sittings.
struct Side {
    buffers: Buffers,
    log: Lent<u16>,
    record: Record,
    /// The secret words as they were lent: those after the monitor, and those after User mode's.
    lower: Vec<u16>,
    upper: Vec<u16>,
}

impl Side {
    fn new() -> Self {
        let (buffers, log) = (Buffers::new(), Lent::new(0x6A6A));
        let record = machine::fresh(0, true, 0);
        Side { buffers, log, record, lower: Vec::new(), upper: Vec::new() }
    }

    fn words(&self, range: Range<usize>) -> &[u16] {
        &self.buffers.memory.get()[range]
    }

    /// Where the secret words after the monitor are.
    fn lower_range(&self) -> Range<usize> {
        MONITOR_WORDS..MONITOR_WORDS + self.lower.len()
    }

    /// Lends the template with the monitor and the secret words in their places.
    fn furnish(&mut self, template: &[u16]) {
        let lower = self.lower_range();
        self.buffers.memory.set(template);
        let memory = self.buffers.memory.get_array().expect("a whole memory");
        fanthrig::install_monitor(memory);
        memory[lower].copy_from_slice(&self.lower);
        memory[USER.end..].copy_from_slice(&self.upper);
    }

    fn call(&mut self, call: &Call) -> LoggedAnswer {
        self.buffers.times.set(&call.times);
        self.buffers.bytes.set(&call.bytes);
        self.buffers.output.set(&vec![LENT_BYTE; call.room]);
        self.log.set(&vec![LENT_WORD; call.log]);
        let answer = match call.way {
            Way::Run => unlogged(self.buffers.run(self.record, 0, 0, call.n)),
            Way::Long => unlogged(self.buffers.run_long(self.record, 0, 0, call.n)),
            Way::Logged => self.buffers.run_logged(self.record, &mut self.log, call.n),
        };
        self.record = answer.record;
        answer
    }

    /// Tells of a secret word that is not as it was lent, and of what no call may alter.
    fn check(&self) -> Result<(), String> {
        let Buffers { memory, output, .. } = &self.buffers;
        if !(memory.guards_intact() && output.guards_intact() && self.log.guards_intact()) {
            return Err("something outside the buffers has changed".into());
        }
        let (what, lower) = ("a secret word has changed", self.lower_range());
        same(what, lower.start, self.words(lower.clone()), &self.lower)?;
        same(what, USER.end, self.words(USER.end..WORDS), &self.upper)
    }
}

/// The answer of a call that writes no log.
fn unlogged(answer: Answer) -> LoggedAnswer {
    let Answer { record, steps, keys, shown, index, refusal, stop } = answer;
    LoggedAnswer { record, steps, keys, shown, logged: 0, index, refusal, stop }
}

/// The two sittings.
pub struct Pair {
    one: Side,
    other: Side,
    /// The lowest word of the monitor's stack, up to which words are secret.
    stack: usize,
}

impl Pair {
    pub fn new() -> Self {
        Pair { one: Side::new(), other: Side::new(), stack: 0 }
    }

    /// Lends both the words of the template and the monitor, with secret words up to the stack.
    pub fn furnish(&mut self, rng: &mut Rng, template: &[u16], stack: usize) {
        self.stack = stack;
        let (one, other) = (&mut self.one, &mut self.other);
        draw_secrets(rng, stack - MONITOR_WORDS, [&mut one.lower, &mut other.lower]);
        draw_secrets(rng, WORDS - USER.end, [&mut one.upper, &mut other.upper]);
        one.furnish(template);
        other.furnish(template);
    }

    /// Puts a word of each memory's own at an address after the monitor's.
    pub fn hide(&mut self, address: usize, words: [u16; 2]) {
        for (side, word) in [&mut self.one, &mut self.other].into_iter().zip(words) {
            side.buffers.memory.get_mut()[address] = word;
            side.lower[address - MONITOR_WORDS] = word;
        }
    }

    /// Puts a word that is not secret into both memories.
    pub fn plant(&mut self, address: usize, word: u16) {
        for side in [&mut self.one, &mut self.other] {
            side.buffers.memory.get_mut()[address] = word;
        }
    }

    /// Starts the file in both, and lets the host alter the records.
    pub fn start(&mut self, file: &[u8], user_stack: u16, host: impl Fn(Record) -> Record) {
        let started = [&mut self.one, &mut self.other].map(|side| {
            let memory = side.buffers.memory.get_array().expect("a whole memory");
            let started = fanthrig::start_user(file, memory, user_stack);
            let started = started.expect("a file of User mode's words");
            side.record = host(started.record);
            started
        });
        assert_eq!(started[0], started[1]);
    }

    /// Sets MCR's clock enable in both.
    pub fn set_going(&mut self) {
        for side in [&mut self.one, &mut self.other] {
            side.record.mcr = 0x8000;
        }
    }

    /// Makes a call in both, and tells what differs afterwards: anything but secret words.
    pub fn call(&mut self, call: &Call) -> Result<LoggedAnswer, String> {
        let (answer, other_answer) = (self.one.call(call), self.other.call(call));
        let (one, other) = (&self.one, &self.other);
        if answer != other_answer {
            return Err(format!("the answers differ: {answer:x?}, {other_answer:x?}"));
        }
        if one.buffers.output.get() != other.buffers.output.get() {
            return Err("the outputs differ".into());
        }
        same("the logs differ", 0, one.log.get(), other.log.get())?;
        for range in [0..MONITOR_WORDS, self.stack..USER.end] {
            let (words, other_words) = (one.words(range.clone()), other.words(range.clone()));
            same("the memories differ", range.start, words, other_words)?;
        }
        one.check()?;
        other.check()?;
        Ok(answer)
    }

    /// The record of both, after a call that left them alike.
    pub fn record(&self) -> &Record {
        &self.one.record
    }

    /// The log of both, after such a call.
    pub fn log(&self, answer: &LoggedAnswer) -> &[u16] {
        &self.one.log.get()[..answer.logged as usize]
    }

    /// The first memory's word at an address.
    pub fn word(&self, address: usize) -> u16 {
        self.one.words(address..WORDS)[0]
    }

    /// The first byte of each output.
    pub fn first_bytes(&self) -> [u8; 2] {
        [&self.one, &self.other].map(|side| side.buffers.output.get()[0])
    }
}
