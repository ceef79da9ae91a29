//! A run of the reference simulator as a line of text, for tests in other languages: tests/stored.rs describes it.

use super::cases::Case;
use super::Buffers;
use crate::reference::machine::{self, Edition, Event};
use fanthrig::ffi::Answer;
use fanthrig::{Record, WORDS};
use std::fmt::LowerHex;

/// The words that memory has before those of a case are planted in it.
pub fn template() -> Vec<u16> {
    let place = |address: usize| (address as u16).wrapping_mul(0x9E37).wrapping_add(0x79B9);
    (0..=WORDS).map(place).collect()
}

/// The items of a list, each written by `write`.
fn list<T>(items: impl IntoIterator<Item = T>, write: impl Fn(T) -> String) -> String {
    items.into_iter().map(write).collect::<Vec<_>>().join(",")
}

fn word(word: u16) -> String {
    format!("{word:04x}")
}

fn planted((address, word): (u16, u16)) -> String {
    format!("{address:04x}:{word:04x}")
}

fn hex<T: LowerHex>(bytes: &[T]) -> String {
    bytes.iter().map(|byte| format!("{byte:02x}")).collect()
}

fn fields(record: &Record) -> String {
    let Record { pc, psr, saved_ssp, saved_usp, kbsr, kbdr, mcr, busy, .. } = *record;
    let timer = [record.timer_status, record.timer_interval, record.timer_count];
    let plain = [pc, psr, saved_ssp, saved_usp, kbsr, kbdr, mcr, busy];
    let words = record.regs.into_iter().chain(plain).chain(timer);
    format!("{},{}", list(words, word), record.clock)
}

fn answered(answer: &Answer) -> String {
    let Answer { steps, keys, shown, index, refusal, stop, .. } = answer;
    format!("{refusal},{index},{steps},{keys},{shown},{stop}")
}

/// The line of a run by an edition; that of a long one has no log.
pub fn line(case: &Case, template: &[u16], edition: Edition, logged: bool) -> String {
    let mut buffers = Buffers::new();
    buffers.set(case, template);
    let before = buffers.memory.get().to_vec();
    let mut log = Vec::new();
    let tell = |event: &Event| {
        if logged {
            log.extend([event.pc, event.word.unwrap_or(0), event.cause as u16]);
        }
    };
    let answer = machine::run_by(edition, buffers.call(case.record, case.n), tell, |_| ());
    let pairs = before.iter().zip(buffers.memory.get()).enumerate();
    let changed =
        pairs.filter(|(_, (old, new))| old != new).map(|(at, (_, new))| (at as u16, *new));
    let parts = [
        ("edition", if edition == Edition::Second { "2" } else { "3" }.into()),
        ("record", fields(&case.record)),
        ("length", case.memory_len.to_string()),
        ("words", list(case.patches.iter().copied(), planted)),
        ("times", list(&case.times, u64::to_string)),
        ("bytes", hex(&case.bytes)),
        ("output", hex(&case.output)),
        ("n", case.n.to_string()),
        ("answer", answered(&answer)),
        ("after", fields(&answer.record)),
        ("changed", list(changed, planted)),
        ("left", hex(buffers.output.get())),
        ("log", if logged { list(log, word) } else { "-".into() }),
    ];
    list_parts(&parts)
}

fn list_parts(parts: &[(&str, String)]) -> String {
    parts.iter().map(|(name, value)| format!("{name}={value}")).collect::<Vec<_>>().join(" ")
}
