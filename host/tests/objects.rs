//! Object files, held against a reader and a writer of this file, and the records that they are
//! started with, held against the reference simulator's. A candidate's file is held against the
//! same reader and the rule of the addresses that it may have.

mod reference;
mod support;

use fanthrig::ffi::{self, Counted, Started};
use fanthrig::{Keys, Memory, Mode, Record, Stop, STEP_LIMIT, WORDS};
use reference::machine;
use std::collections::BTreeMap;
use std::fs;
use std::path::Path;
use support::Rng;

/// What surrounds every lent buffer, and what an output holds before the call.
const GUARD: usize = 32;
const BYTE: u8 = 0xA5;
const WORD: u16 = 0xA5A5;

/// The record that a refusal answers.
const NO_RECORD: Record = Record {
    regs: [0; 8],
    pc: 0,
    psr: 0,
    saved_ssp: 0,
    saved_usp: 0,
    kbsr: 0,
    kbdr: 0,
    mcr: 0,
    busy: 0,
    timer_status: 0,
    timer_interval: 0,
    timer_count: 0,
    clock: 0,
};

/// Reads a file by the rules of the format: the refusal, or the origin and the words.
fn read(file: &[u8], memory_len: usize) -> Result<(u16, Vec<u16>), u32> {
    if memory_len != 1 << 16 {
        return Err(11);
    }
    let words: Vec<u16> =
        file.chunks_exact(2).map(|pair| u16::from_be_bytes([pair[0], pair[1]])).collect();
    match words.split_first() {
        Some((&origin, rest)) if file.len() % 2 == 0 => {
            if usize::from(origin) + rest.len() > 1 << 16 {
                return Err(18);
            }
            Ok((origin, rest.to_vec()))
        }
        _ => Err(17),
    }
}

/// The same of a candidate's file, whose origin and words have the addresses of User mode alone.
fn read_user(file: &[u8], memory_len: usize) -> Result<(u16, Vec<u16>), u32> {
    let (origin, words) = read(file, memory_len)?;
    let first = usize::from(origin);
    let mut addresses = [first].into_iter().chain(first..first + words.len());
    if addresses.any(|address| !(0x3000..=0xFDFF).contains(&address)) {
        return Err(21);
    }
    Ok((origin, words))
}

/// Writes a file by the same rules.
fn write(memory: &[u16], origin: u16, words: usize, room: usize) -> Result<Vec<u8>, u32> {
    if memory.len() != 1 << 16 {
        return Err(11);
    }
    let Some(range) =
        usize::from(origin).checked_add(words).and_then(|end| memory.get(origin.into()..end))
    else {
        return Err(18);
    };
    let mut file = origin.to_be_bytes().to_vec();
    file.extend(range.iter().flat_map(|word| word.to_be_bytes()));
    if room < file.len() {
        return Err(16);
    }
    Ok(file)
}

/// By which call a file is started.
#[derive(Clone, Copy, Debug, PartialEq, Eq)]
enum By {
    Start(Mode),
    StartUser,
}

/// What a start is to answer, and the words with their address that it is to load.
fn expected_start(by: By, file: &[u8], words: usize, stack: u16) -> (Started, u16, Vec<u16>) {
    let (read, user) = match by {
        By::Start(mode) => (read(file, words), mode == Mode::User),
        By::StartUser => (read_user(file, words), true),
    };
    match read {
        Ok((origin, words)) => {
            let record = machine::fresh(origin, user, stack);
            (Started { record, words: words.len() as u32, refusal: 0 }, origin, words)
        }
        Err(refusal) => (Started { record: NO_RECORD, words: 0, refusal }, 0, Vec::new()),
    }
}

/// Lends copies of the file and of memory, each between guards, and panics unless the answer and
/// all that was lent are as the readers above and the reference simulator have them.
fn check_start_by(by: By, file: &[u8], memory: &[u16], stack: u16) -> Started {
    let mut lent_file = vec![BYTE; GUARD];
    lent_file.extend_from_slice(file);
    lent_file.extend([BYTE; GUARD]);
    let mut lent = vec![WORD; GUARD];
    lent.extend_from_slice(memory);
    lent.extend([WORD; GUARD]);
    let (file_before, mut wanted) = (lent_file.clone(), lent.clone());
    let (expected, origin, words) = expected_start(by, file, memory.len(), stack);
    let start = GUARD + usize::from(origin);
    wanted[start..start + words.len()].copy_from_slice(&words);
    let (bytes, length) = (lent_file[GUARD..].as_ptr(), file.len());
    let (cells, count) = (lent[GUARD..].as_mut_ptr(), memory.len());
    // SAFETY: both ranges lie within their vectors.
    let answer = unsafe {
        match by {
            By::Start(mode) => {
                ffi::lc3_start(bytes, length, cells, count, mode == Mode::User, stack)
            }
            By::StartUser => ffi::lc3_start_user(bytes, length, cells, count, stack),
        }
    };
    assert_eq!(answer, expected, "a file of {length} bytes, {by:?}");
    assert!(lent_file == file_before, "the file changed");
    assert!(lent == wanted, "memory is not as expected after a file of {length} bytes, {by:?}");
    answer
}

/// The same by both calls, in both modes, with a user stack that differs from file to file. Answers
/// what `lc3_start` does in User mode.
fn check_start(file: &[u8], memory: &[u16]) -> Started {
    let stack = (file.len() as u16).wrapping_mul(0x9E37);
    check_start_by(By::StartUser, file, memory, stack);
    check_start_by(By::Start(Mode::Supervisor), file, memory, stack);
    check_start_by(By::Start(Mode::User), file, memory, stack)
}

/// The same for writing to an output of `room` bytes; answers the file.
fn check_save(memory: &[u16], origin: u16, words: usize, room: usize) -> Option<Vec<u8>> {
    let mut lent = vec![WORD; GUARD];
    lent.extend_from_slice(memory);
    lent.extend([WORD; GUARD]);
    let before = lent.clone();
    let mut output = vec![BYTE; room + 2 * GUARD];
    let mut wanted = output.clone();
    let file = write(memory, origin, words, room);
    let expected = match &file {
        Ok(file) => {
            wanted[GUARD..GUARD + file.len()].copy_from_slice(file);
            Counted { count: file.len() as u64, refusal: 0 }
        }
        Err(refusal) => Counted { count: 0, refusal: *refusal },
    };
    // SAFETY: both ranges lie within their vectors.
    let answer = unsafe {
        ffi::lc3_save(
            lent.as_ptr().add(GUARD),
            memory.len(),
            origin,
            words,
            output.as_mut_ptr().add(GUARD),
            room,
        )
    };
    assert_eq!(answer, expected, "x{origin:04X}, {words} words, {room} bytes");
    assert!(lent == before, "memory changed");
    assert!(output == wanted, "output: x{origin:04X}, {words} words, {room} bytes");
    file.ok()
}

fn random_words(rng: &mut Rng, count: usize) -> Vec<u16> {
    (0..count).map(|_| rng.word()).collect()
}

fn random_memory(rng: &mut Rng) -> Box<Memory> {
    let mut memory = fanthrig::memory();
    memory.fill_with(|| rng.word());
    memory
}

fn random_bytes(rng: &mut Rng, count: usize) -> Vec<u8> {
    (0..count).map(|_| rng.next() as u8).collect()
}

/// A length that is often small, often that of a whole memory or a little more or less.
fn random_length(rng: &mut Rng) -> usize {
    match rng.below(4) {
        0 => rng.below(40) as usize,
        1 => rng.below(5_000) as usize,
        2 => rng.below(140_000) as usize,
        _ => 131_072 + rng.below(9) as usize - 4,
    }
}

#[test]
fn every_short_length() {
    let mut rng = Rng::of_case(1, 0);
    let memory = random_words(&mut rng, WORDS);
    for length in 0..=9 {
        for origin in [0x0000, 0x3000, 0xFFFB, 0xFFFC, 0xFFFD, 0xFFFE, 0xFFFF_u16] {
            let mut file = random_bytes(&mut rng, length);
            for (byte, value) in file.iter_mut().zip(origin.to_be_bytes()) {
                *byte = value;
            }
            check_start(&file, &memory);
        }
    }
    assert_eq!(check_start(&[], &memory).refusal, 17);
    assert_eq!(check_start(&[0xFF], &memory).refusal, 17);
    let started = check_start(&[0xFF, 0xFF], &memory);
    assert_eq!((started.record.pc, started.words, started.refusal), (0xFFFF, 0, 0));
}

#[test]
fn every_truncation() {
    let mut rng = Rng::of_case(2, 0);
    let memory = random_words(&mut rng, WORDS);
    for origin in [0x0000, 0x3000, 0xFFE1, 0xFFE2_u16] {
        let mut file = origin.to_be_bytes().to_vec();
        file.extend(random_bytes(&mut rng, 62));
        for length in 0..=file.len() {
            check_start(&file[..length], &memory);
        }
    }
}

#[test]
fn lengths_around_a_whole_memory() {
    let mut rng = Rng::of_case(3, 0);
    let memory = random_words(&mut rng, WORDS);
    let mut file = random_bytes(&mut rng, 262_200);
    for origin in [0x0000, 0x0001, 0x0002, 0x8000, 0xFFFF_u16] {
        file[..2].copy_from_slice(&origin.to_be_bytes());
        for length in (131_060..=131_082).chain([196_608, 262_144, 262_146, 262_200]) {
            check_start(&file[..length], &memory);
        }
    }
    file[..2].copy_from_slice(&[0, 0]);
    let whole = check_start(&file[..131_074], &memory);
    assert_eq!((whole.record.pc, whole.words, whole.refusal), (0, 65_536, 0));
    assert_eq!(check_start(&file[..131_076], &memory).refusal, 18);
}

#[test]
fn the_end_of_memory() {
    let mut rng = Rng::of_case(4, 0);
    let memory = random_words(&mut rng, WORDS);
    for words in 0..20_usize {
        for origin in (0xFFFF - 24)..=0xFFFF_u16 {
            for room in [0, 1, 2, 2 * words, 2 * words + 1, 2 * words + 2, 2 * words + 3] {
                if let Some(file) = check_save(&memory, origin, words, room) {
                    let other = random_words(&mut rng, WORDS);
                    let started = check_start(&file, &other);
                    assert_eq!((started.record.pc, started.words as usize), (origin, words));
                }
            }
        }
    }
    let whole = check_save(&memory, 0, WORDS, 131_074).expect("a whole memory fits a file");
    assert_eq!(check_start(&whole, &fanthrig::memory()[..]).words, 65_536);
}

#[test]
fn refusals_in_their_order() {
    let mut rng = Rng::of_case(5, 0);
    let memory = random_words(&mut rng, WORDS + 1);
    let beyond = [0xFF, 0xFF, 0, 1, 0, 2];
    for words in [0, 1, WORDS - 1, WORDS, WORDS + 1] {
        let lent = &memory[..words];
        let refusal = |number| if words == WORDS { number } else { 11 };
        assert_eq!(check_start(&beyond[..5], lent).refusal, refusal(17));
        assert_eq!(check_start(&beyond, lent).refusal, refusal(18));
        assert_eq!(check_start(&beyond[..4], lent).refusal, refusal(0));
        // Each of the three refusals with all that come after it.
        for count in [65_537, 1 << 20, 1 << 63, (1 << 63) - 1, usize::MAX - 1, usize::MAX] {
            assert!(check_save(lent, 0, count, 0).is_none());
            assert!(check_save(lent, 0xFFFF, count, 9).is_none());
        }
        assert!(check_save(lent, 0xFFFF, 2, 0).is_none());
        assert!(check_save(lent, 0xFFFF, 1, 3).is_none());
        assert_eq!(check_save(lent, 0xFFFF, 1, 4).is_some(), words == WORDS);
    }
}

#[test]
fn random_files() {
    for number in 0..600 {
        let mut rng = Rng::of_case(6, number);
        let memory = random_memory(&mut rng);
        let length = random_length(&mut rng);
        let mut file = random_bytes(&mut rng, length);
        // Half of the files are given an origin near the last one that they may have.
        if file.len() >= 2 && rng.once_in(2) {
            let last = 65_537_usize.saturating_sub(file.len() / 2);
            let origin = (last + rng.below(3) as usize).saturating_sub(1).min(0xFFFF);
            file[..2].copy_from_slice(&(origin as u16).to_be_bytes());
        }
        if check_start(&file, &memory[..]).refusal != 0 {
            continue;
        }
        // What was loaded is written again, from the memory that it was loaded into.
        let mut lent = memory.clone();
        let started = fanthrig::start(&file, &mut lent, Mode::User, rng.word()).expect("accepted");
        let again = check_save(&lent[..], started.record.pc, started.words, file.len() + 3);
        assert_eq!(again, Some(file));
        // And no run is refused for what it was started with.
        let halted = Record { mcr: 0, ..started.record };
        let run = fanthrig::run(halted, &mut lent, Keys::NONE, &mut [], STEP_LIMIT);
        assert_eq!(run.map(|run| run.stop), Ok(Stop::Halted));
    }
}

/// A file of so many words from an origin on.
fn file_of(rng: &mut Rng, origin: u16, words: usize) -> Vec<u8> {
    let mut file = origin.to_be_bytes().to_vec();
    file.extend(random_bytes(rng, 2 * words));
    file
}

/// Origins, numbers of words, and what `lc3_start_user` answers to such a file.
const USER_BORDERS: [(u16, usize, u32); 22] = [
    // Without words, and with one.
    (0x2FFF, 0, 21),
    (0x3000, 0, 0),
    (0xFDFF, 0, 0),
    (0xFE00, 0, 21),
    (0x2FFF, 1, 21),
    (0x3000, 1, 0),
    (0xFDFF, 1, 0),
    (0xFE00, 1, 21),
    // The last word at x2FFF, x3000, xFDFF, xFE00.
    (0x2FFE, 2, 21),
    (0x2FFF, 2, 21),
    (0xFDFE, 2, 0),
    (0xFDFF, 2, 21),
    (0x0000, 0x3000, 21),
    (0x3000, 0xCE00, 0),
    (0x3000, 0xCE01, 21),
    (0x2FFF, 0xCE01, 21),
    // Up to the last word of memory, and beyond it: 18 comes first.
    (0xFFFF, 0, 21),
    (0xFFFF, 1, 21),
    (0xFFFF, 2, 18),
    (0x3000, 0xD000, 21),
    (0x3000, 0xD001, 18),
    (0x0000, 0x1_0001, 18),
];

#[test]
fn the_borders_of_a_candidates_file() {
    let mut rng = Rng::of_case(9, 0);
    let memory = random_words(&mut rng, WORDS + 1);
    for (origin, words, refusal) in USER_BORDERS {
        let mut file = file_of(&mut rng, origin, words);
        let whole = check_start_by(By::StartUser, &file, &memory[..WORDS], rng.word());
        assert_eq!(whole.refusal, refusal, "x{origin:04X}, {words} words");
        // 17 comes before 18 and 21, and 11 before all of them.
        file.push(0);
        let odd = check_start_by(By::StartUser, &file, &memory[..WORDS], rng.word());
        assert_eq!(odd.refusal, 17);
        for length in [0, 1, 0x3000, WORDS - 1, WORDS + 1] {
            for file in [&file[..], &file[..file.len() - 1], &file[..1], &[]] {
                let other = check_start_by(By::StartUser, file, &memory[..length], rng.word());
                assert_eq!(other.refusal, 11);
            }
        }
    }
}

/// A random file that a candidate might hand in: many begin or end near a border of User mode's
/// words or near the end of memory. One in sixteen is of odd length.
fn random_user_file(rng: &mut Rng) -> Vec<u8> {
    let near_border = |rng: &mut Rng| rng.pick(&[0x3000, 0xFE00, 0x1_0000]) + rng.between(-3, 3);
    let anywhere = rng.between(0, 0xFFFF);
    let origin = if rng.once_in(2) { near_border(rng).min(0xFFFF) } else { anywhere };
    let words = match near_border(rng) - origin {
        to_border @ 0.. if to_border < 400 || rng.once_in(8) => to_border,
        _ => rng.between(0, 40),
    };
    let mut file = file_of(rng, origin as u16, words as usize);
    if rng.once_in(16) {
        file.pop();
    }
    file
}

#[test]
fn random_files_of_candidates() {
    let mut answers = BTreeMap::new();
    let mut memory = Vec::new();
    for number in 0..20_000 {
        let mut rng = Rng::of_case(10, number);
        if number % 100 == 0 {
            memory = random_words(&mut rng, WORDS + 1);
        }
        let file = random_user_file(&mut rng);
        let odd_sizes = [0, 1, WORDS - 1, WORDS + 1];
        let length = if rng.once_in(32) { rng.pick(&odd_sizes) } else { WORDS };
        let answer = check_start_by(By::StartUser, &file, &memory[..length], rng.word());
        *answers.entry(answer.refusal).or_insert(0) += 1;
    }
    println!("candidates' files by refusal: {answers:?}");
    let met = [0, 11, 17, 18, 21].map(|refusal| answers.get(&refusal).copied().unwrap_or(0));
    assert!(met.iter().all(|&files| files >= 500), "an answer was given seldom: {met:?}");
}

#[test]
fn random_ranges() {
    for number in 0..600 {
        let mut rng = Rng::of_case(7, number);
        let memory = random_words(&mut rng, WORDS);
        let origin = rng.word();
        let left = WORDS - usize::from(origin);
        let words = match rng.below(4) {
            0 => rng.below(60) as usize,
            1 => left - rng.below(left.min(3) as u64) as usize,
            2 => left + rng.below(3) as usize,
            _ => rng.below(left as u64 + 1) as usize,
        };
        let room = (2 + 2 * words + rng.below(5) as usize).saturating_sub(2);
        let Some(file) = check_save(&memory, origin, words, room) else { continue };
        // The file, read into another memory, reproduces the range there and nothing else.
        let mut other = random_memory(&mut rng);
        let mut wanted = other.clone();
        let range = usize::from(origin)..usize::from(origin) + words;
        wanted[range.clone()].copy_from_slice(&memory[range]);
        let started =
            fanthrig::start(&file, &mut other, Mode::Supervisor, 0xFDFF).expect("accepted");
        assert_eq!((started.record.pc, started.words), (origin, words));
        assert!(other == wanted, "x{origin:04X}, {words} words");
    }
}

#[test]
fn records_are_fresh_at_every_origin_and_stack() {
    let mut memory = random_memory(&mut Rng::of_case(8, 0));
    let before = memory.clone();
    for origin in 0..=u16::MAX {
        for (mode, user) in [(Mode::Supervisor, false), (Mode::User, true)] {
            let stack = origin.wrapping_mul(0x9E37).rotate_left(5);
            // A file of two bytes loads nothing.
            let started = fanthrig::start(&origin.to_be_bytes(), &mut memory, mode, stack);
            let record = machine::fresh(origin, user, stack);
            assert_eq!(started, Ok(fanthrig::Started { record, words: 0 }));
        }
    }
    assert!(memory == before);
}

#[test]
fn a_started_program_runs_to_the_limit() {
    for mode in [Mode::Supervisor, Mode::User] {
        let mut memory = fanthrig::memory();
        // At x3000, BRnzp #-1.
        let started = fanthrig::start(&[0x30, 0x00, 0x0F, 0xFF], &mut memory, mode, 0xFDFF);
        let record = started.expect("accepted").record;
        let run =
            fanthrig::run(record, &mut memory, Keys::NONE, &mut [], STEP_LIMIT).expect("accepted");
        assert_eq!((run.stop, run.steps, run.record.pc), (Stop::Done, STEP_LIMIT, 0x3000));
    }
}

#[test]
fn of_several_files_the_last_one_runs() {
    let answers = [0x20, 0x00, 0x12, 0x34];
    let candidate = [0x30, 0x00, 0x10, 0x21];
    for files in [[&answers, &candidate], [&candidate, &answers]] {
        let mut memory = fanthrig::memory();
        let mut start = |file| fanthrig::start(file, &mut memory, Mode::Supervisor, 0xFDFF);
        let [first, last] = files.map(|file| start(file).expect("accepted").record.pc);
        assert_eq!([first, last], files.map(|file| u16::from_be_bytes([file[0], file[1]])));
        assert_eq!((memory[0x2000], memory[0x3000]), (0x1234, 0x1021));
    }
}

/// The address and the word at the start of each line that has them.
fn listed(listing: &str) -> Vec<(usize, u16)> {
    let number = |field: &str| u16::from_str_radix(field.strip_prefix('x')?, 16).ok();
    let line = |line: &str| {
        let mut fields = line.split_whitespace();
        Some((number(fields.next()?)?.into(), number(fields.next()?)?))
    };
    listing.lines().filter_map(line).collect()
}

#[test]
fn the_demonstration_has_the_words_of_its_listings() {
    let data = Path::new(env!("CARGO_MANIFEST_DIR")).join("../crates/demo/data");
    for (name, words) in [("candidate", 30), ("answers", 4), ("other_answers", 4), ("attack", 10)] {
        let file = fs::read(data.join(name).with_extension("obj")).expect("an object file");
        let listing = fs::read_to_string(data.join(name).with_extension("lst")).expect("a listing");
        let listed = listed(&listing);
        assert_eq!(listed.len(), words, "{name}");
        let (mut memory, mut wanted) = (fanthrig::memory(), fanthrig::memory());
        fanthrig::start(&file, &mut memory, Mode::User, 0xFDFF).expect("an accepted file");
        for (address, word) in listed {
            wanted[address] = word;
        }
        assert!(memory == wanted, "{name}");
    }
}
