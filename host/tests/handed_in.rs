//! Files as candidates may hand them in: whatever they are, `start_user` alters no word outside
//! x3000 to xFDFF; and beside the ready-made monitor no program that it starts alters a privileged
//! word but the monitor's stack.

mod reference;
mod support;

use fanthrig::{Error, Keys, Memory, Mode, Record, Stop, WORDS};
use std::collections::BTreeMap;
use std::ops::Range;
use support::candidates::{candidate, Candidate, USER};
use support::pairs::{lowest_stack_word, template};
use support::Rng;

/// A memory with the monitor, and the words as they were lent.
struct Room {
    memory: Box<Memory>,
    lent: Box<Memory>,
}

impl Room {
    fn new(words: &[u16]) -> Room {
        let mut lent = fanthrig::memory();
        lent.copy_from_slice(words);
        fanthrig::install_monitor(&mut lent);
        Room { memory: lent.clone(), lent }
    }

    /// Starts a file in the memory as lent, and panics if a privileged word is altered, or any word
    /// where the file is refused.
    fn start(&mut self, file: &[u8], user_stack: u16) -> Result<Record, Error> {
        self.memory.copy_from_slice(&self.lent[..]);
        let started = fanthrig::start_user(file, &mut self.memory, user_stack);
        self.assert_as_lent(0..USER.start, file);
        self.assert_as_lent(USER.end..WORDS, file);
        if started.is_err() {
            self.assert_as_lent(USER, file);
        }
        started.map(|started| started.record)
    }

    fn assert_as_lent(&self, range: Range<usize>, file: &[u8]) {
        let as_lent = self.memory[range.clone()] == self.lent[range.clone()];
        assert!(as_lent, "a word of x{:04X} to x{:04X}: {file:02X?}", range.start, range.end - 1);
    }
}

/// The bytes of a file, from words.
fn file_of(origin: u16, words: &[u16]) -> Vec<u8> {
    Candidate { origin, words: words.to_vec() }.file()
}

/// A random file from anywhere: the words of a program, a few words, or as many as reach to a
/// border of User mode's words or to the end of memory. One in sixteen is cut off at any byte.
fn random_file(rng: &mut Rng) -> Vec<u8> {
    const ORIGINS: [u16; 10] =
        [0x0000, 0x0020, 0x0102, 0x0180, 0x0200, 0x2FFA, 0x2FFF, 0x3000, 0xFDFF, 0xFE00];
    let anywhere = rng.word();
    let origin = match rng.below(3) {
        0 => rng.pick(&ORIGINS).wrapping_add_signed(rng.between(-3, 3) as i16),
        _ => anywhere,
    };
    let left = |end: i32| (end - i32::from(origin)).clamp(0, 2_000) as usize;
    let (few, more) = (rng.below(300) as usize, rng.between(-2, 2));
    let count = match rng.below(4) {
        0 => left(0x3000 + more),
        1 => left(0xFE00 + more),
        2 => left(0x1_0000 + more),
        _ => few,
    };
    let words = if rng.once_in(2) {
        candidate(rng).words
    } else {
        (0..count).map(|_| rng.word()).collect()
    };
    let mut file = file_of(origin, &words);
    if rng.once_in(16) {
        file.truncate(rng.below(file.len() as u64 + 1) as usize);
    }
    file
}

/// Makes some hundred steps with a few keys, and panics if a privileged word but the stack's is
/// altered.
fn run(rng: &mut Rng, room: &mut Room, record: Record, file: &[u8]) {
    let n = rng.below(800);
    let mut times = [(); 3].map(|()| rng.below(n + 1));
    times.sort_unstable();
    let keys = Keys { times: &times, bytes: b"key" };
    let run = fanthrig::run(record, &mut room.memory, keys, &mut [0; 100], n);
    assert!(run.is_ok(), "{run:?}");
    room.assert_as_lent(0..lowest_stack_word(0), file);
    room.assert_as_lent(USER.end..WORDS, file);
}

#[test]
fn no_file_alters_a_word_outside_user_modes() {
    let seed = support::seed();
    let mut room = Room::new(&template(&mut Rng::of_case(!seed, 0)));
    let mut answers = BTreeMap::new();
    for number in 0..support::runs(10_000) {
        let mut rng = Rng::of_case(seed, number);
        let file = random_file(&mut rng);
        let started = room.start(&file, rng.word());
        if let Ok(record) = started {
            run(&mut rng, &mut room, record, &file);
        }
        let refusal = started.map_or_else(Error::code, |_| 0);
        *answers.entry(refusal).or_insert(0u64) += 1;
    }
    println!("files by refusal: {answers:?}");
    let met = [0, 17, 18, 21].map(|refusal| answers.get(&refusal).copied().unwrap_or(0));
    assert!(support::runs(10_000) < 10_000 || met.iter().all(|&files| files >= 50), "{met:?}");
}

/// Every vector word, every word of the routines, of the stack and of the device page: as the
/// origin of a file with and without words, and as the last word of a file that begins at xFDFF.
#[test]
fn every_privileged_word_is_out_of_reach() {
    let mut room = Room::new(&[0; WORDS]);
    for address in (0..WORDS).filter(|address| !USER.contains(address)) {
        let up_to = vec![0x0103; (address + 1).saturating_sub(0xFDFF)];
        let origin = address as u16;
        let mut files = vec![file_of(origin, &[]), file_of(origin, &[0x0103])];
        files.extend((!up_to.is_empty()).then(|| file_of(0xFDFF, &up_to)));
        for file in files {
            assert_eq!(room.start(&file, 0xFDFF), Err(Error::User), "x{address:04X}");
        }
    }
}

/// The word that says where an access exception leads, and from x0103 on: LDI R0, #2; STI R0, #2;
/// BRnzp #2; x2000; xFE06 (DDR); AND R1, R1, #0; STI R1, #1; BRnzp #-1; xFFFE (MCR). PC is
/// privileged, so that the first step raises the exception, and the rest runs in Supervisor mode.
const ATTACK: [u16; 10] =
    [0x0103, 0xA002, 0xB002, 0x0E02, 0x2000, 0xFE06, 0x5260, 0xB201, 0x0FFF, 0xFFFE];

#[test]
fn the_file_that_replaces_a_vector_is_refused_and_would_show_an_answer() {
    let file = file_of(0x0102, &ATTACK);
    for answer in [b'A', b'B'] {
        let mut room = Room::new(&[0; WORDS]);
        room.lent[0x2000] = answer.into();
        assert_eq!(room.start(&file, 0xFDFF), Err(Error::User));

        let started =
            fanthrig::start(&file, &mut room.memory, Mode::User, 0xFDFF).expect("accepted");
        let mut output = [0; 8];
        let run = fanthrig::run(started.record, &mut room.memory, Keys::NONE, &mut output, 100);
        let run = run.expect("accepted");
        assert_eq!((run.stop, run.shown, output[0]), (Stop::Halted, 1, answer));
    }
}
