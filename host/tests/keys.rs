//! Key lists that are refused: every list of up to five times near the clock, and the entry that
//! the library names.

use fanthrig::{Error, Keys, Memory, Mode, Record, Stop};

const CLOCK: u64 = 2;

/// Two times below the clock, the clock, and two above it.
const TIMES: [u64; 5] = [0, 1, 2, 3, 4];

const LONGEST: u32 = 5;

/// What is to be answered, by two searches of their own: the first time below the clock, and the
/// first that is below the one before it.
fn expected(times: &[u64]) -> Option<Error> {
    let below_clock = times.iter().position(|&time| time < CLOCK);
    let out_of_order = times.windows(2).position(|pair| pair[1] < pair[0]).map(|i| i + 1);
    match (below_clock, out_of_order) {
        (Some(early), Some(late)) if late < early => Some(Error::KeyOrder(late)),
        (Some(early), _) => Some(Error::KeyTime(early)),
        (None, late) => late.map(Error::KeyOrder),
    }
}

/// Calls `check` with every list of up to [`LONGEST`] of the times.
fn for_lists(mut check: impl FnMut(&[u64])) {
    for length in 0..=LONGEST {
        for number in 0..TIMES.len().pow(length) {
            let digit = |place| number / TIMES.len().pow(place) % TIMES.len();
            let times: Vec<u64> = (0..length).map(|place| TIMES[digit(place)]).collect();
            check(&times);
        }
    }
}

/// A machine at x3000 with nothing loaded.
fn start(memory: &mut Memory) -> Record {
    fanthrig::start(&[0x30, 0x00], memory, Mode::User, 0xFDFF).expect("accepted").record
}

#[test]
fn the_first_entry_at_fault_is_named_in_every_list() {
    let mut memory = fanthrig::memory();
    // A halted machine, so that an accepted call alters nothing.
    let mut record = start(&mut memory);
    (record.clock, record.mcr) = (CLOCK, 0);
    let (mut lists, mut below_clock, mut out_of_order) = (0, 0, 0);
    for_lists(|times| {
        let bytes = vec![b'a'; times.len()];
        let keys = Keys { times, bytes: &bytes };
        let run = fanthrig::run(record, &mut memory, keys, &mut [], 1);
        let mut stepped = record;
        let step = fanthrig::step(&mut stepped, &mut memory, keys, &mut []);
        let refusal = expected(times);
        let wanted = refusal.map_or(Ok(Stop::Halted), Err);
        assert_eq!(run.map(|run| run.stop), wanted, "{times:?}");
        assert_eq!(step.map(|step| step.stop), wanted, "{times:?}");
        assert_eq!(stepped, record, "{times:?}");
        lists += 1;
        below_clock += u32::from(matches!(refusal, Some(Error::KeyTime(_))));
        out_of_order += u32::from(matches!(refusal, Some(Error::KeyOrder(_))));
    });
    println!("{lists} lists: {below_clock} refused under 15, {out_of_order} under 19");
    assert_eq!(lists, 3906);
    assert!(below_clock > 0 && out_of_order > 0 && below_clock + out_of_order < lists);
}

#[test]
fn an_entry_far_into_a_list_is_named() {
    const KEYS: usize = 10_000;
    let mut memory = fanthrig::memory();
    let mut record = start(&mut memory);
    record.clock = CLOCK;
    let bytes = vec![0; KEYS];
    for at in [1, 2, 4095, 4096, KEYS - 1] {
        let mut times: Vec<u64> = (0..KEYS as u64).map(|i| CLOCK + i).collect();
        for (time, refusal) in [
            (CLOCK - 1, Error::KeyTime(at)),
            (times[at - 1] - 1, if at > 1 { Error::KeyOrder(at) } else { Error::KeyTime(at) }),
        ] {
            times[at] = time;
            let keys = Keys { times: &times, bytes: &bytes };
            let refused = fanthrig::run(record, &mut memory, keys, &mut [], 1);
            assert_eq!(refused, Err(refusal), "at {at}");
        }
    }
}
