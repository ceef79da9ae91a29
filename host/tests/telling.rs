//! What is told of the next step: random and hostile calls, by both editions, against the step that
//! the reference simulator makes.

mod reference;
mod support;

use fanthrig::ffi::{self, Addresses, Told};
use reference::bus::Use;
use reference::machine::{self, Cause, Edition, Event, CAUSES};
use support::cases::Case;
use support::{assert_same_buffers, for_cases, Buffers};

/// Calls from which on everything that is counted is to be met.
const ENOUGH: u64 = 50_000;

/// What the calls met: steps by cause, by how many words they take and store to, and by how they
/// use them; halted machines; refusals by number.
#[derive(Debug, Default)]
struct Tally {
    causes: [u64; CAUSES],
    taken: [u64; 4],
    stored: [u64; 3],
    uses: [u64; 7],
    halted: u64,
    refusals: [u64; 20],
}

impl Tally {
    fn count(&mut self, told: &Told, event: Option<&Event>) {
        self.refusals[told.refusal as usize] += 1;
        self.halted += u64::from(told.stop);
        let Some(event) = event else { return };
        self.causes[event.cause as usize] += 1;
        self.taken[usize::from(told.reads.count)] += 1;
        self.stored[usize::from(told.writes.count)] += 1;
        event.used.iter().for_each(|(how, _)| self.uses[how as usize] += 1);
    }

    /// Whether everything was met that there is: by the second edition TRAP is no entry, and there is
    /// no access exception.
    fn is_full(&self, edition: Edition) -> bool {
        let absent = [Cause::Trap as usize, Cause::Access as usize];
        let there = |cause: &usize| edition == Edition::Third || !absent.contains(cause);
        (0..CAUSES).filter(there).all(|cause| self.causes[cause] > 0)
            && self.taken[1..].iter().chain(&self.stored).chain(&self.uses).all(|&met| met > 0)
            && self.halted > 0
            && [11, 12, 13, 14, 15, 19].iter().all(|&number: &usize| self.refusals[number] > 0)
    }
}

fn addresses(used: impl Iterator<Item = (Use, u16)>) -> Addresses {
    used.fold(Addresses::default(), |mut all, (_, at)| {
        all.at[usize::from(all.count)] = at;
        all.count += 1;
        all
    })
}

fn is_storing(&(how, _): &(Use, u16)) -> bool {
    matches!(how, Use::Store | Use::Push)
}

/// What is to be told of the step that the reference makes, or of none.
fn expected(edition: Edition, call: machine::Call, event: &mut Option<Event>) -> Told {
    let answer = machine::run_by(edition, call, |made| *event = Some(*made), |_| ());
    let (index, refusal, stop) = (answer.index, answer.refusal, answer.stop);
    let (reads, writes) = (Addresses::default(), Addresses::default());
    let none = Told { index, refusal, stop, word: 0, reason: 0, reads, writes };
    event.map_or(none, |made| Told {
        word: made.word.unwrap_or(0),
        reason: made.cause as u16,
        reads: addresses(made.used.iter().filter(|used| !is_storing(used))),
        writes: addresses(made.used.iter().filter(is_storing)),
        ..none
    })
}

#[test]
fn what_is_told_is_what_the_reference_does() {
    let (mut ours, mut theirs) = (Buffers::new(), Buffers::new());
    for (edition, call) in
        [(Edition::Third, ffi::lc3_tell as ffi::TellCall), (Edition::Second, ffi::lc3_tell_second)]
    {
        let mut tally = Tally::default();
        for_cases(100_000, |_, case, template| {
            // A step that is told is not asked whether the output has room: there is some.
            let case = Case { output: vec![0; 1], ..case.clone() };
            ours.set(&case, template);
            theirs.set(&case, template);
            let told = ours.tell_by(call, case.record);
            ours.check(&case);
            assert_same_buffers(&ours, &theirs);
            let mut event = None;
            let wanted = expected(edition, theirs.call(case.record, 1), &mut event);
            assert!(told == wanted, "told: {told:x?}\nreference: {wanted:x?}");
            tally.count(&told, event.as_ref());
        });
        println!("steps told, {edition:?} edition: {tally:?}");
        assert!(support::runs(100_000) < ENOUGH || tally.is_full(edition), "never met");
    }
}
