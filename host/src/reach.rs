//! How far one altered word of memory can reach: what a run does first with the word.

use crate::ffi::LC3_MCR_CLOCK;
use crate::{
    read, run, tell, Error, Instruction, Keys, LoggedStep, Memory, Reason, Record, Run, Stop, Told,
};
use std::fmt;

/// How a step takes a word.
#[derive(Clone, Copy, Debug, PartialEq, Eq, Hash)]
pub enum Taking {
    /// As the instruction at PC.
    Fetch,
    /// As the address that LDI or STI goes to.
    Pointer,
    /// As what LD, LDR or LDI loads.
    Load,
    /// As the PC or the PSR that RTI pops.
    Pop,
    /// As the vector word of a trap, an exception or an interrupt, also where a push of the same
    /// step has just replaced it.
    Vector,
}

impl fmt::Display for Taking {
    fn fmt(&self, f: &mut fmt::Formatter<'_>) -> fmt::Result {
        f.pad(match self {
            Taking::Fetch => "fetch",
            Taking::Pointer => "pointer",
            Taking::Load => "load",
            Taking::Pop => "pop",
            Taking::Vector => "vector",
        })
    }
}

/// How a step replaces a word.
#[derive(Clone, Copy, Debug, PartialEq, Eq, Hash)]
pub enum Replacing {
    /// By ST, STR or STI.
    Store,
    /// By the entry of a trap, an exception or an interrupt.
    Push,
}

impl fmt::Display for Replacing {
    fn fmt(&self, f: &mut fmt::Formatter<'_>) -> fmt::Result {
        f.pad(match self {
            Replacing::Store => "store",
            Replacing::Push => "push",
        })
    }
}

/// What a run does first with a word of memory. Steps are counted from 0.
///
/// It tells what another word in that place may move, whichever word it is. *Alike* means here:
/// with the same record, output and memory, but for the word itself.
///
/// As text it is a sentence that says so:
///
/// ```
/// use fanthrig::{Fate, Taking};
///
/// let fate = Fate::Taken { step: 3, by: Taking::Load };
/// let text = "step 3 takes the word (load): up to that step all but the word is the same";
/// assert_eq!(fate.to_string(), text);
/// ```
#[derive(Clone, Copy, Debug, PartialEq, Eq, Hash)]
pub enum Fate {
    /// A step takes the word, and none before it takes or replaces it.
    ///
    /// The runs are alike after each of the first `step` steps. From there on they may part: the
    /// other run may even stop before this step, because it would show a byte and the output is
    /// full.
    Taken {
        /// The first step that takes the word.
        step: u64,
        /// How: where it does so in several ways, the first of them.
        by: Taking,
    },
    /// A step replaces the word, and neither it nor one before it takes the word.
    ///
    /// The runs are alike up to this step. After it and to the end they are equal, the word too,
    /// with the same counts and the same stop: a later step takes what was put there.
    Replaced {
        /// The first step that replaces the word.
        step: u64,
        /// How.
        by: Replacing,
    },
    /// The run stops because the output is full, before a step that would take the word.
    ///
    /// The runs are alike after each of the steps made. The other run may stop there too, or go on,
    /// since it finds another word there.
    Pending {
        /// The step that was not made: as many were made before it.
        step: u64,
        /// How it would take the word.
        by: Taking,
    },
    /// No step takes or replaces the word, nor would the one before which the run stops.
    ///
    /// The runs are alike after every step, with the same counts and the same stop.
    Untouched,
}

impl Fate {
    /// Whether the run ends in the same record and output, with the same counts and stop, whatever
    /// the word is.
    ///
    /// ```
    /// use fanthrig::{Fate, Replacing, Taking};
    ///
    /// assert!(Fate::Untouched.keeps_the_end());
    /// assert!(Fate::Replaced { step: 3, by: Replacing::Push }.keeps_the_end());
    /// assert!(!Fate::Taken { step: 3, by: Taking::Load }.keeps_the_end());
    /// ```
    pub fn keeps_the_end(self) -> bool {
        match self {
            Fate::Replaced { .. } | Fate::Untouched => true,
            Fate::Taken { .. } | Fate::Pending { .. } => false,
        }
    }

    /// What a step comes to that uses these words: one that takes and replaces a word takes it.
    fn of_step(step: u64, uses: &[(u16, Use)], address: u16) -> Fate {
        let here = || uses.iter().filter(|(at, _)| *at == address).map(|(_, used)| *used);
        let taken = here().find_map(|used| match used {
            Use::Take(by) => Some(Fate::Taken { step, by }),
            Use::Replace(_) => None,
        });
        let replaced = || {
            here().find_map(|used| match used {
                Use::Take(_) => None,
                Use::Replace(by) => Some(Fate::Replaced { step, by }),
            })
        };
        taken.or_else(replaced).unwrap_or(Fate::Untouched)
    }
}

impl fmt::Display for Fate {
    fn fmt(&self, f: &mut fmt::Formatter<'_>) -> fmt::Result {
        match self {
            Fate::Taken { step, by } => write!(
                f,
                "step {step} takes the word ({by}): up to that step all but the word is the same"
            ),
            Fate::Replaced { step, by } => write!(
                f,
                "step {step} replaces the word ({by}) and none took it: up to that step all but \
                 the word is the same, and from there to the end all is"
            ),
            Fate::Pending { step, by } => write!(
                f,
                "the output is full before step {step}, which would take the word ({by}): up to \
                 that step all but the word is the same"
            ),
            Fate::Untouched => {
                f.write_str("no step takes or replaces the word: to the end all but it is the same")
            }
        }
    }
}

/// What a run did, and what another word in one place may move.
#[derive(Clone, Copy, Debug, PartialEq, Eq)]
pub struct Reach {
    /// What [`run`](crate::run()) answers.
    pub run: Run,
    /// What the run did first with the word.
    pub fate: Fate,
}

/// A use of a word.
#[derive(Clone, Copy)]
enum Use {
    Take(Taking),
    Replace(Replacing),
}

/// The run under way.
struct Course<'a> {
    memory: &'a mut Memory,
    keys: Keys<'a>,
    output: &'a mut [u8],
    /// What the steps made so far come to.
    run: Run,
}

impl<'a> Course<'a> {
    /// The keys that arrive in the next step. The lists are in order, and no time that is left is
    /// below the clock.
    fn due(&self) -> Keys<'a> {
        let left = self.keys.after(self.run.keys);
        let due = left.times.partition_point(|&time| time <= self.run.record.clock);
        Keys { times: &left.times[..due], bytes: &left.bytes[..due] }
    }

    /// Goes on from the steps made to those of `next`.
    fn join(&mut self, next: Run) {
        self.run = Run {
            steps: self.run.steps + next.steps,
            keys: self.run.keys + next.keys,
            shown: self.run.shown + next.shown,
            ..next
        };
    }

    /// Makes the next step, or says why it is not made.
    fn step(&mut self) -> Stop {
        let (record, due, free) = (self.run.record, self.due(), &mut self.output[self.run.shown..]);
        let one = run(record, self.memory, due, free, 1);
        self.join(one.expect("a step of an accepted run is accepted"));
        self.run.stop
    }

    /// Makes the steps that are left of `n`.
    fn rest(&mut self, n: u64) {
        let left = self.keys.after(self.run.keys);
        let free = &mut self.output[self.run.shown..];
        let rest = run(self.run.record, self.memory, left, free, n - self.run.steps)
            .expect("the rest of an accepted run is accepted");
        self.join(rest);
    }

    /// Makes steps, at most `n`, until one takes or replaces the word.
    fn fate(&mut self, n: u64, address: u16) -> Fate {
        while self.run.steps < n {
            let told = tell(self.run.record, self.memory, self.due());
            let Some(told) = told.expect("a step of an accepted run is accepted") else {
                return Fate::Untouched;
            };
            let fate = Fate::of_step(self.run.steps, &uses(&told), address);
            match (self.step(), fate) {
                (Stop::Done, Fate::Untouched) => {}
                (Stop::OutputFull, Fate::Taken { step, by }) => return Fate::Pending { step, by },
                _ => return fate,
            }
        }
        Fate::Untouched
    }
}

/// The lent words that a step uses, in order: those that it takes, and those that it replaces.
fn uses(told: &Told) -> Vec<(u16, Use)> {
    let entered = told.step.reason != Reason::Instruction;
    let by = if entered { Replacing::Push } else { Replacing::Store };
    let taken = (0..told.reads.len()).map(|i| (told.reads[i], Use::Take(taking(told, i))));
    taken.chain(told.writes.iter().map(|&at| (at, Use::Replace(by)))).collect()
}

/// How a step takes one of its words: the fetch is the first, and the vector word of an entry the
/// last; what is between them is of the instruction's kind.
fn taking(told: &Told, i: usize) -> Taking {
    let LoggedStep { pc, word, reason } = told.step;
    let Some(word) = word.filter(|_| reason == Reason::Instruction || i + 1 < told.reads.len())
    else {
        return Taking::Vector;
    };
    match read(word).instruction {
        _ if i == 0 => Taking::Fetch,
        Instruction::Rti => Taking::Pop,
        Instruction::Sti { .. } => Taking::Pointer,
        // A pointer out of a device register is no word of memory.
        Instruction::Ldi { offset9, .. }
            if i == 1 && told.reads[1] == pc.wrapping_add(1).wrapping_add_signed(offset9) =>
        {
            Taking::Pointer
        }
        _ => Taking::Load,
    }
}

/// Runs as [`run`](crate::run()) does, and tells what another word at `address` may move.
///
/// For an examiner who varies one word of memory between papers: all that is told holds for the run
/// with any other word there, and otherwise the same call. Record, memory, output, counts, stop and
/// refusals are those of [`run`](crate::run()).
///
/// What counts is the lent word. Fetches, pops, pushes and vectors use it at any address; loads,
/// stores and pointers do not at the address of a device register. An access that is denied takes
/// and replaces nothing there.
///
/// Until a step takes or replaces the word each is a call of its own, so it is slower than a run.
///
/// ```
/// use fanthrig::{Fate, Keys, Mode, Replacing, Taking};
///
/// // At x3000: LD R0, x3003; ST R0, x3004; LD R1, x3004.
/// let file = [0x30, 0x00, 0x20, 0x02, 0x30, 0x02, 0x22, 0x01, 0x00, 0x07, 0x00, 0x08, 0x00, 0x09];
/// let fate = |address| {
///     let mut memory = fanthrig::memory();
///     let record = fanthrig::start(&file, &mut memory, Mode::User, 0xFDFF)?.record;
///     let reach = fanthrig::reach(record, &mut memory, Keys::NONE, &mut [], 3, address)?;
///     assert_eq!((reach.run.steps, reach.run.record.regs[1]), (3, 7));
///     Ok::<_, fanthrig::Error>(reach.fate)
/// };
/// // The 7 is loaded in step 0: another word there may move all that comes after it.
/// assert_eq!(fate(0x3003)?, Fate::Taken { step: 0, by: Taking::Load });
/// // Step 1 stores over the 8 before step 2 loads from there: another word there moves nothing.
/// assert_eq!(fate(0x3004)?, Fate::Replaced { step: 1, by: Replacing::Store });
/// // Nothing uses the 9.
/// assert_eq!(fate(0x3005)?, Fate::Untouched);
/// # Ok::<(), fanthrig::Error>(())
/// ```
pub fn reach(
    record: Record,
    memory: &mut Memory,
    keys: Keys<'_>,
    output: &mut [u8],
    n: u64,
    address: u16,
) -> Result<Reach, Error> {
    // The call with the clock enable cleared is refused for the same reasons, since none looks at
    // that bit; where it is accepted it makes no step and alters nothing.
    let halted = Record { mcr: record.mcr & !LC3_MCR_CLOCK, ..record };
    run(halted, memory, keys, output, n)?;
    let none = Run { record, steps: 0, keys: 0, shown: 0, stop: Stop::Done };
    let mut course = Course { memory, keys, output, run: none };
    let fate = course.fate(n, address);
    // A run that has stopped stops again here, for the same reason.
    course.rest(n);
    Ok(Reach { run: course.run, fate })
}
