//! How far one altered word can reach: what the wrapper tells of a word against the reference
//! simulator's own account, and pairs of runs that differ in that word.

mod reference;
mod support;

use fanthrig::ffi::{Answer, Report};
use fanthrig::{Error, Fate, Keys, Mode, Record, Replacing, Taking, CLOCK_LIMIT, STEP_LIMIT};
use reference::bus::{self, Use, Used};
use reference::machine::{self, OUTPUT_FULL};
use std::collections::BTreeMap;
use support::cases::{self, Case, Family, FAMILIES};
use support::program::{Program, LOAD_DSR, START, STORE_DDR, STORE_TIR};
use support::{assert_same_buffers, for_cases_by, runs, Buffers, Rng};

/// A run by the reference simulator, with the lent words that each step used that it tried.
struct Account {
    answer: Answer,
    tried: Vec<Used>,
}

impl Account {
    fn of(case: &Case, template: &[u16], buffers: &mut Buffers) -> Account {
        buffers.set(case, template);
        let (answer, tried) = machine::run_telling_uses(buffers.call(case.record, case.n));
        let stopped = u64::from(answer.stop == OUTPUT_FULL);
        assert_eq!(tried.len() as u64, answer.steps + stopped);
        Account { answer, tried }
    }

    /// What the run did first with the word at an address.
    fn fate(&self, address: u16) -> Fate {
        let uses = |(step, used): (u64, &Used)| {
            let here = used.iter().filter(|&(_, at)| at == address);
            let (takes, replaces): (Vec<_>, Vec<_>) = here.partition(|&(how, _)| is_taking(how));
            takes.first().or(replaces.first()).map(|&(how, _)| (step, how))
        };
        let Some((step, how)) = (0..).zip(&self.tried).find_map(uses) else {
            return Fate::Untouched;
        };
        let made = step < self.answer.steps;
        let taken = |by| if made { Fate::Taken { step, by } } else { Fate::Pending { step, by } };
        match how {
            Use::Fetch => taken(Taking::Fetch),
            Use::Pointer => taken(Taking::Pointer),
            Use::Load => taken(Taking::Load),
            Use::Pop => taken(Taking::Pop),
            Use::Vector => taken(Taking::Vector),
            Use::Store => Fate::Replaced { step, by: Replacing::Store },
            Use::Push => Fate::Replaced { step, by: Replacing::Push },
        }
    }

    /// An address to vary: most often one that the run uses, and by a fetch no more often than by
    /// all else. Where the output is full it is often one that the step would use that was stopped.
    fn hostile_address(&self, rng: &mut Rng, record: &Record) -> u16 {
        let Record { regs, pc, saved_ssp, .. } = *record;
        let around = |rng: &mut Rng, at: u16| at.wrapping_add_signed(rng.between(-3, 3) as i16);
        if self.answer.stop == OUTPUT_FULL && rng.once_in(2) {
            let last: Vec<_> = self.tried[self.answer.steps as usize].iter().collect();
            return rng.pick(&last).1;
        }
        let used: Vec<_> = self.tried.iter().flat_map(Used::iter).collect();
        let others: Vec<_> = used.iter().copied().filter(|&(how, _)| how != Use::Fetch).collect();
        match rng.below(10) {
            0 => rng.word(),
            1 => rng.pick(&bus::REGISTERS),
            2 => rng.pick(&[0x0000, 0x0025, 0x0100, 0x0101, 0x0102, 0x0180, 0x0181, 0xFFFF]),
            3 => around(rng, pc),
            4 => {
                let stack = rng.pick(&[regs[6], saved_ssp]);
                around(rng, stack)
            }
            5 | 6 if !used.is_empty() => rng.pick(&used).1,
            _ if !others.is_empty() => rng.pick(&others).1,
            _ => around(rng, pc),
        }
    }
}

/// Makes cases of any family. Few runs fill their output: so the display is met more often than
/// elsewhere, and a run that shows bytes is most often lent too few.
fn make_case() -> impl FnMut(&mut Rng, &[u16]) -> Case {
    let mut buffers = Buffers::new();
    move |rng, template| {
        let any = rng.pick(&FAMILIES);
        let family = if rng.once_in(4) { Family::Display } else { any };
        let mut case = cases::case(rng, family);
        let shown = Account::of(&case, template, &mut buffers).answer.shown;
        if shown > 0 && !rng.once_in(4) {
            case.output.truncate(rng.below(shown) as usize);
        }
        case
    }
}

fn is_taking(how: Use) -> bool {
    match how {
        Use::Fetch | Use::Pointer | Use::Load | Use::Pop | Use::Vector => true,
        Use::Store | Use::Push => false,
    }
}

/// How often each class was met, by its name.
#[derive(Default)]
struct Tally(BTreeMap<String, u64>);

impl Tally {
    fn count(&mut self, class: String) {
        *self.0.entry(class).or_default() += 1;
    }

    /// Panics if a full number of runs never met one of these.
    fn assert_met(&self, classes: &[&str], usual: u64) {
        println!("{:?}", self.0);
        let missing: Vec<_> =
            classes.iter().filter(|class| !self.0.contains_key(**class)).collect();
        assert!(runs(usual) < usual || missing.is_empty(), "never met: {missing:?}");
    }
}

/// The fate without its step.
fn class(fate: Fate) -> String {
    match fate {
        Fate::Taken { by, .. } => format!("taken by {by}"),
        Fate::Replaced { by, .. } => format!("replaced by {by}"),
        Fate::Pending { by, .. } => format!("pending by {by}"),
        Fate::Untouched => "untouched".to_string(),
    }
}

/// Every class. A step that shows a byte takes a word by its fetch or by its pointer alone.
const CLASSES: [&str; 10] = [
    "taken by fetch",
    "taken by pointer",
    "taken by load",
    "taken by pop",
    "taken by vector",
    "replaced by store",
    "replaced by push",
    "pending by fetch",
    "pending by pointer",
    "untouched",
];

#[test]
fn random_words_meet_the_fate_of_the_reference_and_the_run_is_the_run() {
    let (mut plain, mut ours, mut theirs) = (Buffers::new(), Buffers::new(), Buffers::new());
    let (mut met, mut refused) = (Tally::default(), 0u64);
    for_cases_by(20_000, make_case(), |rng, case, template| {
        let account = Account::of(case, template, &mut theirs);
        let address = account.hostile_address(rng, &case.record);
        let keys = Keys { times: &case.times, bytes: &case.bytes };
        plain.set(case, template);
        let output = plain.output.get_mut();
        let Some(memory) = plain.memory.get_array() else { return };
        let expected = fanthrig::run(case.record, memory, keys, output, case.n);
        ours.set(case, template);
        let output = ours.output.get_mut();
        let memory = ours.memory.get_array().expect("a whole memory");
        let reach = fanthrig::reach(case.record, memory, keys, output, case.n, address);
        assert_eq!(reach.map(|reach| reach.run), expected);
        ours.check(case);
        assert_same_buffers(&ours, &plain);
        let Ok(reach) = reach else {
            refused += 1;
            return;
        };
        assert_eq!(reach.fate, account.fate(address), "the word at x{address:04X}");
        met.count(class(reach.fate));
    });
    println!("refused: {refused}; words by what the run did first with them:");
    met.assert_met(&CLASSES, 20_000);
    assert!(runs(20_000) < 20_000 || refused > 0);
}

/// One run of a pair, made step by step.
struct Side {
    record: Record,
    keys: usize,
    shown: usize,
    buffers: Buffers,
}

impl Side {
    fn new() -> Side {
        Side { record: machine::fresh(0, false, 0), keys: 0, shown: 0, buffers: Buffers::new() }
    }

    fn take(&mut self, case: &Case, template: &[u16]) {
        self.buffers.set(case, template);
        (self.record, self.keys, self.shown) = (case.record, 0, 0);
    }

    fn step(&mut self) -> Report {
        let report = self.buffers.step(&mut self.record, self.keys, self.shown);
        assert_eq!(report.refusal, 0);
        self.keys += report.keys as usize;
        self.shown += report.shown as usize;
        report
    }
}

/// A pair of runs with equal inputs but for the word at one address.
struct Pair<'a> {
    sides: [&'a mut Side; 2],
    address: u16,
    words: [u16; 2],
}

impl Pair<'_> {
    /// Makes a step of each, if it is made at all. Panics unless both report the same.
    fn step(&mut self) -> Report {
        let [one, other] = self.sides.each_mut().map(|side| side.step());
        assert_eq!(one, other);
        one
    }

    /// Panics unless both runs have the same record, output and memory: but for the word, which
    /// each has as lent, where it was not replaced.
    fn assert_alike(&self, replaced: bool) {
        let [one, other] = &self.sides;
        assert_eq!(one.record, other.record);
        assert_eq!((one.keys, one.shown), (other.keys, other.shown));
        assert_eq!(one.buffers.output.get(), other.buffers.output.get(), "the output differs");
        let [first, second] = [one, other].map(|side| side.buffers.memory.get());
        let at = usize::from(self.address);
        assert!(first[..at] == second[..at], "memory below the word differs");
        assert!(first[at + 1..] == second[at + 1..], "memory above the word differs");
        if replaced {
            assert_eq!(first[at], second[at], "the word was replaced and differs");
        } else {
            assert_eq!([first[at], second[at]], self.words, "the word was altered");
        }
    }

    /// Makes the steps of both runs for which something is promised, up to `n`, and panics where
    /// the promise is broken. Answers the last step's report.
    fn check(&mut self, fate: Fate, n: u64) -> Report {
        let (limit, replaced_in) = match fate {
            Fate::Taken { step, .. } | Fate::Pending { step, .. } => (step, u64::MAX),
            Fate::Replaced { step, .. } => (n, step),
            Fate::Untouched => (n, u64::MAX),
        };
        self.assert_alike(false);
        let mut report = Report { steps: 0, keys: 0, shown: 0, index: 0, refusal: 0, stop: 0 };
        for number in 0..limit {
            report = self.step();
            if report.steps == 0 {
                assert!(fate.keeps_the_end(), "a step before the one that takes the word is made");
                break;
            }
            self.assert_alike(number >= replaced_in);
        }
        report
    }
}

/// The step and the way in which the word is first taken, by a step that is made or by one that a
/// full output gave back.
fn taken_at(fate: Fate) -> Option<(u64, Taking)> {
    match fate {
        Fate::Taken { step, by } | Fate::Pending { step, by } => Some((step, by)),
        Fate::Replaced { .. } | Fate::Untouched => None,
    }
}

/// A word other than `word`: one with another register in bits 11 to 9, one close to it, or any.
fn another(rng: &mut Rng, word: u16) -> u16 {
    match rng.below(4) {
        0 => word ^ (1 + rng.below(7) as u16) << 9,
        1 => word.wrapping_add_signed(rng.pick(&[-1, 1])),
        _ => word ^ (1 + rng.below(0xFFFF) as u16),
    }
}

/// The class of a pair. Runs that part at a full output, and the stops of pairs that end alike, are
/// told apart.
fn class_of_pair(fates: [Fate; 2], stop: u32) -> String {
    match fates {
        [Fate::Pending { .. }, Fate::Pending { .. }] => "pending in both".to_string(),
        [Fate::Pending { .. }, _] | [_, Fate::Pending { .. }] => "pending in one".to_string(),
        [Fate::Untouched, _] => format!("untouched, stop {stop}"),
        [fate, _] => class(fate),
    }
}

#[test]
fn runs_that_differ_in_a_word_are_alike_until_a_step_takes_it() {
    let (mut one, mut other, mut theirs) = (Side::new(), Side::new(), Buffers::new());
    let (mut met, mut pairs, mut steps) = (Tally::default(), 0u64, 0u64);
    for_cases_by(22_500, make_case(), |rng, case, template| {
        let account = Account::of(case, template, &mut theirs);
        if account.answer.refusal != 0 {
            return;
        }
        let address = account.hostile_address(rng, &case.record);
        one.take(case, template);
        let word = one.buffers.memory.get()[usize::from(address)];
        let mut twin = case.clone();
        twin.patches.push((address, another(rng, word)));
        let twin_account = Account::of(&twin, template, &mut theirs);
        other.take(&twin, template);
        let words = [word, other.buffers.memory.get()[usize::from(address)]];
        let fates = [account.fate(address), twin_account.fate(address)];
        assert_eq!(taken_at(fates[0]), taken_at(fates[1]), "the word at x{address:04X}");
        if fates[0].keeps_the_end() {
            assert_eq!(fates[0], fates[1]);
            assert_eq!(account.answer, twin_account.answer);
        }
        let mut pair = Pair { sides: [&mut one, &mut other], address, words };
        let last = pair.check(fates[0], case.n);
        pairs += 1;
        steps += one.record.clock - case.record.clock;
        met.count(class_of_pair(fates, last.stop));
    });
    println!("{pairs} pairs, {steps} steps of each compared; pairs by class:");
    let mut classes = CLASSES[..7].to_vec();
    classes.extend(["pending in both", "pending in one"]);
    classes.extend(["untouched, stop 0", "untouched, stop 1", "untouched, stop 2"]);
    met.assert_met(&classes, 22_500);
    assert!(runs(22_500) < 22_500 || pairs >= 20_000);
}

fn taken(step: u64, by: Taking) -> Fate {
    Fate::Taken { step, by }
}

fn replaced(step: u64, by: Replacing) -> Fate {
    Fate::Replaced { step, by }
}

/// Panics unless the words at these addresses meet these fates in a run of `n` steps.
fn expect(program: &Program, keys: Keys, n: u64, fates: &[(u16, Fate)]) {
    for &(address, fate) in fates {
        let Program { record, mut memory, mut output, .. } = program.clone();
        let reach = fanthrig::reach(record, &mut memory, keys, &mut output, n, address);
        assert_eq!(reach.expect("accepted").fate, fate, "the word at x{address:04X}");
    }
}

/// A program of these words with parts of its record set.
fn program(mode: Mode, words: &[u16], set: impl Fn(&mut Record)) -> Program {
    let mut program = Program::in_mode(mode, words, 0);
    set(&mut program.record);
    program
}

/// The same in Supervisor mode.
fn supervisor(words: &[u16], set: impl Fn(&mut Record)) -> Program {
    program(Mode::Supervisor, words, set)
}

/// The same in User mode, with a supervisor stack that is out of the way.
fn user(words: &[u16], set: impl Fn(&mut Record)) -> Program {
    program(Mode::User, words, |record| {
        record.saved_ssp = 0x2000;
        set(record);
    })
}

#[test]
fn each_way_of_taking_a_word_is_told_with_its_step() {
    use Taking::{Fetch, Load, Pointer, Pop, Vector};
    let same = |_: &mut Record| ();
    // Three BR that test nothing.
    let fates = [(0x3000, taken(0, Fetch)), (0x3002, taken(2, Fetch)), (0x3003, Fate::Untouched)];
    expect(&supervisor(&[0, 0, 0], same), Keys::NONE, 3, &fates);
    // BR; LD R0, x3003; LDR R1, R2, #0.
    let loads = supervisor(&[0x0000, 0x2001, 0x6280], |record| record.regs[2] = 0x4000);
    expect(&loads, Keys::NONE, 3, &[(0x3003, taken(1, Load)), (0x4000, taken(2, Load))]);
    // LDI R0, x3002; STI R0, x3003.
    let fates = [
        (0x3002, taken(0, Pointer)),
        (0x4000, taken(0, Load)),
        (0x3003, taken(1, Pointer)),
        (0x5000, replaced(1, Replacing::Store)),
    ];
    let pointers = supervisor(&[0xA001, 0xB001, 0x4000, 0x5000], same);
    expect(&pointers, Keys::NONE, 2, &fates);
    // BR; RTI.
    let fates = [(0x4000, taken(1, Pop)), (0x4001, taken(1, Pop)), (0x4002, Fate::Untouched)];
    let pops = supervisor(&[0x0000, 0x8000], |record| record.regs[6] = 0x4000);
    expect(&pops, Keys::NONE, 2, &fates);
    // TRAP x25, RTI in User mode, the reserved opcode, LD at x2FFF in User mode.
    let trap = supervisor(&[0xF025], same);
    expect(&trap, Keys::NONE, 1, &[(0x0025, taken(0, Vector)), (START, taken(0, Fetch))]);
    for (word, vector) in [(0x8000, 0x0100), (0xD000, 0x0101), (0x21FE, 0x0102)] {
        let fates = [(vector, taken(0, Vector)), (START, taken(0, Fetch))];
        expect(&user(&[word], same), Keys::NONE, 1, &fates);
    }
    // An interrupt fetches nothing.
    let keyboard = user(&[0], |record| record.kbsr = 0x4000);
    let key = Keys { times: &[0], bytes: b"a" };
    expect(&keyboard, key, 1, &[(0x0180, taken(0, Vector)), (START, Fate::Untouched)]);
    let timer = user(&[0], |record| record.timer_status = 0xC000);
    expect(&timer, key, 1, &[(0x0181, taken(0, Vector)), (START, Fate::Untouched)]);
}

#[test]
fn the_first_of_taking_and_replacing_is_told() {
    use Replacing::{Push, Store};
    use Taking::{Fetch, Load, Pointer, Pop, Vector};
    let same = |_: &mut Record| ();
    // ST R0, x3003; LD R1, x3003. And the other way round.
    let stored = supervisor(&[0x3002, 0x2201], same);
    expect(&stored, Keys::NONE, 2, &[(0x3003, replaced(0, Store))]);
    let loaded = supervisor(&[0x2002, 0x3201], same);
    expect(&loaded, Keys::NONE, 2, &[(0x3003, taken(0, Load))]);
    // The two words of an entry, from either mode.
    let fates = |top: u16| {
        [
            (top, Fate::Untouched),
            (top - 1, replaced(0, Push)),
            (top - 2, replaced(0, Push)),
            (top - 3, Fate::Untouched),
        ]
    };
    expect(&supervisor(&[0xF025], same), Keys::NONE, 1, &fates(0x3000)[1..]);
    expect(&user(&[0xF025], same), Keys::NONE, 1, &fates(0x2000));
    // A step that takes and replaces a word takes it: ST over itself, STI over its pointer, and
    // entries that push over their vector word or their instruction.
    expect(&supervisor(&[0x31FF], same), Keys::NONE, 1, &[(START, taken(0, Fetch))]);
    let sti = supervisor(&[0xB001, 0x0000, 0x3002], same);
    expect(&sti, Keys::NONE, 1, &[(0x3002, taken(0, Pointer))]);
    let over_vector = supervisor(&[0xF025], |record| record.regs[6] = 0x0026);
    let fates = [(0x0025, taken(0, Vector)), (0x0024, replaced(0, Push))];
    expect(&over_vector, Keys::NONE, 1, &fates);
    let over_itself = supervisor(&[0xF025], |record| record.regs[6] = 0x3001);
    let fates = [(START, taken(0, Fetch)), (0x2FFF, replaced(0, Push))];
    expect(&over_itself, Keys::NONE, 1, &fates);
    // RTI that pops itself as PC: the fetch comes first.
    let rti = supervisor(&[0x8000], |record| record.regs[6] = START);
    expect(&rti, Keys::NONE, 1, &[(START, taken(0, Fetch)), (START + 1, taken(0, Pop))]);
}

#[test]
fn a_denied_access_takes_and_replaces_nothing() {
    let same = |_: &mut Record| ();
    let access = (0x0102, taken(0, Taking::Vector));
    let untouched = |at| (at, Fate::Untouched);
    let fetch = user(&[], |record| record.pc = 0x2FFF);
    expect(&fetch, Keys::NONE, 1, &[access, untouched(0x2FFF)]);
    // LD, ST, LDI and STI at x2FFF, which holds x4000.
    for word in [0x21FE, 0x31FE, 0xA1FE, 0xB1FE] {
        let mut denied = user(&[word], same);
        denied.memory[0x2FFF] = 0x4000;
        expect(&denied, Keys::NONE, 1, &[access, untouched(0x2FFF), untouched(0x4000)]);
    }
    // LDI and STI by x3002, which holds x2FFF: the pointer is taken.
    for word in [0xA001, 0xB001] {
        let denied = user(&[word, 0x0000, 0x2FFF], same);
        let pointer = (0x3002, taken(0, Taking::Pointer));
        expect(&denied, Keys::NONE, 1, &[access, pointer, untouched(0x2FFF)]);
    }
}

#[test]
fn a_device_register_is_no_word_but_for_fetches_pops_pushes_and_vectors() {
    use Replacing::{Push, Store};
    use Taking::{Fetch, Load, Pop};
    let same = |_: &mut Record| ();
    let fates = [(bus::DSR, Fate::Untouched), (bus::TIR, Fate::Untouched)];
    expect(&supervisor(&[LOAD_DSR, STORE_TIR], same), Keys::NONE, 2, &fates);
    // xFE05 is a word: LDR R1, R5, #5, and STR R0, R5, #5.
    expect(&supervisor(&[0x6345], same), Keys::NONE, 1, &[(0xFE05, taken(0, Load))]);
    expect(&supervisor(&[0x7145], same), Keys::NONE, 1, &[(0xFE05, replaced(0, Store))]);
    let fetch = supervisor(&[], |record| record.pc = bus::DSR);
    expect(&fetch, Keys::NONE, 1, &[(bus::DSR, taken(0, Fetch))]);
    let pop = supervisor(&[0x8000], |record| record.regs[6] = bus::KBDR);
    expect(&pop, Keys::NONE, 1, &[(bus::KBDR, taken(0, Pop))]);
    // The stack wraps.
    let push = supervisor(&[0xF025], |record| record.regs[6] = 0x0000);
    let fates = [(0xFFFF, replaced(0, Push)), (bus::MCR, replaced(0, Push))];
    expect(&push, Keys::NONE, 1, &fates);
}

#[test]
fn a_pointer_from_a_device_register_is_the_one_of_its_step() {
    /// The instruction at xFE10, by the device register at `pointer`.
    fn at_xfe10(opcode: u16, pointer: u16, set: impl Fn(&mut Record)) -> Program {
        let mut program = supervisor(&[], |record| {
            record.pc = 0xFE10;
            set(record);
        });
        program.memory[0xFE10] = opcode | pointer.wrapping_sub(0xFE11) & 0x01FF;
        program
    }
    const LDI: u16 = 0xA000;
    const STI: u16 = 0xB000;
    let untouched = |at| (at, Fate::Untouched);
    // The key that arrives in the step, and not the one before it.
    let key = Keys { times: &[0, 1], bytes: b"AC" };
    let keyboard = at_xfe10(LDI, bus::KBDR, |record| record.kbdr = 0x42);
    let fates = [(0x0041, taken(0, Taking::Load)), untouched(0x0042), untouched(bus::KBDR)];
    expect(&keyboard, key, 1, &fates);
    // The timer becomes ready with the step.
    let timer = at_xfe10(STI, bus::TSR, |record| {
        (record.timer_interval, record.timer_count) = (9, 1);
    });
    let fates = [(0x8000, replaced(0, Replacing::Store)), untouched(0x0000), untouched(bus::TSR)];
    expect(&timer, key, 1, &fates);
    let interval = at_xfe10(LDI, bus::TIR, |record| {
        (record.timer_interval, record.timer_count) = (0x4000, 5);
    });
    expect(&interval, key, 1, &[(0x4000, taken(0, Taking::Load)), untouched(bus::TIR)]);
}

#[test]
fn a_step_that_a_full_output_stops_is_told_apart() {
    let pending = |step, by| Fate::Pending { step, by };
    let by_base = supervisor(&[STORE_DDR], |_| ());
    expect(&by_base, Keys::NONE, 5, &[(START, pending(0, Taking::Fetch))]);
    // BR; STI R0, x3003.
    let mut by_pointer = supervisor(&[0x0000, 0xB001, 0x0000, bus::DDR], |_| ());
    let fates = [
        (0x3000, taken(0, Taking::Fetch)),
        (0x3001, pending(1, Taking::Fetch)),
        (0x3003, pending(1, Taking::Pointer)),
        (0x3002, Fate::Untouched),
        (bus::DDR, Fate::Untouched),
    ];
    expect(&by_pointer, Keys::NONE, 5, &fates);
    // Where all steps asked for are made before it, it is none of the run.
    expect(&by_pointer, Keys::NONE, 1, &[(0x3001, Fate::Untouched), (0x3003, Fate::Untouched)]);
    by_pointer.output.push(0);
    expect(&by_pointer, Keys::NONE, 5, &[(0x3003, taken(1, Taking::Pointer))]);
}

#[test]
fn all_steps_asked_for_are_accepted_or_none_is_made() {
    let mut last = supervisor(&[0x3002], |record| record.clock = CLOCK_LIMIT - 1); // ST R0, x3003
    last.record.regs[0] = 7;
    let (record, lent) = (last.record, last.memory.clone());
    let mut reach = |n| fanthrig::reach(record, &mut last.memory, Keys::NONE, &mut [], n, 0x3003);
    assert_eq!(reach(2), Err(Error::Steps));
    assert_eq!(reach(STEP_LIMIT + 1), Err(Error::Steps));
    assert!(last.memory == lent, "a refused run altered memory");
    expect(&last, Keys::NONE, 1, &[(0x3003, replaced(0, Replacing::Store))]);
}

#[test]
fn each_fate_has_its_sentence() {
    let same = "all but the word is the same";
    let told = [
        (taken(3, Taking::Pop), format!("step 3 takes the word (pop): up to that step {same}")),
        (
            replaced(4, Replacing::Push),
            format!(
                "step 4 replaces the word (push) and none took it: up to that step {same}, and \
                 from there to the end all is"
            ),
        ),
        (
            Fate::Pending { step: 5, by: Taking::Fetch },
            format!(
                "the output is full before step 5, which would take the word (fetch): up to that \
                 step {same}"
            ),
        ),
        (
            Fate::Untouched,
            "no step takes or replaces the word: to the end all but it is the same".to_string(),
        ),
    ];
    for (fate, text) in told {
        assert_eq!(fate.to_string(), text);
    }
}
