//! The timer: when it is ready, what its registers do, and when it interrupts, on the library and on
//! the reference simulator.

mod reference;
mod support;

use fanthrig::{Mode, Record, Stop};
use support::program::{Program, LOAD_TIR, LOAD_TSR, START, STORE_DDR, STORE_TIR, STORE_TSR};

const READY: u16 = 0x8000;
const ENABLE: u16 = 0x4000;
const STATUSES: [u16; 4] = [0, ENABLE, READY, READY | ENABLE];

/// What the words x0180 and x0181 hold, so that PC tells which interrupt was taken.
const KEYBOARD: u16 = 0x1180;
const TIMER: u16 = 0x1181;

fn program(words: &[u16]) -> Program {
    let mut program = Program::new(words, 1);
    (program.memory[0x0180], program.memory[0x0181]) = (KEYBOARD, TIMER);
    program
}

/// The timer's status, interval and count.
fn timer(program: &Program) -> (u16, u16, u16) {
    let Record { timer_status, timer_interval, timer_count, .. } = program.record;
    (timer_status, timer_interval, timer_count)
}

fn set_timer(program: &mut Program, status: u16, interval: u16, count: u16) {
    let Record { timer_status, timer_interval, timer_count, .. } = &mut program.record;
    (*timer_status, *timer_interval, *timer_count) = (status, interval, count);
}

#[test]
fn the_timer_is_ready_at_the_end_of_each_interval() {
    for interval in 1..=12 {
        let mut program = program(&[STORE_TIR]);
        program.record.regs[0] = interval;
        program.step();
        assert_eq!(timer(&program), (0, interval, interval));
        for step in 1..=40 {
            program.step();
            let left = interval - step % interval;
            let ready = if step % interval == 0 { READY } else { 0 };
            assert_eq!(timer(&program), (ready, interval, left), "step {step} of {interval}");
            program.record.timer_status = 0;
        }
    }
}

#[test]
fn without_an_interval_nothing_counts() {
    for status in [0, ENABLE, READY] {
        let mut program = program(&[]);
        set_timer(&mut program, status, 0, 0);
        program.run(100);
        assert_eq!(timer(&program), (status, 0, 0));
    }
}

#[test]
fn a_store_to_the_interval_starts_it_anew_and_leaves_ready_alone() {
    for status in [0, ENABLE, READY] {
        for value in [0, 1, 5, 0xFFFF] {
            let mut program = program(&[STORE_TIR, LOAD_TIR]);
            set_timer(&mut program, status, 9, 4);
            program.record.regs[0] = value;
            program.step();
            assert_eq!(timer(&program), (status, value, value));
            program.record.timer_status = 0;
            program.step();
            assert_eq!(program.record.regs[1], value);
        }
    }
}

#[test]
fn a_store_to_the_status_copies_enable_alone() {
    for (status, value) in
        STATUSES.iter().flat_map(|&s| [0, 0x3FFF, ENABLE, 0xFFFF].map(|v| (s, v)))
    {
        let mut program = program(&[STORE_TSR]);
        set_timer(&mut program, status, 9, 4);
        // At priority 7 nothing interrupts.
        (program.record.psr, program.record.regs[0]) = (0x0702, value);
        program.step();
        assert_eq!(timer(&program), (status & READY | value & ENABLE, 9, 3));
    }
}

/// Also in the step with which the interval passes, which gives ready and leaves it clear.
#[test]
fn a_load_of_the_status_clears_ready_and_gives_it_as_it_was() {
    for status in STATUSES {
        for (count, found) in [(4, status), (1, status | READY)] {
            let mut program = program(&[LOAD_TSR, LOAD_TSR]);
            set_timer(&mut program, status, 9, count);
            program.record.psr = 0x0702;
            program.step();
            assert_eq!(program.record.regs[1], found);
            assert_eq!(program.record.timer_status, status & ENABLE);
            program.step();
            assert_eq!(program.record.regs[1], status & ENABLE);
        }
    }
}

/// As the pointer of an LDI, x8000 or xC000 of a ready timer leads to a word there.
#[test]
fn a_pointer_access_clears_ready_too() {
    let mut program = program(&[]);
    let at = 0xFE00;
    program.memory[at] = 0xA207; // LDI R1, xFE08
    program.memory[0x8000] = 0x1234;
    (program.record.pc, program.record.timer_status) = (at as u16, READY);
    program.step();
    assert_eq!((program.record.regs[1], program.record.timer_status), (0x1234, 0));
}

/// Every priority, every status of both devices, both modes.
#[test]
fn the_timer_interrupts_below_priority_6_and_before_the_keyboard() {
    for (kbsr, status) in STATUSES.iter().flat_map(|&k| STATUSES.map(|status| (k, status))) {
        for (priority, user) in (0..8).flat_map(|p| [(p, 0x0000), (p, 0x8000)]) {
            let mut program = program(&[]);
            program.record = Record { psr: user | priority << 8 | 2, kbsr, ..program.record };
            program.record.saved_ssp = program.record.regs[6];
            program.record.timer_status = status;
            program.step();
            let both = READY | ENABLE;
            let (pc, level) = if status == both && priority < 6 {
                (TIMER, 6)
            } else if kbsr == both && priority < 4 {
                (KEYBOARD, 4)
            } else {
                (START + 1, priority)
            };
            let entered = pc != START + 1;
            let mode = if entered { 0 } else { user };
            assert_eq!((program.record.pc, program.record.psr), (pc, mode | level << 8 | 2));
            if entered {
                assert_eq!(program.memory[0x2FFE..0x3000], [START, user | priority << 8 | 2]);
            }
            // Entry clears nothing.
            assert_eq!((program.record.kbsr, program.record.timer_status), (kbsr, status));
        }
    }
}

#[test]
fn the_interrupt_comes_in_the_very_step_in_which_the_interval_passes() {
    for interval in 1..=5 {
        let mut program = program(&[STORE_TIR]);
        (program.record.regs[0], program.record.timer_status) = (interval, ENABLE);
        program.run(u64::from(interval));
        assert_eq!(program.record.pc, START + interval);
        program.step();
        assert_eq!((program.record.pc, program.record.psr), (TIMER, 0x0602));
        assert_eq!(timer(&program), (READY | ENABLE, interval, interval));
        assert_eq!(program.memory[0x2FFE], START + interval);
    }
}

/// The keyboard's interrupt waits for the return of the timer's routine, and then comes at once.
#[test]
fn the_keyboard_goes_after_the_timer() {
    let mut program = program(&[]);
    program.memory[usize::from(TIMER)..][..2].copy_from_slice(&[LOAD_TSR, 0x8000]); // and RTI
    (program.record.kbsr, program.record.timer_status) = (READY | ENABLE, READY | ENABLE);
    let mut places = Vec::new();
    for _ in 0..4 {
        program.step();
        places.push(program.record.pc);
    }
    assert_eq!(places, [TIMER, TIMER + 1, START, KEYBOARD]);
}

/// Done, halted and output full, each with the interval about to pass.
#[test]
fn a_stopped_step_counts_nothing() {
    for (mcr, n, stop) in
        [(READY, 0, Stop::Done), (0, 1, Stop::Halted), (READY, 1, Stop::OutputFull)]
    {
        let mut program = program(&[STORE_DDR]);
        program.output.clear();
        set_timer(&mut program, 0, 3, 1);
        program.record.mcr = mcr;
        let before = program.record;
        assert_eq!(program.run(n).stop, stop);
        assert_eq!(program.record, before);
    }
}

/// An interrupt in the place of the store: then no byte is to be shown, and none is missed.
#[test]
fn a_full_output_gives_way_to_the_interrupt() {
    let mut program = program(&[STORE_DDR]);
    program.output.clear();
    set_timer(&mut program, ENABLE, 3, 1);
    assert_eq!((program.step().stop, program.record.pc), (Stop::Done, TIMER));
}

#[test]
fn user_mode_meets_the_access_exception() {
    for word in [LOAD_TSR, STORE_TSR, LOAD_TIR, STORE_TIR] {
        let mut program = Program::in_mode(Mode::User, &[word], 1);
        set_timer(&mut program, READY, 5, 5);
        program.memory[0x0102] = 0x1102;
        program.step();
        assert_eq!((program.record.pc, timer(&program)), (0x1102, (READY, 5, 4)));
    }
}

/// The addresses beside the registers are plain words, and so are theirs to fetches.
#[test]
fn the_neighbours_are_plain_words() {
    for (load, store, address) in [(0x6349, 0x7149, 0xFE09), (0x634B, 0x714B, 0xFE0B)] {
        let mut program = program(&[store, load]); // by R5, offsets 9 and 11
        program.record.regs[0] = 0xBEEF;
        program.run(2);
        assert_eq!((program.memory[address], program.record.regs[1]), (0xBEEF, 0xBEEF));
        assert_eq!(timer(&program), (0, 0, 0));
    }
    for at in [0xFE08, 0xFE0A] {
        let mut program = program(&[]);
        program.memory[usize::from(at)] = 0x1021; // ADD R0, R0, #1
        (program.record.pc, program.record.timer_status) = (at, READY);
        program.step();
        assert_eq!((program.record.regs[0], timer(&program)), (1, (READY, 0, 0)));
    }
}

/// A routine that clears ready, and a program that counts: interrupts go on across calls.
#[test]
fn a_run_may_be_split_while_the_timer_counts() {
    for interval in 1..=9 {
        let mut program = program(&[0x1021, 0x0FFE]); // ADD R0, R0, #1 and BRnzp START
        program.memory[usize::from(TIMER)..][..2].copy_from_slice(&[LOAD_TSR, 0x8000]);
        set_timer(&mut program, ENABLE, interval, interval);
        let mut counts = vec![0; usize::from(interval) + 1];
        program.assert_splits(60, |record| counts[usize::from(record.timer_count)] += 1);
        assert!(counts[1..].iter().all(|&splits| splits > 0), "splits by the count: {counts:?}");
    }
}
