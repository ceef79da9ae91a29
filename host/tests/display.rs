//! The display takes its time: what DSR gives and DDR does in each step after a byte, on the library
//! and on the reference simulator.

mod reference;
mod support;

use fanthrig::{Mode, Stop};
use support::program::{Program, LOAD_DSR, START, STORE_DDR};

/// The steps for which a display is busy after a byte.
const BUSY: u16 = 8;

/// The program with a letter in R0.
fn program(words: &[u16], room: usize) -> Program {
    let mut program = Program::new(words, room);
    program.record.regs[0] = u16::from(b'A');
    program
}

#[test]
fn dsr_is_ready_again_in_the_ninth_step_after_a_byte() {
    let mut program = program(&[&[STORE_DDR][..], &[LOAD_DSR; 9]].concat(), 1);
    assert_eq!((program.step().shown, program.record.busy), (1, BUSY));
    for step in 1..=9 {
        program.step();
        assert_eq!(program.record.regs[1], if step < 9 { 0 } else { 0x8000 }, "step {step}");
        assert_eq!(program.record.busy, BUSY.saturating_sub(step), "step {step}");
    }
}

#[test]
fn a_byte_stored_while_the_display_is_busy_is_lost() {
    for later in 1..=9 {
        let mut words = [0; 10];
        (words[0], words[usize::from(later)]) = (STORE_DDR, STORE_DDR);
        let mut program = program(&words, 2);
        program.run(u64::from(later));
        let busy = program.record.busy;
        assert_eq!(busy, BUSY - (later - 1));
        program.record.regs[0] = u16::from(b'B');
        let second = program.step();
        assert_eq!((second.steps, second.stop), (1, Stop::Done), "the step is made");
        if later < 9 {
            assert_eq!((second.shown, program.record.busy), (0, busy - 1), "step {later}");
            assert_eq!(program.output, [b'A', 0]);
        } else {
            assert_eq!((second.shown, program.record.busy), (1, BUSY));
            assert_eq!(program.output, *b"AB");
        }
    }
}

/// A lost byte needs no room: the output is full once the display is ready for one.
#[test]
fn a_full_output_is_answered_where_the_display_is_not_busy() {
    let mut program = program(&[STORE_DDR, 0x0FFE], 1); // and BRnzp START
    let run = program.run(100);
    assert_eq!((run.steps, run.shown, run.stop), (10, 1, Stop::OutputFull));
    let stopped = program.record;
    assert_eq!((stopped.busy, stopped.pc), (0, START));
    assert_eq!(program.step().stop, Stop::OutputFull);
    assert_eq!(program.record, stopped);
    program.output.push(0);
    let run = program.run(100);
    assert_eq!((run.steps, run.shown, run.stop), (10, 1, Stop::OutputFull));
}

#[test]
fn a_store_without_room_is_made_at_every_count_but_0() {
    for busy in 0..=BUSY {
        let mut program = program(&[STORE_DDR], 0);
        program.record.busy = busy;
        let full = program.step().stop == Stop::OutputFull;
        assert_eq!((full, program.record.busy), (busy == 0, busy.saturating_sub(1)));
    }
}

/// ADD, TRAP, RTI and the reserved opcode; and interrupts in their places.
#[test]
fn the_count_falls_in_every_kind_of_step() {
    for word in [0x1021, 0xF025, 0x8000, 0xD000] {
        for (kbsr, busy) in [0x0000, 0xC000].into_iter().flat_map(|k| (0..=8).map(move |b| (k, b)))
        {
            let mut program = program(&[word], 0);
            (program.record.kbsr, program.record.busy) = (kbsr, busy);
            program.memory[0x0180] = 0x1180;
            assert_eq!(program.step().steps, 1);
            assert_eq!(program.record.busy, busy.saturating_sub(1));
            assert_eq!(program.record.pc == 0x1180, kbsr != 0);
        }
    }
}

#[test]
fn user_mode_meets_the_access_exception_whatever_the_count() {
    for word in [LOAD_DSR, STORE_DDR] {
        for busy in 0..=BUSY {
            let mut program = Program::in_mode(Mode::User, &[word], 0);
            program.record.busy = busy;
            program.memory[0x0102] = 0x1102;
            assert_eq!((program.step().shown, program.record.pc), (0, 0x1102));
        }
    }
}

/// HALT of the ready-made monitor shows seven bytes and waits before each.
#[test]
fn a_run_may_be_split_while_the_display_is_busy() {
    let mut halt = program(&[0xF025], 7);
    fanthrig::install_monitor(&mut halt.memory);
    let mut counts = [0; 9];
    halt.assert_splits(1000, |record| counts[usize::from(record.busy)] += 1);
    assert!(counts.iter().all(|&splits| splits > 0), "splits by the busy count: {counts:?}");
    assert_eq!((halt.run(1000).stop, &halt.output[..]), (Stop::Halted, &b"Halted\n"[..]));
}
