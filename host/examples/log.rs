//! A candidate's program beside the ready-made monitor, step by step, as a marker reads it.
//!
//! The program shows a letter and then reaches for a privileged word; the monitor halts it. Each
//! line of the log has the step's number, PC, the word fetched, its line of text, and the reason.

use fanthrig::{logged_steps, run_logged, start, Keys, Mode, LOG_WORDS};

/// The program with its origin before it, as an object file has it.
const PROGRAM: [u16; 8] = [
    0x3000, // the origin
    0x2004, // LD   R0, #4     the letter
    0xF021, // TRAP x21        OUT
    0x2203, // LD   R1, #3     the address of the answers
    0x6440, // LDR  R2, R1, #0 which is privileged
    0xF025, // TRAP x25        HALT
    0x0041, // the letter A
    0x1000, // where the answers are
];

fn main() -> Result<(), fanthrig::Error> {
    let mut memory = fanthrig::memory();
    fanthrig::install_monitor(&mut memory);
    let file: Vec<u8> = PROGRAM.into_iter().flat_map(u16::to_be_bytes).collect();
    let record = start(&file, &mut memory, Mode::User, 0xFDFF)?.record;

    let (mut output, mut log) = ([0; 80], vec![0; 100 * LOG_WORDS]);
    let answer = run_logged(record, &mut memory, Keys::NONE, &mut output, &mut log, 1000)?;

    println!("step  PC     word   line              reason");
    for (number, step) in logged_steps(&log[..answer.logged]).enumerate() {
        println!("{number:>4}  {step}");
    }
    let shown = String::from_utf8_lossy(&output[..answer.run.shown]);
    println!("\nSteps made: {}; shown: {shown:?}; {}.", answer.run.steps, answer.run.stop);
    Ok(())
}
