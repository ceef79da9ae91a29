//! Two tasks that take turns by the timer.
//!
//! One task shows letters and the other digits, each for ever; neither ever gives way. The timer ends
//! a turn every 100 steps: its interrupt leads to SWITCH, below, which keeps the registers of the task
//! that was running and resumes the other one where it was. That is preemption.
//!
//! Both tasks run in User mode on the ready-made monitor, whose OUT they call to show a character. A
//! turn may end within OUT as well: each task has a supervisor stack of its own, and what is on it
//! waits there for the task's next turn.
//!
//! ```sh
//! make lib
//! cargo run --manifest-path host/Cargo.toml --example turns
//! ```

use fanthrig::{Keys, Memory, Mode, Record};
use std::fmt::Write;

/// Where the routines below stand, among them that of the timer's interrupt, word x0181.
const START: u16 = 0x0300;
const SWITCH: u16 = 0x0306;
const TIMER_VECTOR: usize = 0x0181;

/// The monitor's side. START sets the timer and resumes the first task. SWITCH ends a turn.
///
/// An interrupt enters with the task's PSR and PC pushed on its supervisor stack, to which R6 points.
/// SWITCH puts the other registers on top of them, and so R6 is all that it has to remember of a task.
/// It runs at priority 6, so that the timer does not interrupt it. R6 of User mode is not kept: a
/// program has no way to reach Saved_USP, and these tasks do not use a stack in User mode.
const ROUTINES: [u16; 33] = [
    0x201A, // x0300  START   LD    R0, SLICE    ; the timer counts from this store on
    0xB01C, // x0301          STI   R0, TIR
    0x2019, // x0302          LD    R0, ENABLE   ; and may interrupt
    0xB019, // x0303          STI   R0, TSR
    0x2C1A, // x0304          LD    R6, FIRST    ; the first turn begins
    0x0E0C, // x0305          BRnzp RESUME
    0x1DB9, // x0306  SWITCH  ADD   R6, R6, #-7  ; keep the registers of the task that was running
    0x7180, // x0307          STR   R0, R6, #0
    0x7381, // x0308          STR   R1, R6, #1
    0x7582, // x0309          STR   R2, R6, #2
    0x7783, // x030A          STR   R3, R6, #3
    0x7984, // x030B          STR   R4, R6, #4
    0x7B85, // x030C          STR   R5, R6, #5
    0x7F86, // x030D          STR   R7, R6, #6
    0xA00E, // x030E          LDI   R0, TSR      ; this load clears ready: else RTI would lead back here
    0x2010, // x030F          LD    R0, OTHER    ; change stacks with the task that waited
    0x3C0F, // x0310          ST    R6, OTHER
    0x1C20, // x0311          ADD   R6, R0, #0
    0x6180, // x0312  RESUME  LDR   R0, R6, #0   ; its registers as they were
    0x6381, // x0313          LDR   R1, R6, #1
    0x6582, // x0314          LDR   R2, R6, #2
    0x6783, // x0315          LDR   R3, R6, #3
    0x6984, // x0316          LDR   R4, R6, #4
    0x6B85, // x0317          LDR   R5, R6, #5
    0x6F86, // x0318          LDR   R7, R6, #6
    0x1DA7, // x0319          ADD   R6, R6, #7
    0x8000, // x031A          RTI                ; and its PC and PSR
    0x0064, // x031B  SLICE   .FILL x0064        ; a turn is 100 steps
    0x4000, // x031C  ENABLE  .FILL x4000
    0xFE08, // x031D  TSR     .FILL xFE08
    0xFE0A, // x031E  TIR     .FILL xFE0A
    0x2FF7, // x031F  FIRST   .FILL x2FF7        ; R6 of the task that begins
    0x2EF7, // x0320  OTHER   .FILL x2EF7        ; R6 of the task that waits
];

/// A task: it shows the characters from one to another, and begins again. These are the letters.
const TASK: [u16; 9] = [
    0x2006, // x3000  BEGIN   LD    R0, FROM
    0xF021, // x3001  SHOW    TRAP  x21          ; OUT
    0x1021, // x3002          ADD   R0, R0, #1
    0x2204, // x3003          LD    R1, PAST
    0x1201, // x3004          ADD   R1, R0, R1
    0x09FB, // x3005          BRn   SHOW
    0x0FF9, // x3006          BRnzp BEGIN
    0x0041, // x3007  FROM    .FILL x0041        ; A
    0xFFA5, // x3008  PAST    .FILL xFFA5        ; the character after Z, negated
];

/// The names of the tasks, and where they stand.
const TASKS: [(&str, u16); 2] = [("letters", 0x3000), ("digits", 0x4000)];

/// The object file of words from an origin on.
fn file(origin: u16, words: &[u16]) -> Vec<u8> {
    [&[origin], words].concat().into_iter().flat_map(u16::to_be_bytes).collect()
}

/// Puts a task into memory, and on its supervisor stack what SWITCH would have left there: R0 to R5
/// and R7, and PC and PSR of a start in User mode. Answers R6.
fn install(
    memory: &mut Memory,
    task: &[u16],
    at: u16,
    supervisor_stack: u16,
) -> Result<u16, fanthrig::Error> {
    let Record { pc, psr, .. } =
        fanthrig::start(&file(at, task), memory, Mode::User, 0xFDFF)?.record;
    let frame = [0, 0, 0, 0, 0, 0, 0, pc, psr];
    let r6 = supervisor_stack - frame.len() as u16;
    memory[usize::from(r6)..][..frame.len()].copy_from_slice(&frame);
    Ok(r6)
}

/// The memory of the whole: monitor, both tasks, and routines. These are started last, and theirs is
/// the record to begin with.
fn machine() -> Result<(Record, Box<Memory>), fanthrig::Error> {
    let mut memory = fanthrig::memory();
    fanthrig::install_monitor(&mut memory);
    memory[TIMER_VECTOR] = SWITCH;
    let mut digits = TASK;
    (digits[7], digits[8]) = (u16::from(b'0'), u16::from(b'9' + 1).wrapping_neg());
    let first = install(&mut memory, &TASK, TASKS[0].1, 0x3000)?;
    let other = install(&mut memory, &digits, TASKS[1].1, 0x2F00)?;
    assert_eq!([first, other], ROUTINES[31..], "FIRST and OTHER");
    let routines = file(START, &ROUTINES);
    let record = fanthrig::start(&routines, &mut memory, Mode::Supervisor, 0xFDFF)?.record;
    Ok((record, memory))
}

/// Runs so many turns, and tells of each when and where it ended and what it showed.
fn report(turns: usize) -> Result<String, fanthrig::Error> {
    let (mut record, mut memory) = machine()?;
    let (mut display, mut text) = (String::new(), String::new());
    text.push_str("turn  task     ended at step  interrupted at  showed\n");
    for turn in 1..=turns {
        let (task, _) = TASKS[(turn - 1) % TASKS.len()];
        let mut showed = String::new();
        loop {
            let mut byte = [0];
            let step = fanthrig::step(&mut record, &mut memory, Keys::NONE, &mut byte)?;
            showed.extend(byte[..step.shown].iter().map(|&byte| char::from(byte)));
            // A turn ends with the step that is the interrupt, which leads to SWITCH.
            if record.pc == SWITCH {
                break;
            }
        }
        let (clock, interrupted) = (record.clock, memory[usize::from(record.regs[6])]);
        writeln!(text, "{turn:>4}  {task:<7}  {clock:>13}  x{interrupted:04X}           {showed}")
            .expect("a string takes any text");
        display.push_str(&showed);
    }
    writeln!(text, "\nThe display:\n\n{display}").expect("a string takes any text");
    Ok(text)
}

fn main() -> Result<(), fanthrig::Error> {
    print!("{}", report(12)?);
    Ok(())
}

#[cfg(test)]
mod tests {
    use super::report;

    /// What `main` prints. Turns 9 and 11 end at x0208, the very store to DDR that shows a letter: it
    /// waits for the task's next turn, and the letter is not lost.
    const EXPECTED: &str = "\
turn  task     ended at step  interrupted at  showed
   1  letters            102  x020A           ABCDEFG
   2  digits             202  x4005           012345
   3  letters            302  x020A           HIJKLM
   4  digits             402  x4003           678901
   5  letters            502  x020A           NOPQRS
   6  digits             602  x4003           234567
   7  letters            702  x020A           TUVWXY
   8  digits             802  x020B           890123
   9  letters            902  x0208           ZABCD
  10  digits            1002  x020B           456789
  11  letters           1102  x0208           EFGHIJ
  12  digits            1202  x0209           012345

The display:

ABCDEFG012345HIJKLM678901NOPQRS234567TUVWXY890123ZABCD456789EFGHIJ012345
";

    #[test]
    fn the_tasks_take_turns() {
        assert_eq!(report(12).as_deref(), Ok(EXPECTED));
    }

    /// In 1000 turns no character is lost or shown twice, wherever a turn ends.
    #[test]
    fn each_task_shows_its_characters_in_order() {
        let text = report(1000).expect("accepted");
        let display = text.split_once("The display:\n\n").expect("the display").1.trim_end();
        for characters in ["ABCDEFGHIJKLMNOPQRSTUVWXYZ", "0123456789"] {
            let shown: Vec<char> = display.chars().filter(|c| characters.contains(*c)).collect();
            assert!(shown.len() > 2000);
            assert!(shown.iter().copied().eq(characters.chars().cycle().take(shown.len())));
        }
    }
}
