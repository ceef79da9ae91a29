//! Random sittings in rings, whose every turn does what the other sittings seldom come to: it stores
//! an instruction by STI with a device register for its pointer and obeys it at once, or enters the
//! monitor from User mode, on a stack that may wrap.

use super::cases::Case;
use super::pages::set_call;
use super::sittings::{placed, written};
use super::Rng;
use crate::reference::bus;
use crate::reference::figure::Kind;
use crate::reference::machine;
use fanthrig::{Record, WORDS};

/// The vector words of the entries, and the routine that they lead to: RTI.
const VECTORS: [u16; 6] = [0x0025, 0x0100, 0x0101, 0x0102, 0x0180, 0x0181];
const ROUTINE: u16 = 0x0400;

/// A random sitting in a ring of either kind, with the keys and the output of its first call.
pub fn sitting(rng: &mut Rng) -> Case {
    let (record, patches) = if rng.once_in(2) { pointing(rng) } else { entering(rng) };
    let mut case = Case {
        record,
        memory_len: WORDS,
        patches,
        times: vec![],
        bytes: vec![],
        output: vec![],
        n: 0,
    };
    set_call(rng, &mut case);
    case
}

/// In Supervisor mode: R1, which is the next instruction each time, is stored where a register points
/// to, and obeyed there. At priority 7 nothing interrupts, and PSR is x0701 behind a positive result.
fn pointing(rng: &mut Rng) -> (Record, Vec<(u16, u16)>) {
    let (interval, key) = (0x3000 + rng.below(0xC000) as u16, rng.below(256) as u16);
    let (register, target) = rng.pick(&[
        (bus::KBSR, 0x4000),
        (bus::KBDR, key),
        (bus::DSR, 0x8000),
        (bus::DDR, 0x0000),
        (bus::TSR, 0x4000),
        (bus::TIR, interval),
        (bus::PSR, 0x0701),
        (bus::MCR, 0x8000),
    ]);
    let offset = rng.between(-250, 230);
    let at = register.wrapping_sub(2).wrapping_add_signed(-offset as i16);
    // ADD R1, R1, #1; STI R1; LD R2, #1; JMP R2. There: R1; LD R2, #1; JMP R2.
    let store = [0x1261, written(Kind::Sti, 1, 0, 0, offset), 0x2401, 0xC080, target];
    let obey = [0x16E0, 0x2401, 0xC080, at];
    let mut record = machine::fresh(at, false, 0xFDFF);
    record.psr = 0x0702;
    record.regs[1] = 0x16E0 + rng.below(16) as u16;
    record.kbsr = 0x4000;
    record.kbdr = key;
    record.timer_status = 0x4000;
    record.timer_interval = interval;
    record.timer_count = interval;
    (record, placed(target, &obey).chain(placed(at, &store)).collect())
}

/// In User mode, at a border of its memory: a TRAP, or an instruction that raises an exception, by a
/// label or R4 that leads beyond the border, by a pointer that does, by its opcode, or by the fetch.
fn entering(rng: &mut Rng) -> (Record, Vec<(u16, u16)>) {
    use Kind::*;
    let (page, beyond) = rng.pick(&[(0x3000, 0x2FFF), (0xFD00, 0xFE00)]);
    let at: u16 = page + rng.below(250) as u16;
    let label = i32::from(beyond) - i32::from(at) - 1;
    let kind = rng.pick(&[Ld, Ldi, Ldi, St, Sti, Sti, Ldr, Str, Jmp, Rti, Reserved, Trap]);
    let word = match kind {
        Ldi | Sti if rng.once_in(2) => written(kind, 0, 0, 0, 1),
        Ld | Ldi | St | Sti => written(kind, 0, 0, 0, label),
        Jmp => written(Jmp, 4, 0, 0, 0),
        Trap => written(Trap, 0, 0, 0, 0x25),
        _ => written(kind, 0, 4, 0, 0),
    };
    let mut record = machine::fresh(at, true, 0xFDFF);
    record.regs[4] = beyond;
    let stacks = [0, 0, 0, 1, 2, 0x3000, ROUTINE, ROUTINE + 1, at, at + 2, at + 4, at + 6];
    record.saved_ssp = rng.pick(&stacks);
    // The instruction, BRnzp back to it, and the pointer.
    let turn = [word, 0x0FFE, beyond];
    let vectors = VECTORS.map(|vector| (vector, ROUTINE));
    let routine = [(ROUTINE, 0x8000)];
    (record, vectors.into_iter().chain(routine).chain(placed(at, &turn)).collect())
}
