//! The constants of `lc3.h`, under its names.

/// The version of the interface.
pub const LC3_VERSION: u32 = 7;

/// Words of memory: no other number is accepted.
pub const LC3_MEMORY_WORDS: usize = 65_536;
/// The most steps of one call.
pub const LC3_MAX_STEPS: u64 = 1_048_576;
/// The clock never passes this.
pub const LC3_MAX_CLOCK: u64 = 1 << 48;
/// The steps for which the display is busy after it has shown a byte.
pub const LC3_MAX_BUSY: u16 = 8;
/// Bytes of the longest line, its line feed included.
pub const LC3_MAX_LINE: usize = 17;
/// Words of one step in a log.
pub const LC3_LOG_WORDS: usize = 3;
/// The vector words, x0000 to x01FF.
pub const LC3_VECTOR_WORDS: usize = 512;
/// The words of the ready-made monitor, x0000 to x02A4.
pub const LC3_MONITOR_WORDS: usize = 677;
/// The watched words of a claim about a monitor.
pub const LC3_WATCHED_WORDS: usize = 8;
/// The numbers of one state in its table.
pub const LC3_STATE_NUMBERS: usize = 17;

/// Bit of the PSR: set in User mode, clear in Supervisor mode.
pub const LC3_PSR_USER: u16 = 0x8000;
/// Bits of the PSR: the priority level.
pub const LC3_PSR_PRIORITY: u16 = 0x0700;
/// Bit of the PSR: the code N.
pub const LC3_PSR_N: u16 = 0x0004;
/// Bit of the PSR: the code Z.
pub const LC3_PSR_Z: u16 = 0x0002;
/// Bit of the PSR: the code P.
pub const LC3_PSR_P: u16 = 0x0001;

/// Bit of KBSR: a key has arrived, and KBDR has not been loaded since.
pub const LC3_KBSR_READY: u16 = 0x8000;
/// Bit of KBSR: interrupt enable.
pub const LC3_KBSR_INTERRUPT: u16 = 0x4000;
/// Bits of KBDR: the last key.
pub const LC3_KBDR_BYTE: u16 = 0x00FF;
/// Bit of MCR: clock enable; a machine with this bit clear is halted.
pub const LC3_MCR_CLOCK: u16 = 0x8000;
/// Bit of TSR: the interval has passed, and TSR has not been loaded since.
pub const LC3_TSR_READY: u16 = 0x8000;
/// Bit of TSR: interrupt enable.
pub const LC3_TSR_INTERRUPT: u16 = 0x4000;

/// Address of the keyboard's status.
pub const LC3_ADDRESS_KBSR: u16 = 0xFE00;
/// Address of the keyboard's data.
pub const LC3_ADDRESS_KBDR: u16 = 0xFE02;
/// Address of the display's status.
pub const LC3_ADDRESS_DSR: u16 = 0xFE04;
/// Address of the display's data.
pub const LC3_ADDRESS_DDR: u16 = 0xFE06;
/// Address of the timer's status.
pub const LC3_ADDRESS_TSR: u16 = 0xFE08;
/// Address of the timer's interval.
pub const LC3_ADDRESS_TIR: u16 = 0xFE0A;
/// Address of the processor status.
pub const LC3_ADDRESS_PSR: u16 = 0xFFFC;
/// Address of the machine control.
pub const LC3_ADDRESS_MCR: u16 = 0xFFFE;

/// Refusal: none.
pub const LC3_ACCEPTED: u32 = 0;
/// Refusal: a register is above 7.
pub const LC3_REFUSED_REGISTER: u32 = 1;
/// Refusal: a value is out of its field's range, or the kind is unknown.
pub const LC3_REFUSED_FIELD: u32 = 2;
/// Refusal: the mask of a BR is above 7.
pub const LC3_REFUSED_MASK: u32 = 3;
/// Refusal: memory is not [`LC3_MEMORY_WORDS`] words.
pub const LC3_REFUSED_MEMORY: u32 = 11;
/// Refusal: the record has an undefined bit, a busy count above [`LC3_MAX_BUSY`], a timer count above
/// the interval, or 0 with an interval set, or a clock above [`LC3_MAX_CLOCK`].
pub const LC3_REFUSED_RECORD: u32 = 12;
/// Refusal: more than [`LC3_MAX_STEPS`] steps, or a clock that would pass [`LC3_MAX_CLOCK`].
pub const LC3_REFUSED_STEPS: u32 = 13;
/// Refusal: times and bytes differ in length.
pub const LC3_REFUSED_LISTS: u32 = 14;
/// Refusal: a time is below the clock.
pub const LC3_REFUSED_TIME: u32 = 15;
/// Refusal: the line, page, file or vector words do not fit the output.
pub const LC3_REFUSED_OUTPUT: u32 = 16;
/// Refusal: the file has an odd number of bytes, or fewer than two.
pub const LC3_REFUSED_FILE: u32 = 17;
/// Refusal: the range goes beyond the last word of memory.
pub const LC3_REFUSED_RANGE: u32 = 18;
/// Refusal: a time is below the one before it, and not below the clock.
pub const LC3_REFUSED_ORDER: u32 = 19;
/// Refusal: the page goes beyond the last word of memory.
pub const LC3_REFUSED_PAGE: u32 = 20;
/// Refusal: the origin or a word of the file lies outside x3000 to xFDFF.
pub const LC3_REFUSED_USER: u32 = 21;

/// Stop: all steps asked for were made.
pub const LC3_DONE: u32 = 0;
/// Stop: the MCR's clock enable is clear.
pub const LC3_HALTED: u32 = 1;
/// Stop: the next step would show a byte, and the output has no free one.
pub const LC3_OUTPUT_FULL: u32 = 2;
/// Stop: fewer than [`LC3_LOG_WORDS`] words of the log are free.
pub const LC3_LOG_FULL: u32 = 3;

/// Reason in a log: an instruction, obeyed to its end.
pub const LC3_REASON_INSTRUCTION: u16 = 0;
/// Reason in a log: the entry for a TRAP.
pub const LC3_REASON_TRAP: u16 = 1;
/// Reason in a log: the exception of an RTI in User mode.
pub const LC3_REASON_PRIVILEGE: u16 = 2;
/// Reason in a log: the exception of the reserved opcode.
pub const LC3_REASON_ILLEGAL: u16 = 3;
/// Reason in a log: the exception of an access to a privileged address.
pub const LC3_REASON_ACCESS: u16 = 4;
/// Reason in a log: the keyboard's interrupt.
pub const LC3_REASON_KEYBOARD: u16 = 5;
/// Reason in a log: the timer's interrupt.
pub const LC3_REASON_TIMER: u16 = 6;

/// Kind: `BR`.
pub const LC3_BR: u8 = 0;
/// Kind: `ADD DR, SR1, SR2`.
pub const LC3_ADD_REGISTER: u8 = 1;
/// Kind: `ADD DR, SR1, imm5`.
pub const LC3_ADD_IMMEDIATE: u8 = 2;
/// Kind: `LD`.
pub const LC3_LD: u8 = 3;
/// Kind: `ST`.
pub const LC3_ST: u8 = 4;
/// Kind: `JSR`.
pub const LC3_JSR: u8 = 5;
/// Kind: `JSRR`.
pub const LC3_JSRR: u8 = 6;
/// Kind: `AND DR, SR1, SR2`.
pub const LC3_AND_REGISTER: u8 = 7;
/// Kind: `AND DR, SR1, imm5`.
pub const LC3_AND_IMMEDIATE: u8 = 8;
/// Kind: `LDR`.
pub const LC3_LDR: u8 = 9;
/// Kind: `STR`.
pub const LC3_STR: u8 = 10;
/// Kind: `RTI`.
pub const LC3_RTI: u8 = 11;
/// Kind: `NOT`.
pub const LC3_NOT: u8 = 12;
/// Kind: `LDI`.
pub const LC3_LDI: u8 = 13;
/// Kind: `STI`.
pub const LC3_STI: u8 = 14;
/// Kind: `JMP`.
pub const LC3_JMP: u8 = 15;
/// Kind: the reserved opcode 13.
pub const LC3_RESERVED: u8 = 16;
/// Kind: `LEA`.
pub const LC3_LEA: u8 = 17;
/// Kind: `TRAP`.
pub const LC3_TRAP: u8 = 18;

/// What [`lc3_certify`](crate::lc3_certify) finds wrong: nothing.
pub const LC3_CERTIFIED: u32 = 0;
/// The watched words are not eight.
pub const LC3_WRONG_WATCHED: u32 = 1;
/// The monitor's words leave no room for its stack.
pub const LC3_WRONG_ROOM: u32 = 2;
/// A vector is not fixed, or the table misses its entry.
pub const LC3_WRONG_VECTOR: u32 = 3;
/// The same of an interrupt's, or it does not lead to a lone RTI.
pub const LC3_WRONG_INTERRUPT: u32 = 4;
/// The table has a state for a word that is not fixed.
pub const LC3_WRONG_WORD: u32 = 5;
/// The stack is not known in a state.
pub const LC3_WRONG_STACK: u32 = 6;
/// The instruction is not allowed from a state, or leads to one that the table does not cover.
pub const LC3_WRONG_INSTRUCTION: u32 = 7;
