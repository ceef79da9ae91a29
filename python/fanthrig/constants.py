"""The sizes, limits, bits and addresses of lc3.h, under its names without ``LC3_``."""

__version__ = "0.1.0"
"""The version of the product, by the rules of semantic versioning. It is written here alone."""

VERSION = 7
"""The version of the interface that this package is written for."""

# Sizes and limits.
MEMORY_WORDS = 65536
MAX_STEPS = 1048576
MAX_CLOCK = 1 << 48
MAX_BUSY = 8
MAX_LINE = 17
LOG_WORDS = 3
VECTOR_WORDS = 512
MONITOR_WORDS = 677
WATCHED_WORDS = 8
STATE_NUMBERS = 17

# Bits of the PSR.
PSR_USER = 0x8000
PSR_PRIORITY = 0x0700
PSR_N = 0x0004
PSR_Z = 0x0002
PSR_P = 0x0001

# Bits of the device registers.
KBSR_READY = 0x8000
KBSR_INTERRUPT = 0x4000
KBDR_BYTE = 0x00FF
MCR_CLOCK = 0x8000
TSR_READY = 0x8000
TSR_INTERRUPT = 0x4000

# Addresses of the device registers.
ADDRESS_KBSR = 0xFE00
ADDRESS_KBDR = 0xFE02
ADDRESS_DSR = 0xFE04
ADDRESS_DDR = 0xFE06
ADDRESS_TSR = 0xFE08
ADDRESS_TIR = 0xFE0A
ADDRESS_PSR = 0xFFFC
ADDRESS_MCR = 0xFFFE

# What the header leaves to its readers: where programs and stacks stand when nothing is said.
USER_ORIGIN = 0x3000
USER_STACK = 0xFDFF
