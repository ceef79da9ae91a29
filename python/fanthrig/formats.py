"""Files that are plainly no object files of the book's tools, and what to do with them; text among
them, which may be a program (``fanthrig.programs``).

The library takes any file of an origin and words that fit memory, and many a file of another format
would. None is refused here that could be an object file: each format is told by bytes that no
program begins with but by design. Bytes that a host hands to ``fanthrig.Sitting`` are not looked
at: they are what the host says.
"""

from __future__ import annotations

import codecs
import re
import unicodedata

from .places import USER_WORDS
from .recording import from_high_first

LC3TOOLS = (
    "it is an object file of lc3tools, which has a format of its own: assemble its source with the "
    "book's lc3as, or another tool that writes an origin and words"
)
ELF = "it is a program for this computer (ELF), and no object file of the LC-3"
ZIP = "it is a ZIP archive: unpack it, and name the object files in it"
SWAPPED = (
    "the low byte of each of its words comes first, and that of an object file last: assemble it "
    "anew, or swap them, as by dd conv=swab"
)

UTF16 = "it is text in UTF-16, which some editors call Unicode: save it as UTF-8"

LC3TOOLS_BEGINS = bytes.fromhex("1C30 15C0 01")

# The bytes of the shortest header of an ELF file.
SHORTEST_ELF = 52

# A shorter file is taken for what it says it is.
SHORTEST_TEXT = 8

# Comments, and then an origin in binary or hexadecimal digits, alone in its line.
_BEGINS = re.compile(
    rb"(?:\xef\xbb\xbf)?(?:\s|;[^\r\n]*[\r\n])*"
    rb"(?:0?x[0-9a-f]{4}|[01](?:[ \t]*[01]){15})[ \t]*[;\r\n]",
    re.IGNORECASE,
)

# The words of TRAP x20 to x25, the services of the book's monitor.
SERVICES = range(0xF020, 0xF026)


class FormatError(ValueError):
    """A file of another format, and what to do with it."""


def other_format(data: bytes) -> str:
    """What a file plainly is that is no object file, with what to do; empty where it may be one.

    >>> other_format(b"PK\\x03\\x04...PK\\x01\\x02...")
    'it is a ZIP archive: unpack it, and name the object files in it'
    >>> other_format(bytes.fromhex("3000 F025"))
    ''
    """
    if data.startswith(LC3TOOLS_BEGINS):
        return LC3TOOLS
    # After its name an ELF file has its class, its order of bytes and its version.
    if data.startswith(b"\x7fELF") and len(data) >= SHORTEST_ELF:
        return ELF if data[4] in (1, 2) and data[5] in (1, 2) and data[6] == 1 else ""
    # After the files of a ZIP archive comes a list of them.
    return ZIP if data.startswith(b"PK\x03\x04") and b"PK\x01\x02" in data else ""


def is_text(data: bytes) -> bool:
    """Whether a file is text: lines of characters of UTF-8, and none of control but those that end
    lines and the like; or of Latin-1 where an assembler's .ORIG is among them; or one that begins
    as a program that is written as text (``fanthrig.programs``). Text without the end of a line may
    be the words of a string, two characters in each.

    >>> is_text(b"@@ehll oowlr!d"), is_text(b"x3000\\nxF025 ; Gr\\xfc\\xdfe\\n")
    (False, True)
    """
    if _BEGINS.match(data):
        return True
    if len(data) < SHORTEST_TEXT or not (b"\n" in data or b"\r" in data):
        return False
    try:
        text = data.decode("utf-8-sig")
    except UnicodeDecodeError:
        if b".orig" not in data.lower():
            return False
        text = data.decode("latin-1")
    return _is_plain(text)


def _is_plain(text: str) -> bool:
    """Whether a text has no control characters but those that end lines and the like."""
    # Their categories begin with C: words of memory have many of them.
    letters = set(text) - set("\t\n\f\r")
    return not any(unicodedata.category(letter).startswith("C") for letter in letters)


def is_utf16(data: bytes) -> bool:
    """Whether a file is plainly text in UTF-16: lines after a byte order mark, or without it lines
    of ASCII, or a program (``fanthrig.programs``).

    >>> is_utf16("x3000\\nxF025\\n".encode("utf-16")), is_utf16(bytes.fromhex("3000 F025 000A"))
    (True, False)
    """
    if len(data) < SHORTEST_TEXT:
        return False
    marked = data.startswith((codecs.BOM_UTF16_LE, codecs.BOM_UTF16_BE))
    for codec in ("utf-16",) if marked else ("utf-16-le", "utf-16-be"):
        text = data[: len(data) & ~1].decode(codec, "replace")
        plain = ("\n" in text or "\r" in text) and _is_plain(text)
        if plain and (marked or text.isascii() or _BEGINS.match(text.encode())):
            return True
    return False


def is_swapped(data: bytes) -> bool:
    """Whether a candidate's file that was refused is plainly one with the bytes of each word
    swapped: the other way round it lies in User mode's words and calls services, and as it stands
    it calls none. A file that was not refused is never asked about: it may be right.

    >>> is_swapped(bytes.fromhex("0030 25F0")), is_swapped(bytes.fromhex("0030 F025"))
    (True, False)
    """
    if len(data) < 2 or len(data) % 2:
        return False
    words = from_high_first(data)
    if any(word in SERVICES for word in words[1:]):
        return False
    words.byteswap()
    origin, count = words[0], len(words) - 1
    lies_right = origin in USER_WORDS and origin + count <= USER_WORDS.stop
    return lies_right and any(word in SERVICES for word in words[1:])
