"""What the characters of a record ask for, in words, by the tables of document 002. It reads the form alone: whether a record was
taken is for the board to say."""
from typing import NamedTuple

from names import BSB, BYTES, FIXED_BYTES, HSB, LEVELS, SBV, SECURITY_BYTE
from phrases import counted, in_words, span

MARK, DIGITS = ":", "0123456789ABCDEFabcdef"
FEWEST = 11  # characters of a record without data: the mark, and two for each byte of length, load offset, type and checksum
MOST_PROGRAM, FLASH_SIZE = 128, 65536
NOT_OURS = "the loader has no such record"
HEX_LINES = {0x01: "end", 0x05: "start"}

BLOCKS = {0x00: (0x0000, 0x1FFF), 0x20: (0x2000, 0x3FFF), 0x40: (0x4000, 0x7FFF), 0x80: (0x8000, 0xFFFF)}
SSB_LEVELS = {0x00: 0xFE, 0x01: 0xFC}  # what the two rows of "Program SSB" write
FUSES = {0x04: ("BLJB", 6), 0x08: ("X2", 7)}  # bits of the HSB
BIT_VALUES = {0: "0, programmed", 1: "1, unprogrammed"}
AFTER_ERASE = {BSB: 0xFF, SBV: 0xF0, SECURITY_BYTE: 0xFF}  # what a full chip erase writes besides the flash
SETTINGS = {(0x07, 0x00): SECURITY_BYTE, (0x07, 0x01): BSB, (0x07, 0x02): SBV, (0x0B, 0x00): HSB}
READS = {(0x00, at): name for at, name in enumerate(FIXED_BYTES.values())}
READS |= {code: BYTES[index] for code, index in SETTINGS.items()}
READS |= {(0x0E, 0x00): "device ID1", (0x0E, 0x01): "device ID2", (0x0F, 0x00): "the version"}


class Record(NamedTuple):
    """A record: its kind, its words, for a range of flash its start and end, for a program record its bytes, for a start at an address
    that address; which byte it reads; and which bytes of the configuration it writes, each with its value and the bits that it changes.
    A kind `none` is no command, and `why` says why; `passed over` is a line that only a HEX file needs."""

    kind: str
    words: str
    start: int = 0
    end: int = -1
    given: bytes = b""
    why: str = ""
    address: int | None = None
    byte: int | None = None
    written: tuple = ()
    whole: bool = False  # an erase of the full chip
    damaged: bool = False  # its checksum does not fit its bytes

    @property
    def fault(self):
        """Why a board answers 17, as far as the record's own characters tell; empty where they tell nothing."""
        if self.kind in ("none", "passed over"):
            return self.why
        if self.kind == "program" and not 0 < len(self.given) <= MOST_PROGRAM:
            return f"a program record has 1 to {MOST_PROGRAM} bytes, and this has {len(self.given)}"
        if self.kind == "program" and self.end >= FLASH_SIZE:
            return "its last byte would stand past FFFFh"
        if self.kind in ("display", "blank check") and self.end < self.start:
            return "its range is backward, the start after the end"
        return ""


def no_command(why):
    return Record("none", "no command", why=why)


def form_fault(text):
    """What is wrong with the characters, before a byte is looked at; empty if nothing is."""
    if not text.startswith(MARK):
        return "it does not begin with a colon" + (" but with a space" if text[:1].isspace() else "")
    for column, character in enumerate(text[1:], 2):
        if character not in DIGITS:
            shown = "a space" if character == " " else repr(character)
            return f"character {column} is {shown}, which is no hex digit"
    if len(text) < FEWEST:
        return f"it has {counted(len(text), 'character')}, and the shortest record has {FEWEST}"
    needed = FEWEST + 2 * int(text[1:3], 16)
    if len(text) != needed:
        return f"it has {counted(len(text), 'character')}, and a record of length {text[1:3].upper()}h has {needed}"
    return ""


def on_range(kind, start, end, given=b""):
    if kind == "program" and not given:
        return Record(kind, f"program nothing at {start:04X}h", start, end)
    of = "of " if kind == "blank check" else ""
    return Record(kind, f"{kind} {of}{in_words('flash', start, end)}", start, end, given)


def change(given):
    """The rows of type 03h."""
    match list(given):
        case [0x07]:
            return Record("erase", "erase the full chip", 0, FLASH_SIZE - 1, whole=True)
        case [0x01, code] if code in BLOCKS:
            start, end = BLOCKS[code]
            return Record("erase", f"erase flash {span(start, end)}", start, end)
        case [0x03, 0x00]:
            return Record("start", "start by reset")
        case [0x03, 0x01, high, low]:
            return Record("start", f"start at {high:02X}{low:02X}h", address=high * 256 + low)
        case [0x04, 0x00]:
            return Record("write", "erase the SBV and the BSB", written=tuple((index, AFTER_ERASE[index], 0xFF) for index in (BSB, SBV)))
        case [0x05, code] if code in SSB_LEVELS:
            value = SSB_LEVELS[code]
            return Record("write", f"write {value:02X}h to the SSB, level {LEVELS[value]}", written=((SECURITY_BYTE, value, 0xFF),))
        case [0x06, (0x00 | 0x01) as code, value]:
            index = SBV if code else BSB
            return Record("write", f"write {value:02X}h to {BYTES[index]}", written=((index, value, 0xFF),))
        case [0x0A, code, bit] if code in FUSES and bit in BIT_VALUES:
            name, at = FUSES[code]
            return Record("write", f"set the bit {name} to {BIT_VALUES[bit]}", written=((HSB, bit << at, 1 << at),))
    return no_command(f"type 03h with {counted(len(given))} of data, {given.hex(' ').upper() or 'none'}, is no command")


def of_hex_file(kind, given):
    """Lines that a HEX file has and the loader has not: its end, where its program starts, and the base of the addresses that follow."""
    if kind in HEX_LINES:
        return Record("passed over", f"the {HEX_LINES[kind]} line of a HEX file", why=NOT_OURS)
    if not any(given):
        return Record("passed over", "the address line, for the base 0000h, of a HEX file", why=NOT_OURS)
    return no_command(f"a HEX file's address line, for the base {given.hex().upper()}h: what follows it belongs elsewhere")


def command(kind, offset, given):
    match kind, list(given):
        case 0x00, _:
            return on_range("program", offset, offset + len(given) - 1, given)
        case 0x03, _:
            return change(given)
        case 0x04, [_, _, _, _, (0x00 | 0x01) as code]:
            start, end = int.from_bytes(given[:2], "big"), int.from_bytes(given[2:4], "big")
            return on_range("blank check" if code else "display", start, end)
        case 0x05, [first, second] if (first, second) in READS:
            return Record("read", f"read {READS[first, second]}", byte=SETTINGS.get((first, second)))
        case (0x01, []) | ((0x02 | 0x04), [_, _]) | (0x05, [_, _, _, _]):
            return of_hex_file(kind, given)
        case (0x04 | 0x05), _:
            return no_command(f"type {kind:02X}h with {counted(len(given))} of data, {given.hex(' ').upper() or 'none'}, is no command")
    return no_command(f"type {kind:02X}h is no command")


def record(characters):
    """What a line of the file asks for."""
    text = characters.decode("latin-1")
    if fault := form_fault(text):
        return no_command(fault)
    whole = bytes.fromhex(text[1:])
    asked = command(whole[3], int.from_bytes(whole[1:3], "big"), whole[4:-1])
    return asked._replace(damaged=sum(whole) % 256 != 0)
