"""Numbers, ranges and bytes in words, for whoever reads an explanation."""
from names import ALLOWED, LEVELS, ODD_LEVEL

ROW = 16  # bytes on a line
DIGITS_OF_BOTH = "0123456789"
FEWEST_TO_ASK = 8  # bytes of a table
DAMAGED = "a character of this line is damaged: compare it with the sheet"
NOT_READ = "03 01 is a blank check of the flash; to read the EEPROM write 03 02"


def counted(count, thing="byte"):
    return f"{count:,} {thing}{'' if count == 1 else 's'}"


def hex_of(given):
    return given.hex(" ").upper()


def span(start, end):
    return f"{start:04X}h" if start == end else f"{start:04X}h-{end:04X}h"


def in_words(memory, start, end):
    """A range in words: flash 2A00h-2A3Fh, 64 bytes."""
    return f"{memory} {span(start, end)}, {counted(end - start + 1) if start <= end else 'which is backward'}"


def level_words(value):
    """What the SSB says: level 1: writing is refused."""
    level = LEVELS.get(value, ODD_LEVEL)
    return f"level {level}: {ALLOWED[level]}"


def looks_decimal(given):
    """Whether a table could have been written in decimal: no hex digit from A to F in it, and a byte that is another one in decimal."""
    return len(given) >= FEWEST_TO_ASK and max(given) > 9 and not set(given.hex()) - set(DIGITS_OF_BOTH)


def decimal_question(given):
    """What is asked of such a table, by its first byte that is another one in decimal."""
    first = next(byte for byte in given if byte > 9)
    meant = int(f"{first:02X}")
    told = f"Bytes are hex: {first:02X} is {first}, and decimal {meant} is written {meant:02X}"
    return f"Are these bytes decimal? None has a digit from A to F. {told}."


def rows(start, given):
    """The bytes from an address on, in lines. Where they could be meant as decimal, in decimal too: 1Eh is 30."""
    for at in range(0, len(given), ROW):
        part = given[at : at + ROW]
        yield f"{start + at:04X}h: {hex_of(part)}"
        if looks_decimal(given):
            yield f"  in decimal: {' '.join(str(byte) for byte in part)}"
