"""What the bytes of a program transfer tell by themselves: what its length fits, how a range that is too long is sent, and whether
something stands where only filler, pad and suffix belong. Nothing here knows of lines or files."""
from names import MEMORIES
from phrases import counted, span
from usb_asked import COMMAND_SIZE, FORM_SIZE, MOST, SUFFIX_SIZE

PAD_UNIT, WRONG_UNIT = 32, 128  # the pad is start mod 32; the other is an old rule that is wrong
# Signature and length of a DFU suffix, and where they stand: in the order of the DFU class, and in that of Atmel's table.
SUFFIX_MARKS = {8: b"UFD\x10", 4: b"\x10DFU"}
NUMBERS = {2: "two", 3: "three", 4: "four"}


def table_size(start, data_size):
    """How many bytes of table a DNLOAD of so many bytes has, behind command and pad and before the suffix."""
    return data_size - COMMAND_SIZE - start % PAD_UNIT - SUFFIX_SIZE


def fitting_end(start, data_size):
    """The last address with which a program transfer of this size is right; None if there is none."""
    count = table_size(start, data_size)
    return start + count - 1 if 1 <= count <= MOST else None


def in_parts(start, end):
    """The ranges of at most 1,024 bytes that make up a longer one, in words: in two: 2A00h-2DFFh, then 2E00h-2E7Fh."""
    parts = [span(at, min(at + MOST - 1, end)) for at in range(start, end + 1, MOST)]
    shown, more = (parts, "") if len(parts) in NUMBERS else (parts[:2], ", and so on")
    return f"in {NUMBERS.get(len(parts), len(parts))}: {', then '.join(shown)}{more}"


def is_suffix(given):
    """Whether these are the 16 bytes that end a transfer: zeros, or a DFU suffix."""
    marked = any(given[at : at + len(mark)] == mark for at, mark in SUFFIX_MARKS.items())
    return len(given) == SUFFIX_SIZE and (not any(given) or marked)


def wrong_length(asked, data):
    """What is said of a program transfer, `asked` by its first six bytes, whose length does not fit; else None."""
    if len(data) == asked.transfer:
        return None
    parts = f"{COMMAND_SIZE} + {asked.pad} + {asked.count:,} + {SUFFIX_SIZE} = {asked.transfer:,}"
    said = f"a transfer to {span(asked.start, asked.end)} has {parts} bytes, and this has {len(data):,}"
    advice = mend(asked, data)
    return f"{said}: {advice}" if advice else said


def misfits(asked, data):
    """Whether it is not the table that makes a transfer too long or too short: filler or pad is not zero, the last 16 bytes are no
    suffix, or all that is too much are zeros at an end of the table. Another last address would store the table in a wrong place."""
    begin, more = COMMAND_SIZE + asked.pad, len(data) - asked.transfer
    table = data[begin:-SUFFIX_SIZE]
    zeros = more > 0 and not (any(table[:more]) and any(table[-more:]))
    return not table or any(data[FORM_SIZE:begin]) or not is_suffix(data[-SUFFIX_SIZE:]) or zeros


def mend(asked, data):
    """What to do about a wrong length, as far as the bytes tell."""
    wrong_pad = asked.start % WRONG_UNIT
    if len(data) == asked.transfer - asked.pad + wrong_pad and not any(data[COMMAND_SIZE : COMMAND_SIZE + wrong_pad]):
        return f"it is padded by start mod {WRONG_UNIT}, and the pad is start mod {PAD_UNIT}, {counted(asked.pad)}"
    if misfits(asked, data):
        pad = f", {asked.pad}*00 (pad)" if asked.pad else ""
        return f"count what is around the table, {COMMAND_SIZE - FORM_SIZE}*00 (filler){pad} and {SUFFIX_SIZE}*00 (suffix)"
    count, end = table_size(asked.start, len(data)), fitting_end(asked.start, len(data))
    if asked.start + count > MEMORIES[asked.memory]:
        return None
    if end is None:
        return f"at most {MOST:,} bytes go in one, so send it {in_parts(asked.start, asked.start + count - 1)}"
    return f"count the bytes on the sheet; for {counted(count)} from {asked.start:04X}h the last address is {end:04X}h"


def misplaced(asked, data):
    """A sentence if a program transfer that was taken has something where 01's writer puts zero, or no suffix at its end: bytes that
    were not stored. Else None."""
    filler, pad = data[FORM_SIZE:COMMAND_SIZE], data[COMMAND_SIZE : COMMAND_SIZE + asked.pad]
    filled = " and ".join(f"the {len(part)} {name} bytes" for name, part in (("filler", filler), ("pad", pad)) if any(part))
    told = [f"{filled} are not zero"] if filled else []
    if not is_suffix(data[-SUFFIX_SIZE:]):
        told.append(f"the {SUFFIX_SIZE} suffix bytes are neither zero nor a DFU suffix")
    if not told:
        return None
    return f"MISPLACED: {' and '.join(told)}. What stands there was NOT stored: is there a byte too many or too few before the table?"
