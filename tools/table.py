"""A table as a person has it: a file in Intel HEX, whose lines say at which address each byte belongs. A file that is damaged, cut or for
another memory is a fault, and nothing is compared with it."""
import re

from fault import Fault
from given import text_fault
from phrases import DAMAGED, counted, span

MARK, DATA, END, SEGMENT, LINEAR = ":", 0x00, 0x01, 0x02, 0x04
STARTS = 0x03, 0x05  # lines that say where a program begins; a table has no use for them
FEWEST = 5  # bytes of a line: length, address, type and checksum
DIGITS = re.compile("([0-9A-Fa-f]{2})*")
CUT = "the end line :00000001FF is missing: the file was cut"


def bytes_of(number, line):
    """The bytes of a line of the file."""
    if not line.startswith(MARK):
        raise Fault(f"line {number}: a line of a HEX file begins with a colon, and this with {line[:1]!r}")
    digits = line[1:]
    whole = bytes.fromhex(digits) if DIGITS.fullmatch(digits) else b""
    if len(whole) < FEWEST or len(whole) != FEWEST + whole[0] or sum(whole) % 256:
        raise Fault(f"line {number}: {DAMAGED}")
    return whole


class Reader:
    """Reads the lines of a file in their order. `base` is what the last address line adds to each address."""

    def __init__(self, memory, size):
        self.memory, self.size, self.base, self.ended, self.table = memory, size, 0, False, {}

    def line(self, number, line):
        if self.ended:
            raise Fault(f"line {number}: it stands behind the end line of the file")
        whole = bytes_of(number, line)
        address, kind, given = int.from_bytes(whole[1:3], "big"), whole[3], whole[4:-1]
        if kind == DATA:
            self.data(number, self.base + address, given)
        elif kind == END and not given:
            self.ended = True
        elif kind in (SEGMENT, LINEAR) and len(given) == 2:
            self.base = int.from_bytes(given, "big") << (4 if kind == SEGMENT else 16)
        elif kind not in STARTS:
            raise Fault(f"line {number}: a HEX file has no line of type {kind:02X}h with {counted(len(given))} of data")

    def data(self, number, start, given):
        end = start + len(given) - 1
        if end >= self.size:
            raise Fault(f"line {number}: {span(start, end)} is outside the {self.memory} (0000h-{self.size - 1:04X}h)")
        for at, byte in enumerate(given, start):
            if self.table.setdefault(at, byte) != byte:
                raise Fault(f"line {number}: {at:04X}h has {byte:02X} here, and {self.table[at]:02X} in an earlier line")


def table_in(given, memory, size):
    """The table that a file holds for a memory of this size: each address with its byte."""
    if sentence := text_fault(given):
        raise Fault(sentence)
    reader = Reader(memory, size)
    for number, line in enumerate(given.decode("utf-8-sig", errors="replace").splitlines(), 1):
        if line.strip("\x1a \t"):
            reader.line(number, line.rstrip("\x1a \t"))
    if not reader.ended:
        raise Fault(CUT if reader.table else "this is no HEX file: it has no line that begins with a colon")
    if not reader.table:
        raise Fault("the table has no byte")
    return reader.table
