"""What the bytes of a DNLOAD ask for. It reads the form alone, as 01's table of commands has it: whether a command was taken is for the
board to say."""
from typing import NamedTuple

from names import CONFIGURATION, ERASED, FIXED_BYTES, HSB, HSB_MASK, LEVELS, MEMORIES, SECURITY_BYTE
from phrases import counted, hex_of, in_words, span

COMMAND_SIZE, SUFFIX_SIZE, FORM_SIZE = 32, 16, 6
PROGRAMMED, READ = {0: "flash", 1: "EEPROM"}, {0: "flash", 2: "EEPROM"}
PROGRAM_CODES = {memory: code for code, memory in PROGRAMMED.items()}
MOST = 1024  # bytes to program or read
CHIP = 0xFF  # the code of a full chip erase


class Command(NamedTuple):
    """A command: its kind, its words, and for a range its memory, start and end; which byte it reads; and which bytes of the
    configuration it writes, each with its value and the bits that it changes. A kind `none` is no command of the table."""

    kind: str
    words: str
    memory: str = ""
    start: int = 0
    end: int = -1
    byte: object = None
    written: tuple = ()
    whole: bool = False  # an erase of the full chip

    @property
    def count(self):
        return self.end - self.start + 1

    @property
    def pad(self):
        return self.start % 32

    @property
    def transfer(self):
        """How many bytes the whole program transfer has."""
        return COMMAND_SIZE + self.pad + self.count + SUFFIX_SIZE

    @property
    def fetched(self):
        """How many bytes there are to fetch, once it is taken."""
        return {"read": self.count, "byte": 1, "blank check": 2}.get(self.kind, 0)

    def body(self, given):
        """The bytes of a program transfer that are stored."""
        begin = COMMAND_SIZE + self.pad
        return given[begin : begin + self.count]


def on_range(kind, memory, given):
    start, end = int.from_bytes(given[2:4], "big"), int.from_bytes(given[4:6], "big")
    of = "of " if kind == "blank check" else ""
    return Command(kind, f"{kind} {of}{in_words(memory, start, end)}", memory, start, end)


def erase(code):
    if code == CHIP:
        return Command("erase", "erase the full chip", "flash", 0, MEMORIES["flash"] - 1, whole=True)
    start, end = ERASED[code]
    return Command("erase", f"erase flash {span(start, end)}", "flash", start, end)


def write(index, value):
    level = f", level {LEVELS[value]}" if index == SECURITY_BYTE and value in LEVELS else ""
    return Command("write", f"write {value:02X}h to {CONFIGURATION[index]}{level}", written=((index, value, 0xFF),))


def command(given):
    """The command that the data of a DNLOAD asks for."""
    match list(given[:FORM_SIZE]), len(given):
        case [1, code, _, _, _, _], _ if code in PROGRAMMED:
            return on_range("program", PROGRAMMED[code], given)
        case [3, code, _, _, _, _], 6 if code in READ:
            return on_range("read", READ[code], given)
        case [3, 1, _, _, _, _], 6:
            return on_range("blank check", "flash", given)
        case [4, 0, code], 3 if code in ERASED or code == CHIP:
            return erase(code)
        case [4, 1, index, value], 4 if index in CONFIGURATION:
            return write(index, value)
        case [4, 2, 0, value], 4:
            return Command("write", f"write {value:02X}h to the HSB; its low four bits stay", written=((HSB, value, HSB_MASK),))
        case [4, 3, 0], 3:
            return Command("start", "start by reset")
        case [4, 3, 1, high, low], 5:
            return Command("start", f"start at {high:02X}{low:02X}h")
        case [5, 0, 0], 3:
            return Command("byte", "read the version")
        case [5, 1, index], 3 if index in CONFIGURATION:
            return Command("byte", f"read {CONFIGURATION[index]}", byte=index)
        case [5, 1, index], 3 if index in FIXED_BYTES:
            return Command("byte", f"read {FIXED_BYTES[index]}")
        case [5, 2, 0], 3:
            return Command("byte", "read the HSB", byte=HSB)
    return Command("none", f"{counted(len(given))} that are no command: {hex_of(given[:FORM_SIZE])}{' ..' if len(given) > FORM_SIZE else ''}")
