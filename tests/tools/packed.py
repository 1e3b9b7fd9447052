"""Numbers, and what the small functions of the C header have to give of them: tests/c/parts.c is asked each line. A number is packed by the
definitions of crates/numbers and crates/plugnumbers; its parts were chosen here."""
from defined import DNLOAD, GETSTATUS, PROGRAM_BYTE

FIRST, LAST, VALUE = 0x2A35, 0x2B60, 0xC3
A, E = {"0": FIRST}, {"0": LAST}
PENDINGS = [
    (("Nothing",), 0, 0, 0),
    (("MemoryRead", ("Flash", A, E)), 1, FIRST, LAST),
    (("MemoryRead", ("Eeprom", A, E)), 2, FIRST, LAST),
    (("BlankReport", A), 3, FIRST, 0),
    (("OneByte", VALUE), 4, VALUE, 0),
    (("Start", ("Reset",), A), 5, FIRST, 0),
    (("Start", ("AtAddress",), A), 6, FIRST, 0),
]
OUTCOMES = [
    (("Done",), 0, 0),
    (("Stall",), 1, 0),
    (("Started", ("Reset",), A), 2, FIRST),
    (("Started", ("AtAddress",), A), 3, FIRST),
    (("Refused", 17), 4, 17),
]
SERIAL_OUTCOMES = [(("Answered",), 0, 0), (("StartedReset",), 2, 0), (("StartedAt", A), 3, FIRST), (("Refused", 9), 4, 9)]
COMMANDS = [
    (("ProgramFlash", A, E), 0, FIRST, LAST),
    (("ProgramEeprom", A, E), 1, FIRST, LAST),
    (("Read", ("Flash", A, E)), 2, FIRST, LAST),
    (("BlankCheck", A, E), 4, FIRST, LAST),
    (("EraseBlock", ("High",)), 7, 0, 0),
    (("WriteByte", 5, VALUE), 9, 5, VALUE),
    (("StartAt", A), 12, FIRST, 0),
    (("ReadHsb",), 15, 0, 0),
]
CONFIG = dict(zip(("bsb", "sbv", "p1cf", "p3cf", "p4cf", "ssb", "eb", "hsb"), range(0x81, 0x89)))
# DNLOAD data: program a byte, the same too long, erase a block, read from 8000h, read a byte, blank check of a used byte, no command.
DATA = [PROGRAM_BYTE, [*PROGRAM_BYTE, 0], [4, 0, 0], [3, 0, 0x80, 0, 0x80, 0], [3, 0, 0, 0, 0, 0], [3, 1, 0, 0, 0, 0], [0xFF]]


def lines(source):
    """Each line for the program, as a word and numbers, with the numbers that it has to answer."""
    given = source.given
    for pending, *parts in PENDINGS:
        yield "session", [given("pack_session", {"state": 9, "status": 0x0B, "pending": pending, "busy": 0})], [9, 0x0B, *parts]
    for crate, outcomes in (("numbers", OUTCOMES), ("plugnumbers", SERIAL_OUTCOMES)):
        yield from (("outcome", [given(f"{crate}:pack_outcome", outcome)], parts) for outcome, *parts in outcomes)
    yield from (("command", parts, [given("pack_command", command)]) for command, *parts in COMMANDS)
    yield "config", [given("numbers:pack_config", CONFIG)], list(CONFIG.values())
    for ssb in (0xFF, 0xFE, 0xFC):
        yield from (taken(source, data, ssb) for data in DATA)
    for request, length in ((DNLOAD, 0x044F), (GETSTATUS, 6)):
        yield "setup", [request, length], [*divmod(request, 256), 0, 0, 0, 0, length % 256, length // 256]
    yield from (("wait", source.ask(GETSTATUS, 6, state=3, busy=pages)["sent"], [10 * pages]) for pages in (0, 1, 9, 256))
    yield "wait", [0, *given("timeout_bytes", 0x123456), 4, 0], [0x123456]


def taken(source, data, ssb):
    """A command is taken where the definitions accept it and set no error status."""
    result = source.ask(DNLOAD, len(data), data, ssb=ssb, flash=[0x00, *source.flash[1:]])
    numbers = [source.given("numbers:pack_outcome", result["outcome"]), source.given("pack_session", result["session"])]
    return "taken", numbers, [int(result["accepted"] != ("None",) and result["session"]["status"] == 0)]
