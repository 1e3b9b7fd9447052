"""Names and sentences of documents 01 and 02 and of the DFU papers behind them, in one place: requests, states, statuses, levels,
refusals and configuration bytes."""

# bmRequestType and bRequest, and for a request that is always the same its wValue and wLength.
REQUESTS = {(0x21, 0): "DETACH", (0x21, 1): "DNLOAD", (0x21, 4): "CLRSTATUS", (0x21, 6): "ABORT"}
REQUESTS |= {(0xA1, 2): "UPLOAD", (0xA1, 3): "GETSTATUS", (0xA1, 5): "GETSTATE"}
FIXED = {"GETSTATUS": (0, 6), "GETSTATE": (0, 1), "CLRSTATUS": (0, 0), "ABORT": (0, 0)}
ASKED = {
    "GETSTATUS": "ask for status and state",
    "GETSTATE": "ask for the state",
    "CLRSTATUS": "clear the error",
    "ABORT": "drop what waits",
    "DETACH": "leave the loader",
}

IDLE, SYNC, BUSY, DOWNLOADING, ENDED, UPLOADING, ERROR = 2, 3, 4, 5, 6, 9, 10
STATES = {0: "appIDLE", 2: "dfuIDLE", 3: "dfuDNLOAD-SYNC", 4: "dfuDNBUSY", 5: "dfuDNLOAD-IDLE", 6: "dfuMANIFEST-SYNC"}
STATES |= {9: "dfuUPLOAD-IDLE", 10: "dfuERROR"}
PAGE_TIME = 10  # milliseconds for which a board burns a page, by P5 of document 02
# What has to come first where a state does not take a request. State 10 has no entry: there the error is what counts.
FIRST = {
    2: "send a command with DNLOAD and ask GETSTATUS first",
    3: "ask GETSTATUS first",
    4: "the board is still burning; ask GETSTATUS again first",
    6: "ask GETSTATUS first",
    9: "fetch the rest with UPLOAD, or drop it with ABORT, first",
}

NO_WRITE, NOT_BLANK, BAD_ADDRESS, NO_READ = 0x03, 0x05, 0x08, 0x0B
STATUSES = {0x00: "OK", 0x03: "errWRITE", 0x05: "errCHECK_ERASED", 0x08: "errADDRESS", 0x0B: "errVENDOR", 0x0F: "errSTALLEDPK"}

LEVELS = {0xFF: 0, 0xFE: 1, 0xFC: 2}  # by the SSB
ODD_LEVEL = 2  # of every other value, by P1 of document 02
ALLOWED = ["reading and writing are allowed", "writing is refused", "reading and writing are refused"]  # by the level

MEMORIES = {"flash": 32768, "EEPROM": 1024}
BSB, SBV, SECURITY_BYTE, HSB = 0x00, 0x01, 0x05, 0x07  # the HSB has no index of its own; 07h is no other byte's
CONFIGURATION = {BSB: "the BSB", SBV: "the SBV", 2: "P1_CF", 3: "P3_CF", 4: "P4_CF", SECURITY_BYTE: "the SSB", 6: "the EB"}
BYTES = {**CONFIGURATION, HSB: "the HSB"}
HSB_MASK = 0xF0  # the bits of the HSB that a write changes
AFTER_ERASE = {BSB: 0xFF, SBV: 0xFC, SECURITY_BYTE: 0xFF}  # what a full chip erase writes besides the flash
FIXED_BYTES = {0x30: "the manufacturer", 0x31: "the family", 0x60: "the product", 0x61: "the revision"}
ERASED = {0x00: (0x0000, 0x1FFF), 0x20: (0x2000, 0x3FFF), 0x40: (0x4000, 0x7FFF)}  # blocks; FFh is the full chip

# Refusals of a request that the bench can show, then those of a job file with what to do.
REFUSALS = {
    4: "its data is not as long as wLength says, or it asks the board to send and carries data",
    7: "the board's own program runs",
}
FILE_REFUSALS = {
    11: "a field has fewer than three bytes, or is longer than what encloses it. Count its length again, or write the job in words.",
    12: "a field has an unknown tag; only 01, 02 and 03 are known. Or the length of the field before it is wrong.",
    13: "a group stands inside four others. Take one group away.",
    14: "a request has under 8 bytes. Give it all its setup bytes, or write it as a word, such as GETSTATUS.",
    15: "a note has over 64 bytes. Make it shorter.",
    16: "the job has over 16,384 bytes. Cut it in two; the second starts on a blank board again.",
}
