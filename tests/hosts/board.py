"""The board that the stand-in keeps in a file, the requests that it records, and image files for a host's program."""
import dataclasses
import struct

FLASH_SIZE, EEPROM_SIZE = 32768, 1024
CONFIG = ("BSB", "SBV", "P1_CF", "P3_CF", "P4_CF", "SSB", "EB", "HSB")
LAYOUT = struct.Struct(f"<BBH4x8sH6x{FLASH_SIZE}s{EEPROM_SIZE}s")
REQUESTS = {"2100": "DETACH", "2101": "DNLOAD", "A102": "UPLOAD", "A103": "GETSTATUS", "2104": "CLRSTATUS", "A105": "GETSTATE", "2106": "ABORT"}
RECORD_SIZE, RECORD_END = 16, ":00000001FF\n"


@dataclasses.dataclass
class Board:
    """State and status, the kind of what is pending (0 is nothing), the busy page count, the eight configuration bytes by name, and the
    memories by name. Of what is pending the addresses stay in the file."""

    state: int
    status: int
    pending: int
    busy: int
    config: dict
    memory: dict

    def write(self, path):
        config = bytes(self.config[name] for name in CONFIG)
        path.write_bytes(LAYOUT.pack(self.state, self.status, self.pending, config, self.busy, self.memory["flash"], self.memory["EEPROM"]))


def read_board(path):
    state, status, pending, config, busy, flash, eeprom = LAYOUT.unpack(path.read_bytes())
    memory = {"flash": bytearray(flash), "EEPROM": bytearray(eeprom)}
    return Board(state, status, pending, busy, dict(zip(CONFIG, config)), memory)


@dataclasses.dataclass
class Request:
    """A request as a readable job has it, without blanks, and its answer as a line of the bench has it."""

    asked: str
    outcome: str
    state: int
    status: str

    @property
    def answer(self):
        return f"{self.outcome} {self.state} {self.status}"


def read_requests(path):
    for line in path.read_text().splitlines():
        setup, data, outcome, state, status, _pages, _reply = line.split()
        name = REQUESTS.get(setup[:4], setup)
        length = int.from_bytes(bytes.fromhex(setup[12:]), "little")
        asked = name + (str(length) if name == "UPLOAD" else data.strip("-"))
        yield Request(asked, outcome, int(state), status)


def intel_hex(parts):
    """The text of an image file, from pairs of an address and bytes."""
    text = ""
    for start, data in parts:
        for at in range(0, len(data), RECORD_SIZE):
            piece = data[at : at + RECORD_SIZE]
            record = struct.pack(">BHB", len(piece), start + at, 0) + piece
            text += f":{record.hex().upper()}{-sum(record) % 256:02X}\n"
    return text + RECORD_END
