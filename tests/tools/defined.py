"""The numbers that the C header of crates/exports has names for: as the header has them, and as the definitions under crates/*/specs give
them when they are worked out, each by what it is there for. The kinds stand in the tables, which exported.py reads from the code."""
import re

WORDS_LEFT_OUT = {"a", "an", "the", "of", "by", "at"}
KINDS = {"Session": "PENDING", "Command": "COMMAND", "Outcome": "OUTCOME", "Serial outcome": "SERIAL_OUTCOME"}
NOTHING, START = ("Nothing",), ("Start", ("Reset",), {"0": 0})
DNLOAD, UPLOAD, GETSTATUS, CLRSTATUS, GETSTATE, ABORT = 0x2101, 0xA102, 0xA103, 0x2104, 0xA105, 0x2106
PROGRAM_BYTE = [0x01, 0x00, 0x2A, 0x00, 0x2A, 0x00, *[0] * 26, 0x5A, *[0] * 16]


def from_header(text):
    """Each name with its number, and the number that is told of each function that gives a delivered board's configuration."""
    names = re.findall(r"(?m)^#define (LOADER_\w+) (\w+)", text)
    delivered = re.findall(r"as it is delivered: (\w+)\. \*/\nuint\d+_t (\w+)\(", text)
    return {name: int(value, 0) for name, value in [*names, *((name, value) for value, name in delivered)]}


def name_of(prefix, words):
    """The name of a table's row: its words but for the small ones."""
    return "_".join(["LOADER", prefix, *(word.upper() for word in re.split(r"\W+", words) if word not in WORDS_LEFT_OUT)])


def kinds(tables):
    return {name_of(prefix, row[1]): row[0] for title, prefix in KINDS.items() for row in tables[title][2]}


class Source:
    """What the definitions give; `given` works one out by its name."""

    def __init__(self, given):
        self.given = given
        self.flash, self.eeprom = [0xFF] * given("memory:flash_size"), [0xFF] * given("eeprom_size")
        self.delivered = given("config:delivered_config")

    def ask(self, request=GETSTATE, length=1, sent=(), state=2, pending=NOTHING, busy=0, ssb=0xFF, **lent):
        """What a board answers to a request; setup, memories and the reply's size are right where others are not lent."""
        session = {"state": state, "status": 0, "pending": pending, "busy": busy}
        memories = {"flash": lent.get("flash", self.flash), "eeprom": lent.get("eeprom", self.eeprom)}
        board = {"session": session, "config": {**self.delivered, "ssb": ssb}, **memories}
        reply = lent.get("reply", self.given("reply_size"))
        return self.given("ask", board, lent.get("setup", setup(request, length)), list(sent), reply)

    def refusal(self, **asked):
        """The number with which a request is refused, 0 where it is not."""
        outcome = self.ask(**asked)["outcome"]
        return outcome[1] if outcome[0] == "Refused" else 0

    def command(self, *sent, **on):
        return self.ask(DNLOAD, len(sent), sent, **on)

    def sizes(self):
        given = self.given
        whole_line = len(given("display_line", 0, given("line_size") - 1, self.flash))
        return {
            "SETUP_SIZE": next(n for n in range(99) if self.refusal(setup=setup(GETSTATE, 1)[:n] + [0] * (n - 8)) != 1),
            "FLASH_SIZE": given("memory:flash_size"),
            "FLASH_PAGES": given("memory:flash_pages"),
            "PAGE_SIZE": given("page_size"),
            "EEPROM_SIZE": given("eeprom_size"),
            "REPLY_SIZE": given("reply_size"),
            "MOST_BYTES": given("most_bytes"),
            "SUFFIX_SIZE": given("suffix_size"),
            "MOST_DATA": given("rules:most_data"),
            "GETSTATUS_SIZE": len(self.ask(GETSTATUS, 6)["sent"]),
            "GETSTATE_SIZE": len(self.ask(GETSTATE, 1)["sent"]),
            "MOST_JOB": given("job:most_file"),
            "MOST_BUSY": given("most_busy"),
            "PAGE_TIME": given("timeout", {"state": 3, "busy": 1}),
            "SERIAL_FLASH_SIZE": given("plug:flash_size"),
            "SERIAL_FLASH_PAGES": given("plug:flash_pages"),
            "SERIAL_MOST_DATA": given("record:most_data"),
            "SERIAL_MOST_CHARACTERS": given("character_count", given("record:most_data")),
            "SERIAL_MOST_ANSWER": given("line_count", 0, given("plug:flash_size") - 1) * whole_line,
        }

    def requests(self):
        """Each number of bmRequestType and bRequest that has a row. DETACH has none, since it stalls as anything else does: 01 has its number."""
        codes = (code for code in range(0x10000) if code % 256 < 16)
        cases = ((self.given("request_of", setup(code, length))[0], code) for code in codes for length in (0, 1, 6))
        return {"REQUEST_DETACH": 0x2100, **{f"REQUEST_{case.upper()}": code for case, code in cases if case != "Other"}}

    def states(self):
        """The state after a request that leads there; together they have to be all that the definitions know."""
        more = ("MemoryRead", ("Flash", {"0": 0}, {"0": 3}))
        after = {
            "APP_IDLE": self.ask(DNLOAD, 0, state=5, pending=START),
            "IDLE": self.ask(ABORT, 0, state=5),
            "DNLOAD_SYNC": self.command(*PROGRAM_BYTE),
            "DNBUSY": self.ask(GETSTATUS, 6, state=3, busy=1),
            "DNLOAD_IDLE": self.ask(GETSTATUS, 6, state=4, busy=1),
            "MANIFEST_SYNC": self.ask(DNLOAD, 0, state=5),
            "UPLOAD_IDLE": self.ask(UPLOAD, 1, state=5, pending=more),
            "ERROR": self.ask(CLRSTATUS, 0),
        }
        states = {f"STATE_{name}": result["session"]["state"] for name, result in after.items()}
        if sorted(states.values()) != sorted(self.given("states")):
            raise ValueError(f"the states are {self.given('states')}, and those that have a name {states}")
        return states

    def statuses(self):
        used = [0x00, *self.flash[1:]]
        after = {
            "OK": self.command(*PROGRAM_BYTE),
            "ERR_WRITE": self.command(*PROGRAM_BYTE, ssb=0xFE),
            "ERR_CHECK_ERASED": self.command(0x03, 0x01, 0, 0, 0, 0, flash=used),
            "ERR_ADDRESS": self.command(0x03, 0x00, 0x80, 0x00, 0x80, 0x00),
            "ERR_VENDOR": self.command(0x03, 0x00, 0, 0, 0, 0, ssb=0xFC),
            "ERR_STALLEDPK": self.command(0xFF),
        }
        return {f"STATUS_{name}": result["session"]["status"] for name, result in after.items()}

    def refusals(self):
        """Each refusal, by an input of which its cause is the only fault."""
        given = self.given
        version, long = ("ReadVersion",), [0] * (given("job:most_file") + 1)
        written = (given("writer:written_number", given("write_command", command, [], [], [])) for command in (("ReadByte", 7), version))
        deep = []
        for _ in range(given("most_depth") + 1):
            deep = [0x02, 0, len(deep), *deep]
        files = {"FIELD_END": [0x01], "FIELD_TAG": [0x09, 0, 0], "GROUP_DEPTH": deep, "REQUEST_SIZE": [0x01, 0, 7, *[0] * 7],
                 "NOTE_SIZE": [0x03, 0, 65, *[0] * 65], "FILE_SIZE": long}
        plug = {"config": given("plug:delivered_config"), "flash": [0xFF] * given("plug:flash_size")}
        numbers = {
            "SETUP_SIZE": self.refusal(setup=[]),
            "FLASH_SIZE": self.refusal(flash=[]),
            "EEPROM_SIZE": self.refusal(eeprom=[]),
            "DATA_SIZE": self.refusal(sent=[0]),
            "REPLY_SIZE": self.refusal(reply=0),
            "SESSION": self.refusal(state=1),
            "APP_RUNS": self.refusal(state=0),
            **dict(zip(("COMMAND", "ROOM"), written)),
            **{name: given("verdict_number", given("verdict", file)) for name, file in files.items()},
            "RECORD": given("plug/Step:step", plug, [0x58], 3)["outcome"][1],
        }
        return {f"REFUSED_{name}": number for name, number in numbers.items()}

    def configuration(self):
        """The index of each byte, and of each level the SSB that a board is delivered with or can be given."""
        names = {"bsb": "BSB", "sbv": "SBV", "p1cf": "P1_CF", "p3cf": "P3_CF", "p4cf": "P4_CF", "ssb": "SSB", "eb": "EB"}
        marked = dict(zip([*names, "hsb"], range(100, 108)))
        places = {marked[byte]: name for byte, name in names.items()}
        index = {f"INDEX_{places[self.given('config_byte', i, marked)]}": i for i in range(len(names))}
        given_to = [v for v in range(256) if self.given("level_status", ("WriteByte", self.given("ssb_index"), v), ("L0",)) == 0]
        levels = {self.given("ssb_level", v)[0]: v for v in (self.delivered["ssb"], *given_to)}
        return {**index, **{f"SSB_LEVEL_{level[1]}": ssb for level, ssb in levels.items()}}

    def numbers(self, tables):
        """Each name that the header is to have, with its number."""
        own = {
            **self.sizes(),
            **self.requests(),
            **self.states(),
            **self.statuses(),
            **self.refusals(),
            **self.configuration(),
            "SERIAL_WRONG_CHECKSUM": self.given("reading_number", ("Err", ("WrongChecksum",))),
        }
        delivered = {
            "loader_delivered": self.given("numbers:pack_config", self.delivered),
            "serial_delivered": self.given("plugnumbers:pack_config", self.given("plug:delivered_config")),
        }
        return {**{f"LOADER_{name}": number for name, number in own.items()}, **kinds(tables), **delivered}


def setup(request, length):
    return [request // 256, request % 256, 0, 0, 0, 0, length % 256, length // 256]
