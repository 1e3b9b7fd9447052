"""Warnings about a text that has a meaning, and perhaps not the one that was meant. The job is run all the same. Some of them the
explanation of the job tells as well, and there with what came of it."""
from job_words import SETUP
from names import MEMORIES
from phrases import NOT_READ, counted, decimal_question, looks_decimal, span
from transfers import in_parts, wrong_length
from usb_asked import COMMAND_SIZE, MOST, command

SETUP_SIZE = 8
FILE_MOST = 16384  # bytes of a raw job, by 01


class Fetching:
    """What the last command has to fetch, and how much of it was asked for since: for `UPLOAD all`, and for the warning."""

    def __init__(self):
        self.due, self.asked, self.line = 0, 0, 0  # due is None where nobody can say, for a fault

    def upload(self, line, size):
        self.asked, self.line = self.asked + size, line

    def end(self, due=0):
        """What is said at the end of a read, before another command or none. `due` is what there is to fetch from here on."""
        short = self.due and 0 < self.asked < self.due
        told = f"the read before this UPLOAD has {self.due} bytes, and only {self.asked} are asked for: write UPLOAD all"
        self.asked, self.due = 0, due
        return [(self.line, told)] if short else []


class Cautions:
    """Goes through the fields of a job and gathers the warnings, each with its line."""

    def __init__(self):
        self.told, self.explained = [], []  # the second has those that the explanation tells as well
        self.fetching, self.eeprom = Fetching(), set()  # the ranges of EEPROM that were programmed

    def field(self, item, value, typed):
        """A field with its value: a DNLOAD asks for something new, an ABORT drops what is left, and raw bytes say nothing here. `typed`
        has for each byte of the value the line that it was typed on, 0 if it was counted or came by a star."""
        request = value[:2] if item.word in SETUP else b""
        if request == SETUP["DNLOAD"][:2]:
            data = value[SETUP_SIZE:]
            asked = command(data)
            self.told += self.fetching.end(asked.fetched)
            self.explained += [(item.line, said) for said in (self.in_range(asked, data), self.other_memory(asked)) if said]
            self.explained += self.decimal(asked, data, typed[SETUP_SIZE:])
        elif request == SETUP["ABORT"][:2] or (item.word == "RAW" and value):
            self.fetching.due = 0

    def in_range(self, asked, data):
        """Of a range that a command takes in parts alone, or a program transfer that does not fit its range."""
        if asked.kind not in ("program", "read") or not asked.start <= asked.end < MEMORIES[asked.memory]:
            return None
        if asked.count > MOST:
            way = "send" if asked.kind == "program" else "ask for"
            return f"{span(asked.start, asked.end)} has {counted(asked.count)}, and a command takes {MOST:,}: {way} it {in_parts(asked.start, asked.end)}"
        return wrong_length(asked, data) if asked.kind == "program" else None

    def other_memory(self, asked):
        """Of a blank check of the flash where the EEPROM was programmed."""
        if (asked.kind, asked.memory) == ("program", "EEPROM"):
            self.eeprom.add((asked.start, asked.end))
        return NOT_READ if asked.kind == "blank check" and (asked.start, asked.end) in self.eeprom else None

    def decimal(self, asked, data, typed):
        """Of a table that was typed byte by byte and looks decimal."""
        begin = COMMAND_SIZE + asked.pad
        table = list(zip(data, typed))[begin : begin + asked.count] if asked.kind == "program" else []
        table = [(byte, line) for byte, line in table if line]
        given = bytes(byte for byte, _ in table)
        return [(table[0][1], decimal_question(given))] if looks_decimal(given) else []

    def end(self):
        self.told += self.fetching.end()


def sentences(told):
    return [f"line {line}: {said}" for line, said in sorted(told, key=lambda told_of: told_of[0])]


def over_size(size, cuts):
    """What is said of a raw job that is too long. `cuts` are the places where it can be cut, each with its line."""
    if size <= FILE_MOST:
        return []
    fits = [line for at, line in cuts if 0 < at <= FILE_MOST]
    where = f"before line {fits[-1]}" if fits else "in two"
    told = f"the raw job has {size:,} bytes, {size - FILE_MOST:,} over {FILE_MOST:,}: cut it {where}"
    return [f"{told}, and let the second part read the SSB again"]
