"""What the explanations of a job and of a file of records share: the lines, the ledger, the sheet, the level and the configuration bytes,
and the end."""
from ledger import SETTINGS, Ledger
from names import LEVELS, SECURITY_BYTE
from phrases import counted, level_words, rows
from sheet import Sheet

OPTIONS = {"flash": "--table", "EEPROM": "--eeprom-table"}


class Explained:
    """The lines so far. `tables` has for a memory the name of its table and the table: each address with its byte."""

    def __init__(self, name, tables, to_sign_by):
        self.name, self.tables, self.lines = name, tables, []
        self.ledger, self.sheet = Ledger(to_sign_by.thing, to_sign_by.whole), Sheet(to_sign_by)
        self.level, self.unread = None, False  # the SSB as last read, and whether a read of it failed
        self.closed = None  # a level that was read and is not 0: where, in a sentence, and whether the job itself had written it
        self.touched = False  # whether a change of the board was asked for
        self.doubts = []  # questions that only a person can answer

    def tell(self, sentence):
        self.lines.append(f"       {sentence}")

    def wrong(self, line, number, sentence):
        self.sheet.wrong(line, number, sentence)
        self.tell(sentence)

    def doubt(self, number, question):
        """A question, told where it comes up, and once more where the last word is read."""
        self.tell(question)
        self.doubts.append(f"{self.sheet.thing.capitalize()} {number}: {question}")

    # ---- the level and the configuration bytes

    def before_change(self, number, what):
        """A change of the board is asked for. By the first the SSB has to be read, and who read another level than 0 changes nothing."""
        sentence = f"NOBODY HAD READ THE SSB before {what}."
        if not self.touched and self.level is None:
            self.sheet.told_elsewhere("level", number, sentence) if self.unread else self.wrong("level", number, sentence)
        self.touched = True
        if self.closed:
            self.sheet.wrong("level", *self.closed[:2])
            self.closed = None

    def level_unread(self):
        """A read of the SSB failed, which is told where it stands."""
        self.unread = True

    def level_read(self, number, value):
        """A level that is not 0 is told where it was read. It counts if a change comes after it, or if nobody here had written it."""
        self.level, written = value, self.ledger.written(SECURITY_BYTE)
        own = bool(written and written.same(value))
        self.tell(f"{level_words(value)}.")
        self.closed = None if LEVELS.get(value) == 0 else (number, f"The SSB is {value:02X}, {level_words(value)}.", own)

    def settings_written(self, number, written):
        for index, value, mask in written:
            self.ledger.write(number, index, value, mask)

    def settings_erased(self, number, left):
        for index, value in left.items():
            self.ledger.erase(number, SETTINGS, index, index, value)

    def setting_read(self, number, index, given):
        """A configuration byte came back; other bytes have no index."""
        if index is None:
            return
        if index == SECURITY_BYTE:
            self.level_read(number, given[0])
        self.compared(number, *self.ledger.read(SETTINGS, index, given))

    # ---- what was read

    def sent_back(self, number, memory, start, given):
        for row in rows(start, given):
            self.tell(row)
        self.compared(number, *self.ledger.read(memory, start, given))

    def compared(self, number, told, faults):
        for sentence in told:
            self.tell(sentence)
        for sentence in faults:
            self.wrong("same", number, sentence)

    # ---- the end

    def against_tables(self):
        for memory, (name, table) in self.tables.items():
            faults = list(self.ledger.against(memory, table))
            for sentence in faults:
                self.sheet.wrong("table", 0, sentence)
            if not faults:
                self.lines.append(f"Compared with {name}: {counted(len(table))} of {memory}, each the same on the board.")
        compared = (memory for memory, at in self.ledger.sent if (memory, at) in self.ledger.board)
        for memory in dict.fromkeys(memory for memory in compared if memory not in {*self.tables, SETTINGS}):
            told = f"The {memory} was compared with the {self.sheet.whole}, not with a table: whether these are the right bytes, only the sheet says"
            self.lines.append(f"{told} ({OPTIONS[memory]} FILE compares).")

    def ended(self, places, summary=()):
        """The status, and all lines. `places` has the line of each request or record in its text, 0 where there is none."""
        if self.closed and not self.closed[2]:
            self.sheet.wrong("level", *self.closed[:2])
        self.lines += ["", *summary, *self.ledger.read_back()]
        for *left, failed in self.ledger.never_read():
            note = self.sheet.told_elsewhere if failed else self.sheet.wrong
            note("read", *self.ledger.unread_sentence(*left))
        self.against_tables()
        self.lines += self.doubts[:1]
        if len(self.doubts) > 1:
            self.lines.append(f"The same is asked of {counted(len(self.doubts) - 1, self.sheet.thing)} more.")
        if self.lines[-1]:
            self.lines.append("")
        self.sheet.programmed = any(memory != SETTINGS for memory, _ in self.ledger.sent)
        status, verdict = self.sheet.verdict(places)
        return status, self.lines + verdict
