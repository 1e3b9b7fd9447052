"""Explains what the bench program printed for a file of records: what each record asked, what came of it, and at the end whether a sheet
may be signed. What happened is read from the lines alone; no board is played here."""
import re

from explained import Explained
from fault import Fault
from names import SECURITY_BYTE
from phrases import counted, decimal_question, in_words, looks_decimal
from serial_asked import AFTER_ERASE
from serial_line import ERASED_MARK, HEAD, SECURITY, Answer, lines_of, printed_lines, records_of
from serial_trouble import REFUSALS, lost, trouble
from sheet import SERIAL, nothing_run

AFTER_START = "AFTER A START: on a real board the program runs by now, and no loader answers."
STARTED = "The board's own program is started. No answer comes, and a real loader takes nothing after this."
PASSED_OVER = "Passed over: only a HEX file needs it, and the loader has no such record."
BOARDS = {True: "a board after a full chip erase, at level 0", False: "a delivered board, at level 2"}


class ExplainedRecords(Explained):
    """Goes through the records with their answers, tells what each means, and gathers what speaks against signing."""

    def __init__(self, name, tables):
        super().__init__(name, tables, SERIAL)
        self.not_stored = []  # program records that were not taken
        self.barring, self.start, self.after = 0, 0, 0  # the first record that got P; the first start; the first record after it

    def answer(self, answer):
        self.lines.append(str(answer))
        if answer.asked.kind == "passed over" and answer.refusal:
            self.tell(PASSED_OVER)
        elif self.start:
            self.after_start(answer)
        else:
            self.counted(answer)

    def after_start(self, answer):
        """Nothing after a start is counted: a real board never takes it."""
        if self.after:
            self.sheet.follows(self.after)
            self.tell(f"AFTER A START, as record {self.after}.")
            return
        self.after = answer.number
        self.wrong("started", answer.number, AFTER_START)

    def counted(self, answer):
        asked = answer.asked
        if trouble(answer):
            self.troubled(answer)
        self.sheet.tried |= asked.kind == "program"
        if asked.kind in ("program", "write", "erase") and not asked.whole and answer.word == "answered" and not asked.damaged:
            self.before_change(answer.number, "this record")
        if answer.taken:
            self.taken(answer)
        elif asked.kind == "program" and not asked.fault:
            self.not_stored.append(answer)
            self.ledger.refuse(answer.number, "flash", asked.start, asked.end)
        elif asked.kind == "display" and not asked.fault:
            self.ledger.unable("flash", asked.start, asked.end)
        elif asked.byte == SECURITY_BYTE:
            self.level_unread()

    def troubled(self, answer):
        """P is the level's, and the first tells it; what fails by itself is told by itself."""
        if answer.text == SECURITY and self.barring:
            self.sheet.follows(self.barring)
            self.tell(f"{lost(answer.asked)}: P, as record {self.barring}.")
            return
        self.wrong("answers", answer.number, trouble(answer))
        if answer.text == SECURITY:
            self.barring, self.sheet.barred = answer.number, True

    def taken(self, answer):
        asked, number = answer.asked, answer.number
        if asked.kind == "program":
            for sentence in self.ledger.program(number, "flash", asked.start, asked.given):
                self.tell(sentence)
            if looks_decimal(asked.given) and not self.tables:
                self.doubt(number, decimal_question(asked.given))
        elif asked.kind == "erase":
            self.erased(number, asked)
        elif asked.kind == "display":
            self.sent_back(number, "flash", asked.start, b"".join(row for _, row in answer.sent))
        elif asked.kind == "read":
            self.setting_read(number, asked.byte, bytes.fromhex(answer.text.rstrip(".")))
        elif asked.kind == "start":
            self.start = number
            self.tell(STARTED)
        self.settings_written(number, asked.written)

    def erased(self, number, asked):
        """A board is delivered at level 2, and a full chip erase opens it; the SSB is then read again."""
        self.ledger.erase(number, "flash", asked.start, asked.end)
        if asked.whole:
            self.settings_erased(number, AFTER_ERASE)
            self.closed, self.level, self.barring = None, None, 0

    def run(self, given, printed, erased):
        records = records_of(given)
        if printed[0] != [f"records {len(records)}"] or len(printed) != len(records) + 1:
            raise Fault(f"the lines begin with {printed[0][0]!r} and do not fit a file of {counted(len(records), 'record')}")
        first = f"Records {self.name}: {counted(len(records), 'record')}, run on {BOARDS[erased]}. No real board was touched."
        self.lines += [first, "", *[HEAD] * bool(records)]
        for number, ((_, characters), lines) in enumerate(zip(records, printed[1:]), 1):
            self.answer(Answer(number, characters, lines))
        return self.ended([line for line, _ in records], self.summary())

    def summary(self):
        for answer in self.not_stored:
            yield f"NOT stored: {in_words('flash', answer.asked.start, answer.asked.end)} (record {answer.number})."
        if self.after:
            yield f"Not counted here: the records after the start, record {self.start}. A real board takes none of them."


def explain_records(given, printed, name, erased, tables):
    """The status, and the lines of the explanation. `given` is the file, `printed` what the program printed for it, `erased` whether
    #erased was put before it, and `tables` what the flash should hold."""
    lines = printed_lines(printed)
    if refused := re.fullmatch(r"refused (\d+) at (\d+)", lines[0][0]):
        number = int(refused[1])
        status, verdict = nothing_run("The file was refused")
        why = REFUSALS.get(number, "see the table of refusals")
        return status, [f"Records {name}: REFUSED with {number}. Nothing was run.", f"  {number}: {why}", "", *verdict]
    return ExplainedRecords(name, tables).run(given, lines, erased or lines_of(given)[0] == ERASED_MARK)
