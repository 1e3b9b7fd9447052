"""A record of a file with what the bench program printed for it: what was asked, and what the lines say of it."""
import re

from fault import Fault
from phrases import counted
from serial_asked import record

ERASED_MARK = b"#erased"
LINE = re.compile(r"(\d+) (answered|reset|start|ref\d+) (\d+) (.*)")
ROW = re.compile(r"([0-9A-F]{4})=((?:[0-9A-F]{2}){1,16})")
HEAD = f"{'no':>3}  {'answer':9}{'pages':>5}  what was asked"
DONE, WRONG_CHECKSUM, SECURITY = ".", "X", "P"
PAGE = 128  # bytes
# What a board can answer to a record that it takes, by the record's kind.
FORMS = {kind: re.compile(r"\.") for kind in ("program", "erase", "write")}
FORMS |= {"blank check": re.compile(r"\.|[0-9A-F]{4}"), "read": re.compile(r"[0-9A-F]{2}\."), "display": ROW}


def lines_of(given):
    """Each line of a file without its end: a line feed, or a carriage return and one, or the file's end."""
    *ended, last = given.split(b"\n")
    return [line.removesuffix(b"\r") for line in ended] + [last]


def records_of(given):
    """Each record of a file with the number of its line."""
    return [(number, line) for number, line in enumerate(lines_of(given), 1) if line and not line.startswith(b"#")]


class Answer:
    """A record of the file with what the program printed for it."""

    def __init__(self, number, characters, printed):
        found = LINE.fullmatch(printed[0])
        if not found or int(found[1]) != number:
            raise Fault(f"the line {printed[0]!r} is not that of record {number}")
        self.number, self.asked = number, record(characters)
        self.word, self.pages, self.rows = found[2], int(found[3]), [found[4], *printed[1:]]
        self.text = found[4] if self.word == "answered" else ""

        if self.taken and not self.fits:
            raise Fault(f"{found[4]!r} is no answer to record {number}")
        if self.pages != self.due:
            raise Fault(f"{printed[0]!r} has {counted(self.pages, 'page')}, and record {number} with this answer stores {self.due}")

    @property
    def taken(self):
        """Whether the board did what the record asks."""
        return self.word in ("reset", "start") or (self.word == "answered" and self.text not in (WRONG_CHECKSUM, SECURITY))

    @property
    def fits(self):
        """Whether a board can answer this to a record that it takes, as far as the record's own characters tell."""
        if self.asked.damaged or self.asked.fault:
            return False
        if self.asked.kind == "start":
            started = ("start", f"{self.asked.address:04X}") if self.asked.address is not None else ("reset", "-")
            return (self.word, self.rows[0]) == started
        return self.word == "answered" and bool(FORMS[self.asked.kind].fullmatch(self.text))

    @property
    def refusal(self):
        """The number of its refusal, or 0."""
        return int(self.word[3:]) if self.word.startswith("ref") else 0

    @property
    def due(self):
        """How many pages of flash a board stores that gives this answer: those that the record's range meets, if it changes flash."""
        changes = self.asked.kind in ("program", "erase") and self.text == DONE
        return self.asked.end // PAGE - self.asked.start // PAGE + 1 if changes else 0

    @property
    def sent(self):
        """The rows of a display, each as its address and its bytes."""
        at, found = self.asked.start, []
        for row in self.rows:
            parts = ROW.fullmatch(row)
            if not parts or int(parts[1], 16) != at:
                raise Fault(f"{row!r} is no line of the display that record {self.number} asks for")
            found.append((at, bytes.fromhex(parts[2])))
            at += len(found[-1][1])
        if at != self.asked.end + 1:
            raise Fault(f"record {self.number} was sent {counted(at - self.asked.start)}, and asks for another number")
        return found

    @property
    def shown(self):
        """What stands in the column of answers; a display has lines of its own below."""
        if self.word != "answered":
            return self.word
        return counted(len(self.rows), "line") if ROW.fullmatch(self.text) else self.text

    def __str__(self):
        return f"{self.number:>3}  {self.shown:9}{self.pages:>5}  {self.asked.words}"


def printed_lines(lines):
    """The lines that belong together: the first of all, then for each record its own and those of a display."""
    found = []
    for line in lines.decode("latin-1").replace("\r", "").splitlines() or [""]:
        if not found or LINE.fullmatch(line) or len(found) == 1:
            found.append([line])
        else:
            found[-1].append(line)
    return found
