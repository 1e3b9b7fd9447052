"""A request of a job with the bench program's line for it: what was asked, and what the line says of it."""
import re

from fault import Fault
from names import ASKED, BUSY, ERROR, REQUESTS, STATES, STATUSES, SYNC
from phrases import counted, hex_of
from usb_asked import command

STATUS_SIZE = 6  # bytes that GETSTATUS sends
LINE = re.compile(r"(\d+) (done|stall|start|ref\d+) (\d+) ([0-9A-F]{2}) (\d+) ([0-9A-F]+|-)")
HEAD = f"{'no':>3}  {'request':10} {'answer':7}{'state':20}{'status':19}{'pages':7}what was asked"


class Request:
    """A request of the job and the program's line for it."""

    def __init__(self, number, value, line, before, error):
        found = LINE.fullmatch(line)
        if not found or int(found[1]) != number:
            raise Fault(f"the line {line!r} is not that of request {number}")
        self.number, self.before, self.error = number, before, error  # state and status before it
        self.answer, self.state, self.status = found[2], int(found[3]), int(found[4], 16)
        self.pages, self.reply = int(found[5]), b"" if found[6] == "-" else bytes.fromhex(found[6])
        self.setup, self.data = value[:8], value[8:]
        self.value, self.index, self.length = (int.from_bytes(self.setup[at : at + 2], "little") for at in (2, 4, 6))
        self.name = REQUESTS.get((self.setup[0], self.setup[1]), "unknown")
        self.command = command(self.data) if self.name == "DNLOAD" and self.data else None
        if not self.fits:
            raise Fault(f"{line!r} is no answer to request {number}")

    @property
    def fits(self):
        """Whether a board can answer this, as far as the request tells: a command is taken or sets an error, and a GETSTATUS sends what
        stands in the line."""
        if self.answer != "done":
            return True
        if self.command:
            return self.state in (SYNC, ERROR)
        told = len(self.reply) == STATUS_SIZE and (self.reply[0], self.reply[4]) == (self.status, self.state)
        return self.name != "GETSTATUS" or told

    @property
    def taken(self):
        """Whether it brought a command that the board took."""
        return self.command is not None and self.answer == "done" and self.state == SYNC

    @property
    def refusal(self):
        """The number of its refusal, or 0."""
        return int(self.answer[3:]) if self.answer.startswith("ref") else 0

    def is_command(self, *kinds):
        return self.command is not None and self.command.kind in kinds

    def did(self, name):
        """Whether it is a request of this name that the board did."""
        return self.name == name and self.answer == "done"

    @property
    def wait(self):
        """How many milliseconds a GETSTATUS in state 4 says to wait: three bytes behind the status, low byte first. None elsewhere."""
        return int.from_bytes(self.reply[1:4], "little") if self.did("GETSTATUS") and self.state == BUSY else None

    def asked(self):
        if self.command:
            return self.command.words
        if self.name == "DNLOAD":
            return "end the download"
        if self.name == "UPLOAD":
            return f"fetch up to {counted(self.length)}"
        return ASKED.get(self.name, f"{hex_of(self.setup[:2])}, no request of this loader")

    def __str__(self):
        state, status = f"{self.state:>2} {STATES.get(self.state, '?')}", f"{self.status:02X} {STATUSES.get(self.status, '?')}"
        return f"{self.number:>3}  {self.name:10} {self.answer:7}{state:20}{status:19}{self.pages:>5}  {self.asked()}"
