"""Explains what the bench program printed for a job: each request and command in words, each state and status by name, what went wrong,
and at the end whether a sheet may be signed. What happened is read from the lines alone; no board is played here."""
import re

from explained import Explained
from fault import Fault
from names import AFTER_ERASE, BUSY, DOWNLOADING, ERROR, FILE_REFUSALS, IDLE, PAGE_TIME, SECURITY_BYTE, SYNC, UPLOADING
from phrases import counted, decimal_question, hex_of, looks_decimal
from readable import job_in, requests_of
from sheet import USB, nothing_run
from transfers import misplaced
from usb_line import HEAD, Request
from usb_trouble import barred, by_error, lost, trouble

CHANGES = "program", "erase", "write"
NEVER = "NEVER ASKED with GETSTATUS: what became of it, on a real board nobody would know."
ONCE = "NEVER ASKED AGAIN with GETSTATUS: the board was still burning, and nobody saw it done. Ask until state 5 is shown."
ONLY_ONE = "ASKED ONCE with GETSTATUS: pages were burnt, and after them two are asked."
CLEARED = "This clears the status alone. What was refused or stalled is still not done."


class Asked:
    """A command that was taken waits until a GETSTATUS shows another state than 3 and 4. One that burns pages wants two of them."""

    def __init__(self, sheet):
        self.sheet, self.waiting = sheet, None  # the request that waits
        self.seen, self.burning = 0, False  # how many GETSTATUS came since, and whether one showed state 4

    def request(self, request):
        if self.waiting:
            self.follow(request)
        if request.taken:
            self.waiting, self.seen, self.burning = request, 0, False

    def follow(self, request):
        asked = request.did("GETSTATUS")
        self.seen, self.burning = self.seen + asked, self.burning or request.state == BUSY
        if request.state in (SYNC, BUSY) and not request.taken:
            return
        if not (asked and request.state == DOWNLOADING and self.seen > bool(self.waiting.pages)):
            self.left(request)
        self.waiting = None

    def left(self, request=None):
        """The waiting one was left before it was seen done; a stall is told where it stands."""
        if self.waiting:
            sentence = ONCE if self.burning else ONLY_ONE if self.seen else NEVER
            note = self.sheet.told_elsewhere if request and request.answer == "stall" else self.sheet.wrong
            note("burnt" if self.seen else "asked", self.waiting.number, sentence)


class ExplainedJob(Explained):
    """Goes through the requests with their lines, tells what each means, and gathers what speaks against signing."""

    def __init__(self, name, tables):
        super().__init__(name, tables, USB)
        self.last, self.fetched = None, 0  # the last request whose command was taken, and how much of it was fetched
        self.cause, self.failed = 0, 0  # the request whose error waits in state 10; and the one that the last command failed by
        self.asked = Asked(self.sheet)

    def request(self, request):
        self.lines.append(str(request))
        if trouble(request):
            self.troubled(request)
        if request.wait is not None:
            pages = counted(request.wait // PAGE_TIME, "page")
            self.tell(f"The board is still burning {pages}: wait {request.wait:,} ms, then ask GETSTATUS again.")
        if request.did("CLRSTATUS"):
            self.cause = 0
            self.tell(CLEARED)
        self.asked.request(request)
        if request.command:
            self.commanded(request)
        if request.did("UPLOAD"):
            self.uploaded(request)

    # ---- what went wrong

    def because(self, request):
        """The number of an earlier request that this one fails by, or 0."""
        if by_error(request) or (request.refusal and request.before == 0):
            return self.cause
        to_fetch = request.name == "UPLOAD" and request.answer == "stall" and request.length and not request.index
        return self.failed if to_fetch else 0

    def troubled(self, request):
        cause = self.because(request)
        if cause:
            self.sheet.follows(cause)
            self.tell(f"{'REFUSED' if request.refusal else 'STALLED'}, because of request {cause}. {lost(request)}.")
        else:
            self.wrong("answers", request.number, trouble(request))
            if request.state in (ERROR, 0):
                self.cause = request.number
        if request.command and not request.taken:
            self.failed = cause or request.number
        if request.name == "UPLOAD" and self.last:
            self.not_fetched(self.last.command)
        self.sheet.barred |= barred(request)

    def not_fetched(self, asked):
        """An UPLOAD failed: what it was to fetch counts as tried."""
        if asked.kind == "read":
            self.ledger.unable(asked.memory, asked.start + self.fetched, asked.end)
        elif asked.byte == SECURITY_BYTE and not self.fetched:
            self.level_unread()

    # ---- what a command does

    def commanded(self, request):
        asked = request.command
        self.sheet.tried |= asked.kind == "program"
        if asked.kind in CHANGES and request.answer == "done":
            self.before_change(request.number, "this write or erase")
        if request.taken:
            self.taken(request)
        elif asked.kind == "program":
            self.ledger.refuse(request.number, asked.memory, asked.start, asked.end)
        elif asked.kind == "read":
            self.ledger.unable(asked.memory, asked.start, asked.end)
        elif asked.byte == SECURITY_BYTE:
            self.level_unread()

    def taken(self, request):
        asked = request.command
        self.last, self.fetched, self.failed = request, 0, 0
        if asked.kind == "program":
            self.programmed(request)
        elif asked.kind == "erase":
            self.ledger.erase(request.number, asked.memory, asked.start, asked.end)
            if asked.whole:
                self.settings_erased(request.number, AFTER_ERASE)
        elif asked.kind == "blank check":
            self.ledger.checked.add((asked.start, asked.end))
        self.settings_written(request.number, asked.written)

    def programmed(self, request):
        asked, body = request.command, request.command.body(request.data)
        for sentence in self.ledger.program(request.number, asked.memory, asked.start, body):
            self.tell(sentence)
        if sentence := misplaced(asked, request.data):
            self.ledger.misplaced.add(request.number)
            self.wrong("placed", request.number, sentence)
        if looks_decimal(body) and asked.memory not in self.tables:
            self.doubt(request.number, decimal_question(body))

    def uploaded(self, request):
        if not self.last:
            raise Fault(f"request {request.number} sent something that no command asked for")
        asked, reply = self.last.command, request.reply
        begin = asked.start + self.fetched
        if len(reply) != min(request.length, asked.fetched - self.fetched):
            raise Fault(f"request {request.number} was sent {counted(len(reply))}, and asks for another number")
        self.fetched += len(reply)
        if asked.kind == "read":
            self.sent_back(request.number, asked.memory, begin, reply)
        else:
            told = f", the first byte that is not FFh is at {reply.hex().upper()}h" if asked.kind == "blank check" and len(reply) == 2 else ""
            self.tell(f"sent: {hex_of(reply)}{told}")
            self.setting_read(request.number, asked.byte, reply)
        if asked.kind == "read" and request.state == UPLOADING:
            self.tell(f"{counted(asked.count - self.fetched)} of this read still to fetch.")

    # ---- the whole job

    def run(self, job, printed):
        requests = list(requests_of(job.raw))
        if printed[0] != f"job {len(requests)}" or len(printed) != len(requests) + 1:
            raise Fault(f"{len(printed)} lines that begin with {printed[0]!r} do not fit a job of {counted(len(requests), 'request')}")
        self.lines += [f"Job {self.name}: {counted(len(requests), 'request')}, run on a blank board as delivered. No real board was touched.", ""]
        if requests:
            self.lines.append(HEAD)
        before, error = IDLE, 0
        for number, ((_, value), line) in enumerate(zip(requests, printed[1:]), 1):
            request = Request(number, value, line, before, error)
            self.request(request)
            before, error = request.state, request.status
        self.asked.left()
        return self.ended([job.line_of(at) for at, _ in requests])


def refused(job, name, number, offset):
    """Tells of a job file that the program refused, by the line of its text."""
    line = job.line_of(offset)
    where = f"line {line} of {name}, byte {offset} of the raw job" if line and number != 16 else f"byte {offset} of {name}"
    status, verdict = nothing_run("The job was refused")
    why = FILE_REFUSALS.get(number, "see the table of refusals")
    why += f" It has {len(job.raw):,}." if number == 16 else ""
    return status, [f"Job {name}: REFUSED with {number} at {where}. Nothing was run.", f"  {number}: {why}", "", *verdict]


def explain_job(given, printed, name, tables):
    """The status, and the lines of the explanation. `given` is the job, readable or raw, `printed` what the program printed for it, and
    `tables` what the memories should hold."""
    job = job_in(given)
    lines = printed.decode(errors="replace").splitlines() or [""]
    if found := re.fullmatch(r"refused (\d+) at (\d+)", lines[0]):
        return refused(job, name, int(found[1]), int(found[2]))
    return ExplainedJob(name, tables).run(job, lines)
