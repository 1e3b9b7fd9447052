"""Readable jobs turned into raw bytes; jobs/README.md says how a job is written. Jobs that the bench program refuses are turned as
well. Only a text that has no one meaning is a fault, and then nothing is made."""
from cautions import Cautions, over_size, sentences
from fault import Fault, Faults
from given import GROUP, NEITHER, NOTE, REQUEST, TAGS, text_in
from job_words import SETUP, TAKES_BYTES, UNKNOWN, items
from tokens import MOST, byte_pairs, upload_size

ADDRESSED, ADDRESSES = (b"\x01", b"\x03"), (2, 4)  # commands whose two addresses stand behind two bytes
NO_GROUP, NO_END = "this end has no group: take it away, or write group before it", "this group has no end: write end behind its last request"


class Job:
    """The raw bytes of a job, with the line of its text for each place in them, and warnings about the text: all of them, and those that
    an explanation of the job does not tell."""

    def __init__(self, raw=b""):
        self.raw, self.marks, self.warnings, self.unexplained = raw, [], [], []

    def line_of(self, offset):
        """The line that the byte at an offset was written on; 0 if the job was raw bytes."""
        return max((mark for mark in self.marks if mark[0] <= offset), default=(0, 0))[1]

    def put(self, value, marks):
        self.marks += [(len(self.raw) + at, line) for at, line in marks]
        self.raw += value


def job_in(given):
    """The job in the bytes of a file."""
    text = text_in(given)
    if text is not None:
        return job_of(text)
    if given and given[0] not in TAGS:
        raise Fault(NEITHER)
    return Job(given)


def job_of(text):
    """The job that a readable text says."""
    building = Building()
    for item in items(text, building.faults):
        building.item(item)
    return building.job()


def requests_of(raw, base=0):
    """Each request of a job that the bench program takes, through all its groups: its place and its bytes."""
    at = 0
    while at < len(raw):
        size = int.from_bytes(raw[at + 1 : at + 3], "big")
        value = raw[at + 3 : at + 3 + size]
        if raw[at] == REQUEST:
            yield base + at, value
        elif raw[at] == GROUP:
            yield from requests_of(value, base + at + 3)
        at += 3 + size


class Building:
    """A job as it grows word by word. A fault is noted and the rest read on; what would only follow from it is not said."""

    def __init__(self):
        self.faults, self.cautions = Faults(), Cautions()
        self.enclosing = [(0, Job())]  # the file, then each open group with its line
        self.cuts, self.line = [], 0  # where the job can be cut, and the line on which the last item ends

    def item(self, item):
        self.note_cut(item)
        if item.word == "GROUP":
            self.bytes_of(item)
            self.enclosing.append((item.line, Job()))
        elif item.word == "END":
            self.bytes_of(item)
            self.end(item.line)
        elif item.word == "NOTE":
            (_, text), *rest = item.rest
            self.bytes_of(item._replace(rest=rest))
            self.field(item, NOTE, text.encode(), [])
        else:
            self.request(item)

    def note_cut(self, item):
        """A job can be cut before a command, a group or a note that begins a line, and in no group."""
        begins = item.word in ("GROUP", "NOTE") or (item.word == "DNLOAD" and item.rest)
        if begins and len(self.enclosing) == 1 and item.line > self.line:
            self.cuts.append((len(self.enclosing[0][1].raw), item.line))
        self.line = item.last_line

    def read(self, line, reads, *given):
        """What a token stands for; None where it has a fault."""
        try:
            return reads(*given)
        except Fault as fault:
            self.faults.add(line, fault)
            return None

    def bytes_of(self, item):
        """The bytes behind a word, with the line that each was typed on, 0 where it came by a star; and whether all could be read."""
        given, typed, good = bytearray(), [], True
        for line, token in item.rest:
            address = item.word == "DNLOAD" and given[:1] in ADDRESSED and len(given) in ADDRESSES
            read = self.read(line, byte_pairs, token, address)
            if good and read is not None and item.word not in (*TAKES_BYTES, UNKNOWN):
                self.faults.add(line, f"{token!r} can't follow {item.word}: bytes follow DNLOAD, request or raw")
            good &= read is not None and item.word in TAKES_BYTES
            value = bytes(2 if address else 1) if read is None else read  # what is behind a fault keeps its place
            given += value
            typed += [0 if "*" in token else line] * len(value)
        return bytes(given), typed, good

    def request(self, item):
        """A word that makes a request, RAW, or an unknown one."""
        size = b""
        if item.word == "UPLOAD":
            (line, token), *rest = item.rest or [(item.line, "")]
            asked = self.read(line, upload_size, token, self.cautions.fetching.due)
            if asked is None:
                return
            self.cautions.fetching.upload(item.line, asked)
            item, size = item._replace(rest=rest), asked.to_bytes(2, "little")
        given, typed, good = self.bytes_of(item)
        if item.word == UNKNOWN or not good:
            self.cautions.fetching.due = None
            return
        if item.word == "DNLOAD":
            size = (len(given) & MOST).to_bytes(2, "little")
        value = SETUP.get(item.word, b"") + size
        self.field(item, REQUEST, value + given, [0] * len(value) + typed)

    def field(self, item, tag, value, typed):
        """Puts a field, or the bytes of RAW as they stand."""
        self.cautions.field(item, value, typed)
        if item.word == "RAW":
            self.enclosing[-1][1].put(value, self.raw_marks(item))
        else:
            self.put(item.line, tag, value, [(0, item.line)])

    def raw_marks(self, item):
        """The line of each token of plain bytes, by its place among them."""
        at = 0
        for line, token in item.rest:
            yield at, line
            at += len(byte_pairs(token))

    def put(self, line, tag, value, marks):
        if len(value) > MOST:
            self.faults.add(line, f"a field of {len(value)} bytes; its length can't say more than {MOST}: cut it in two")
            return
        self.enclosing[-1][1].put(bytes([tag]) + len(value).to_bytes(2, "big") + value, marks)

    def end(self, line):
        """Closes the innermost group and puts it into what encloses it."""
        if len(self.enclosing) == 1:
            self.faults.add(line, NO_GROUP)
            return
        begun, inner = self.enclosing.pop()
        self.put(line, GROUP, inner.raw, [(0, begun), *((at + 3, of) for at, of in inner.marks)])

    def job(self):
        """The whole job, once all words were read."""
        for line, _ in self.enclosing[1:]:
            self.faults.add(line, NO_END)
        self.faults.tell()
        job = self.enclosing[0][1]
        self.cautions.end()
        size = over_size(len(job.raw), self.cuts)
        job.warnings = sentences(self.cautions.told + self.cautions.explained) + size
        job.unexplained = sentences(self.cautions.told) + size
        return job
