"""The ledger of a job or of a file of records: which bytes were programmed and by which request, and what came back where they were
read. It knows of a board only what the bench program's lines said."""
from collections import defaultdict
from typing import NamedTuple

from names import BYTES
from phrases import NOT_READ, counted, in_words, span
from usb_asked import PROGRAM_CODES

BLANK = 0xFF  # what an erase leaves in the flash
SETTINGS = "configuration"  # its places are the indexes of the configuration bytes
OTHER = {"flash": "EEPROM", "EEPROM": "flash"}


def named(memory, start, end):
    return BYTES[start] if memory == SETTINGS else in_words(memory, start, end)


def where(memory, start, end):
    return BYTES[start] if memory == SETTINGS else f"{memory} {span(start, end)}"


def runs(entries):
    """Neighbouring addresses with an equal mark, as (memory, start, end, mark). Configuration bytes stand alone."""
    found = []
    for (memory, address), mark in sorted(entries):
        if found and memory != SETTINGS and found[-1][0] == memory and found[-1][2] == address - 1 and found[-1][3] == mark:
            found[-1][2] = address
        else:
            found.append([memory, address, address, mark])
    return found


class Sent(NamedTuple):
    """A byte that was programmed or written, the request that did, and the bits of it that count."""

    byte: int
    request: int
    mask: int

    def same(self, byte):
        return not (self.byte ^ byte) & self.mask


class Ledger:
    """Every place of a memory is a pair of memory and address; requests, or what else the file holds, are named by number."""

    def __init__(self, thing="request", whole="job"):
        self.thing, self.whole = thing, whole
        self.sent = {}  # place: what was last programmed there
        self.erased = {}  # place: the request that erased it after that
        self.refused = defaultdict(set)  # place: requests that would have programmed it after that, and were not taken
        self.misplaced = set()  # requests that programmed something else than was meant
        self.board = {}  # place: the byte that was read there, after the last write
        self.unread = set()  # places where a read was tried after the last write, and failed
        self.checked = set()  # start and end of each blank check

    def changed(self, place):
        self.board.pop(place, None)
        self.unread.discard(place)

    def program(self, request, memory, start, given, mask=0xFF):
        """Notes what was programmed. Gives sentences on what was programmed there before and is another byte now."""
        places = ((memory, at) for at in range(start, start + len(given)))
        over = [(place, self.sent[place].request) for place, byte in zip(places, given) if place in self.sent and not self.sent[place].same(byte)]
        for at, byte in enumerate(given, start):
            place = memory, at
            self.sent[place] = Sent(byte, request, mask)
            self.erased.pop(place, None)
            self.refused.pop(place, None)
            self.changed(place)
        return [f"This overwrites {named(*run)} of {self.thing} {before}." for *run, before in runs(over) if memory != SETTINGS]

    def written(self, index):
        """What was last written to a configuration byte, or None."""
        return self.sent.get((SETTINGS, index))

    def write(self, request, index, value, mask):
        """Some bits of a configuration byte were written; those that were written before still count."""
        before = self.written(index) or Sent(0, 0, 0)
        self.program(request, SETTINGS, index, bytes([before.byte & ~mask | value & mask]), before.mask | mask)

    def refuse(self, request, memory, start, end):
        for at in range(start, end + 1):
            self.refused[memory, at].add(request)

    def erase(self, request, memory, start, end, left=BLANK):
        for place in [place for place in {*self.sent, *self.board} if place[0] == memory and start <= place[1] <= end]:
            self.changed(place)
            if place in self.sent and not self.sent[place].same(left):
                self.erased[place] = request

    def unable(self, memory, start, end):
        """A read of this range failed."""
        self.unread |= {(memory, at) for at in range(start, end + 1)}

    def read(self, memory, start, given):
        """Notes what came back. Gives sentences about it, and apart from them what is wrong with it."""
        read = {(memory, at): byte for at, byte in enumerate(given, start)}
        known = {place for place in read if place in self.sent}
        wrong = {place: read[place] for place in known if not self.sent[place].same(read[place])}
        gone = {place for place in wrong if place in self.erased}
        self.board |= read
        return [*self.told(read, known - wrong.keys()), *self.gone(gone)], list(self.faults({place: wrong[place] for place in wrong.keys() - gone}))

    def told(self, read, right):
        """Where each part of what was read comes from."""
        for memory, start, end, request in runs((place, self.sent[place].request) for place in right):
            yield f"{where(memory, start, end)}: as {self.thing} {request} sent it{self.but(request)}."
        fresh = runs((place, None) for place in read if place not in self.sent and place[0] != SETTINGS)
        yield from (f"{where(memory, start, end)}: not programmed in this {self.whole}." for memory, start, end, _ in fresh)
        lost = runs((place, max(self.refused[place])) for place in read if place in self.refused)
        for memory, start, end, request in lost:
            yield f"{where(memory, start, end)}: NOTHING of {self.thing} {request} is here, because it was not taken."

    def but(self, request):
        return ", MISPLACED as said there" if request in self.misplaced else ""

    def gone(self, places):
        """What was programmed and erased since. It may be programmed again, so it is judged at the end."""
        for memory, start, end, (request, erased) in runs((place, (self.sent[place].request, self.erased[place])) for place in places):
            yield f"{where(memory, start, end)}: {self.thing} {erased} erased what {self.thing} {request} programmed."

    def faults(self, wrong):
        """For each request that programmed something else than came back, a sentence with the first such byte."""
        by = defaultdict(list)
        for place in sorted(wrong):
            by[self.sent[place].request].append(place)
        for request, places in by.items():
            at = where(*places[0], places[0][1])
            told = f"NOT AS SENT: {counted(len(places))} of {self.thing} {request} came back changed, the first at {at}:"
            yield f"{told} sent {self.sent[places[0]].byte:02X}h, read {wrong[places[0]]:02X}h."

    # ---- at the end

    def read_back(self):
        """What came back as it was sent, after the last write."""
        right = [place for place, sent in self.sent.items() if place in self.board and sent.same(self.board[place])]
        for memory, start, end, request in runs((place, self.sent[place].request) for place in right):
            yield f"Read back as {self.thing} {request} sent it{self.but(request)}: {named(memory, start, end)}."

    def never_read(self):
        """What was programmed and not read since, or erased: its range, the request, the request that erased it or 0, and whether a read of
        it failed."""
        left = [place for place in self.sent if place not in self.board or place in self.erased]
        marks = ((place, (self.sent[place].request, self.erased.get(place, 0), place in self.unread)) for place in left)
        return [(memory, start, end, *mark) for memory, start, end, mark in runs(marks)]

    def other_read(self, memory, start, end):
        """Whether the same addresses were read in the other memory, where nothing was programmed."""
        others = [(OTHER.get(memory), at) for at in range(start, end + 1)]
        return any(place in self.board and place not in self.sent for place in others)

    def unread_sentence(self, memory, start, end, request, erased):
        if erased:
            return erased, f"ERASED what {self.thing} {request} programmed: {named(memory, start, end)}."
        if self.other_read(memory, start, end):
            code = PROGRAM_CODES[OTHER[memory]]
            return request, f"programmed the {memory}; the {OTHER[memory]} was read: was the second byte to be {code:02X}?"
        meant = f" {NOT_READ}." if memory == "EEPROM" and (start, end) in self.checked else ""
        return request, f"NEVER READ BACK: {named(memory, start, end)}. Nobody has compared it.{meant}"

    def against(self, memory, table):
        """Sentences where a table differs from what the board gave back, and where it was never read, or programmed beside it."""
        wrong = [at for at, byte in sorted(table.items()) if self.board.get((memory, at), byte) != byte]
        if wrong:
            first = wrong[0]
            more = f", and {counted(len(wrong) - 1)} more {'differs' if len(wrong) == 2 else 'differ'}" if len(wrong) > 1 else ""
            yield f"{memory} {first:04X}h: the table has {table[first]:02X}, the board has {self.board[memory, first]:02X}{more}."
        for _, start, end, _ in runs(((memory, at), None) for at in table if (memory, at) not in self.board):
            yield f"{in_words(memory, start, end)}: in the table, and never read back."
        beside = runs((place, sent.request) for place, sent in self.sent.items() if place[0] == memory and place[1] not in table)
        for _, start, end, request in beside:
            yield f"{in_words(memory, start, end)}: {self.thing} {request} programmed it, and the table does not have it."
