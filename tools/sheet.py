"""The lists to sign by, which docs/SIGN.md has for people, and the last word of an explanation. SIGN is said only where every line of
the list is ticked; a line that is not is told with what is wrong."""
from typing import NamedTuple

from phrases import counted

SIGN, DO_NOT_SIGN, OTHER, NOTHING_TO_SIGN = range(4)  # the exit status

OF_BOTH = {
    "read": "Every byte that was programmed or written was read back after the last write to it.",
    "same": "Every byte that was read back is as it was sent.",
    "table": "Every byte of the table was read back and is the same on the board, and nothing beside the table was programmed.",
    "programmed": "Something was programmed.",
}
USB_LINES = {
    "level": "The SSB, configuration byte 05h, was read before the first write or erase, and the board was at level 0.",
    "answers": "No request stalled, none was refused, and none set an error status.",
    "asked": "After every command came a GETSTATUS, and the status was 00h.",
    "burnt": "After every command that burns pages came two GETSTATUS, and the last showed state 5 and status 00h.",
    "placed": "In every program transfer filler and pad are zero, and the suffix is zero or a DFU suffix.",
    **OF_BOTH,
}
SERIAL_LINES = {
    "level": "The SSB was read before the first record that programs, writes or erases a block, and the board was at level 0.",
    "answers": "No record was answered X or P, none was refused, and no blank check met a byte.",
    "started": "No record came after a start.",
    **OF_BOTH,
}
ADVICE = "Write down the {}, and give the board back. Do not erase it: that empties the whole flash."
MOST_SHOWN = 20  # reasons under one line of the list
WENT_WRONG = "answers", "started", "same", "table"  # lines that count where nothing was to be programmed


class ToSignBy(NamedTuple):
    """A list, what it is a list of, what these stand in, and what to write down of one that the level refused."""

    lines: dict
    thing: str
    whole: str
    note: str


USB = ToSignBy(USB_LINES, "request", "job", "request, its state and its status")
SERIAL = ToSignBy(SERIAL_LINES, "record", "file", "record and its answer")


class Reason(NamedTuple):
    """Why a line of the list is not ticked: where, if one request or record is to blame, and in which words."""

    line: str
    number: int
    sentence: str


class Sheet:
    """Gathers what speaks against signing. What a request brought about in others is counted with it, and is no reason of its own."""

    def __init__(self, to_sign_by):
        self.lines, self.thing, self.whole, self.note = to_sign_by
        self.reasons, self.following = [], {}  # the number of a request: how many failed because of it
        self.spare = []  # reasons that another reason should tell already
        self.barred = False  # whether the level refused something
        self.tried = self.programmed = False  # whether something was to be programmed, and whether something was

    def wrong(self, line, number, sentence):
        self.reasons.append(Reason(line, number, sentence))

    def told_elsewhere(self, line, number, sentence):
        """What is wrong because of something that is told where it stands; it counts only where nothing is told."""
        self.spare.append(Reason(line, number, sentence))

    def follows(self, number):
        self.following[number] = self.following.get(number, 0) + 1

    def place(self, number, places):
        """The number of a request or record, with the line of its text if it has one."""
        return f"{self.thing} {number}" + (f" (line {places[number - 1]})" if places[number - 1] else "")

    def told(self, places):
        """Each line of the list that is not ticked, with its reasons."""
        for line, words in self.lines.items():
            reasons = sorted((reason for reason in self.reasons if reason.line == line), key=lambda reason: reason.number)
            if reasons:
                yield f"  [ ] {words}"
            for _, number, sentence in reasons[:MOST_SHOWN]:
                yield f"      {self.place(number, places)}: {sentence}" if number else f"      {sentence}"
                if line in ("answers", "started") and self.following.get(number):
                    yield f"      and {counted(self.following[number], self.thing)} after it, because of it"
            if len(reasons) > MOST_SHOWN:
                yield f"      and {len(reasons) - MOST_SHOWN:,} more"
        if self.barred:
            yield f"  {ADVICE.format(self.note)}"

    def verdict(self, places):
        """The status, and the lines of the verdict. Who only looks, or erases, or changes the level has nothing to sign."""
        self.reasons = self.reasons or self.spare
        if not self.tried:
            self.reasons = [reason for reason in self.reasons if reason.line in WENT_WRONG]
        elif not self.programmed and not self.reasons:
            self.wrong("programmed", 0, "NOTHING of what was sent to be programmed was taken.")
        if self.reasons:
            return DO_NOT_SIGN, ["DO NOT SIGN", *self.told(places)]
        if not self.tried:
            return NOTHING_TO_SIGN, [f"Nothing was programmed by this {self.whole}.", "", "NOTHING TO SIGN"]
        return SIGN, ["SIGN"]


def nothing_run(why):
    """The verdict on a file that was not run."""
    return DO_NOT_SIGN, ["DO NOT SIGN", f"  {why}: nothing was done."]
