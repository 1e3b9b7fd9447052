"""What went wrong with a record, in a sentence, as far as its own characters and its answer tell."""
from phrases import DAMAGED
from serial_line import DONE, SECURITY, WRONG_CHECKSUM

LOST = {"program": "NOT STORED", "write": "NOT WRITTEN", "erase": "NOT ERASED", "display": "NOT SENT", "read": "NOT SENT"}
REFUSALS = {
    2: "the flash is not of 65,536 bytes",
    9: "the answer does not fit the room for it",
    16: "the file has over 1,048,576 bytes. Cut it in two; the second starts on a fresh board again.",
}


def lost(asked):
    return LOST.get(asked.kind, "NOT DONE")


def trouble(answer):
    """A sentence if the record was refused, or a blank check met a byte."""
    asked, number = answer.asked, answer.refusal
    if number:
        why = asked.fault if number == 17 and not asked.damaged else REFUSALS.get(number, "")
        return f"{lost(asked)}: REFUSED with {number}{': ' * bool(why)}{why}. Nothing changed."
    if answer.text == WRONG_CHECKSUM:
        return f"{lost(asked)}: X, {DAMAGED}. Nothing changed."
    if answer.text == SECURITY:
        return f"{lost(asked)}: P, the security level refuses it. Nothing changed."
    if asked.kind == "blank check" and answer.word == "answered" and answer.text != DONE:
        return f"NOT BLANK: the first byte that is not FFh is at {answer.text}h."
    return None
