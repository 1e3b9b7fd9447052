"""What the bytes of a file hold: text or something else. It is known by the bytes alone, whatever the file's name."""
import codecs
import re

from fault import Fault

TAGS = REQUEST, GROUP, NOTE = 1, 2, 3
SPACES = b"\t\n\v\f\r\x1a"  # what a text may hold below 20h; old systems end a text with 1Ah
LINE_END = "\r\n|\r|\n"
UTF_16 = "this is UTF-16 text: save it again as UTF-8 (in an editor: Save as, encoding UTF-8)"
NEITHER = "this is neither a job's text nor a raw job: save a text as plain text (UTF-8); a raw job begins with 01h, 02h or 03h"


def is_utf_16(given):
    """Whether an editor saved the text with two bytes for each letter. Without a mark at its start all of it has to look so."""
    marked = given[:2] in (codecs.BOM_UTF16_LE, codecs.BOM_UTF16_BE)
    for name in ("utf-16-le", "utf-16-be"):
        text = given.decode(name, errors="replace").lstrip("\ufeff")
        plain = sum(letter.isascii() and (letter.isprintable() or letter.isspace()) for letter in text)
        if 2 * plain > len(text) if marked else plain == len(text) > 3:
            return True
    return False


def text_fault(given):
    """A sentence where a text can't be read as it was saved; None where it can, or where this is no text."""
    return UTF_16 if is_utf_16(given) else None


def without_mark(given):
    """A text without the three bytes that some editors put before UTF-8."""
    return given.removeprefix(codecs.BOM_UTF8)


def text_in(given):
    """The text of a readable job, or None for other bytes. A job that the program takes begins with a tag, and no text does."""
    if not given or given[0] in TAGS:
        return None
    if sentence := text_fault(given):
        raise Fault(sentence)
    if any((byte < 0x20 and byte not in SPACES) or byte == 0x7F for byte in given):
        return None
    try:
        return without_mark(given).decode().rstrip("\x1a")
    except UnicodeDecodeError as error:
        if given[0] > 0x7F:
            return None
        line = len(re.split(LINE_END.encode(), given[: error.start]))
        raise Fault(f"line {line}: the byte {given[error.start]:02X}h is no UTF-8: save the text as UTF-8, or write plain letters") from None
