"""The words of a readable job, and its text cut into them: each word with what stands behind it."""
import difflib
import re
from typing import NamedTuple

from given import LINE_END
from names import FIXED, REQUESTS


def setup(kind, number, name):
    """The setup bytes of a request, wIndex 0; the length of one that is not always the same follows."""
    value, length = FIXED.get(name, (0, None))
    return bytes([kind, number, *value.to_bytes(2, "little"), 0, 0]) + (b"" if length is None else length.to_bytes(2, "little"))


SETUP = {name: setup(*codes, name) for codes, name in REQUESTS.items() if name != "DETACH"} | {"REQUEST": b""}
TAKES_BYTES, WORDS = {"DNLOAD", "REQUEST", "RAW"}, ["DNLOAD", "UPLOAD", *FIXED, "REQUEST", "GROUP", "END", "NOTE", "RAW"]
UNKNOWN = "?"  # stands in the place of a word that is none, so that nothing else is said of the bytes behind it
DIGITS = "0123456789abcdefABCDEF"
ALONE = "a note needs a line of its own: put a line break before it"
NO_WAIT = "a job has no word for waiting: on the bench no time passes; on a real board wait as long as the first GETSTATUS says"
WAITS = "WAIT", "SLEEP", "DELAY", "PAUSE"
NO_HEX_FILE = "this looks like an Intel HEX file; a job has the bytes behind DNLOAD"


class Item(NamedTuple):
    """A word with its line, and what follows it with the lines of that: a note's text, or tokens."""

    word: str
    line: int
    rest: list

    @property
    def last_line(self):
        return max([self.line, *(line for line, _ in self.rest)])


def parted(content):
    """The tokens of a line. A comma counts as a space; only in the number behind UPLOAD and before a star one stays, to be told of."""
    return re.findall(r"(?<=UPLOAD )[0-9]+,[0-9]{3}(?!\S)|[0-9]+,[0-9]{3}\*[^\s,]+|[^\s,]+", " ".join(content.split()), re.IGNORECASE)


def is_word(token):
    """Whether a token that is none of the words was meant as one, or as a comment: then the rest of its line belongs to it."""
    named = sum(letter.isalpha() for letter in token) > 2 and not any(letter.isdigit() for letter in token)
    return token.startswith((";", "//", ":")) or (named and bool(token.rstrip("hH").strip(DIGITS)))


def items(text, faults):
    """Each word of a text. Bytes before all words follow RAW."""
    found = [Item("RAW", 1, [])]
    for line, content in enumerate(re.split(LINE_END, text), 1):
        content = content.partition("#")[0].strip()
        if note := re.fullmatch(r"note(\s.*)?", content, re.IGNORECASE):
            found.append(Item("NOTE", line, [(line, (note[1] or "").strip())]))
            continue
        for token in parted(content):
            number = found[-1].word == "UPLOAD" and not found[-1].rest
            if token.upper() == "NOTE":
                faults.add(line, ALONE)
                break
            if token.upper() in WORDS:
                found.append(Item(token.upper(), line, []))
            elif is_word(token) and not number:
                faults.add(line, no_word(token))
                found.append(Item(near_word(token) if near_word(token) in ("GROUP", "END") else UNKNOWN, line, []))
                break
            else:
                found[-1].rest.append((line, token))
    return found


def letters(token):
    return re.sub("[^A-Z]", "", token.upper())


def near_word(token):
    """The word that a token may have been meant as, or None."""
    bare = letters(token)
    near = difflib.get_close_matches(bare, WORDS, 1) or [word for word in WORDS if bare in word and len(bare) > 2]
    return near[0] if near else None


def no_word(token):
    """What is said of a token that is neither a word nor bytes, with what to write instead."""
    return NO_WAIT if letters(token) in WAITS else f"{token!r} is no word of a job: {instead_of(token)}"


def instead_of(token):
    if token.startswith((";", "//")):
        return "a comment begins with #"
    if token.startswith(":"):
        return NO_HEX_FILE
    if near := near_word(token):
        return f"did you mean {near}?"
    parts = [part.removeprefix("0x").removeprefix("0X").rstrip("hH") for part in re.split("[^0-9A-Za-z]+", token) if part]
    if parts and all(part and not part.strip(DIGITS) and len(part) % 2 == 0 for part in parts):
        return f"write {' '.join(parts)}"
    return f"write {', '.join(WORDS)}, or pairs of hex digits"
