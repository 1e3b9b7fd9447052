"""What a token behind a word stands for: bytes, or how many bytes an UPLOAD asks for. A Fault says what to write instead."""
import re

from fault import Fault
from job_words import DIGITS, no_word
from phrases import counted

MOST = 65535  # what two bytes hold
QUOTES = "\"'`\u00b4\u2018\u2019\u201a\u201c\u201d\u201e\u00ab\u00bb"  # what an editor puts around words
TIMES = "xX\u00d7\u2715\u2217\u00b7"  # signs that are written for the star


def check(good, sentence):
    if not good:
        raise Fault(sentence)


def starred(token):
    """COUNT*BYTE as it was meant: without quotes around it, and with a star for another sign. None for all other tokens."""
    meant = re.fullmatch(f"([1-9][0-9,]*)[*{TIMES}]((?:[0-9a-fA-F]{{2}})+[hH]?)", token.strip(QUOTES))
    return f"{meant[1].replace(',', '')}*{meant[2]}" if meant else None


def byte_pairs(token, address=False):
    """The bytes of hex digit pairs, repeated if COUNT* stands before them. An h behind the digits is for the eye. Where an address is
    due, three digits are one that lacks its first."""
    meant = starred(token)
    check(meant in (None, token), f"{token!r} is no word of a job: write {meant}")
    count, star, typed = token.rpartition("*")
    pairs = re.sub("(?<=[0-9a-fA-F])[hH]$", "", typed)
    check(pairs and token not in TIMES, f"{token!r}: write count and byte at the star without spaces, as in 26*00")
    check(not pairs.strip(DIGITS), no_word(token))
    repeats = times(token, count, pairs) if star else 1
    no_decimal(typed, address)
    thing = "an address has four" if address and len(pairs) == 3 else "a byte has two"
    write = f": write {count}{star}0{pairs}" if len(pairs) <= 3 else ""
    check(len(pairs) % 2 == 0, f"{token!r} has {counted(len(pairs), 'hex digit')}, and {thing}{write}")
    return bytes.fromhex(pairs) * repeats


def no_decimal(typed, address):
    """Three digits, or five for an address, make no pairs and may be a decimal number."""
    digits, size, things = (5, 4, "addresses") if address else (3, 2, "bytes")
    if len(typed) != digits or not re.fullmatch("[0-9]+", typed):
        return
    check(int(typed) < 16**size, f"{things} are hex, and decimal {int(typed)} is more than the largest, {16**size - 1}")
    raise Fault(f"{things} are hex: decimal {int(typed)} is written {int(typed):0{size}X}; are the others decimal too?")


def times(token, count, pairs):
    """How many times the bytes stand there. Who turned count and byte round is told so."""
    turned = re.fullmatch("[0-9a-fA-F]{2}", count) and re.fullmatch("[0-9]+", pairs) and int(pairs)
    instead = f"did you mean {int(pairs)}*{count}?" if turned else "write 26*00 for 26 zeros"
    right = re.fullmatch("[0-9]{1,5}", count) and int(count) <= MOST
    check(right, f"{token!r}: before the star stands how many times, a decimal number up to {MOST}; {instead}")
    check(int(count), f"{token!r} puts no byte at all: the count stands before the star; {instead if turned else 'leave it out'}")
    return int(count)


def upload_size(token, due):
    """How many bytes an UPLOAD asks for. `all` is what the command before it has to fetch; None where nobody can say."""
    if token.lower() == "all":
        check(due is None or 0 < due <= MOST, "UPLOAD all needs a read before it: write the number of bytes, as in UPLOAD 64")
        return due or 0
    right = re.fullmatch("[0-9]{1,5}", token) and int(token) <= MOST
    instead = "write UPLOAD 64, or UPLOAD all"
    if as_hex := re.fullmatch("(0x)?([0-9a-f]{1,4})h?", token, re.IGNORECASE):
        instead = f"{token} in hex is {int(as_hex[2], 16)}: write UPLOAD {int(as_hex[2], 16)}"
    elif re.fullmatch("[0-9]{1,2},[0-9]{3}", token):
        instead = f"write UPLOAD {token.replace(',', '')}"
    check(right, f"UPLOAD needs a decimal number up to {MOST}, or all; {instead}")
    return int(token)
