"""What a file that a person gives is for: a job, or records for the serial plug. A file of the other kind is told, with what to do."""
import re

from fault import Fault
from given import text_fault, without_mark

COMMENT, RECORD = re.compile(rb"\s*(#.*)?"), re.compile(rb"\s*:")
JOB = re.compile(rb"[\x01-\x03]|\s*(dnload|upload|getstatus|getstate|clrstatus|abort|request|group|note|raw)(\s|$)", re.IGNORECASE)
LINE_END = re.compile(rb"\r\n|\r|\n")
MOST_RECORDS = 1048576  # bytes of a file of records
ERASED_LINE = b"#erased\n"
TEXT = {*range(0x20, 0x7F), *range(0x80, 0x100), *b"\t\n\r\x1a"}
HEX_FILE = """its lines begin with a colon: a HEX file or a file of records.
  For a USB board it is the table: write a job, and give this file as --table (docs/TRAINING.md, From the sheet to the job).
  Only for an older board, one with a serial plug, is it run as it stands: ./bench --serial FILE"""
A_JOB = "this is a job, not a file of records: run it without --serial"
NO_TEXT = "this is no text: neither a file of records nor a HEX file"
WITH_ERASED = "it has {} bytes, and with --erased a file may have {}, {} fewer than without: the line #erased is put before it"


def first_line(given):
    """The first line that is neither empty nor a comment."""
    return next((line for line in LINE_END.split(without_mark(given)) if not COMMENT.fullmatch(line)), b"")


def no_records(given):
    """Refuses a file of records that is given as a job."""
    if RECORD.match(first_line(given)):
        raise Fault(HEX_FILE)


def records_in(given, erased):
    """The records of a file as the program reads them: one a line, each line ended by a line feed or by a carriage return and one. The
    line that asks for an erased board comes before them, so that a file may be too long only by that."""
    if JOB.match(first_line(given)):
        raise Fault(A_JOB)
    if sentence := text_fault(given):
        raise Fault(sentence)
    if not set(given) <= TEXT:
        raise Fault(NO_TEXT)
    most = MOST_RECORDS - len(ERASED_LINE)
    if erased and most < len(given) <= MOST_RECORDS:
        raise Fault(WITH_ERASED.format(len(given), most, len(ERASED_LINE)))
    return re.sub(rb"\r(?!\n)", b"\n", re.sub(rb"\x1a[\r\n]*\Z", b"", without_mark(given)))
