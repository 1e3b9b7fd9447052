"""Raw bytes shown as the text of a readable job."""
import itertools

from given import GROUP
from job_words import FIXED
from readable import job_of

DEEPEST = 4  # groups in groups
LONG_RUN = 8  # so many equal bytes are shown as COUNT*BYTE


def hex_of(raw):
    runs = [(byte, len(list(run))) for byte, run in itertools.groupby(raw)]
    return "".join(f" {n}*{byte:02X}" if n >= LONG_RUN else f" {byte:02X}" * n for byte, n in runs)


def says(wording, field):
    return wording.isprintable() and job_of(wording).raw == field


def text_of(raw, margin=""):
    """The lines of a readable job: for each field the first wording that says just its bytes."""
    at = 0
    while at < len(raw):
        end = at + 3 + int.from_bytes(raw[at + 1 : at + 3], "big")
        field, value = raw[at:end], raw[at + 3 : end]
        if raw[at] == GROUP and end <= len(raw) and len(margin) < DEEPEST:
            yield from (margin + "group", *text_of(value, margin + " "), margin + "end")
        else:
            requests = [f"UPLOAD {int.from_bytes(value[6:8], 'little')}", "DNLOAD" + hex_of(value[8:]), "request" + hex_of(value)]
            wordings = [*FIXED, *requests, " ".join(["note", *value.decode(errors="replace").split()])]
            yield margin + next((wording for wording in wordings if says(wording, field)), "raw" + hex_of(field))
        at = end
