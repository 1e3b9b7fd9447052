"""What went wrong with a request, in a sentence, as far as its own bytes, its line and the state before it tell."""
from names import BAD_ADDRESS, BUSY, DOWNLOADING, ENDED, ERROR, FIRST, FIXED, IDLE, MEMORIES
from names import NO_READ, NO_WRITE, NOT_BLANK, REFUSALS, SYNC, UPLOADING
from phrases import counted
from transfers import in_parts, wrong_length
from usb_asked import MOST

LONGEST_DNLOAD = 1103
LOST = {"erase": "nothing was erased", "read": "nothing will be sent", "byte": "nothing will be sent", "blank check": "nothing was checked"}
LOST |= {"start": "nothing was started", "none": "nothing was done"}
OWN_CAUSE = "GETSTATUS", "GETSTATE", "CLRSTATUS", "DETACH", "unknown"  # what stalls in state 10 for another cause than the error there


def trouble(request):
    """A sentence if the request stalled, was refused or set an error status."""
    if request.refusal:
        return f"REFUSED with {request.refusal}: {REFUSALS.get(request.refusal, 'see the table of refusals')}. Nothing changed."
    if request.answer == "stall":
        return f"STALLED: {stall_cause(request)}. {lost(request)}."
    if request.command and request.state == ERROR:
        return refused_command(request.command, request.status)
    if request.command and request.status == NOT_BLANK:
        return "NOT BLANK: a byte in this range is not FFh. GETSTATUS and UPLOAD 2 fetch the address of the first."
    if request.status not in (0, request.error):
        return f"ERROR: this set status {request.status:02X}."
    return None


def lost(request):
    """What did not come about."""
    if request.command:
        return LOST.get(request.command.kind, "nothing was stored").capitalize()
    return "Nothing was sent" if request.name == "UPLOAD" else "Nothing was done"


def barred(request):
    """Whether the level refused the command."""
    return request.command is not None and request.state == ERROR and request.answer == "done" and request.status in (NO_WRITE, NO_READ)


def refused_command(asked, status):
    nothing = LOST.get(asked.kind, "nothing was stored")
    if status in (NO_WRITE, NO_READ):
        return f"REFUSED by the security level: {nothing}."
    if status == BAD_ADDRESS:
        return f"REFUSED for its address, {bad_address(asked)}: {nothing}."
    return f"REFUSED with status {status:02X}: {nothing}."


def bad_address(asked):
    if asked.kind == "start":
        return "which is above 7FFFh"
    if asked.start > asked.end:
        return "whose start is after its end"
    size = MEMORIES[asked.memory]
    if asked.end >= size:
        return f"which is outside the {asked.memory} (0000h-{size - 1:04X}h)"
    return f"which has {counted(asked.count)}, more than {MOST:,}; do it {in_parts(asked.start, asked.end)}"


def by_error(request):
    """Whether it stalls because an error waits."""
    return request.answer == "stall" and request.before == ERROR and request.name not in OWN_CAUSE


def stall_cause(request):
    if by_error(request):
        return "the error before it still waits"
    if request.name == "unknown":
        return "the loader knows no such request"
    if request.name == "DETACH":
        return "the loader never takes a DETACH"
    if request.index or (request.name in FIXED and (request.value, request.length) != FIXED[request.name]):
        return f"{request.name} needs wIndex 0" + (" and wValue {}, wLength {}".format(*FIXED[request.name]) if request.name in FIXED else "")
    if request.before == BUSY:
        return FIRST[BUSY]
    if request.name == "DNLOAD":
        return download_stall(request)
    if request.name == "UPLOAD":
        return upload_stall(request)
    return f"{request.name} is not for state {request.before}"


def download_stall(request):
    asked = request.command
    if request.length > LONGEST_DNLOAD:
        fits = request.is_command("program") and MOST < asked.count <= MEMORIES[asked.memory]
        parts = f"; send the table {in_parts(asked.start, asked.end)}" if fits else ""
        return f"a DNLOAD has at most {LONGEST_DNLOAD:,} bytes, and this has {request.length:,}{parts}"
    if not asked:
        return FIRST[request.before] if request.before in (SYNC, ENDED, UPLOADING) else "there is no download to end"
    if request.before not in (IDLE, DOWNLOADING):
        return f"state {request.before} takes no command; {FIRST[request.before]}"
    if asked.kind != "program":
        return "these bytes are no command; compare code and length with the table of commands"
    return wrong_length(asked, request.data)


def upload_stall(request):
    if not request.length:
        return "an UPLOAD asks for 1 byte or more"
    if request.before in (DOWNLOADING, UPLOADING):
        return "nothing waits that can be sent"
    return f"nothing can be fetched in state {request.before}; {FIRST[request.before]}"
