"""The two programs that turn a job or a file of records into lines, and jobs with the lines that they must print.

A page of jobs is a Markdown file where each block marked `job`, a readable job, or `records`, a file of records, is followed by a block
marked `lines`, and that may be followed by a block marked `explained`."""
import itertools
import pathlib
import re
import subprocess
import sys

ROOT = pathlib.Path(__file__).resolve().parents[2]
sys.path.insert(0, str(ROOT / "tools"))
sys.dont_write_bytecode = True
from fault import Fault  # noqa: E402
from readable import job_in  # noqa: E402

FENCE = re.compile(r"^```(\w*)\n(.*?)^```$", re.MULTILINE | re.DOTALL)


def run(command, given=b"", **more):
    return subprocess.run([str(word) for word in command], input=given, capture_output=True, check=False, **more)


def bench_program(crate):
    """The command that starts a proved program, once it is built."""
    built = run([ROOT / "tests/tools/x86", "program", crate])
    if built.returncode:
        sys.exit(f"{crate} is not proved and built: {built.stderr.decode()}")
    return built.stdout.decode().splitlines()


def programs(stand_in, crate="bench", second="second"):
    """The command of each program, once both are built. A stand-in takes the place of ours: it is for trying a test, and the gate
    gives none."""
    if (built := run([ROOT / "tests/tools/second", "build"])).returncode:
        sys.exit(f"the second program is not built: {built.stderr.decode()}")
    return {"bench": stand_in or bench_program(crate), "second": [ROOT / "target/second/release" / second]}


def serial_programs(stand_in):
    """The same for a file of records."""
    return programs(stand_in, "plugbench", "listing")


def printed(command, given):
    """What a program prints for a job or a file of records. The serial loader ends its answers with CR LF, and ./bench shows no CR."""
    return run(command, given).stdout.replace(b"\r\n", b"\n")


def raw_of(text):
    """The raw bytes of a readable job."""
    try:
        return job_in(text.encode()).raw
    except Fault as fault:
        sys.exit(f"{fault}, in this job:\n{text}")


def page_jobs(page, kind="job"):
    """Each job of a page: the heading above it, its text, and its lines. The same of another kind."""
    text = page.read_text()
    fences = list(FENCE.finditer(text))
    kinds = "".join(f"{fence[1]} " for fence in fences)
    some = kind != "job" or "job lines " in kinds
    if not some or not re.fullmatch("((sh|(job|records) lines( explained)?) )*", kinds):
        sys.exit(f"{page}: each job is followed by its lines, and there is no other block but sh and explained; here stand {kinds}")
    for job, lines in zip(fences, fences[1:]):
        if job[1] == kind:
            yield re.findall(r"^#+ (.*)", text[: job.start()], re.MULTILINE)[-1], job[2], lines[2]


def page_explained(page, kind="job"):
    """Each job of a page that is explained there: its text and what is to be printed. The same of another kind."""
    fences = list(FENCE.finditer(page.read_text()))
    yield from ((job[2], told[2]) for job, told in zip(fences, fences[2:]) if told[1] == "explained" and job[1] == kind)


def differences(commands, raw, lines):
    """A sentence for each program that does not print exactly these lines, with nothing on standard error and status 0."""
    for name, command in commands.items():
        ended = run(command, raw)
        wrote = ended.stdout.replace(b"\r\n", b"\n")
        if (wrote, ended.stderr, ended.returncode) != (lines.encode(), b"", 0):
            pairs = itertools.zip_longest(wrote.decode(errors="replace").splitlines(), lines.splitlines())
            at, told = next(((n, str(line)[:200]) for n, (line, right) in enumerate(pairs, 1) if line != right), (0, "as it should be"))
            yield f"{name}: line {at} is {told!r}, status {ended.returncode}, said {ended.stderr.decode(errors='replace')!r}"
