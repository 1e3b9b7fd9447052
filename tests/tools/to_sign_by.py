"""What the tests of an explanation share: the list to sign by as docs/SIGN.md has it, and what was found wrong."""
import pathlib
import re
import sys

PAGE = pathlib.Path(__file__).resolve().parents[2] / "docs" / "SIGN.md"


def to_sign_by(heading):
    """The lines of a list of the page."""
    part = PAGE.read_text().split(f"\n## {heading}\n")[1].split("\n## ")[0]
    return re.findall(r"(?m)^- \[ \] (.*)$", part)


class Held:
    def __init__(self):
        self.faults = []

    def hold(self, what, good, told):
        if not good:
            self.faults.append(f"{what}: {told}")

    def verdict(self, what, found, right, wanted):
        """An explanation, its status and its lines, ends in the verdict, and has these lines before it."""
        status, lines = found
        before, told = lines[: -len(right[1])], lines[-len(right[1]) :]
        shown = "\n".join(["", *lines])
        self.hold(what, (status, told) == right and not before[-1], f"status {status}, and not {right}:{shown}")
        for line in wanted:
            self.hold(what, line in before, f"{line!r} is missing in{shown}")

    def end(self, words):
        """Ends the test."""
        for fault in self.faults:
            print("  " + fault)
        if self.faults:
            sys.exit(f"{len(self.faults)} faults")
        print(f"  {words}")
