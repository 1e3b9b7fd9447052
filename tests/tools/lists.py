#!/usr/bin/env python3
"""Makes docs/FUNCTIONS.md and docs/EDITS.md from the tree: the functions from the comments above them and their contracts, the edits from
the comments in them; and the links at the end of docs/PROMISES.md. Run by itself it writes the pages anew; tests/gate/lists compares them."""
import pathlib
import re
import sys

sys.path.insert(0, str(pathlib.Path(__file__).resolve().parent))
import contracts  # noqa: E402
from citations import edit_says, linked  # noqa: E402
from promises import callable_functions  # noqa: E402

FUNCTIONS = """# The functions

Each function that has a contract: what it does, by the first sentence of the comment above it, and the definitions that its contract names.
A contract says that the answer, and every memory that is lent to be changed, is what these definitions give. A public function can be
called from another crate; it asks for nothing and answers every input. Of each it is proved that no second answer would pass. The one
exception is input's `read_full()`, which no program here calls: it is proved of the count and of the bytes that it tells, where the input's
bytes are known and the read succeeds. A function inside its crate may ask for something, which its callers have to prove. A conversion is
the language's `From`, for any input: its clause says what it gives. [PROOFS.md](PROOFS.md) says how a contract is read.

This page is made by `tests/tools/lists.py` from crates/*/src. It is not written by hand.
"""
EDITS = """# The edits

Each edit is a file of a crate's `must-fail` folder. It makes code or a definition wrong in a small way, and the gate passes only if the
proofs are then refused. What stands beside it is its comment: the fact that no longer holds, or the wrong that is made. Where it says by what
it is refused, that is a statement, a law or a contract of its crate; where it begins with the name of a statement, that one.

This page is made by `tests/tools/lists.py` from crates/*/must-fail. It is not written by hand.
"""


def crates(root):
    """The crates in the order of crates.txt: each stands below those that use it."""
    lines = [line for line in (root / "crates.txt").read_text().splitlines() if line.strip() and not line.startswith("#")]
    return [re.split(r"[ :]", line)[0] for line in lines]


def first_sentence(words):
    found = re.match(r"(.*?(?<!\.)\.)(?= [A-Z\"`])", words)
    return found[1] if found else words


def named(text, clause):
    """The definitions that a clause names, behind a link to their file."""
    files = {}
    for crate, file, name in contracts.named(text, clause):
        files.setdefault((crate, file), []).append(f"`{name}`")
    return "; ".join(f"[{crate}/{file}](../crates/{crate}/specs/{file}.antt): {', '.join(names)}" for (crate, file), names in files.items())


def functions(root, crate):
    """The functions of a crate that have a contract: whether it is public, inside or a conversion, and its row."""
    public = {path.split("::", 1)[1] for path, _ in callable_functions(root / "crates" / crate)}
    for file in sorted((root / "crates" / crate / "src").glob("*.rt")):
        text = file.read_text()
        for comment, trait, owner, name, asks, promises in contracts.functions(text):
            if not promises:
                continue
            called = f"{owner}::{name}" if owner else name
            path = called if file.stem == "lib" else f"{file.stem}::{called}"
            kind = "conversion" if trait else "public" if path in public else "inside"
            row = [f"[`{called}()`](../crates/{crate}/src/{file.name})", first_sentence(comment), named(text, promises)]
            yield kind, [*row, (named(text, asks) or "yes") if asks else ""] if kind == "inside" else row


def table(head, rows):
    escaped = [[cell.replace("|", "\\|") for cell in row] for row in rows]
    return "".join("| " + " | ".join(row) + " |\n" for row in [head, ["---"] * len(head), *escaped])


def functions_page(root):
    page = FUNCTIONS
    for crate in crates(root):
        rows = list(functions(root, crate))
        public, conversions, inside = ([row for kind, row in rows if kind == wanted] for wanted in ("public", "conversion", "inside"))
        page += f"\n## {crate}\n" if rows else ""
        page += "\n" + table(["public function", "what it does", "definitions"], public) if public else ""
        page += "\n" + table(["conversion", "what it does", "definitions"], conversions) if conversions else ""
        page += "\n" + table(["inside the crate", "what it does", "definitions", "asks for"], inside) if inside else ""
    return page


def edit_row(crate, file):
    text = file.read_text()
    says, refused = edit_says(text)
    changed = dict.fromkeys(re.findall(r"(?m)^file: (\S+)", text))
    places = ", ".join(f"[{place}](../crates/{crate}/{place})" for place in changed)
    return [f"[`{file.stem}`](../crates/{crate}/must-fail/{file.name})", says, places, refused]


def edits_page(root):
    page = EDITS
    for crate in crates(root):
        rows = [edit_row(crate, file) for file in sorted((root / "crates" / crate / "must-fail").glob("*.edit"))]
        page += f"\n## {crate}\n\n" + table(["edit", "what it says", "changes", "refused by"], rows) if rows else ""
    return page


def pages(root):
    """Each page that is made, and docs/PROMISES.md, of which the links are."""
    promises = (root / "docs" / "PROMISES.md").read_text()
    return {"docs/FUNCTIONS.md": functions_page(root), "docs/EDITS.md": edits_page(root), "docs/PROMISES.md": linked(root, promises)}


if __name__ == "__main__":
    root = pathlib.Path(__file__).resolve().parents[2]
    for name, page in pages(root).items():
        (root / name).write_text(page)
