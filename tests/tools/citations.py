"""What docs/PROMISES.md cites, and where that stands.

`[rules/Levels]` is a file of specs and `[rules/proofs/EffectsHold]` one of proofs; the names in backticks right behind it stand in it.
[`level_status()`] is a function and [`BenchCases`] a statement or an edit, with its crate before it where two crates have the name. The
links themselves are made from the tree and stand at the end of the page."""
import re

from statements import Tree

CITED = re.compile(r"\[(`[^`\]]+`|[a-z]+/(?:proofs/)?[A-Z]\w*)\](?!\()")
BEHIND = re.compile(r"\[(`[^`\]]+`|[a-z]+/(?:proofs/)?[A-Z]\w*)\] (`[^`]+`(?:, `[^`]+`)*)")
NAMED = re.compile(r"\b[A-Z]\w+|\b[a-z]\w*_\w+'*(?!\w|\()|\b\w+(?=\(\))")  # statements, laws and functions, in plain words
MARK = "<!-- The links. tests/tools/lists.py makes them. -->\n"


def declares(text, name):
    """Whether a file of definitions or proofs declares a name, or passes it on."""
    own = rf"^\s*(?:(?:abbrev|unfoldable|pub|record|data)\s+)*{re.escape(name)}\s*[:({{]"
    passed = rf"^pub use [^\n]*[{{ ,]{re.escape(name)}[,}}]"
    kind = rf"^pub (?:record|data) {re.escape(name)}\b"
    return any(re.search(form, text, re.MULTILINE) for form in (own, passed, kind))


def edit_says(text):
    """The comment of an edit, and what it says that it is refused by."""
    comments = [line.lstrip("# ").strip() for line in text.splitlines() if line.startswith("#")]
    refused = [line.removeprefix("Refused by ").removesuffix(".") for line in comments if line.startswith("Refused by ")]
    return " ".join(line for line in comments if not line.startswith("Refused by ")), " ".join(refused)


def refusers(text):
    """The names of what an edit says that it is refused by: behind `Refused by`, or at the front of its comment, as `Order: ..`."""
    says, refused = edit_says(text)
    front = re.match(r"[A-Z]\w+(?:, [A-Z]\w+)*(?=: )", says)
    return set(NAMED.findall(refused)) | set(front[0].split(", ") if front else [])


class Citations:
    def __init__(self, root):
        self.root, self.tree = root, Tree(root)
        self.edits = {}
        for path in sorted((root / "crates").glob("*/must-fail/*.edit")):
            self.edits.setdefault(path.stem, []).append((path.parts[-3], path))

    def found(self, label):
        """All that a label can stand for: what it is, the crate, the path and the name."""
        if "`" not in label:
            crate, *kind, file = label.split("/")
            path = self.root / "crates" / crate / (kind[0] if kind else "specs") / f"{file}.antt"
            return [("file", crate, path, file)] if path.exists() else []
        *crate, name = label.strip("`").split(" ")
        if name.endswith("()"):
            every = [("function", of, path, name[:-2]) for of, path, _ in self.tree.functions.get(name[:-2], [])]
        else:
            every = [("edit", of, path, name) for of, path in self.edits.get(name, [])]
            every += [("statement", of, self.root / "crates" / of / "specs" / f"{file}.antt", name)
                      for (of, said), (file, _) in self.tree.statements.items() if said == name]
        return [one for one in every if not crate or one[1] == crate[0]]

    def one(self, label):
        """What a label stands for, or None where that is nothing or more than one thing."""
        found = self.found(label)
        return found[0] if len(found) == 1 else None

    def reached(self, label):
        """The definitions that a statement or the contract of a function reaches."""
        kind, crate, path, name = self.one(label)
        if kind == "statement":
            return self.tree.reached([(crate, path.stem, name)])
        return self.tree.reached(at for of, where, named in self.tree.functions[name] if where == path for at in named)


def linked(root, page):
    """The page with the links of all that it cites at its end."""
    text = page.split(MARK)[0].rstrip("\n")
    citations = Citations(root)
    labels = sorted(set(CITED.findall(text)), key=lambda label: label.strip("`"))
    known = [(label, citations.one(label)) for label in labels]
    return text + "\n\n" + MARK + "\n" + "".join(f"[{label}]: ../{what[2].relative_to(root)}\n" for label, what in known if what)
