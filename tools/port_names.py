#!/usr/bin/env python3
"""Brings the repository's own definitions, fields and lemmas to snake case, in files that port.py has turned.

usage: python3 tools/port_names.py        at the top of the repository: rewrites the .antt and .rt files of crates/ in place
       python3 tools/port_names.py --map  prints old and new name of each

Where a field or a lemma would then have the name of a definition, it gets `_lem` after its name.
A name is the repository's own if it is declared in a crate's specs/ or in a file right in its proofs/: a definition, a field of a
record, a constructor, or an alias of an import. `recordsLine` becomes records_line and `bytes-between` becomes bytes_between. Names
that a file imports from a library stay. Two names that fall together in a file of definitions or lemmas are reported, and nothing is
written; proofs of single functions are written anew anyway, and in source files a clause's label may read as what it names.
"""
import os
import re
import sys

NAME = r"[^\W\d][\w']*(?:-[\w'≤<≡+]+)*"
TOKEN = re.compile(rf"(?<![\w'\-◌]){NAME}(?![\w'\-])")
DECLARED = re.compile(rf"^\s*(?:abbrev |unfoldable |pub |data |record )*({NAME})(?:\s+[({{].*)?\s*:(?!:)")
ALIAS = re.compile(rf"\bas ({NAME})")
IMPORT = re.compile(r"^\s*(?:pub )?(?:ghost )?use ([\w.'+\-]+)(?:\.\{([^}]*)\})?", re.M)
CAMEL = re.compile(r"^[a-z]\w*?[A-Z]")
# Lemmas and fields that port.py gave the name that a definition gets here.
FALLEN = {name: name + "_lem" for name in ("all_digits", "is_digit", "no_digit")}
DIGITS = ("record", "recordreader")


def snake(name):
    """The name in snake case, with underscores for dashes."""
    return re.sub(r"(?<=[a-z0-9_'])([A-Z])", lambda m: "_" + m.group(1).lower(), name).replace("-", "_").replace("__", "_")


def texts(kinds=(".antt", ".rt")):
    for folder, dirs, files in os.walk("crates"):
        dirs[:] = sorted(d for d in dirs if d != "out")
        for name in sorted(files):
            if name.endswith(kinds):
                yield os.path.join(folder, name)


def read(path):
    with open(path, encoding="utf-8") as file:
        return file.read()


def is_base(path):
    """A file of definitions, or of lemmas that several proofs cite."""
    parts = path.split(os.sep)
    return parts[2] == "specs" or parts[2] == "proofs" and len(parts) == 4


def code(line):
    """The line without its comment."""
    return re.split(r"(?:^|\s)--(?:\s|$)", line)[0]


def imported(text):
    """Names that the file takes from a library, and not from a crate of the repository."""
    crates = set(os.listdir("crates"))
    names = set()
    for module, listed in IMPORT.findall(text):
        parts = module.split(".")
        if parts[0] == "Rattle" and len(parts) > 1 and parts[1] in crates:
            continue
        names |= {word.split(" as ")[0].strip() for word in (listed or parts[-1]).split(",")}
    return names


def own_names():
    found = set()
    for path in texts((".antt",)):
        if not is_base(path):
            continue
        for line in read(path).split("\n"):
            if match := DECLARED.match(code(line)):
                found.add(match.group(1))
    for path in texts():
        for line in read(path).split("\n"):
            if re.match(r"\s*(?:pub )?(?:ghost )?use ", line):
                found |= set(ALIAS.findall(line))
            found |= {word for word in TOKEN.findall(code(line)) if path.endswith(".antt") and CAMEL.match(word)}
    names = {name: snake(name) for name in found if not name[0].isupper() and snake(name) != name}
    taken = {new for old, new in names.items() if "-" not in old} | {name for name in found if "-" not in name}
    return {old: new + "_lem" if "-" in old and new in taken else new for old, new in names.items()}


def is_clause(text):
    """For each line of a .rt file, whether it belongs to an import or a clause."""
    inside, depth = False, 0
    for line in text.split("\n"):
        if not inside and re.match(r"\s*(?:ghost|requires|ensures)\b", line):
            inside, depth = True, 0
        yield inside
        if inside:
            depth += line.count("{") - line.count("}")
            inside = depth > 0


def turned(path, text, names):
    kept = imported(text)
    table = {old: new for old, new in names.items() if old not in kept}
    if path.split(os.sep)[1] in DIGITS:
        table |= FALLEN
    if path.endswith("OneAnswer.antt"):
        table = {old: snake(old) for old in table}
    became = {}

    def turn(match):
        word = match.group(0)
        new = table.get(word, word)
        became.setdefault(new, set()).add(word)
        return new

    clauses = list(is_clause(text)) if path.endswith(".rt") else None
    lines = []
    for at, line in enumerate(text.split("\n")):
        if clauses is not None and not clauses[at]:
            lines.append(line)
            continue
        before = code(line)
        if re.match(r"\s*(?:pub )?(?:ghost )?use ", before):
            head, brace, tail = before.partition(".{")
            path_of, alias, name = head.partition(" as ")
            lines.append(path_of + alias + TOKEN.sub(turn, name) + brace + TOKEN.sub(turn, tail) + line[len(before):])
            continue
        rest = re.sub(r"`[^`]*`", lambda quoted: TOKEN.sub(turn, quoted.group(0)), line[len(before):])
        lines.append(TOKEN.sub(turn, before) + rest)
    functions = {"fate_of", "reach_of"}  # of the source, in comments
    together = {new: words for new, words in became.items() if len(words) > 1 and new not in functions}
    return "\n".join(lines), together


def main(argv):
    names = own_names()
    if argv == ["--map"]:
        print("\n".join(f"{old}\t{new}" for old, new in sorted(names.items())))
        return 0
    written, bad = {}, 0
    for path in texts():
        written[path], together = turned(path, read(path), names)
        if not path.endswith(".antt") or not is_base(path) or path.endswith("OneAnswer.antt"):
            continue
        for new, words in sorted(together.items()):
            print(f"{path}: {' and '.join(sorted(words))} would both be {new}")
            bad += 1
    if bad:
        return 1
    for path, text in written.items():
        if text != read(path):
            with open(path, "w", encoding="utf-8") as file:
                file.write(text)
    return 0


if __name__ == "__main__":
    raise SystemExit(main(sys.argv[1:]))
