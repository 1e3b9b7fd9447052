#!/usr/bin/env python3
"""Brings the must-fail edits of an older commit to today's spelling, over files that port.py and port_names.py have turned.

usage: python3 tools/port_edits.py COMMIT     at the top of the repository, once, where crates/*/must-fail/ has the edits of COMMIT

Each edit is made in a copy of COMMIT's file, port.py turns these copies in a folder outside the repository, and the names follow
port_names.py's table. Where an edit's own words still make that very change they stay, else the lines that changed are written into it.
What can't be brought over so is printed and left as it was.
"""
import difflib
import os
import re
import subprocess
import sys
import tempfile

sys.path.insert(0, os.path.dirname(os.path.abspath(__file__)))
import port_names


def run(*words, where="."):
    return subprocess.run(words, cwd=where, capture_output=True, text=True, check=True).stdout


def pairs(text):
    """The file, old and new text of each change of an edit, as lists; comments are dropped."""
    found, file = [], None
    for line in text.split("\n"):
        key, _, value = line.partition(": ")
        if key == "file":
            file = value
        elif key == "old" or line == "old:":
            found.append([file, value, None])
        elif key == "new" or line == "new:":
            found[-1][2] = value
    return found


def applied(texts, changes):
    """The texts with the changes made, or None where an old text does not stand once."""
    made = dict(texts)
    for file, old, new in changes:
        if made[file].count(old) != 1:
            return None
        made[file] = made[file].replace(old, new)
    return made


def scratch(commit, folder):
    """COMMIT's crates with a copy of each file for each edit that changes it, turned by port.py. Gives (crate, edit, file, copy)."""
    run("sh", "-c", f"git archive {commit} | tar -x -C '{folder}'")
    copies = []
    for crate in sorted(os.listdir(f"{folder}/crates")):
        base = f"{folder}/crates/{crate}"
        if not os.path.isdir(f"{base}/must-fail"):
            continue
        for at, edit in enumerate(sorted(os.listdir(f"{base}/must-fail"))):
            if not edit.endswith(".edit"):
                continue
            changes = pairs(port_names.read(f"{base}/must-fail/{edit}"))
            texts = {file: port_names.read(f"{base}/{file}") for file, _, _ in changes}
            made = applied(texts, changes)
            if made is None:
                print(f"{crate}/{edit}: does not stand in {commit}")
                continue
            for file, text in made.items():
                stem, kind = os.path.splitext(file)
                copies.append((crate, edit, file, f"{stem}Edit{at}x{kind}", text))
    for crate, _, file, copy, text in copies:
        with open(f"{folder}/crates/{crate}/{copy}", "w", encoding="utf-8") as out:
            out.write(text)
    for crate, file in {(crate, file) for crate, _, file, _, _ in copies}:
        stem, kind = os.path.splitext(file)
        with open(f"{folder}/crates/{crate}/{stem}EditNone{kind}", "w", encoding="utf-8") as out:
            out.write(port_names.read(f"{folder}/crates/{crate}/{file}"))
    run("git", "init", "-q", where=folder)
    run("git", "add", "-A", where=folder)
    run("git", "-c", "user.name=port", "-c", "user.email=port@localhost", "commit", "-q", "-m", "edits", where=folder)
    kit = os.path.dirname(run("rt", "doc").strip())
    print(run(sys.executable, f"{kit}/port/port.py", where=folder)[-400:])
    return [copy[:4] for copy in copies]


def hunks(before, after):
    """The lines that differ: None where a change is not of one line for one line."""
    a, b = before.split("\n"), after.split("\n")
    found = []
    for kind, i, j, k, m in difflib.SequenceMatcher(None, a, b, autojunk=False).get_opcodes():
        if kind == "equal":
            continue
        if j - i != m - k:
            return None
        found += list(zip(a[i:j], b[k:m]))
    return found


def main(commit):
    with tempfile.TemporaryDirectory() as folder:
        by_edit = {}
        for crate, edit, file, copy in scratch(commit, folder):
            by_edit.setdefault((crate, edit), []).append((file, copy))
        here = os.getcwd()
        os.chdir(folder)
        names = port_names.own_names()
        os.chdir(here)
        kept = written = 0
        for (crate, edit), files in sorted(by_edit.items()):
            where = f"crates/{crate}/must-fail/{edit}"
            text = port_names.read(where)
            now = {file: port_names.read(f"crates/{crate}/{file}") for file, _ in files}
            wanted, lines, bad = {}, [], None
            for file, copy in files:
                stem, kind = os.path.splitext(file)
                turned = [port_names.turned(f"crates/{crate}/{file}", port_names.read(f"{folder}/crates/{crate}/{it}"), names)[0]
                          for it in (f"{stem}EditNone{kind}", copy)]
                changed = hunks(*turned)
                if not changed:
                    bad = f"{file}: not line for line"
                    break
                new = now[file]
                for old_line, new_line in changed:
                    old, to = old_line.strip(), new_line.strip()
                    if new.count(old) != 1:
                        old, to = old_line, new_line
                    if new.count(old) != 1:
                        bad = f"{file}: stands {new.count(old)} times: {old}"
                        break
                    new = new.replace(old, to)
                    lines += [] if f"file: {file}" in lines else [f"file: {file}"]
                    lines += [f"old: {old}", f"new: {to}"]
                wanted[file] = new
            if not bad:
                if applied(now, pairs(text)) == wanted:
                    kept += 1
                    continue
                head = [line for line in text.split("\n") if line.startswith("#")]
                with open(where, "w", encoding="utf-8") as out:
                    out.write("\n".join(head + lines) + "\n")
                written += 1
            else:
                print(f"{crate}/{edit}: {bad}")
        print(f"{kept} stay as they are, {written} written anew, of {len(by_edit)}")
    return 0


if __name__ == "__main__":
    raise SystemExit(main(sys.argv[1]))
