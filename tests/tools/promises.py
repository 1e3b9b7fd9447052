"""The functions that another crate can call, and which of them promise nothing or ask something.

A function promises by an `ensures` and asks by a `requires`. A function can be called from outside if it is `pub`, stands in a
library, and every module on the way to it is `pub mod`, or if it, or the type whose method it is, is passed on by a `pub use`."""
import re

CLAUSE = re.compile(r"\s*(requires|ensures|ghost)\b[^{]*\{")


def without_comments(text):
    return re.sub(r"//[^\n]*", "", text)


def block_end(text, at):
    """The place after the brace that closes the one before `at`."""
    depth = 1
    while depth:
        depth += {"{": 1, "}": -1}.get(text[at], 0)
        at += 1
    return at


def parameters_end(text, at):
    """The place after the parenthesis that closes the one at `at`."""
    depth = 0
    while True:
        depth += {"(": 1, ")": -1}.get(text[at], 0)
        at += 1
        if depth == 0:
            return at


def clauses(text, at):
    """How many `requires` and `ensures` stand between a function's parameters, which end at `at`, and its body."""
    found = {"requires": 0, "ensures": 0}
    result = re.compile(r"\s*(->\s*[^{]*?(?=\s*(?:requires|ensures|ghost|\{)))?").match(text, at)
    at = result.end()
    while clause := CLAUSE.match(text, at):
        if clause.group(1) in found:
            found[clause.group(1)] += 1
        at = block_end(text, clause.end())
    return found


def functions(text):
    """Each `pub fn` of a file: the type whose method it is or None, its name, and its clauses."""
    methods = []
    for block in re.finditer(r"\bimpl\s+(\w+)[^{]*\{", text):
        methods.append((block.end(), block_end(text, block.end()), block.group(1)))
    for f in re.finditer(r"\bpub\s+(?:extern\s+\"C\"\s+)?fn\s+(\w+)\s*(?:<[^>]*>)?\s*(?=\()", text):
        owner = next((name for start, end, name in methods if start <= f.start() < end), None)
        yield owner, f.group(1), clauses(text, parameters_end(text, f.end()))


def passed_on(text):
    """The paths that a file's `pub use` lines pass on."""
    for path, names in re.findall(r"\bpub\s+use\s+([\w:]+?)(?:::\{([^}]*)\})?\s*;", text):
        path = path.removeprefix("crate::").removeprefix("self::")
        yield from [f"{path}::{n.strip()}" for n in names.split(",") if n.strip()] if names else [path]


def callable_functions(crate):
    """Each function of a library that another crate can call: its path and its clauses."""
    source = crate / "src"
    files = {"::".join(f.relative_to(source).with_suffix("").parts): without_comments(f.read_text()) for f in source.glob("**/*.rt")}
    root = files.pop("lib", None)
    if root is None:
        return
    files[""] = root
    open_modules, passed, waiting = {""}, set(), [""]
    while waiting:
        module = waiting.pop()
        prefix = module + "::" if module else ""
        passed |= {prefix + p for p in passed_on(files[module])} | set(passed_on(files[module]))
        for child in re.findall(r"\bpub\s+mod\s+(\w+)", files[module]):
            if prefix + child in files:
                open_modules.add(prefix + child)
                waiting.append(prefix + child)
    for module, text in sorted(files.items()):
        prefix = module + "::" if module else ""
        for owner, name, found in functions(text):
            item = prefix + (owner or name)
            if module in open_modules or item in passed or module in passed:
                yield f"{crate.name}::{prefix}{owner + '::' if owner else ''}{name}", found


def faults(crates):
    """The callable functions of all libraries, and what is wrong with those that promise nothing or ask something."""
    checked, wrong = [], []
    for crate in sorted(p for p in crates.iterdir() if (p / "src").is_dir()):
        for path, found in callable_functions(crate):
            checked.append(path)
            if not found["ensures"]:
                wrong.append(f"{path} has no ensures")
            if found["requires"]:
                wrong.append(f"{path} has a requires")
    return checked, wrong
