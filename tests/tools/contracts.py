"""The contracts that stand above the functions of crates/*/src: what each asks for, what it promises, and which definitions it names."""
import re

from promises import block_end, parameters_end

FUNCTION = re.compile(r"(?m)((?:^[ ]*//[^\n]*\n)*)(?:^[ ]*#\[[^\n]*\n)*^[ ]*(?:pub(?:\([a-z]+\))?\s+)?(?:extern\s+\"C\"\s+)?fn\s+(\w+)\s*(?:<[^>]*>)?\s*(?=\()")
CLAUSE = re.compile(r"\s*(requires|ensures|ghost)\b[^{]*\{")
METHODS = re.compile(r"(?m)^impl\s+(?:(\w+)<[^{]*?>\s+for\s+)?(\w+)\s*\{")
GIVES = re.compile(r"\bghost (\w+)_gives = \{")  # the clause by which a conversion says what it gives
RESULT = re.compile(r"\s*(->\s*[^{]*?(?=\s*(?:requires|ensures|ghost|\{)))?")
LIBRARY = "std"  # the toolchain's own definitions, of which no page and no test of the repository speaks
IMPORT = re.compile(rf"ghost use Rattle\.(?!{LIBRARY}\.)(\w+)\.specs\.(\w+)\.\{{([^}}]*)\}}")
NAME = re.compile(r"(?<![\w'.])[A-Za-z][\w']*")


def contract(text, at):
    """What a function asks for and what it promises; its parameters begin at `at`."""
    found = {"requires": "", "ensures": "", "ghost": ""}
    at = RESULT.match(text, parameters_end(text, at)).end()
    while clause := CLAUSE.match(text, at):
        at = block_end(text, clause.end())
        found[clause[1]] += text[clause.end():at - 1] + " "
    return found["requires"], found["ensures"]


def says(lines):
    """What a comment says of a function: not why it stays as it is, which is a paragraph of its own."""
    paragraphs = "\n".join(line.strip().removeprefix("//").strip() for line in lines.strip().splitlines()).split("\n\n")
    return " ".join(part.replace("\n", " ") for part in paragraphs if not part.startswith("Stays"))


def methods(text):
    """Each block of methods: where it begins and ends, its trait, its type, and by the function's name what a conversion says it gives."""
    for found in METHODS.finditer(text):
        end = block_end(text, found.end())
        gives = {one[1]: text[one.end():block_end(text, one.end()) - 1] for one in GIVES.finditer(text, found.end(), end)}
        yield found.end(), end, found[1], found[2], gives


def functions(text):
    """Each function of a file: the comment above it, the trait and the type of a method, its name, what it asks for and what it promises."""
    blocks = list(methods(text))
    for found in FUNCTION.finditer(text):
        asks, promises = contract(text, found.end())
        trait, owner, gives = next((block[2:] for block in blocks if block[0] <= found.start() < block[1]), (None, None, {}))
        yield says(found[1]), trait, owner, found[2], asks, promises + gives.get(found[2], "")


def imports(text, pattern=IMPORT):
    """The definitions that a file imports, by the name that they have in it: crate, file and own name."""
    found = {}
    for crate, file, names in pattern.findall(text):
        for words in names.split(","):
            name, _, other = words.strip().partition(" as ")
            found[other or name] = (crate, file, name)
    return found


def named(text, clause):
    """The definitions that a clause of a file's function names, each once."""
    imported = imports(text)
    return list(dict.fromkeys(imported[name] for name in NAME.findall(clause) if name in imported))
