"""The definitions and statements of crates/*/specs, what each of them mentions, and which statements are proved.

A definition mentions the names that stand in it: those of its own file, and those that its file imports from other files of specs. It
reaches what it mentions, what that mentions, and so on. A statement is a name of `Type 0` without arguments which is the whole type of a
`pub` declaration in its crate's proofs."""
import functools
import re

import contracts

WORD = re.compile(r"[^\s(){};,.\"]+")
HEAD = re.compile(r"(?:(?:abbrev|unfoldable|pub|record|data)\s+)*([^\s(){}:]+)")
USED = re.compile(rf"(?m)^(?:pub )?use Rattle\.(?!{contracts.LIBRARY}\.)(\w+)\.specs\.([A-Z]\w*)\.\{{([^}}]*)\}}")
BARE = re.compile(r"(?m)^(?:abbrev|unfoldable) pub ([A-Z]\w*) : Type 0$|^pub record ([A-Z]\w*) : Type 0 where$")
SAYS = re.compile(r"(pub (record|data) [^\n]*: Type 0 where$|(abbrev|unfoldable) pub [^\n]*: ([^\n]*→ )?Type 0$)", re.M)
PROVED = re.compile(r"(?m)^pub [^\s:]+ : ([A-Z]\w*)$")


def declarations(text):
    """Each name that a file declares, with all that is said of it."""
    found, current = {}, None
    for line in text.splitlines():
        line = re.sub(r"(^|\s)--.*", "", line)
        if line and not line[0].isspace():
            head = HEAD.match(line)
            current = head[1] if head and not re.match(r"(pub )?(use|mod)\b", line) else None
        if current:
            found[current] = found.get(current, "") + line + "\n"
    return found


class Tree:
    def __init__(self, root):
        self.root = root
        self.texts, self.imported = {}, {}
        for path in sorted((root / "crates").glob("*/specs/*.antt")):
            place, text = (path.parts[-3], path.stem), path.read_text()
            self.texts[place] = declarations(text)
            self.imported[place] = contracts.imports(text, USED)

    @functools.cached_property
    def statements(self):
        """Each statement that is proved: its crate and its name, with its file and the file of its proof."""
        found = {}
        for path in sorted((self.root / "crates").glob("*/specs/*.antt")):
            crate = path.parts[-3]
            for name in (one or other for one, other in BARE.findall(path.read_text())):
                for proofs in sorted((self.root / "crates" / crate / "proofs").glob("*.antt")):
                    if name in PROVED.findall(proofs.read_text()):
                        found[crate, name] = path.stem, proofs.stem
        return found

    def mentioned(self, place, text):
        own, imported = self.texts[place], self.imported[place]
        for word in WORD.findall(text):
            if word in own:
                yield (*place, word)
            elif word in imported:
                yield imported[word]

    def reached(self, first):
        """All that some definitions reach, themselves among it."""
        found, waiting = set(), list(first)
        while waiting:
            crate, file, name = at = waiting.pop()
            if at not in found:
                found.add(at)
                text = self.texts.get((crate, file), {}).get(name)
                waiting.extend(self.mentioned((crate, file), text) if text else [])
        return found

    @functools.cache
    def by_statement(self, crate, name):
        return self.reached([(crate, self.statements[crate, name][0], name)])

    @functools.cached_property
    def functions(self):
        """The functions of all crates by their names: crate, file, and the definitions that the contract names."""
        found = {}
        for path in sorted((self.root / "crates").glob("*/src/*.rt")):
            text = path.read_text()
            for _, _, _, name, _, promises in contracts.functions(text):
                found.setdefault(name, []).append((path.parts[-3], path, contracts.named(text, promises)))
        return found

    def says(self, at):
        """Whether a name says something that is so or not, as statements do and what they are made of, and is no value."""
        text = self.texts.get(at[:2], {}).get(at[2], "")
        return bool(SAYS.match(text))

    @functools.cached_property
    def told(self):
        """The definitions that the statements name in their own words, whatever these reach."""
        found, waiting = set(), [(crate, file, name) for (crate, name), (file, _) in self.statements.items()]
        while waiting:
            crate, file, name = waiting.pop()
            named = set(self.mentioned((crate, file), self.texts[crate, file][name])) - found
            waiting.extend(other for other in named if self.says(other))
            found |= named
        return found
