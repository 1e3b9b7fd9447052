"""The definitions of the crates' specs, looked up by name and worked out on plain values: enough of antt for what a table of a page
says.

A number is a number, a list a Python list, a text the list of its characters, a record a dictionary, and a case a tuple of its name and
what it carries. Arguments are worked out first, the branches of an `if` and what a `let` names only where they are needed."""
import functools
import json
import pathlib
import re
import sys

sys.setrecursionlimit(20000)  # the stores of 256 pages are calls inside each other
TOKEN = re.compile(r"\s+|--[^\n]*|(\(|\)|\{|\}|;|,|\"(?:\\.|[^\"\\])*\"|[^\s(){};,]+)")
INFIX = {"||": (1, "right"), "&&": (2, "right"), "++": (3, "right"), "∷": (3, "right"), "+": (4, "left"), "-": (4, "left"),
         "*": (5, "left"), "/": (5, "left"), "%": (5, "left")}
WORDS = {"then", "else", "in", "=", ")", "}", ";", ","}
NUMBER = re.compile(r"0x[0-9A-F]+|\d+")


def tokens(text):
    """The words of a text. What stands right behind a bracket, as in `(next b r).flash`, is a word that begins with a dot."""
    return [found[1] for found in TOKEN.finditer(text) if found[1]]


class Reader:
    """Reads an expression, or the patterns of a clause, into nested tuples."""

    def __init__(self, words):
        self.words, self.at = words, 0

    def next(self, wanted=None):
        word = self.words[self.at] if self.at < len(self.words) else None
        if word is None or (wanted and word != wanted):
            raise SyntaxError(f"{wanted or 'more'} is missing after {' '.join(self.words[:self.at][-8:])!r}; there stands {word!r}")
        self.at += 1
        return word

    def sees(self, word):
        return self.at < len(self.words) and self.words[self.at] == word

    def expression(self, least=0):
        if self.sees("let"):
            return self.let()
        if self.sees("if"):
            self.next()
            test = self.expression()
            self.next("then")
            yes = self.expression()
            self.next("else")
            return ("if", test, yes, self.expression())
        left = self.application()
        while self.at < len(self.words) and self.words[self.at] in INFIX:
            strength, side = INFIX[self.words[self.at]]
            if strength < least:
                break
            sign = self.next()
            left = ("infix", sign, left, self.expression(strength + (side == "left")))
        return left

    def let(self):
        self.next("let")
        name = self.next()
        while not self.sees("="):
            self.next()
        self.next("=")
        named = self.expression()
        self.next("in")
        return ("let", name, named, self.expression())

    def application(self):
        made, handed = self.atom(), []
        while self.at < len(self.words) and self.words[self.at] not in WORDS and self.words[self.at] not in INFIX:
            handed.append(self.atom())
        return ("apply", made, handed) if handed else made

    def atom(self):
        word = self.next()
        if word == "(":
            inner = self.expression()
            self.next(")")
            return self.field_of(inner, self.next()[1:]) if self.at < len(self.words) and self.words[self.at].startswith(".") else inner
        if word == "record":
            return self.record()
        if word.startswith('"'):
            return ("text", json.loads(word))
        if NUMBER.fullmatch(word):
            return ("number", int(word, 0))
        first, _, rest = word.partition(".")
        # `Command.ReadVersion` is a case by its type, and `b.session.state` a field of a field
        return self.field_of(("name", first), rest) if rest and first[0].islower() else ("name", word.split(".")[-1])

    def field_of(self, made, fields):
        """What stands in a field, by the names with dots between them."""
        for name in fields.split(".") if fields else []:
            made = ("field", made, name)
        return made

    def record(self):
        self.next("{")
        fields = {}
        while not self.sees("}"):
            name = self.next()
            self.next("=")
            fields[name] = self.expression()
            if not self.sees("}"):
                self.next(";")
        self.next("}")
        return ("record", fields)


PLAIN = {"[]": [], "zero": 0, "true": True, "false": False, "tt": ()}
BUILT_IN = {
    "eqb": (2, lambda a, b: a == b),
    "leb": (2, lambda a, b: a <= b),
    "ltb": (2, lambda a, b: a < b),
    "not": (1, lambda a: not a),
    "suc": (1, lambda a: a + 1),
    "max": (2, max),
    "min": (2, min),
    "code": (1, ord),
    "length": (1, len),
    "take": (2, lambda n, m: m[:n]),
    "drop": (2, lambda n, m: m[n:]),
    "get_or": (3, lambda m, n, other: m[n] if n < len(m) else other),
    "replicate": (2, lambda n, x: [x] * n),
}
SIGNS = {
    "+": lambda a, b: a + b,
    "-": lambda a, b: max(a - b, 0),
    "*": lambda a, b: a * b,
    "/": lambda a, b: a // b,
    "%": lambda a, b: a % b,
    "++": lambda a, b: a + b,
    "∷": lambda a, b: [a, *b],
}


def is_case(name):
    return name[0].isupper() or name in PLAIN or name in ("suc",)


def matches(pattern, value):
    """What a pattern binds of a value, or None where it does not fit."""
    kind = pattern[0]
    if kind == "number":
        return {} if value == pattern[1] else None
    if kind == "infix":
        return both(pattern[2:], (value[0], value[1:])) if value else None
    if kind == "name" and not is_case(pattern[1]):
        return {} if pattern[1] == "_" else {pattern[1]: value}
    name, inner = pattern[1:] if kind == "apply" else (pattern, [])
    if name[1] == "suc":
        return matches(inner[0], value - 1) if value > 0 else None
    if name[1] in PLAIN:
        return {} if value == PLAIN[name[1]] else None
    return both(inner, value[1:]) if value[0] == name[1] else None


def both(patterns, values):
    bound = {}
    for pattern, value in zip(patterns, values, strict=True):
        found = matches(pattern, value)
        if found is None:
            return None
        bound |= found
    return bound


class Definitions:
    """All definitions under crates/*/specs. `value("padding", 0xAF)` works one out; its file is found by the name. A name that stands in
    more than one file is asked for with its crate, `value("plug:level", config)`, or with its file, `value("plug/Config:level", config)`."""

    def __init__(self, root):
        self.clauses, self.files, self.renamed = {}, {}, {}
        for path in sorted(pathlib.Path(root).glob("crates/*/specs/*.antt")):
            crate, file = path.parts[-3], path.stem
            text = re.sub(r"(?m)--.*$", "", path.read_text())
            for name in re.findall(r"(?m)^(?:(?:abbrev|unfoldable|pub)\s+)+([^\s:{(]+)\s*(?:\{[^}]*\}\s*)?:", text):
                bodies = re.findall(rf"(?m)^{re.escape(name)}((?: [^\n]*)?=(?:.|\n(?=[ \t\n}}]|\Z))*)", text)
                self.files.setdefault(name, []).append((crate, file))
                self.clauses[crate, file, name] = bodies
            self.clauses[crate, file, None] = re.findall(r"use Rattle\.(\w+)\.specs\.(\w+)\.\{([^}]*)\}", text)
            used = re.findall(r"(\S+) as ([^\s,}]+)", " ".join(re.findall(r"(?m)^(?:pub )?use [^{\n]*\{([^}]*)\}", text)))
            self.renamed[crate, file] = {new.strip("◌"): old.strip("◌") for old, new in used}
        self.read = {}

    @functools.cache
    def own(self, name, place):
        """The name that a case has where it is declared, of the one that it has in a file: `use` may give it another."""
        if name in self.renamed[place]:
            return self.renamed[place][name]
        for crate, file, names in self.clauses[(*place, None)]:
            if (crate, file) in self.renamed and name in re.split(r"[,\s]+", names):
                return self.own(name, (crate, file))
        return name

    def asked(self, words):
        """The file and the name of a definition that is asked for, by the name alone or with its crate or its file before it."""
        where, _, name = words.rpartition(":")
        if not where:
            return self.place(name), name
        places = [place for place in self.files.get(name, []) if where in (place[0], "/".join(place))]
        if len(places) != 1:
            raise LookupError(f"the definition {name} is looked for once in {where}, and stands in {len(places)} files there")
        return places[0], name

    @functools.cache
    def place(self, name, near=None):
        """The file of a definition: that of the name's use, one that is imported there, or the only one that there is."""
        places = self.files.get(name, [])
        if near in places:
            return near
        if near and len(places) > 1:
            imported = [(crate, file) for crate, file, names in self.clauses[(*near, None)] if name in re.split(r"[,\s]+", names)]
            places = [place for place in places if place in imported] or places
        if len(places) != 1:
            told = ", ".join(f"crates/{crate}/specs/{file}.antt" for crate, file in places) or "no file of crates/*/specs"
            raise LookupError(f"the definition {name} is looked for once, and stands in {told}")
        return places[0]

    def clauses_of(self, place, name):
        if (place, name) not in self.read:
            read = []
            for body in self.clauses[(*place, name)]:
                left, right = body.split("=", 1)
                patterns = Reader([self.own(word, place) for word in tokens(left)])
                reader = Reader([word if word in WORDS else self.own(word, place) for word in tokens(right)])
                found = []
                while patterns.at < len(patterns.words):
                    found.append(patterns.atom())
                expression = reader.expression()
                if reader.at != len(reader.words):
                    raise SyntaxError(f"{name}: {' '.join(reader.words[reader.at:][:8])!r} is left over")
                read.append((found, expression))
            if not read:
                raise LookupError(f"{name} has no clause")
            self.read[place, name] = read
        return self.read[place, name]

    def value(self, words, *arguments):
        place, name = self.asked(words)
        return self.call(place, name, list(arguments))

    def call(self, place, name, arguments):
        clauses = self.clauses_of(place, name)
        wants = len(clauses[0][0])
        if len(arguments) < wants:
            return lambda more: self.call(place, name, [*arguments, more])
        for patterns, body in clauses:
            bound = both(patterns, arguments[:wants])
            if bound is not None:
                return self.applied(self.work_out(body, bound, place), arguments[wants:])
        raise ValueError(f"{name} has no clause for {str(arguments)[:200]}")

    def applied(self, function, arguments):
        for argument in arguments:
            function = function(argument)
        return function

    def named(self, name, bound, place):
        if name in bound:
            return bound[name].value if isinstance(bound[name], Later) else bound[name]
        if is_case(name) and name not in PLAIN and name not in BUILT_IN:
            return Case((name,))
        if name in self.files:
            return self.call(self.place(name, place), name, [])
        if name in PLAIN:
            return PLAIN[name]
        if name in BUILT_IN:
            return curried(*BUILT_IN[name])
        raise LookupError(f"there is no definition {name}")

    def work_out(self, expression, bound, place):
        kind, *parts = expression
        if kind == "number":
            return parts[0]
        if kind == "text":
            return list(parts[0])
        if kind == "name":
            return self.named(parts[0], bound, place)
        if kind == "record":
            return {name: self.work_out(inner, bound, place) for name, inner in parts[0].items()}
        if kind == "field":
            return self.work_out(parts[0], bound, place)[parts[1]]
        if kind == "if":
            return self.work_out(parts[1] if self.work_out(parts[0], bound, place) else parts[2], bound, place)
        if kind == "let":
            return self.work_out(parts[2], {**bound, parts[0]: Later(lambda: self.work_out(parts[1], bound, place))}, place)
        if kind == "apply":
            handed = [self.work_out(part, bound, place) for part in parts[1]]
            name = parts[0][1] if parts[0][0] == "name" else None
            if name in self.files and name not in bound:
                return self.call(self.place(name, place), name, handed)
            if name in BUILT_IN and len(handed) == BUILT_IN[name][0] and name not in bound:
                return BUILT_IN[name][1](*handed)
            return self.applied(self.work_out(parts[0], bound, place), handed)
        left = self.work_out(parts[1], bound, place)
        if parts[0] in ("||", "&&"):
            return left if left == (parts[0] == "||") else self.work_out(parts[2], bound, place)
        return SIGNS[parts[0]](left, self.work_out(parts[2], bound, place))


class Case(tuple):
    """A case, which takes what it carries one after another."""

    def __call__(self, more):
        return Case((*self, more))


def curried(count, function, *given):
    return function(*given) if len(given) == count else lambda more: curried(count, function, *given, more)


class Later:
    """What a `let` names: worked out at its first use."""

    def __init__(self, work):
        self.work = work

    @functools.cached_property
    def value(self):
        return self.work()
