"""A page that a test holds to something: its tables, its sentences and the numbers in them, and what was found wrong on it."""
import re


def number(words):
    return int(words[:-1], 16) if words.endswith("h") else int(words)


def numbers(words):
    return [number(word) for word in re.findall(r"(?<![\w_])(?:[0-9A-F]+h|\d+)(?!\w)", words)]


class Page:
    def __init__(self, text):
        self.text, self.wrong = text, []

    @property
    def sentences(self):
        """The text with its lines joined."""
        return " ".join(self.text.split())

    def same(self, found, told, what):
        if found != told:
            self.wrong.append(f"{what}: the page says {told}, the definitions {found}")

    def table(self, heading, nth=0):
        """The cells of a table under a heading and before the next, without its head."""
        part = re.split(r"(?m)^#", re.split(rf"(?m)^##+ {re.escape(heading)}$", self.text)[1])[0]
        blocks = re.findall(r"(?m)(?:^\|.*\n)+", part)
        return [[cell.strip() for cell in line.strip("|").split("|")] for line in blocks[nth].splitlines()[2:]]

    def sentence(self, pattern):
        """The numbers of a sentence of the page, from its first words on."""
        return numbers(re.search(pattern, self.sentences)[0])
