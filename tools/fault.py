"""What is wrong with a file, in sentences: a text's faults are told all at once, each with its line."""
from phrases import counted

MOST_TOLD = 20  # of more than these only the number is told


class Fault(Exception):
    """What is wrong, and where: one sentence, or one for each fault."""

    def __init__(self, *sentences):
        super().__init__(*sentences)
        self.sentences = list(sentences)

    def __str__(self):
        return "\n".join(self.sentences)


class Faults:
    """The faults of a text as they are found."""

    def __init__(self):
        self.found = []

    def add(self, line, sentence):
        self.found.append((line, f"line {line}: {sentence}"))

    def tell(self):
        """Stops with all of them in the order of their lines, if there are any."""
        told = [sentence for _, sentence in sorted(self.found, key=lambda fault: fault[0])]
        if len(told) > MOST_TOLD:
            told[MOST_TOLD:] = [f"and {counted(len(told) - MOST_TOLD, 'more fault')}"]
        if told:
            raise Fault(*told)
