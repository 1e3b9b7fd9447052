"""docs/RULES-SERIAL.md, held to the definitions of crates/plug and crates/record: tests/gate/rules_page runs each part. All of these
definitions can be worked out; of those that speak of all boards, LevelTwo's, a part tries boards."""
import itertools
import re

from page import number, numbers

A, E, AT, VALUE, ROOM = 0x0102, 0x0134, 0x2A35, 0x7E, 4096
BITS = {0x00: ("Programmed",), 0x01: ("Unprogrammed",)}  # "U: Unprogrammed = 1, P: Program = 0" of 002
BYTES = {"BSB": "boot status byte", "SBV": "software boot vector", "SSB": "software security byte", "HSB": "hardware security byte"}
FIXED = ["manufacturer", "family", "product", "revision", "version of the loader"]
DEVICE = {"device ID1": "family", "device ID2": "product"}
WILD = {"BB": BITS, **dict.fromkeys(("AA", "SS", "EE", "VV"), range(256))}


def address(place):
    return {"0": place}


def cases(bit):
    """The command that each phrase of the page names; a byte that is fixed is the page's own."""
    return {
        "program the flash": ("Program", address(A)),
        "full chip erase": ("EraseChip",),
        **{f"erase block {n}": ("EraseBlock", (f"Block{n}",)) for n in range(4)},
        "start the board's program by a reset": ("StartReset",),
        "start the board's program at AA AA": ("StartAt", address(AT)),
        "erase SBV and BSB": ("Write", ("BootErased",)),
        "write level 1 to SSB": ("Write", ("SsbLevel1",)),
        "write level 2 to SSB": ("Write", ("SsbLevel2",)),
        "write BSB": ("Write", ("Bsb", VALUE)),
        "write SBV": ("Write", ("Sbv", VALUE)),
        "write the bit BLJB": ("Write", ("Bljb", BITS[bit])),
        "write the bit X2": ("Write", ("X2", BITS[bit])),
        "display the flash": ("Display", address(A), address(E)),
        "blank check": ("BlankCheck", address(A), address(E)),
        **{f"read {name}": ("Read", (name.capitalize(),)) for name in BYTES},
    }


def record(kind, data, offset=0, more=0):
    """A record's characters, made as the page says; `more` is added to its checksum."""
    summed = bytes([len(data), offset // 256, offset % 256, kind, *data])
    return list(b":" + (summed + bytes([(more - sum(summed)) % 256])).hex().upper().encode())


def filled(template, bit):
    """The data of a row, with addresses, a value and a bit in the places of the letters; of a program record, three bytes."""
    words = template.strip("`").replace("the bytes", "31 32 33")
    for letters, value in (("SS SS", A), ("EE EE", E), ("AA AA", AT)):
        words = words.replace(letters, f"{value // 256:02X} {value % 256:02X}")
    return list(bytes.fromhex(words.replace("VV", f"{VALUE:02X}").replace("BB", f"{bit:02X}")))


def fits(template, data):
    """Whether data has a row's form."""
    words = template.strip("`").split()
    return len(words) == len(data) and all(x in WILD[w] if w in WILD else x == int(w, 16) for w, x in zip(words, data))


def shown(first, last, flash):
    """The lines of a display, as the page says."""
    starts = range(first, last + 1, 16)
    return "".join(f"{a:04X}={bytes(flash[a : min(a + 15, last) + 1]).hex().upper()}\r\n" for a in starts)


class Plug:
    def __init__(self, page, given):
        self.page, self.given = page, given
        self.same, self.table, self.sentence = page.same, page.table, page.sentence
        self.size = given("plug:flash_size")
        self.config = {"bsb": 0x11, "sbv": 0x22, "ssb": 0xFF, "hsb": 0x9C}

    def board(self, flash=None, **changed):
        return {"config": {**self.config, **changed}, "flash": [0x5A] * self.size if flash is None else flash}

    def step(self, board, characters, room=ROOM):
        return self.given("plug:step", board, characters, room)

    def rows(self):
        """Each row of the commands, once for each bit: its phrase, the command, the type, the data and the answer's name."""
        delivered = {row[0]: number(row[2]) for row in self.table("What is stored", 1)}
        for (kind, _, template, words, answer), bit in itertools.product(self.table("Commands"), BITS):
            phrase = re.split(r",| from the offset", words)[0]
            name = phrase.removeprefix("read ").removeprefix("the ")
            case = cases(bit).get(phrase) or ("Read", ("Fixed", delivered[DEVICE.get(name, name)]))
            if not bit or "BB" in template:
                yield phrase, case, number(kind), filled(template, bit), answer

    # ---- the record

    def record_parts(self):
        rows = self.table("A record")
        size = {row[0]: row[1] for row in rows}
        self.same(["length", "offset", "type", "data", "checksum", "all"], [row[0] for row in rows], "the parts of a record")
        head = sum(number(size[part]) for part in ("length", "offset", "type"))
        self.same(self.given("record:head_size"), head, "the bytes before the data")
        self.same(self.given("record:checksum_size"), number(size["checksum"]), "the bytes of the checksum")
        words = {row[0]: row[2] for row in rows}
        self.same([0, self.given("record:most_data")], numbers(words["data"]), "the bytes of data")
        rest, modulo = numbers(words["checksum"])
        (fixed,), (least, each) = numbers(size["all"]), map(int, re.search(r"(\d+) \+ (\d+)n", words["all"]).groups())
        for n in (0, 1, 2, 16, 254, 255):
            data = [(7 * i + n) % 256 for i in range(n)]
            made = record(0x04, data, 0x2A35)
            self.same((len(made), len(made) // 2), (least + each * n, fixed + n), f"the characters and bytes of a record with {n} bytes")
            self.same(self.given("record:record_of", 0x2A35, 0x04, data), made, f"a record with {n} bytes of data")
            self.same(self.given("record:sum", self.given("record:bytes_of", made)) % modulo, rest, f"the sum of a record with {n} bytes")
            taken = ("Ok", {"offset": 0x2A35, "kind": 0x04, "length": n})
            for characters in (made, list(bytes(made).lower())):
                self.same(self.given("record:reading", characters), taken, f"the fields of {bytes(characters)}")
                self.same(self.given("record:data_read", taken, characters), data, f"the data of {bytes(characters)}")

    def reading_number(self, characters):
        """The number of what the reader finds in these characters, 0 for a record that it takes."""
        return self.given("record:reading_number", self.given("record:reading", characters))

    def characters(self):
        """Nothing but a colon and hex digits stands in a record, and as many as its length says."""
        made, digits = record(0x05, [0x07, 0x00]), b"0123456789ABCDEFabcdef"
        for character, at in itertools.product(range(256), (0, 3, len(made) - 1)):
            found = self.reading_number([*made[:at], character, *made[at + 1 :]])
            good = character == ord(":") if at == 0 else character in digits
            self.same(found != 17, good, f"that character {character} may stand at {at}")
        for other in (made[:-1], made[:-2], [*made, 48], [*made, 48, 48], [*made, 13, 10], [32, *made], made[1:], []):
            self.same(self.reading_number(other), 17, f"what {bytes(other)} gives")

    def checksum(self):
        whole, same_whole, written = self.sentence(r"The checksum by hand: .*? is written \d+")
        self.same(whole, same_whole, "what the sum is taken from")
        for sums in range(256):
            told = written if whole - sums == whole else whole - sums
            self.same(self.given("record:checksum", [sums]), told, f"the checksum of {sums:02X}h")
            wrong = self.given("record:reading", record(0x05, [0x07, 0x00], more=sums))
            self.same(wrong == ("Err", ("WrongChecksum",)), sums != 0, f"that a checksum with {sums} more is wrong")
        most, bad, short = self.sentence(r"The project's record writer refuses [^.]*")
        tries = ((most + 1, 0, (bad, 0)), (most, 2 * most + 10, (short, 0)), (most, 2 * most + 11, (0, 2 * most + 11)))
        for n, room, told in tries:
            written = self.given("record:write_record", 0, 0, [0] * n, [0] * room)
            found = self.given("record:written_number", written), self.given("record:written_count", written)
            self.same(found, told, f"{n} bytes written into {room} characters")

    def examples(self):
        for characters, words in self.table("A record", 1):
            sent, found = list(characters.strip("`").encode()), numbers(words)
            if words.startswith("program the flash"):
                told, (at, *data) = ("Program", address(found[0])), found
                self.same(self.given("plug:record_data", sent), data, f"the data of {characters}")
            elif found:
                told = (cases(0)[words.split(" from ")[0]][0], *map(address, found))
            else:
                told = cases(0)[words]
            self.same(self.given("plug:command_of", sent), ("Some", told), f"{characters}")

    # ---- the commands

    def commands(self):
        for kind, length, template, words, _ in self.table("Commands"):
            if kind != "00h":
                self.same(len(filled(template, 0)), number(length), f"the length of {template}")
        for phrase, case, kind, data, _ in self.rows():
            for offset in (0, A):
                told = ("Some", ("Program", address(offset)) if kind == 0 else case)
                self.same(self.given("plug:form", kind, offset, data), told, f"{phrase}, with offset {offset:04X}h")
        (program,) = [row for row in self.table("Commands") if row[0] == "00h"]
        least, most = numbers(program[1])
        for n, at, good in ((least, 0, 1), (least - 1, 0, 0), (most, 0, 1), (most + 1, 0, 0), (1, 0xFFFF, 1), (2, 0xFFFF, 0)):
            self.same(self.given("plug:bad_range", ("Program", address(at)), n), not good, f"that {n} bytes to program at {at:04X}h are refused")

    def no_other_commands(self):
        """Nothing is a command but what the page lists, tried by type, length, the first two bytes and the last."""
        templates = {}
        for kind, _, template, *_ in self.table("Commands"):
            templates.setdefault(number(kind), []).append(template)
        self.same(sorted(templates), numbers({row[0]: row[2] for row in self.table("A record")}["type"]), "the types")
        some = list(itertools.product(range(1, 256), range(1), [0], [0], [0]))
        some += itertools.product((1, 2, 3, 4, 5, 6), range(7), range(17), (*range(9), 0x20, 0x40, 0x80), (0, 1, 2))
        for kind, n, first, second, last in some:
            data = [first, second, 0, 0, 0, 0][: max(n - 1, 0)] + [last] * (n > 0)
            told = any(fits(template, data) for template in templates.get(kind, []))
            self.same(self.given("plug:form", kind, 0, data)[0] == "Some", told, f"that type {kind:02X}h with {data} is a command")

    def answers_of_commands(self):
        """Each row's answer, on a board at level 0."""
        blank = [0xFF] * self.size
        texts = {"`.`": ".\r\n", "lines": shown(A, E, [0x5A] * self.size), "none": ""}
        for phrase, case, kind, data, answer in self.rows():
            result = self.step(self.board(), record(kind, data, A))
            found = bytes(result["text"]).decode()
            if answer == "a value":
                told = f"{self.given('plug:byte_value', case[1], self.config):02X}.\r\n"
            elif answer == "`.` or an address":
                told = f"{A:04X}\r\n"
                clean = self.step(self.board(blank), record(kind, data))["text"]
                self.same(bytes(clean).decode(), ".\r\n", f"the answer to {phrase} on a blank flash")
            else:
                told = texts[answer]
            self.same(found, told, f"the answer to {phrase}")
            started = {"StartReset": ("StartedReset",), "StartAt": ("StartedAt", address(AT))}.get(case[0], ("Answered",))
            self.same((result["outcome"], result["done"]), (started, ("Some", case)), f"the outcome of {phrase}")

    # ---- levels

    def level_of_ssb(self):
        zero, level_0, one, level_1, level_2 = self.sentence(r"SSB \w+ is level \d, \w+ is level \d, and every other value is level \d")
        for ssb in range(256):
            told = {zero: level_0, one: level_1}.get(ssb, level_2)
            self.same(self.given("plug:level", {**self.config, "ssb": ssb}), (f"L{told}",), f"the level of SSB {ssb:02X}h")
        delivered = self.given("plug:level", self.given("plug:delivered_config"))
        self.same([delivered], [(f"L{n}",) for n in self.sentence(r"A delivered board is at level \d")], "the level as delivered")
        erased = self.given("plug:level", self.given("plug:erased_config", {**self.config, "ssb": 0}))
        self.same([erased], [(f"L{n}",) for n in self.sentence(r"a full chip erase brings it back to \d")], "the level after a full chip erase")

    def levels(self):
        """What each level says to each command, by its definition and by a record that is sent."""
        self.same(True, "\n| what is asked | level 0 | level 1 | level 2 |\n" in self.page.text, "the columns of the plug's level table")
        told = {phrase: row[1:] for row in self.table("Levels") for phrase in row[0].split(", ")}
        named = [phrase for row in self.table("Levels") for phrase in row[0].split(", ")]
        every = {re.sub(r"(?<=program) (by|at) .*", "", phrase) for phrase, *_ in self.rows()}
        self.same(sorted(every), sorted(named), "the commands of the plug's level table, each once")
        for phrase, case, kind, data, _ in self.rows():
            cells = told[re.sub(r"(?<=program) (by|at) .*", "", phrase)]
            for level, (ssb, cell) in enumerate(zip((0xFF, 0xFE, 0xFC), cells, strict=True)):
                self.same(self.given("plug:allowed", case, (f"L{level}",)), {"yes": True, "P": False}[cell], f"{phrase} at level {level}")
                result = self.step(self.board(ssb=ssb), record(kind, data, A))
                refused = (bytes(result["text"]), result["done"]) == (b"P\r\n", ("None",))
                self.same(refused, cell == "P", f"that {phrase} gets P at level {level}")
                after = self.given("level_number", self.given("plug:level", result["config"]))
                self.same(after >= level or phrase == "full chip erase", True, f"that {phrase} does not lower level {level}")

    # ---- answers

    def answers(self):
        rows = {row[0]: row for row in self.table("Answers")}
        self.same(["`.`", "a value", "an address", "lines", "X", "P", "none"], list(rows), "the answers")
        self.same([13, 10], self.given("plug:line_end"), "CR and LF")
        blank = [value for value in range(256) if self.given("used_in", 0, 0, [value]) == ("None",)]
        self.same([blank, blank], [numbers(rows[name][3]) for name in ("`.`", "an address")], "the byte that is blank")
        refused = self.step(self.board(), record(0x06, []))["text"]
        made = {
            "`.`": [(self.given("plug:done_text"), "a full stop", ".")],
            "a value": [(self.given("plug:value_text", v), "two hex digits and a full stop", f"{v:02X}.") for v in range(256)],
            "an address": [(self.given("plug:blank_text", ("Some", x)), "four hex digits", f"{x:04X}") for x in (0, 0x9A, 0xBCDE, 0xFFFF)],
            "X": [(self.given("plug:wrong_checksum_text"), "the letter", "X")],
            "P": [(self.given("plug:security_text"), "the letter", "P")],
            "none": [(self.step(self.board(), record(0x03, [3, 0]))["text"], "no line end either", ""), (refused, "no line end either", "")],
        }
        for name, (text, words, before) in ((name, one) for name, tried in made.items() for one in tried):
            told = before + "\r\n" * (name != "none")
            self.same((bytes(text).decode(), words, len(text)), (told, rows[name][1], number(rows[name][2])), f"the answer {name}")
        least, each = map(int, re.match(r"(\d+) \+ (\d+)n", rows["lines"][2]).groups())
        self.same([self.given("plug:line_size")], numbers(rows["lines"][1]), "the bytes of a line")
        for n in range(1, 17):
            line = self.given("plug:display_line", A, A + n - 1, [0x5A] * 0x200)
            self.same((bytes(line).decode(), len(line)), (shown(A, A + n - 1, [0x5A] * 0x200), least + each * n), f"a line of {n} bytes")

    def displays(self):
        flash = [(3 * i + i // 256) % 256 for i in range(self.size)]
        for first, last, lines, room in ([number(cell) for cell in row] for row in self.table("Answers", 1)):
            what = f"a display from {first:04X}h to {last:04X}h"
            self.same(self.given("plug:line_count", first, last), lines, f"the lines of {what}")
            self.same(len(shown(first, last, flash)), room, f"the characters of {what}")
        for first, last in ((0, 0), (0, 0x20), (0x2A08, 0x2A17), (0x2A08, 0x2A3F), (0xFFF1, 0xFFFF), (0xFFF8, 0xFFFF)):
            found = bytes(self.given("plug:display_text", first, last, flash)).decode()
            self.same(found, shown(first, last, flash), f"a display from {first:04X}h to {last:04X}h")

    # ---- the order

    def wrong_ones(self, bad):
        """Boards and records that are wrong in just these: in the first, which decides, in each way that it can be, in the rest in one."""
        ways = {
            "flash": (self.size - 1, self.size + 1, 32768, 0),
            "characters": (slice(0, -1), slice(1, None), b"G", b" ", b"\n"),
            "sum": (1, 255),
            "row": ((6, [], 0), (3, [1], 0), (0, [], A), (0, [0] * 129, A), (0, [0, 0], 65535), (4, [0, 2, 0, 1, 0], 0), (4, [0, 2, 0, 1, 1], 0)),
            "level": (0xFE, 0xFC, 0x00),
        }
        good = {"flash": self.size, "characters": slice(0, None), "sum": 0, "row": (0, [0x31], A), "level": 0xFF}
        tried = [(ways[name] if name == bad[0] else ways[name][:1]) if name in bad else (good[name],) for name in ways]
        for size, cut, more, (kind, data, offset), ssb in itertools.product(*tried):
            made = record(kind, data, offset, more)
            yield self.board([0x5A] * size, ssb=ssb), made[cut] if isinstance(cut, slice) else [*made[:-1], *cut]

    def order(self):
        rows = self.table("The order")
        asked = ["flash", "characters", "sum", "row", "level"]
        self.same([f"{n}. the {word}" for n, word in enumerate(asked, 1)], [re.match(r"\d. the \w+", row[0])[0] for row in rows], "the order")
        told = [numbers(row[0])[1:] for row in rows]
        self.same([[self.size], [], [0], [self.size - 1], []], told, "the size of the flash, the sum, the last address")
        letters = {"X": b"X\r\n", "P": b"P\r\n"}
        (instead,), quiet = self.sentence(r"then \d+ comes in its place"), self.sentence(r"\d+ and \d+ need no room")
        for bad in itertools.chain.from_iterable(itertools.combinations(asked, count) for count in range(1, 6)):
            cell = rows[asked.index(bad[0])][1]
            text = letters.get(cell, b"")
            told = ("Answered",) if text else ("Refused", number(cell))
            self.same(not text, cell in map(str, quiet), f"that {cell} needs no room")
            for board, characters in self.wrong_ones(bad):
                for room in (0, 2, 3, 4):
                    result, short = self.step(board, characters, room), room < len(text)
                    found = result["outcome"], bytes(result["text"]), result["stored"], result["config"], result["done"]
                    right = ("Refused", instead) if short else told, b"" if short else text, [], board["config"], ("None",)
                    self.same(found, right, f"{bytes(characters)[:24]}, wrong in {', '.join(bad)}, with a room of {room}")

    def room(self):
        """Each command is done in the room that its answer needs, and gets 9 in one that is a character smaller."""
        (instead,) = self.sentence(r"then \d+ comes in its place")
        for phrase, _, kind, data, answer in self.rows():
            sent = record(kind, data, A)
            need = len(self.step(self.board(), sent)["text"])
            self.same(self.step(self.board(), sent, need)["done"][0], "Some", f"that {phrase} is done in a room of {need}")
            self.same(need == 0, answer == "none", f"that {phrase} needs no room")
            if need:
                result = self.step(self.board(), sent, need - 1)
                found = result["outcome"], result["text"], result["stored"], result["config"]
                self.same(found, (("Refused", instead), [], [], self.config), f"{phrase} in a room of {need - 1}")

    # ---- what is stored

    def after(self, cell, hsb, bit):
        """The configuration that a cell tells."""
        config = {**self.config, "hsb": hsb}
        if cell.startswith("bit"):
            weight = 1 << int(re.fullmatch(r"bit (\d) of HSB is BB", cell)[1])
            return {**config, "hsb": hsb & ~weight | weight * bit}
        told = [] if cell == "stays" else [part.split(" ") for part in cell.split(", ")]
        return {**config, **{name.lower(): VALUE if value == "VV" else number(value) for name, value in told}}

    def stored(self):
        """Pages and configuration after each command."""
        told = {row[0]: row[1:] for row in self.table("What is stored")}
        every = {phrase for phrase, *_ in self.rows()}
        self.same(set(told) - every, {"any other"}, "the commands that store")
        for phrase, case, kind, data, _ in self.rows():
            pages, cell = told.get(phrase, told["any other"])
            for hsb in (0x9C, 0x63):
                result = self.step(self.board(hsb=hsb), record(kind, data, A))
                self.same(len(result["stored"]), numbers(pages)[0], f"the pages of {phrase}")
                self.same(result["config"], self.after(cell, hsb, data[-1] % 2), f"the configuration after {phrase}, HSB {hsb:02X}h")
        one, two = numbers(told["program the flash"][0])
        for at, n in itertools.product((0, 1, 0x7F, 0x80, 0x2AFF, 0xFF80), (1, 2, 127, 128)):
            result = self.step(self.board(), record(0, [0] * n, at))
            if at + n <= self.size:
                self.same(len(result["stored"]), two if at % 128 + n > 128 else one, f"the pages of {n} bytes at {at:04X}h")

    def flash_after(self):
        """Every byte of the flash after each command: the range has the new bytes, the rest stays."""
        blocks = {row[3].split(",")[0]: numbers(row[3])[1:] for row in self.table("Commands") if row[3].startswith("erase block")}
        before, (erased,) = [(5 * i + i // 128) % 256 for i in range(self.size)], self.sentence(r"An erase sets its bytes to \w+")
        for phrase, _, kind, data, _ in self.rows():
            board, after = self.board(before), list(before)
            found = self.given("plug:next", board, self.step(board, record(kind, data, A)))["flash"]
            first, last = blocks.get(phrase, (0, self.size - 1 if phrase == "full chip erase" else -1))
            after[first : last + 1] = [erased] * (last + 1 - first)
            if phrase == "program the flash":
                after[A : A + len(data)] = data
            differ = [i for i, (x, y) in enumerate(itertools.zip_longest(found, after)) if x != y]
            self.same(differ[:8], [], f"the addresses that are wrong after {phrase}")

    def bytes_delivered(self):
        rows = self.table("What is stored", 1)
        self.same([*BYTES, *FIXED], [row[0] for row in rows], "the bytes of the plug")
        self.same(list(BYTES.values()), [row[1].split(";")[0] for row in rows[:4]], "their names spelled out")
        delivered, erased = self.given("plug:delivered_config"), self.given("plug:erased_config", self.config)
        for name, _, first, after in rows[:4]:
            field = name.lower()
            self.same(delivered[field], number(first), f"{name} as delivered")
            self.same(erased[field], self.config[field] if after == "stays" else number(after), f"{name} after a full chip erase")
        self.same([row[3] for row in rows[4:]], ["stays"] * 5, "that a full chip erase keeps the fixed bytes")
        fixed = ("manufacturer", "family_code", "product_name", "product_revision", "bootloader_version")
        self.same([self.given(f"plug:{name}") for name in fixed], [number(row[2]) for row in rows[4:]], "the fixed bytes")
        flash = [self.size, 0, self.size - 1, self.given("plug:flash_pages"), self.given("page_size")]
        self.same(flash, self.sentence(r"Its flash has [^.]*"), "the size of the flash")
        (blank,) = self.sentence(r"The flash is delivered blank, all \w+")
        self.same(self.given("plug:blank_flash") == [blank] * self.size, True, f"that all the flash is {blank:02X}h as delivered")

    # ---- demand 3

    def told_apart(self):
        """Boards that are blank at different places, and a blank check of one address in each room."""
        least, instead = self.sentence(r"in every room of \d+ characters or more, and in a smaller room every blank check gets \d+")
        self.same(self.given("plug:least_room"), least, "the least room")
        used = [0xFF] * A + [0x12] + [0xFF] * (self.size - A - 1)
        check = self.given("plug:blank_check_of", A)
        for room, ssb in itertools.product(range(9), (0xFF, 0xFE, 0xFC, 0x00)):
            results = [self.step(self.board(flash, ssb=ssb), check, room) for flash in (used, [0xFF] * self.size)]
            reports = [self.given("plug:report", result) for result in results]
            self.same(reports[0] != reports[1], room >= least, f"that a blank check tells in a room of {room}")
            if room < least:
                self.same([result["outcome"] for result in results], [("Refused", instead)] * 2, f"a blank check in a room of {room}")

    def alike(self):
        """Boards at level 2 with the same SSB and the same blank places: each record gets the same answer."""
        one = [0xFF if i % 3 else i % 251 for i in range(self.size)]
        other = [0xFF if i % 3 else (i + 7) % 251 for i in range(self.size)]
        for ssb, hsb in ((0xFC, 0x3B), (0x00, self.config["hsb"])):
            boards = self.board(one, ssb=ssb), self.board(other, ssb=ssb, bsb=0x55, sbv=0x66, hsb=hsb)
            for (phrase, _, kind, data, _), room in itertools.product(self.rows(), (3, ROOM)):
                found = [self.given("plug:report", self.step(board, record(kind, data, A), room)) for board in boards]
                self.same(found[0], found[1], f"{phrase} on two boards at level 2, in a room of {room}")
            erased = [self.given("plug:next", board, self.step(board, record(3, [7]))) for board in boards]
            for phrase, _, kind, data, _ in self.rows():
                found = [self.given("plug:report", self.step(board, record(kind, data, A))) for board in erased]
                told = phrase == "read HSB" and hsb != self.config["hsb"]
                self.same(found[0] != found[1], told, f"that {phrase} tells them apart after a full chip erase")

    def parts(self):
        return (
            *(self.record_parts, self.characters, self.checksum, self.examples, self.commands, self.no_other_commands),
            *(self.answers_of_commands, self.level_of_ssb, self.levels, self.answers, self.displays, self.order, self.room),
            *(self.stored, self.flash_after, self.bytes_delivered, self.told_apart, self.alike),
        )

    def spoiled(self):
        """Rows that are wrong, each with the part that has to find it."""
        return (
            ("| as characters, with the colon, 11 + 2n |", "| as characters, with the colon, 12 + 2n |", self.record_parts),
            ("`:020000050702F0` | read SBV", "`:020000050702F0` | read BSB", self.examples),
            ("| 00h | 1 to 128 |", "| 00h | 1 to 255 |", self.commands),
            ("| `01 80` | erase block 3", "| `01 60` | erase block 3", self.commands),
            ("| 03h | 2 | `04 00` | erase SBV and BSB | `.` |\n", "", self.no_other_commands),
            ("| read HSB | a value |", "| read HSB | `.` |", self.answers_of_commands),
            ("FEh is level 1, and every other value is level 2", "FEh is level 1, and every other value is level 1", self.level_of_ssb),
            ("| write level 2 to SSB | yes | yes | P |", "| write level 2 to SSB | yes | P | P |", self.levels),
            ("| read SSB, read the manufacturer, ", "| read the manufacturer, ", self.levels),
            ("| an address | four hex digits | 6 |", "| an address | four hex digits | 4 |", self.answers),
            ("| 0000h | 0020h | 3 | 87 |", "| 0000h | 0020h | 3 | 81 |", self.displays),
            ("| 3. the sum: it is 0 | X |", "| 3. the sum: it is 0 | 17 |", self.order),
            ("then 9 comes in its place", "then 17 comes in its place", self.room),
            ("| erase block 3 | 256 |", "| erase block 3 | 128 |", self.stored),
            ("| full chip erase | 512 | BSB FFh, SBV F0h, SSB FFh |", "| full chip erase | 512 | BSB FFh, SBV FCh, SSB FFh |", self.stored),
            ("| erase block 2, 4000h to 7FFFh |", "| erase block 2, 4000h to 6FFFh |", self.flash_after),
            ("it sets the level | FCh | FFh |", "it sets the level | FFh | FFh |", self.bytes_delivered),
            ("in every room of 3 characters", "in every room of 6 characters", self.told_apart),
        )
