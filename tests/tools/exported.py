"""What crates/exports exports, read from three places: the Rattle source, the Rust declarations and the C header; and the layout of its
numbers, read from the code that packs them and from the tables of the header; the most that the busy page count may be, read from the
code of crates/refusals and from the header; and the stack that calls take, read from docs/PROMISES.md and from the header."""
import re

RATTLE = {
    "u8": [("u8", "")], "u16": [("u16", "")], "u32": [("u32", "")], "u64": [("u64", "")], "usize": [("usize", "")],
    "&mut u8": [("*mut u8", "")], "&mut u16": [("*mut u16", "")], "&mut u32": [("*mut u32", "")], "&mut u64": [("*mut u64", "")],
    "&mut usize": [("*mut usize", "")], "&[u8]": [("*const u8", ""), ("usize", "_size")], "&mut [u8]": [("*mut u8", ""), ("usize", "_size")],
}
RUST = {"u8": "u8", "u16": "u16", "u32": "u32", "u64": "u64", "usize": "usize", "&mut u8": "*mut u8", "&mut u16": "*mut u16",
        "&mut u32": "*mut u32", "&mut u64": "*mut u64", "&mut usize": "*mut usize", "*const u8": "*const u8", "*mut u8": "*mut u8"}
C = {"uint8_t": "u8", "uint16_t": "u16", "uint32_t": "u32", "uint64_t": "u64", "size_t": "usize", "uint8_t *": "*mut u8",
     "uint16_t *": "*mut u16", "uint32_t *": "*mut u32", "uint64_t *": "*mut u64", "size_t *": "*mut usize",
     "const uint8_t *": "*const u8"}


def parameters(text):
    return [part.strip() for part in text.split(",") if part.strip()]


def from_rattle(text):
    """Each function: its name, its parameters as C sees them, each a name and a type, and its result."""
    found = {}
    for name, given, result in re.findall(r'pub extern "C" fn (\w+)\(([^)]*)\)\s*->\s*(\w+)', text):
        pairs = [part.split(": ") for part in parameters(given)]
        found[name] = ([(own + more, kind) for own, rattle in pairs for kind, more in RATTLE[rattle]], result)
    return found


def from_rust(text):
    block = re.search(r'extern "C" \{\n(.*?)^\}', text, re.MULTILINE | re.DOTALL)[1]
    found = {}
    for name, given, result in re.findall(r"fn (\w+)\(([^)]*)\)\s*->\s*(\w+);", block):
        found[name] = ([(own, RUST[kind]) for own, kind in (part.split(": ") for part in parameters(given))], result)
    return found


def from_c(text):
    found = {}
    for result, name, given in re.findall(r"^(\w+) (\w+)\(([^)]*)\);", re.sub(r"/\*.*?\*/", "", text, flags=re.DOTALL), re.MULTILINE):
        pairs = [re.fullmatch(r"(.*?)(\w+)", part) for part in parameters(given) if part != "void"]
        found[name] = ([(pair[2], C[pair[1].strip()]) for pair in pairs], C[result])
    return found


# The words of the header for each case of the code, in the file that packs it.
SESSION = {
    "Pending::Nothing": "nothing", "Range::Flash": "a read of flash", "Range::Eeprom": "a read of EEPROM",
    "Pending::BlankReport": "a blank report", "Pending::OneByte": "one byte", "StartKind::Reset": "a start by reset",
    "StartKind::AtAddress": "a start at an address",
}
COMMAND = {
    "Command::ProgramFlash": "program flash", "Command::ProgramEeprom": "program EEPROM",
    "Range::Flash": "read flash", "Range::Eeprom": "read EEPROM",
    "Command::BlankCheck": "blank check of flash", "Block::Low": "erase 0000h-1FFFh", "Block::Middle": "erase 2000h-3FFFh",
    "Block::High": "erase 4000h-7FFFh", "Command::EraseChip": "erase the full chip", "Command::WriteByte": "write configuration byte",
    "Command::WriteHsb": "write HSB", "Command::StartReset": "start by reset", "Command::StartAt": "start at an address",
    "Command::ReadVersion": "read version", "Command::ReadByte": "read a byte", "Command::ReadHsb": "read HSB",
}
OUTCOME = {
    "Outcome::Done": "done", "Outcome::Stall": "stall", "StartKind::Reset": "start by reset",
    "StartKind::AtAddress": "start at an address", "Outcome::Refused": "refused",
}
SERIAL_OUTCOME = {
    "Outcome::Answered": "answered", "Outcome::StartedReset": "start by reset", "Outcome::StartedAt": "start at an address",
    "Outcome::Refused": "refused",
}
CONFIG = {"bsb": "BSB", "sbv": "SBV", "p1cf": "P1_CF", "p3cf": "P3_CF", "p4cf": "P4_CF", "ssb": "SSB", "eb": "EB", "hsb": "HSB"}
ARM = re.compile(r"(\w+::\w+)(?:\([^)]*\))? => pack_words\(((?:[^()]|\([^()]*\))*)\)")


def powers_of(text):
    """The exponent of each constant of a file, all of which are powers of two."""
    worth = {name: int(value, 0) for name, value in re.findall(r"const (\w+): u\d+ = (\w+);", text)}
    powers = {name: value.bit_length() - 1 for name, value in worth.items()}
    if any(1 << powers[name] != value for name, value in worth.items()):
        raise ValueError(f"not powers of two: {worth}")
    return powers


def bits(text):
    """The first bit of each of the four words, by the constants of packing.rt; and how many bits a word has and a byte."""
    powers = powers_of(text)
    total = re.search(r"u64::from\(a\) \+ (\w+) \* u64::from\(b\) \+ (\w+) \* u64::from\(c\) \+ (\w+) \* u64::from\(d\)", text)
    return [0] + [powers[name] for name in total.groups()], 2 * low_byte_first(text, r"a, b"), low_byte_first(text, r"a, b")


def low_byte_first(text, bytes_named):
    """How many bits a byte has: those of the library's numbers, where a file makes one of these bytes, the low one first."""
    if not re.search(rf"from_le_bytes\(\[{bytes_named}\]\)", text):
        raise ValueError(f"no number is made of {bytes_named}, the low byte first")
    return 8


def named(first, width, name):
    return f"bits {first}-{first + width - 1}", name


def field(word):
    """A word that is packed, by its name: a number that stands there always is `-`, if it is 0."""
    word = re.sub(r"^u16::from\((\w+)\)$", r"\1", word).removesuffix(".0")
    return "-" if word == "0" else word


def serial_from_code(read):
    """The two tables of the serial plug, by the code of crates/plugnumbers."""
    config, outcome = read("plugnumbers/config_number.rt"), read("plugnumbers/outcome_number.rt")
    byte = low_byte_first(config, r"[^\]]*")
    packed = re.findall(r"config\.(\w+)", re.search(r"u32::from_le_bytes\(\[([^\]]*)\]\)", config)[1])
    four = [named(n * byte, byte, CONFIG[name]) for n, name in enumerate(packed)]
    second = powers_of(outcome)[re.search(r"u64::from\(a\) \+ (\w+) \* u64::from\(b\)$", outcome, re.MULTILINE)[1]]
    rows = [(arm, *map(str.strip, words.split(","))) for arm, words in ARM.findall(outcome)]
    outcomes = sorted((int(kind), SERIAL_OUTCOME[arm], field(value)) for arm, kind, value in rows)
    return {
        "Serial configuration": (four, (), []),
        "Serial outcome": ([], ("outcome", f"bits {second}-{2 * second - 1}"), outcomes),
    }


def from_code(read):
    """All tables, by the code: `read` gives the text of a file, named by its crate and its place in src."""
    starts, word, byte = bits(read("numbers/packing.rt"))
    place = [f"bits {start}-{start + word - 1}" for start in starts]
    session, outcome = read("sessionnumbers/session_number.rt"), read("sessionnumbers/outcome_number.rt")
    config, command = read("numbers/config_number.rt"), read("commandnumbers/command_number.rt")

    state, status = re.search(r"u16::from_le_bytes\(\[session\.(\w+), session\.(\w+)\]\)", session).groups()
    head = [named(0, byte, state), named(byte, byte, status), named(starts[1], word, "kind")]
    rows = [(arm, *map(str.strip, words.split(","))) for arm, words in ARM.findall(session)]
    kinds = sorted((int(kind), SESSION[arm], field(c), field(d)) for arm, first, kind, c, d in rows if first == "head")

    packed = re.findall(r"config\.(\w+)", re.search(r"u64::from_le_bytes\(\[([^\]]*)\]\)", config)[1])
    eight = [named(n * byte, byte, CONFIG[name]) for n, name in enumerate(packed)]

    commands = []
    for arm, words in ARM.findall(command):
        kind, b, c, _ = map(str.strip, words.split(","))
        commands.append((int(kind), COMMAND[arm], field(b), field(c)))

    outcomes = sorted((int(kind), OUTCOME[arm], field(b)) for arm, words in ARM.findall(outcome) for kind, b in [words.split(", ")[:2]])
    return {
        "Session": (head, ("what is pending", place[2], place[3]), kinds),
        "Configuration": (eight, (), []),
        "Command": ([], ("command", place[1], place[2]), sorted(commands)),
        "Outcome": ([], ("outcome", place[1]), outcomes),
        **serial_from_code(read),
    }


def from_header(text):
    """The tables, by the header's first comment."""
    comment = re.match(r"/\*(.*?)\*/", text, re.DOTALL)[1]
    tables = {}
    for title, body in re.findall(r"^ \* (\w+(?: \w+)?): .*?\n((?:^ \*(?:   .*)?\n)+)", comment, re.MULTILINE):
        head, columns, rows = [], (), []
        for line in (line[2:].strip() for line in body.splitlines()):
            words = re.split(r"  +", line)
            if re.match(r"bits \d+-\d+$", words[0]):
                head.append(tuple(words))
            elif words[0] == "kind":
                columns = tuple(words[1:])
            elif words[0].isdigit():
                rows.append((int(words[0]), *words[1:]))
        tables[title] = (head, columns, rows)
    return tables


def most_busy_of_code(read):
    return re.findall(r"const MOST_BUSY: u16 = (\d+);", read("refusals/refusal.rt"))


def most_busy_of_header(text):
    return re.findall(r"a count above (\d+) is refused with 6", text)


def stack_of_page(text):
    """What the calls of the count take inside each other, and the most that another exported function takes."""
    rows = {name: int(size.replace(",", "")) for name, size in re.findall(r"(?m)^\| `(\w+)\(\)`[^|]* \| ([\d,]+) \|", text)}
    return [rows["count_fields"], max(size for name, size in rows.items() if name.startswith(("loader_", "serial_")))]


def stack_of_header(text):
    told = re.search(r"take up to ([\d,]+) bytes[\s*]+of stack; no other function takes over ([\d,]+)\.", text)
    return [int(size.replace(",", "")) for size in told.groups()] if told else []
