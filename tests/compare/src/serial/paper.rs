//! The examples of 002, as they stand there, against the exported functions. Two of them can't hold as they stand.

use super::{flash_of, Fill, FLASH};

/// BSB, SBV, SSB of level 0, and HSB.
const CONFIG: [u8; 4] = [0xFF, 0xF0, 0xFF, 0xBB];
const ROOM: usize = 1_024;

/// An example: its heading, what the host sends, what the bootloader adds to the echo; bytes of the flash before and after it, and the
/// configuration after it.
struct Example {
    name: &'static str,
    host: &'static str,
    bootloader: &'static str,
    before: &'static [(u16, u8)],
    after: &'static [(u16, u8)],
    config: [u8; 4],
}

const fn example(name: &'static str, host: &'static str, bootloader: &'static str) -> Example {
    Example { name, host, bootloader, before: &[], after: &[], config: CONFIG }
}

impl Example {
    const fn on(self, before: &'static [(u16, u8)]) -> Example {
        Example { before, ..self }
    }

    const fn leaving(self, after: &'static [(u16, u8)]) -> Example {
        Example { after, ..self }
    }

    const fn with(self, config: [u8; 4]) -> Example {
        Example { config, ..self }
    }
}

const DISPLAYED: &str = "0000=12FFFFFFFFFFFFFFFFFFFFFFFFFFFFFF CR LF 0010=FFFFFFFFFFFFFFFFFFFFFFFFFFFFFFAB CR LF 0020=34 CR LF";

/// `Value` stands for two digits; `xxxx` and the data are the digits of what the flash holds here.
const EXAMPLES: [Example; 11] = [
    example("write 55h at address 0010h in the Flash", ": 01 0010 00 55 9A", ". CR LF")
        .on(&[(0x000F, 0x01), (0x0011, 0x02)])
        .leaving(&[(0x000F, 0x01), (0x0010, 0x55), (0x0011, 0x02)]),
    example("Blank Check ok", ": 05 0000 04 0000 7FFF 01 78", ". CR LF").on(&[(0x8000, 0x00)]),
    example("Blank Check ok at address xxxx", ": 05 0000 04 0000 7FFF 01 78", "2468 CR LF").on(&[(0x2468, 0x00), (0x2469, 0x00)]),
    example("Display data from address 0000h to 0020h", ": 05 0000 04 0000 0020 00 D7", DISPLAYED).on(&[
        (0x0000, 0x12),
        (0x001F, 0xAB),
        (0x0020, 0x34),
        (0x0021, 0x56),
    ]),
    example("write SSB to level 2", ": 02 0000 03 05 01 F5", ". CR LF").with([0xFF, 0xF0, 0xFC, 0xBB]),
    example("write BSB to 55h", ": 03 0000 03 06 00 55 9F", ". CR LF").with([0x55, 0xF0, 0xFF, 0xBB]),
    example("read SBV", ": 02 0000 05 07 02 F0", "Value . CR LF"),
    example("Full Chip Erase", ": 01 0000 03 07 F5", ". CR LF")
        .on(&[(0x0000, 0x00), (0xFFFF, 0x00)])
        .leaving(&[(0x0000, 0xFF), (0xFFFF, 0xFF)]),
    example("Erase Block1(8k to 16k)", ": 02 0000 03 01 20 DA", ". CR LF")
        .on(&[(0x1FFF, 0x01), (0x2000, 0x02), (0x3FFF, 0x03), (0x4000, 0x04)])
        .leaving(&[(0x1FFF, 0x01), (0x2000, 0xFF), (0x3FFF, 0xFF), (0x4000, 0x04)]),
    example("Start Application with reset pulse", ": 02 0000 03 03 00 F8", ""),
    example("Start Application without reset at address 0000h", ": 04 0000 03 03 01 00 00 F5", ""),
];

/// Each list of answers has "X" & "CR" & "LF" with one line end, and this example has two.
const DOUBLED: Example = example("Blank Check with checksum error", ": 05 0000 04 0000 7FFF 01 70", "X CR LF CR LF");
/// No table has type 01h: "The document's example for the bootloader version has record type 01h; its command table decides." (02)
const OF_TYPE_01: Example = example("read bootloader version", ": 02 0000 01 02 00 FB", "Value . CR LF");
/// What the table has in its place.
const VERSION: Example = example("read bootloader version, by the table", ": 02 0000 05 0F 00 EA", "Value . CR LF");

/// What the loader adds to the echo, as the paper writes it, or what is wrong with the board after it.
fn told(example: &Example) -> String {
    let record: Vec<u8> = example.host.bytes().filter(|&character| character != b' ').collect();
    let mut flash = flash_of(Fill::Blank);
    example.before.iter().for_each(|&(at, value)| flash[usize::from(at)] = value);
    let (mut config, mut room) = (u32::from_le_bytes(CONFIG), vec![0; ROOM]);
    let (outcome, count, _) = exports::serial::step(&mut config, &record, &mut flash[..FLASH], &mut room);
    if outcome & 0xFFFF == 4 {
        return format!("refused {}", outcome >> 16);
    }
    if let Some((at, _)) = example.after.iter().find(|&&(at, value)| flash[usize::from(at)] != value) {
        return format!("the flash is wrong at {at:04X}h");
    }
    if config.to_le_bytes() != example.config {
        return format!("the configuration is {:02X?}", config.to_le_bytes());
    }
    let text = String::from_utf8_lossy(&room[..count]).replace("\r\n", " CR LF ");
    text.trim_end().replace(". CR", " . CR").trim_start().to_string()
}

/// Whether the answer is the example's, `Value` being any two digits.
fn holds(example: &Example) -> bool {
    let told = told(example);
    match example.bootloader.strip_prefix("Value ") {
        Some(rest) => told.split_once(' ').is_some_and(|(value, end)| value.len() == 2 && value.is_ascii() && end == rest),
        None => told == example.bootloader,
    }
}

/// The first example that does not hold, or that holds and can't; and says how many do.
pub fn difference() -> Option<String> {
    let wrong = EXAMPLES.iter().chain([&VERSION]).find(|example| !holds(example));
    if let Some(example) = wrong {
        return Some(format!("example {:?} of 002: {:?}, and we answer {:?}", example.name, example.bootloader, told(example)));
    }
    for (example, right) in [(&DOUBLED, "X CR LF"), (&OF_TYPE_01, "refused 17")] {
        if told(example) != right {
            return Some(format!(
                "example {:?} of 002 can't hold; {right:?} is right, and we answer {:?}",
                example.name,
                told(example)
            ));
        }
        println!("  002: {:?} can't hold as it stands: {:?} there, {right:?} by the tables", example.name, example.bootloader);
    }
    println!("  002: {} examples hold, and the version by its table", EXAMPLES.len());
    None
}
