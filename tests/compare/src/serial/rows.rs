//! The rows of 002's command tables, and the characters of a record.

/// A row of type 03h or 05h: its name, its type, its codes, how many bytes of any value follow, and the lowest level that answers `P`,
/// 3 where none does.
pub struct Row {
    pub name: &'static str,
    pub kind: u8,
    pub codes: &'static [u8],
    pub more: usize,
    pub barred_from: u8,
}

const fn row(name: &'static str, kind: u8, codes: &'static [u8], more: usize, barred_from: u8) -> Row {
    Row { name, kind, codes, more, barred_from }
}

/// "Program Flash", "Read Flash" and "Blank check on Flash" carry a place, and are not among these.
pub const ROWS: [Row; 27] = [
    row("erase block 0", 3, &[0x01, 0x00], 0, 1),
    row("erase block 1", 3, &[0x01, 0x20], 0, 1),
    row("erase block 2", 3, &[0x01, 0x40], 0, 1),
    row("erase block 3", 3, &[0x01, 0x80], 0, 1),
    row("erase chip", 3, &[0x07], 0, 3),
    row("start by reset", 3, &[0x03, 0x00], 0, 3),
    row("start at address", 3, &[0x03, 0x01], 2, 3),
    row("erase SBV and BSB", 3, &[0x04, 0x00], 0, 1),
    row("program SSB level 1", 3, &[0x05, 0x00], 0, 1),
    row("program SSB level 2", 3, &[0x05, 0x01], 0, 2),
    row("program BSB", 3, &[0x06, 0x00], 1, 1),
    row("program SBV", 3, &[0x06, 0x01], 1, 1),
    row("program BLJB to 0", 3, &[0x0A, 0x04, 0x00], 0, 1),
    row("program BLJB to 1", 3, &[0x0A, 0x04, 0x01], 0, 1),
    row("program X2 to 0", 3, &[0x0A, 0x08, 0x00], 0, 1),
    row("program X2 to 1", 3, &[0x0A, 0x08, 0x01], 0, 1),
    row("read manufacturer", 5, &[0x00, 0x00], 0, 3),
    row("read family", 5, &[0x00, 0x01], 0, 3),
    row("read product name", 5, &[0x00, 0x02], 0, 3),
    row("read revision", 5, &[0x00, 0x03], 0, 3),
    row("read SSB", 5, &[0x07, 0x00], 0, 3),
    row("read BSB", 5, &[0x07, 0x01], 0, 2),
    row("read SBV", 5, &[0x07, 0x02], 0, 2),
    row("read HSB", 5, &[0x0B, 0x00], 0, 2),
    row("read ID1", 5, &[0x0E, 0x00], 0, 3),
    row("read ID2", 5, &[0x0E, 0x01], 0, 3),
    row("read version", 5, &[0x0F, 0x00], 0, 3),
];

/// The three others, with the lowest level that answers `P`.
pub const PROGRAM: (&str, u8) = ("program", 1);
pub const DISPLAY: (&str, u8) = ("display", 2);
pub const BLANK_CHECK: (&str, u8) = ("blank check", 3);

/// Every row's name, with the lowest level that answers `P`.
pub fn names() -> impl Iterator<Item = (&'static str, u8)> {
    [PROGRAM, DISPLAY, BLANK_CHECK].into_iter().chain(ROWS.iter().map(|row| (row.name, row.barred_from)))
}

/// A record that sums to this, 0 where the checksum is right.
pub fn summing_to(total: u8, offset: u16, kind: u8, data: &[u8]) -> Vec<u8> {
    let [high, low] = offset.to_be_bytes();
    let mut bytes = vec![data.len() as u8, high, low, kind];
    bytes.extend(data);
    bytes.push(bytes.iter().fold(total, |sum, &byte| sum.wrapping_sub(byte)));
    bytes.iter().fold(":".to_string(), |text, byte| format!("{text}{byte:02X}")).into_bytes()
}

/// "Record Mark ':'", and two digits for each byte of length, load offset, type, data and checksum.
pub fn characters(offset: u16, kind: u8, data: &[u8]) -> Vec<u8> {
    summing_to(0, offset, kind, data)
}

/// The data of "Read Flash", code 00h, and "Blank check on Flash", code 01h.
pub fn range((start, end): (u16, u16), code: u8) -> Vec<u8> {
    let ([s1, s0], [e1, e0]) = (start.to_be_bytes(), end.to_be_bytes());
    vec![s1, s0, e1, e0, code]
}

/// How many characters the lines of a range have; none where it is backward.
pub fn display_size((start, end): (u16, u16)) -> usize {
    let bytes = if end < start { 0 } else { usize::from(end - start) + 1 };
    let lines = bytes.div_ceil(16);
    7 * lines + 2 * bytes
}
