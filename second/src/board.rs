//! The two memories of the board and what is done to them.

/// "Flash: 32,768 bytes, 0000h to 7FFFh".
pub const FLASH_SIZE: usize = 32_768;
/// "EEPROM: 1,024 bytes, 0000h to 03FFh".
pub const EEPROM_SIZE: usize = 1_024;
/// "256 pages of 128".
pub const PAGE_SIZE: usize = 128;
/// The last flash address, which bounds blank reports and starts too.
pub const FLASH_LAST: u16 = 0x7FFF;
/// "over 1,024 bytes": the most that one range programs, reads or keeps pending.
pub const RANGE_MOST: u16 = 1_024;

/// What an erased byte holds.
pub(crate) const ERASED: u8 = 0xFF;

/// The bits of an address that tell the place in its page.
const IN_PAGE: u16 = PAGE_SIZE as u16 - 1;
/// The wrong variant that searches the first page of a blank check from its first byte.
const FROM_PAGE_START: bool = cfg!(feature = "blank-check-from-page-start");
/// The wrong variant that searches the last page of a blank check to its last byte.
const TO_PAGE_END: bool = cfg!(feature = "blank-check-to-page-end");

/// An address of flash. "A flash address, an EEPROM address and a page number are
/// three things that the code keeps apart": the kinds do not stand for each other.
///
/// ```
/// use second::{Command, EepromAddress, FlashAddress};
/// let (start, end) = (FlashAddress(0x00AF), FlashAddress(0x00B3));
/// let _ = Command::ProgramFlash { start, end };
/// let (start, end) = (EepromAddress(0x00AF), EepromAddress(0x00B3));
/// let _ = Command::ProgramEeprom { start, end };
/// ```
///
/// ```compile_fail,E0308
/// use second::{Command, EepromAddress};
/// let (start, end) = (EepromAddress(0x00AF), EepromAddress(0x00B3));
/// let _ = Command::ProgramFlash { start, end };
/// ```
///
/// ```compile_fail,E0308
/// use second::{Command, FlashAddress};
/// let (start, end) = (FlashAddress(0x00AF), FlashAddress(0x00B3));
/// let _ = Command::ProgramEeprom { start, end };
/// ```
#[derive(Clone, Copy, Debug, PartialEq, Eq)]
pub struct FlashAddress(pub u16);

/// An address of EEPROM, kept apart from a [`FlashAddress`].
#[derive(Clone, Copy, Debug, PartialEq, Eq)]
pub struct EepromAddress(pub u16);

/// Whether the range, both ends included, is neither "backward" nor "outside" a
/// memory of that size.
const fn holds(size: usize, start: u16, end: u16) -> bool {
    start <= end && (end as usize) < size
}

/// Whether the range also is not "over 1,024 bytes".
pub(crate) const fn holds_transfer(size: usize, start: u16, end: u16) -> bool {
    holds(size, start, end) && end - start < RANGE_MOST
}

/// Which memory a range to read lies in.
#[derive(Clone, Copy, Debug, PartialEq, Eq)]
pub enum Memory {
    /// Flash.
    Flash,
    /// EEPROM.
    Eeprom,
}

impl Memory {
    /// The number of bytes in this memory.
    pub const fn size(self) -> usize {
        match self {
            Memory::Flash => FLASH_SIZE,
            Memory::Eeprom => EEPROM_SIZE,
        }
    }

    /// Whether the range, both ends included, is neither "backward" nor "outside".
    pub const fn holds(self, start: u16, end: u16) -> bool {
        holds(self.size(), start, end)
    }

    /// Whether the range also is not "over 1,024 bytes".
    pub const fn holds_transfer(self, start: u16, end: u16) -> bool {
        holds_transfer(self.size(), start, end)
    }
}

/// A block of flash that the block erase knows.
#[derive(Clone, Copy, Debug, PartialEq, Eq)]
pub enum Block {
    /// 0000h-1FFFh, code 00h.
    First,
    /// 2000h-3FFFh, code 20h.
    Second,
    /// 4000h-7FFFh, code 40h.
    Third,
}

impl Block {
    const fn bounds(self) -> (usize, usize) {
        match self {
            Block::First => (0x0000, 0x2000),
            Block::Second => (0x2000, 0x4000),
            Block::Third => (0x4000, 0x8000),
        }
    }
}

/// The lent memories, once refusals 2 and 3 are behind.
///
/// Every range given to it has passed [`holds`].
pub(crate) struct Board<'a> {
    pub(crate) flash: &'a mut [u8; FLASH_SIZE],
    pub(crate) eeprom: &'a mut [u8; EEPROM_SIZE],
}

impl Board<'_> {
    pub(crate) fn bytes(&self, memory: Memory, start: u16, end: u16) -> &[u8] {
        let whole: &[u8] = match memory {
            Memory::Flash => &self.flash[..],
            Memory::Eeprom => &self.eeprom[..],
        };
        &whole[usize::from(start)..usize::from(end) + 1]
    }

    /// "the first such address": of a byte not FFh in the flash range.
    pub(crate) fn first_not_blank(&self, start: u16, end: u16) -> Option<u16> {
        first_not_blank(self.flash, start, end)
    }

    /// "A block erase sets its range to FFh"; gives 64, 64 or 128 pages.
    pub(crate) fn erase_block(&mut self, block: Block) -> usize {
        let (from, past) = block.bounds();
        self.flash[from..past].fill(ERASED);
        (past - from) / PAGE_SIZE
    }

    /// "Full chip erase sets flash to FFh", EEPROM stays; gives 256 pages.
    pub(crate) fn erase_flash(&mut self) -> usize {
        self.flash.fill(ERASED);
        FLASH_SIZE / PAGE_SIZE
    }
}

/// Stores the bytes of a program transfer to flash and gives "the pages that the
/// range meets".
pub(crate) fn program_flash(
    flash: &mut [u8; FLASH_SIZE],
    start: FlashAddress,
    bytes: &[u8],
) -> usize {
    let from = usize::from(start.0);
    put(flash, from, bytes);
    (from + bytes.len() - 1) / PAGE_SIZE - from / PAGE_SIZE + 1
}

/// Stores the bytes of a program transfer to EEPROM, which has no pages to give.
pub(crate) fn program_eeprom(eeprom: &mut [u8; EEPROM_SIZE], start: EepromAddress, bytes: &[u8]) {
    put(eeprom, usize::from(start.0), bytes);
}

/// "Programmed bytes take the new values and all others stay", in a memory of any
/// size. A range that the address check should have kept out stores nothing.
fn put(memory: &mut [u8], from: usize, bytes: &[u8]) {
    if let Some(place) = memory.get_mut(from..from + bytes.len()) {
        place.copy_from_slice(bytes);
    }
}

/// The first address of a byte not FFh, in a range of either loader's flash that
/// is neither backward nor outside.
#[inline]
pub(crate) fn first_not_blank(flash: &[u8], start: u16, end: u16) -> Option<u16> {
    let start = if FROM_PAGE_START { start & !IN_PAGE } else { start };
    let end = if TO_PAGE_END { end | IN_PAGE } else { end };
    let range = &flash[usize::from(start)..usize::from(end) + 1];
    // A whole piece is and-ed without a branch, so that it goes in wide words.
    let (pieces, _) = range.as_chunks::<PAGE_SIZE>();
    let blank = |piece: &[u8; PAGE_SIZE]| piece.iter().fold(ERASED, |all, b| all & b) == ERASED;
    let skipped = pieces.iter().take_while(|piece| blank(piece)).count() * PAGE_SIZE;
    let within = range[skipped..].iter().position(|&b| b != ERASED)?;
    Some(start + (skipped + within) as u16)
}
