//! What the commands store in flash and configuration.

use super::{Config, Flash, FLASH_SIZE};
use crate::board::{ERASED, PAGE_SIZE};

/// SSB of level 0, "NO_SECURITY".
const SSB_LEVEL_0: u8 = 0xFF;
/// SSB of level 1, "WRITE_SECURITY".
pub(super) const SSB_LEVEL_1: u8 = 0xFE;
/// SSB of level 2, "RD_WR_SECURITY".
pub(super) const SSB_LEVEL_2: u8 = 0xFC;

/// HSB: "BLJB is bit 6".
const BLJB_BIT: u8 = 6;
/// HSB: "X2 bit 7".
const X2_BIT: u8 = 7;

/// A command that stores something.
pub(super) enum Change<'a> {
    /// "Program Flash"; past the check of its range the bytes lie within the flash.
    Program { start: u16, bytes: &'a [u8] },
    /// "Erase block0" to "block3".
    EraseBlock(Block),
    /// "Full chip erase".
    EraseAll,
    /// "Erase SBV & BSB".
    EraseBoot,
    /// "Program SSB level1" or "level2", with the value that it stores.
    Ssb(u8),
    /// "Program BSB".
    Bsb(u8),
    /// "Program SBV".
    Sbv(u8),
    /// "Program bit BLJB", 00h or 01h.
    Bljb(u8),
    /// "Program bit X2", 00h or 01h.
    X2(u8),
}

/// A block of flash that the block erase knows.
pub(super) enum Block {
    /// 0000h to 1FFFh.
    Zero,
    /// 2000h to 3FFFh.
    One,
    /// 4000h to 7FFFh.
    Two,
    /// 8000h to FFFFh.
    Three,
}

impl Change<'_> {
    /// Stores the change and gives the count of flash pages stored.
    #[inline]
    pub(super) fn store(self, config: &mut Config, flash: &mut Flash) -> usize {
        match self {
            Change::Program { start, bytes } => return program(flash, start, bytes),
            Change::EraseBlock(Block::Zero) => return erase(&mut flash[0x0000..0x2000]),
            Change::EraseBlock(Block::One) => return erase(&mut flash[0x2000..0x4000]),
            Change::EraseBlock(Block::Two) => return erase(&mut flash[0x4000..0x8000]),
            Change::EraseBlock(Block::Three) => return erase(&mut flash[0x8000..FLASH_SIZE]),
            Change::EraseAll => {
                erase_boot(config);
                config.ssb = SSB_LEVEL_0;
                return erase(flash);
            }
            Change::EraseBoot => erase_boot(config),
            Change::Ssb(value) => config.ssb = value,
            Change::Bsb(value) => config.bsb = value,
            Change::Sbv(value) => config.sbv = value,
            Change::Bljb(value) => set_bit(&mut config.hsb, BLJB_BIT, value),
            Change::X2(value) => set_bit(&mut config.hsb, X2_BIT, value),
        }
        0
    }
}

/// Gives "the pages that its bytes meet".
fn program(flash: &mut Flash, start: u16, bytes: &[u8]) -> usize {
    let from = usize::from(start);
    let past = from + bytes.len();
    flash[from..past].copy_from_slice(bytes);
    (past - 1) / PAGE_SIZE - from / PAGE_SIZE + 1
}

/// Gives 64, 64, 128, 256 pages for the blocks, 512 for the full chip.
fn erase(whole_pages: &mut [u8]) -> usize {
    whole_pages.fill(ERASED);
    whole_pages.len() / PAGE_SIZE
}

/// "BSB FFh, SBV F0h".
fn erase_boot(config: &mut Config) {
    config.bsb = 0xFF;
    config.sbv = 0xF0;
}

/// "the bit takes the value (00h: 0, 01h: 1), the other seven stay".
fn set_bit(byte: &mut u8, bit: u8, value: u8) {
    *byte = *byte & !(1 << bit) | value << bit;
}
