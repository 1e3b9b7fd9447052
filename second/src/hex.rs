//! Capital hex digits.

/// A capital hex digit, without a table so that a run of them goes in wide words.
#[inline]
pub(crate) const fn digit(value: u8) -> u8 {
    value + if value < 10 { b'0' } else { b'A' - 10 }
}

/// The two digits of a byte.
#[inline]
pub(crate) const fn pair(byte: u8) -> [u8; 2] {
    [digit(byte >> 4), digit(byte & 0xF)]
}
