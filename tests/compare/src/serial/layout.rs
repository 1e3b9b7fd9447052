//! The second program's values as the numbers of crates/plugnumbers/specs/Layout.antt, and back.

use second::serial::{Config, Outcome};

pub fn pack_config(config: &Config) -> u32 {
    u32::from_le_bytes([config.bsb, config.sbv, config.ssb, config.hsb])
}

pub fn config(n: u32) -> Config {
    let [bsb, sbv, ssb, hsb] = n.to_le_bytes();
    Config { bsb, sbv, ssb, hsb }
}

pub fn pack_outcome(outcome: &Outcome) -> u64 {
    let (number, value) = match *outcome {
        Outcome::Answered => (0, 0),
        Outcome::StartReset => (2, 0),
        Outcome::StartAt(address) => (3, address),
        Outcome::Refused(number) => (4, u16::from(number)),
    };
    number | u64::from(value) << 16
}
