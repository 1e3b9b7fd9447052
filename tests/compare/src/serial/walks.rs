//! Records that are gone through, and not drawn by chance: every SSB at every row, every length, character, code and type, ranges from
//! each edge to each, and blank checks at the edges of pages.

use super::make::{self, record, COUNTS, EDGES};
use super::rows::{characters, display_size, range, summing_to, BLANK_CHECK, DISPLAY, PROGRAM, ROWS};
use super::{Fill, Record, Sequence, Step, FLASH, MOST_ROOM};
use crate::page_edges::FURTHER;
use crate::random::Random;

/// A room that takes every answer but a long display.
const ROOMY: usize = 300;
const LEVEL_0: u8 = 0xFF;
/// A place for what is asked of a board of every SSB.
const PLACE: (u16, u16) = (0x7FF8, 0x8008);

/// At the edges of the first page, of one in the middle and of the last, and one place inside.
const PAGE_EDGES: [u16; 12] = [0x0000, 0x0001, 0x007F, 0x0080, 0x7FFF, 0x8000, 0x8040, 0x807F, 0xFF7F, 0xFF80, 0xFFFE, 0xFFFF];

/// A board of any bytes and this SSB, which it has again before each record.
fn sequence(random: &mut Random, ssb: u8, records: Vec<Record>) -> Sequence {
    let config = make::of_ssb(random, ssb);
    let steps = records.into_iter().flat_map(|record| [Step::Config(config), Step::Take(record)]).collect();
    Sequence { config, fill: Fill::Any(random.next()), steps }
}

/// Every row at one SSB; the full chip erase stands among them, and after it a blank check of all is right.
fn every_row(ssb: u8) -> Sequence {
    let mut random = Random::new(Random::seed_of(u64::from(ssb), 1));
    let mut records = vec![
        record(characters(PLACE.0, 0, &random.bytes(16)), ROOMY, PROGRAM.0),
        record(characters(0, 4, &range(PLACE, 0)), ROOMY, DISPLAY.0),
        record(characters(0, 4, &range((0, 0xFFFF), 1)), ROOMY, BLANK_CHECK.0),
    ];
    for at in 0..ROWS.len() {
        records.push(Record { room: ROOMY, ..make::row_record(&mut random, at) });
    }
    records.push(record(characters(0, 4, &range((0, 0xFFFF), 1)), ROOMY, BLANK_CHECK.0));
    // A backward range and one past FFFFh come before the level.
    records.push(record(characters(0, 4, &range((PLACE.1, PLACE.0), 0)), ROOMY, "backward range"));
    records.push(record(characters(0xFFFF, 0, &[0, 1]), ROOMY, "past FFFFh"));
    sequence(&mut random, ssb, records)
}

/// Records of this many bytes of data, of each type, and some of wrong length.
fn every_length(count: usize) -> Sequence {
    let mut random = Random::new(Random::seed_of(count as u64, 2));
    let data = random.bytes(count);
    let mut records: Vec<Record> = (0..=8).map(|kind| record(characters(0x0100, kind, &data), ROOMY, "any data")).collect();
    if (1..=128).contains(&count) {
        records[0].aim = PROGRAM.0;
    }
    let whole = characters(0x0100, 0, &data);
    let cut = |less: usize| whole[..whole.len() - less].to_vec();
    records.push(record(cut(1), ROOMY, "a character too few"));
    records.push(record(cut(2), ROOMY, "a pair too few"));
    records.push(record([&whole[..], b"0"].concat(), ROOMY, "a character too many"));
    records.push(record([&whole[..], b"00"].concat(), ROOMY, "a pair too many"));
    records.push(record(summing_to(1, 0x0100, 0, &data), ROOMY, "checksum"));
    records.push(record(whole[..whole.len().min(count)].to_vec(), ROOMY, "any character"));
    sequence(&mut random, LEVEL_0, records)
}

/// One character in each place of three records: the mark, a digit of each field.
fn every_character(character: u8) -> Sequence {
    let mut random = Random::new(Random::seed_of(u64::from(character), 3));
    let mut records = Vec::new();
    for whole in [characters(0x2A5B, 0, &[0x3C]), characters(0, 5, &[7, 2]), characters(0, 4, &range(PLACE, 0))] {
        for at in 0..whole.len() {
            let mut changed = whole.clone();
            changed[at] = character;
            records.push(record(changed, ROOMY, "any character"));
        }
    }
    sequence(&mut random, LEVEL_0, records)
}

/// Codes of types 03h and 05h that begin with this byte, and this byte as a type.
fn every_code(first: u8) -> Sequence {
    let mut random = Random::new(Random::seed_of(u64::from(first), 4));
    let mut records = Vec::new();
    if first <= 0x10 {
        for second in 0..=255 {
            records.extend([3, 5].map(|kind| record(characters(0, kind, &[first, second]), ROOMY, "any code")));
            records.push(record(characters(0, 3, &[first, second, random.of(&[0, 1, 2, 0x55])]), ROOMY, "any code"));
            records.push(record(characters(0, 3, &[first, second, 0x12, 0x34]), ROOMY, "any code"));
        }
    }
    records.push(record(characters(0, 3, &[first]), ROOMY, "any code"));
    records.push(record(characters(0, 4, &range(PLACE, first)), ROOMY, "any code"));
    for data in [&[][..], &[7], &[7, 2], &[6, 0, 9], &[3, 1, 2, 3], &[0, 0, 0, 9, 0]] {
        records.push(record(characters(0x0200, first, data), ROOMY, "any type"));
    }
    sequence(&mut random, LEVEL_0, records)
}

/// Ranges and program records from this address on.
fn every_range(start: u16) -> Sequence {
    let mut random = Random::new(Random::seed_of(u64::from(start), 5));
    let mut records = Vec::new();
    let ends = EDGES.iter().copied().chain([start, start.wrapping_sub(1), start.saturating_add(16)]);
    for end in ends {
        let need = display_size((start, end));
        let aims = if end < start { ["backward range"; 2] } else { [DISPLAY.0, BLANK_CHECK.0] };
        records.extend(
            [need.saturating_sub(1), need, (need + 1).min(MOST_ROOM)]
                .map(|room| record(characters(0, 4, &range((start, end), 0)), room, aims[0])),
        );
        records.push(record(characters(0, 4, &range((start, end), 1)), ROOMY, aims[1]));
    }
    let left = FLASH - usize::from(start);
    for count in COUNTS.iter().copied().chain([left.min(128), (left + 1).min(129)]) {
        let aim = match count {
            129 => "program of too much data",
            _ if count > left => "past FFFFh",
            _ => PROGRAM.0,
        };
        records.push(record(characters(start, 0, &random.bytes(count)), ROOMY, aim));
    }
    Sequence { fill: Fill::Places(random.next()), ..sequence(&mut random, LEVEL_0, records) }
}

/// Rooms of 0 to 7 characters for each row, at a level that allows it and at one that does not, and with a wrong checksum.
fn every_room(room: usize) -> Sequence {
    let mut random = Random::new(Random::seed_of(room as u64, 6));
    let mut steps = Vec::new();
    for ssb in [LEVEL_0, 0x00] {
        for at in 0..ROWS.len() {
            let right = Record { room, ..make::row_record(&mut random, at) };
            steps.extend([Step::Config(make::of_ssb(&mut random, ssb)), Step::Take(right)]);
        }
        steps.push(Step::Byte(0x1000, 0x55));
        for (kind, data) in
            [(0, vec![1, 2, 3]), (4, range((0x1000, 0x1000), 0)), (4, range((0x0F00, 0x2000), 1)), (4, range((3, 3), 1))]
        {
            steps.push(Step::Config(make::of_ssb(&mut random, ssb)));
            steps.push(Step::Take(record(characters(0x0F80, kind, &data), room, "any data")));
            steps.push(Step::Take(record(summing_to(9, 0x0F80, kind, &data), room, "checksum")));
        }
    }
    Sequence { config: 0, fill: Fill::Blank, steps }
}

/// Blank checks from each of these places to itself and to each one behind it, with a byte that is not FFh at this one, and another a
/// little further on.
fn every_used(used: u16) -> Sequence {
    let mut random = Random::new(Random::seed_of(u64::from(used), 7));
    let mut records = Vec::new();
    for (at, &start) in PAGE_EDGES.iter().enumerate() {
        let checks = PAGE_EDGES[at..].iter().map(|&end| characters(0, 4, &range((start, end), 1)));
        records.extend(checks.map(|check| record(check, ROOMY, BLANK_CHECK.0)));
    }
    let mut checked = Sequence { fill: Fill::Blank, ..sequence(&mut random, LEVEL_0, records) };
    checked.steps.splice(..0, [Step::Byte(used.saturating_add(FURTHER), 0x00), Step::Byte(used, 0x5A)]);
    checked
}

pub fn all() -> impl Iterator<Item = Sequence> {
    let rooms = (0..=12).map(every_room);
    let ranges = EDGES.iter().map(|&start| every_range(start));
    let codes = (0..=255).map(every_code);
    let lengths = (0..=255).map(every_length);
    let used = PAGE_EDGES.iter().map(|&used| every_used(used));
    (0..=255)
        .map(every_row)
        .chain(rooms)
        .chain(ranges)
        .chain(used)
        .chain(lengths)
        .chain((0..=255).map(every_character))
        .chain(codes)
}
