//! The job file: fields of "one-byte tag, two-byte length (high first), value".

/// "At most 16,384 bytes".
pub const FILE_MOST: usize = 16_384;

const TAG_REQUEST: u8 = 0x01;
const TAG_GROUP: u8 = 0x02;
const TAG_NOTE: u8 = 0x03;

/// Tag and length.
const HEAD_BYTES: usize = 3;
const SETUP_BYTES: usize = 8;
const NOTE_MOST: usize = 64;
/// "four deep at most".
const DEEPEST: usize = 4;

/// One request of a job.
#[derive(Clone, Copy, Debug, PartialEq, Eq)]
pub struct Request<'a> {
    /// The setup bytes.
    pub setup: &'a [u8; SETUP_BYTES],
    /// The data, of any length.
    pub data: &'a [u8],
}

/// Whether the job is accepted; else the number of the refusal and the offset
/// of the tag, 0 for refusal 16.
pub fn verdict(file: &[u8]) -> Result<(), (u8, usize)> {
    survey(file).map(|_| ())
}

/// How many requests an accepted job holds, "through all its groups"; 0 for a
/// refused one, which "runs nothing".
pub fn count(file: &[u8]) -> usize {
    survey(file).unwrap_or(0)
}

/// The verdict and the count in one pass over the fields.
pub(crate) fn survey(file: &[u8]) -> Result<usize, (u8, usize)> {
    if file.len() > FILE_MOST {
        return Err((16, 0));
    }
    // ends[d] is where the group that is d deep ends, ends[0] where the file does.
    let mut ends = [file.len(); DEEPEST + 1];
    let (mut depth, mut at, mut found) = (0, 0, 0);
    loop {
        while at == ends[depth] {
            if depth == 0 {
                return Ok(found);
            }
            depth -= 1;
        }
        let left = &file[at..ends[depth]];
        let (tag, value) = field(left, depth).map_err(|number| (number, at))?;
        at += HEAD_BYTES;
        if tag == TAG_GROUP {
            depth += 1;
            ends[depth] = at + value;
        } else {
            at += value;
            found += usize::from(tag == TAG_REQUEST);
        }
    }
}

/// The tag and the value's length of the first field in what is left of its
/// enclosing list; else the refusal, "causes tried as numbered".
fn field(left: &[u8], depth: usize) -> Result<(u8, usize), u8> {
    let &[tag, high, low, ..] = left else {
        return Err(11);
    };
    let value = usize::from(u16::from_be_bytes([high, low]));
    if value > left.len() - HEAD_BYTES {
        return Err(11);
    }
    match tag {
        TAG_REQUEST if value < SETUP_BYTES => Err(14),
        TAG_GROUP if depth == DEEPEST => Err(13),
        TAG_NOTE if value > NOTE_MOST => Err(15),
        TAG_REQUEST | TAG_GROUP | TAG_NOTE => Ok((tag, value)),
        _ => Err(12),
    }
}

/// The requests of an accepted job in file order. Of a refused one it gives
/// what can be cut from it and stops.
pub fn requests(file: &[u8]) -> Requests<'_> {
    Requests { left: file }
}

/// The iterator that [`requests`] gives.
#[derive(Clone, Debug)]
pub struct Requests<'a> {
    left: &'a [u8],
}

impl<'a> Iterator for Requests<'a> {
    type Item = Request<'a>;

    fn next(&mut self) -> Option<Request<'a>> {
        while let [tag, high, low, after @ ..] = self.left {
            // The fields of an accepted group fill it, so stepping over its
            // head is enough and its end needs no mark.
            if *tag == TAG_GROUP {
                self.left = after;
                continue;
            }
            let length = usize::from(u16::from_be_bytes([*high, *low]));
            let (value, left) = after.split_at_checked(length)?;
            self.left = left;
            if *tag == TAG_REQUEST {
                let (setup, data) = value.split_first_chunk()?;
                return Some(Request { setup, data });
            }
        }
        None
    }
}
