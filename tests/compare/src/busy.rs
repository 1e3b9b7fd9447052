//! Every state, those that are none too, with busy counts, with each thing that can be pending and with some statuses: what each kind of
//! request makes of the count, a command and an UPLOAD at each level. A count that no run from power-up has in that state is lent all the
//! same.

use crate::every_ssb::{PENDINGS, PLACE, SSB, WHOLE};
use crate::layout;
use crate::make;
use crate::memories_apart::LEVELS;
use crate::random::Random;
use crate::sequence::{Fill, Request, Sequence, Step, IDLE};
use second::{Config, Session};

/// From 0 to one more than the highest that there is.
const STATES: std::ops::RangeInclusive<u8> = 0..=11;
/// None, those of commands, and three that are refused, one of which would be 0 if its high bits were cut off.
const COUNTS: [u16; 8] = [0, 1, 9, 128, 256, 257, 512, 65_535];
/// No error, that of a blank check that finds a byte, that of a refused write, and one that is none.
const STATUSES: [u8; 4] = [0x00, 0x05, 0x03, 0x10];
/// The flash is blank but for this byte.
const USED: u16 = 0x5678;
const NINE_PAGES: (u16, u16) = (0x001F, 0x041E);
const OUTSIDE: (u16, u16) = (0x8000, 0x8000);
/// One byte more than DNLOAD looks at.
const TOO_MUCH: usize = 1_104;

/// Requests that don't ask the level.
fn plain(random: &mut Random) -> Vec<Request> {
    let [get_status, get_state] = [make::get_status(), make::bare(0xA1, 5, 1)];
    let [clear_status, abort, detach] = [4, 6, 0].map(|code| make::bare(0x21, code, 0));
    let wrong_length = [(3, 5), (3, 7), (5, 0), (5, 2)].map(|(code, length)| make::bare(0xA1, code, length));
    // Not as many bytes as wLength says, which is refused.
    let refused = make::bare(0x21, 1, 3);
    let other = make::bare(0xA1, 1, 0);
    let downloads = [vec![], vec![0; TOO_MUCH]].map(|data| make::download(random, data));
    let mut list = vec![get_status, get_state, clear_status, abort, detach, refused, other];
    list.extend(wrong_length);
    list.extend(downloads);
    list
}

/// Every command of the table, and some that are none. Each erase has something to erase: what was programmed just before, or the byte
/// that is used.
fn commands(random: &mut Random) -> Vec<Vec<u8>> {
    let mut list = vec![make::ranged(3, 1, (0, USED - 1)), make::ranged(3, 1, WHOLE)];
    list.extend([0, 2].map(|selector| make::ranged(3, selector, PLACE)));
    list.extend([vec![5, 0, 0], vec![5, 1, SSB as u8], vec![5, 2, 0], vec![4, 3, 0], vec![4, 3, 1, 0x12, 0x34]]);
    list.extend([vec![4, 1, 0, random.byte()], vec![4, 2, 0, random.byte()]]);
    // A wrong address, an unlisted code, and a transfer that is too long.
    list.extend([make::ranged(3, 0, OUTSIDE), make::whole_transfer(random, 0, OUTSIDE), vec![6, 3, 0, 6]]);
    list.push([make::whole_transfer(random, 0, PLACE), vec![0]].concat());
    list.extend([1, 0].map(|selector| make::whole_transfer(random, selector, PLACE)));
    list.extend([make::whole_transfer(random, 0, NINE_PAGES), vec![4, 0, 0x00]]);
    list.extend([make::whole_transfer(random, 0, (0x2000, 0x2000)), vec![4, 0, 0x20], vec![4, 0, 0x40]]);
    list.extend([make::whole_transfer(random, 0, NINE_PAGES), vec![4, 0, 0xFF]]);
    list
}

/// The session before each request, on a board of this SSB; at level 0 all requests, else those that ask the level.
fn sequence(session: &Session, ssb: u8) -> Sequence {
    let lent = [Step::Session(layout::pack_session(session)), Step::Busy(session.busy)];
    let mut random = Random::new(Random::seed_of(u64::from(ssb), layout::pack_session(session)));
    let mut config = Config::DELIVERED;
    config.bytes[SSB] = ssb;
    let config = layout::pack_config(&config);
    let mut requests = if ssb == LEVELS[0] { plain(&mut random) } else { vec![] };
    requests.extend([0, 1, 2, 1024].map(|length| make::upload(&mut random, length)));
    requests.extend(commands(&mut random).into_iter().map(|data| make::download(&mut random, data)));
    let mut steps = lent.to_vec();
    steps.push(Step::PowerUp);
    for request in requests {
        steps.push(Step::Config(config));
        steps.extend(lent.clone());
        steps.push(Step::Ask(request));
    }
    Sequence { session: IDLE, busy: 0, config, fill: Fill::Used(USED), steps }
}

/// Every session, and with each the boards of the three levels.
pub fn boards() -> impl Iterator<Item = (String, Sequence)> {
    let counted = STATES.flat_map(|state| COUNTS.map(|busy| (state, busy)));
    let pending = counted.flat_map(|(state, busy)| PENDINGS.map(|pending| Session { state, status: 0, pending, busy }));
    let sessions = pending.flat_map(|session| STATUSES.map(|status| Session { status, ..session }));
    sessions.flat_map(|session| {
        LEVELS.map(|ssb| {
            let Session { state, status, pending, busy } = session;
            let place = format!("in state {state}, status {status:02X}h, busy count {busy}, SSB {ssb:02X}h, pending {pending:?}");
            (place, sequence(&session, ssb))
        })
    })
}
