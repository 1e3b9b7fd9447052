//! The smallest input that still shows a difference.

use crate::sequence::{Fill, Request, Sequence, Step, IDLE};
use crate::tally::Tally;

/// Leaves out steps and shortens data as long as a difference is left.
pub fn sequence(mut found: Sequence) -> Sequence {
    loop {
        let difference = found.run(&mut Tally::default()).expect("it shows a difference");
        found.steps.truncate(difference.at + 1);
        match candidates(&found).into_iter().find(|smaller| smaller.run(&mut Tally::default()).is_some()) {
            Some(smaller) => found = smaller,
            None => return found,
        }
    }
}

fn candidates(found: &Sequence) -> Vec<Sequence> {
    let mut list = Vec::new();
    let count = found.steps.len();
    for size in [count / 2, count / 4, 1] {
        for from in (0..count).step_by(size.max(1)) {
            if size > 0 {
                let mut steps = found.steps.clone();
                steps.drain(from..count.min(from + size));
                list.push(Sequence { steps, ..found.clone() });
            }
        }
    }
    let delivered = crate::layout::pack_config(&second::Config::DELIVERED);
    let last = found.steps[count - 1..].to_vec();
    list.push(Sequence { session: IDLE, busy: 0, config: delivered, fill: Fill::Blank, steps: last });
    list.push(Sequence { session: IDLE, ..found.clone() });
    list.push(Sequence { busy: 0, ..found.clone() });
    list.push(Sequence { config: delivered, ..found.clone() });
    list.push(Sequence { fill: Fill::Blank, ..found.clone() });
    for (at, step) in found.steps.iter().enumerate() {
        if let Step::Ask(request) = step {
            for smaller in requests(request) {
                let mut steps = found.steps.clone();
                steps[at] = Step::Ask(smaller);
                list.push(Sequence { steps, ..found.clone() });
            }
        }
    }
    list.retain(|smaller| smaller != found);
    list
}

/// The same request with less data, wLength going with it, or with plainer data.
fn requests(request: &Request) -> Vec<Request> {
    let with = |data: Vec<u8>| {
        let mut setup = request.setup.clone();
        if setup.len() == 8 && usize::from(u16::from_le_bytes([setup[6], setup[7]])) == request.data.len() {
            setup[6..].copy_from_slice(&(data.len() as u16).to_le_bytes());
        }
        Request { setup, data, ..request.clone() }
    };
    let data = &request.data;
    let mut list = Vec::new();
    for shorter in [data.len() / 2, data.len().saturating_sub(16), data.len().saturating_sub(1)] {
        list.push(with(data[..shorter].to_vec()));
    }
    if data.len() > 6 && data[0] == 1 {
        // A transfer of half as many bytes, or of one less, whose whole length is off by as much as it was.
        let (start, end) = (u16::from_be_bytes([data[2], data[3]]), u16::from_be_bytes([data[4], data[5]]));
        for less in [end.wrapping_sub(start) / 2 + 1, 1] {
            if start < end && data.len() > 6 + usize::from(less) {
                let mut shorter = data[..data.len() - usize::from(less)].to_vec();
                shorter[4..6].copy_from_slice(&(end - less).to_be_bytes());
                list.push(with(shorter));
            }
        }
        let mut plain = data.clone();
        plain[6..].fill(0);
        list.push(with(plain));
    }
    list
}

/// Leaves out bytes, or steps, as long as a difference is left.
pub fn list<T: Clone>(mut found: Vec<T>, differs: impl Fn(&[T]) -> bool) -> Vec<T> {
    let mut size = found.len() / 2;
    while size > 0 {
        let mut from = 0;
        while from < found.len() {
            let mut smaller = found.clone();
            smaller.drain(from..found.len().min(from + size));
            if differs(&smaller) {
                found = smaller;
            } else {
                from += size;
            }
        }
        size /= 2;
    }
    found
}
