//! Job files, run through both bench programs.

use crate::make;
use crate::random::Random;
use crate::tally::Tally;
use std::collections::VecDeque;
use std::io::Write;
use std::process::{Child, Command, Stdio};

const MOST: usize = 16_384;

fn field(tag: u8, value: &[u8]) -> Vec<u8> {
    let [high, low] = (value.len() as u16).to_be_bytes();
    [&[tag, high, low], value].concat()
}

fn note(random: &mut Random) -> Vec<u8> {
    let count = if random.chance(95) { random.below(65) } else { random.of(&[64, 65, 66, 300]) };
    let text = random.bytes(count);
    field(3, &text)
}

/// Fields with these requests in their order, in groups that are `depth` deep.
fn fields(random: &mut Random, requests: &mut std::vec::IntoIter<(Vec<u8>, Vec<u8>)>, depth: usize) -> Vec<u8> {
    let mut file = Vec::new();
    for _ in 0..1 + random.below(6) {
        match random.below(12) {
            0 => file.extend(note(random)),
            1..=4 if depth < 4 || random.chance(3) => {
                let inside = fields(random, requests, depth + 1);
                file.extend(field(2, &inside));
            }
            _ => {
                let Some((setup, data)) = requests.next() else { break };
                file.extend(field(1, &[setup, data].concat()));
            }
        }
    }
    file
}

/// Something is wrong with it.
fn damage(random: &mut Random, file: &mut Vec<u8>) {
    if file.is_empty() {
        return file.push(random.byte());
    }
    let at = random.below(file.len());
    match random.below(9) {
        0 => file.truncate(at),
        1 => file[at] = random.byte(),
        2 => file[at] = file[at].wrapping_add(1),
        3 => file[at] = file[at].wrapping_sub(1),
        4 => drop(file.remove(at)),
        5 => file.insert(at, random.byte()),
        6 => file.extend(field(random.of(&[0, 4, 0x81, 0xFF]), &[1, 2])),
        7 => file.extend(field(1, &[0xA1, 5, 0, 0, 0, 0, 1])),
        _ => {
            let short = random.below(3);
            file.extend(&[3, 0, 0][..short]);
        }
    }
}

pub fn job(random: &mut Random) -> Vec<u8> {
    let mut file = Vec::new();
    if random.chance(2) {
        return file;
    }
    let count = if random.chance(5) { 120 } else { 1 + random.below(14) };
    let mut requests = make::job_requests(random, count).into_iter();
    while requests.len() > 0 && file.len() < MOST {
        let more = fields(random, &mut requests, 0);
        if file.len() + more.len() > MOST && random.chance(50) {
            break;
        }
        file.extend(more);
    }
    if random.chance(35) {
        damage(random, &mut file);
    }
    if random.chance(2) {
        let size = random.of(&[MOST, MOST + 1, MOST + 2, MOST - 3]);
        while file.len() + 67 < size {
            file.extend(field(3, &[0; 64]));
        }
        let rest = size.saturating_sub(file.len() + 3).min(64);
        file.extend(field(3, &vec![0; rest]));
    }
    file
}

/// What both say of a file: the verdict, and how many requests an accepted one holds.
pub fn difference(file: &[u8], tally: &mut Tally) -> Option<String> {
    let verdict = second::verdict(file);
    tally.add("job", verdict.map_or_else(|(number, _)| format!("refused {number}"), |()| "accepted".into()));
    let (ours, expected) = (exports::check_job(file), verdict.err().unwrap_or((0, 0)));
    if ours != expected {
        return Some(format!("verdict: ours {ours:?}, second {expected:?}"));
    }
    let (ours, expected) = (exports::count_requests(file), second::count(file));
    // 01 asks no count of a refused file, and the two programs count it each in its way.
    (verdict.is_ok() && ours != expected).then(|| format!("requests: ours {ours}, second {expected}"))
}

/// Our bench program, at work on some jobs at a time.
pub struct Bench<'a> {
    words: &'a [String],
    running: VecDeque<(Vec<u8>, Child)>,
}

/// So many are started before the first is waited for.
const AT_ONCE: usize = 4;

impl Bench<'_> {
    /// `words` start it; where there are none it is not run.
    pub fn new(words: &[String]) -> Bench<'_> {
        Bench { words, running: VecDeque::new() }
    }

    /// Hands it a job. The file of an earlier one, and what differs, where its lines are not the second program's.
    pub fn hand(&mut self, file: &[u8], tally: &mut Tally) -> Option<(Vec<u8>, String)> {
        if self.words.is_empty() {
            return None;
        }
        tally.bench_runs += 1;
        self.running.push_back((file.to_vec(), start(self.words, file)));
        if self.running.len() > AT_ONCE {
            self.wait()
        } else {
            None
        }
    }

    /// Waits for the job that was handed first.
    pub fn wait(&mut self) -> Option<(Vec<u8>, String)> {
        let (file, child) = self.running.pop_front()?;
        lines_difference(&file, child).map(|what| (file, what))
    }

    pub fn is_done(&self) -> bool {
        self.running.is_empty()
    }

    /// Runs one job alone.
    pub fn difference(&self, file: &[u8]) -> Option<String> {
        lines_difference(file, start(self.words, file))
    }
}

fn start(words: &[String], file: &[u8]) -> Child {
    let mut child = Command::new(&words[0])
        .args(&words[1..])
        .stdin(Stdio::piped())
        .stdout(Stdio::piped())
        .spawn()
        .expect("the bench program starts");
    // A job of a length that is not refused fits into the pipe; of a longer one the program may leave some unread.
    let _ = child.stdin.take().expect("its input is open").write_all(file);
    child
}

fn lines_difference(file: &[u8], child: Child) -> Option<String> {
    let ours = child.wait_with_output().expect("it ends");
    let mut second = Vec::new();
    second::run(file, &mut second);
    if ours.status.success() && ours.stdout == second {
        return None;
    }
    let (ours_text, second_text) = (String::from_utf8_lossy(&ours.stdout), String::from_utf8_lossy(&second));
    let line = ours_text.lines().zip(second_text.lines()).take_while(|(a, b)| a == b).count();
    let at = |text: &str| text.lines().nth(line).unwrap_or("nothing").to_string();
    Some(format!("bench, line {}: ours {} (ended {}), second {}", line + 1, at(&ours_text), ours.status, at(&second_text)))
}
