//! What the calls of the workload answered.

use crate::group::reads::Answer;
use crate::refusal::Refusal;
use crate::tag::Tag;

/// The calls, in the order in which they are told.
#[derive(Clone, Copy)]
pub enum Call {
    Write,
    Read,
    Collect,
    Deliver,
    Apply,
    Encode,
    Sweep,
}

const NAMES: [&str; 7] = ["write", "read", "collect", "deliver", "apply", "encode", "sweep"];

/// What an answer counts as. Refusals count as their own numbers.
pub mod kind {
    pub const TAG: usize = 30;
    pub const NOTHING_READY: usize = 31;
    pub const VALUE: usize = 32;
    pub const OPENED: usize = 37;
    pub const OPEN: usize = 38;
    pub const REMOVED: usize = 39;
    pub const OUTCOME: usize = 40;
    pub const ALL: usize = 48;
}

/// How often each call had each kind of answer, and a sum over all answers.
pub struct Tally {
    counts: [[u64; kind::ALL]; 7],
    checksum: u64,
}

impl Tally {
    pub fn new() -> Tally {
        Tally { counts: [[0; kind::ALL]; 7], checksum: 0 }
    }

    pub fn fold(&mut self, number: u64) {
        self.checksum = (self.checksum * 31 + number) % 1_000_000_007;
    }

    pub fn count(&mut self, call: Call, kind: usize) {
        self.counts[call as usize][kind] += 1;
        self.fold(kind as u64);
    }

    pub fn refused(&mut self, call: Call, refusal: Refusal) {
        self.count(call, usize::from(refusal.number()));
    }

    pub fn tag(&mut self, tag: Tag) {
        self.fold(u64::from(tag.height));
        self.fold(u64::from(tag.server));
    }

    pub fn value(&mut self, call: Call, answer: &Answer) {
        self.count(call, kind::VALUE + answer.way as usize);
        for cell in answer.value.iter() {
            self.fold(u64::from(*cell));
        }
        self.tag(answer.tag);
    }

    pub fn print(&self) {
        for (name, counts) in NAMES.iter().zip(&self.counts) {
            for (kind, count) in counts.iter().enumerate().filter(|(_, count)| **count > 0) {
                println!("{name} {} {count}", label(kind));
            }
        }
        println!("checksum {}", self.checksum);
    }
}

fn label(kind: usize) -> String {
    match kind {
        kind::TAG => "tag".to_string(),
        kind::NOTHING_READY => "nothing ready".to_string(),
        kind::OPENED => "opened".to_string(),
        kind::OPEN => "open".to_string(),
        kind::REMOVED => "removed".to_string(),
        kind::OUTCOME.. => format!("outcome {}", kind - kind::OUTCOME),
        kind::VALUE.. => format!("value way {}", kind - kind::VALUE),
        _ => format!("refused {kind}"),
    }
}
