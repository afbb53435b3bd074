//! What one server keeps.

use std::collections::BTreeMap;

use super::history::History;
use super::reads::{OpenRead, Reads};
use crate::code::Code;
use crate::message::{Cells, Clock, Tags};
use crate::tag::Tag;

pub const MOST_WAITING: usize = 32;

/// A write of another server that is not applied yet.
#[derive(Clone, Debug)]
pub struct Waiting {
    pub object: usize,
    pub tag: Tag,
    pub value: Cells,
    pub clock: Clock,
}

#[derive(Clone, Debug)]
pub struct Server {
    me: usize,
    pub clock: Vec<u32>,
    /// The greatest height applied.
    pub height: u32,
    symbol: Vec<u8>,
    /// By object and teller. A server tells itself its own tag.
    told: Vec<Vec<Tag>>,
    pub history: History,
    /// In the order of arrival.
    pub waiting: Vec<Waiting>,
    pub reads: Reads,
}

impl Server {
    pub fn new(code: &Code, me: usize) -> Server {
        Server {
            me,
            clock: vec![0; code.servers()],
            height: 0,
            symbol: vec![0; code.cells()],
            told: vec![vec![Tag::ZERO; code.servers()]; code.objects()],
            history: History::new(code.objects(), code.cells()),
            waiting: Vec::new(),
            reads: Reads::default(),
        }
    }

    pub fn symbol(&self) -> &[u8] {
        &self.symbol
    }

    pub fn set_symbol(&mut self, symbol: Vec<u8>) {
        self.symbol = symbol;
    }

    pub fn own(&self, object: usize) -> Tag {
        self.told[object][self.me]
    }

    pub fn set_own(&mut self, object: usize, tag: Tag) {
        self.told[object][self.me] = tag;
    }

    pub fn own_tags(&self) -> Tags {
        self.told.iter().map(|told| told[self.me]).collect()
    }

    /// The tags that the servers last told of the object, by teller.
    pub fn told(&self, object: usize) -> &[Tag] {
        &self.told[object]
    }

    pub fn set_told(&mut self, object: usize, teller: usize, tag: Tag) {
        self.told[object][teller] = tag;
    }

    /// A read of the object as it starts now, with the own symbol in hand.
    pub fn start_read(&self, object: usize) -> OpenRead {
        OpenRead {
            object,
            tags: self.own_tags(),
            symbols: BTreeMap::from([(self.me, Cells::from(self.symbol()))]),
        }
    }

    pub fn is_ready(&self, write: &Waiting) -> bool {
        let maker = write.tag.server as usize;
        let mut counts = write.clock.iter().zip(&self.clock).enumerate();
        counts.all(
            |(server, (its, mine))| {
                if server == maker {
                    *its == mine + 1
                } else {
                    its <= mine
                }
            },
        )
    }
}
