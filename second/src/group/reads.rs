//! The reads that a server has opened and not yet done with.

use std::collections::BTreeMap;

use crate::code::ServerSet;
use crate::message::{Cells, Tags};
use crate::tag::Tag;

pub const MOST_CLIENT_READS: usize = 8;

/// How a read came by its value.
#[derive(Clone, Copy, Debug, PartialEq, Eq, PartialOrd, Ord)]
pub enum Way {
    Held = 1,
    Decoded = 2,
    Replied = 3,
    Overtaken = 4,
}

#[derive(Clone, Debug, PartialEq, Eq)]
pub struct Answer {
    pub value: Cells,
    pub tag: Tag,
    pub way: Way,
}

#[derive(Clone, Debug)]
pub struct OpenRead {
    pub object: usize,
    /// The server's own tags when the read was opened.
    pub tags: Tags,
    /// By server; the server's own from the start.
    pub symbols: BTreeMap<usize, Cells>,
}

impl OpenRead {
    pub fn tag(&self) -> Tag {
        self.tags[self.object]
    }

    pub fn in_hand(&self) -> ServerSet {
        self.symbols.keys().map(|server| 1 << server).sum()
    }
}

#[derive(Clone, Debug)]
pub enum ClientRead {
    Open(OpenRead),
    Answered(Answer),
}

/// Which open read a reply is for.
#[derive(Clone, Copy, Debug, PartialEq, Eq)]
pub enum Reader {
    Client(u32),
    Internal(usize),
}

#[derive(Clone, Debug, Default)]
pub struct Reads {
    /// By number. Which place a read has cannot be seen from outside.
    clients: BTreeMap<u32, ClientRead>,
    /// By object, with the number.
    internal: BTreeMap<usize, (u32, OpenRead)>,
    opened: u32,
}

impl Reads {
    /// How many reads were opened so far.
    pub fn opened(&self) -> u32 {
        self.opened
    }

    pub fn clients_full(&self) -> bool {
        self.clients.len() == MOST_CLIENT_READS
    }

    pub fn internal_open(&self, object: usize) -> bool {
        self.internal.contains_key(&object)
    }

    pub fn open_client(&mut self, read: OpenRead) -> u32 {
        self.opened += 1;
        self.clients.insert(self.opened, ClientRead::Open(read));
        self.opened
    }

    pub fn open_internal(&mut self, read: OpenRead) -> u32 {
        self.opened += 1;
        self.internal.insert(read.object, (self.opened, read));
        self.opened
    }

    pub fn client(&self, number: u32) -> Option<&ClientRead> {
        self.clients.get(&number)
    }

    /// The numbers of all client reads, open or answered.
    pub fn client_numbers(&self) -> impl Iterator<Item = u32> + '_ {
        self.clients.keys().copied()
    }

    /// The numbers of all open reads, of either sort.
    pub fn open_numbers(&self) -> impl Iterator<Item = u32> + '_ {
        let clients = self.clients.iter().filter_map(|(number, read)| match read {
            ClientRead::Open(_) => Some(*number),
            ClientRead::Answered(_) => None,
        });
        clients.chain(self.internal.values().map(|(number, _)| *number))
    }

    pub fn free_client(&mut self, number: u32) {
        self.clients.remove(&number);
    }

    pub fn free_internal(&mut self, object: usize) {
        self.internal.remove(&object);
    }

    /// The open read with that number, of either sort.
    pub fn find(&self, number: u32) -> Option<(Reader, &OpenRead)> {
        if let Some(ClientRead::Open(read)) = self.clients.get(&number) {
            return Some((Reader::Client(number), read));
        }
        self.internal
            .values()
            .find(|(its, _)| *its == number)
            .map(|(_, read)| (Reader::Internal(read.object), read))
    }

    pub fn find_mut(&mut self, reader: Reader) -> Option<&mut OpenRead> {
        match reader {
            Reader::Client(number) => match self.clients.get_mut(&number) {
                Some(ClientRead::Open(read)) => Some(read),
                _ => None,
            },
            Reader::Internal(object) => self.internal.get_mut(&object).map(|(_, read)| read),
        }
    }

    pub fn open(&self) -> impl Iterator<Item = &OpenRead> {
        let clients = self.clients.values().filter_map(|read| match read {
            ClientRead::Open(read) => Some(read),
            ClientRead::Answered(_) => None,
        });
        clients.chain(self.internal.values().map(|(_, read)| read))
    }

    pub fn answer_client(&mut self, number: u32, answer: Answer) {
        self.clients.insert(number, ClientRead::Answered(answer));
    }

    /// Answers the open client reads of the object that a write has overtaken.
    pub fn overtake(&mut self, object: usize, tag: Tag, value: &Cells) {
        for read in self.clients.values_mut() {
            let overtaken = match read {
                ClientRead::Open(open) => open.object == object && open.tag() < tag,
                ClientRead::Answered(_) => false,
            };
            if overtaken {
                *read =
                    ClientRead::Answered(Answer { value: value.clone(), tag, way: Way::Overtaken });
            }
        }
    }
}
