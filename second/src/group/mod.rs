//! A group of servers and its seven calls. Every call first sees whether it is
//! refused, in the order of the numbers, and only then changes anything.

mod applying;
mod delivering;
mod encoding;
pub mod history;
mod looking;
mod reading;
pub mod reads;
pub mod server;
mod sweeping;
mod writing;

use crate::carrier::Carrier;
use crate::code::Code;
use crate::message::{Cells, Message};
use crate::refusal::Refusal;
use crate::tag::Tag;
use server::Server;

pub use delivering::Delivered;
pub use encoding::Encoded;
pub use reading::{Collected, Reading};

#[derive(Clone, Debug)]
pub struct Group {
    code: Code,
    servers: Vec<Server>,
    /// How often symbols were decoded that no list of values has. The value is
    /// then left open by the rules, so that other programs may give another.
    unfounded: usize,
}

impl Group {
    pub fn new(code: Code) -> Group {
        let servers = (0..code.servers()).map(|me| Server::new(&code, me)).collect();
        Group { code, servers, unfounded: 0 }
    }

    pub fn unfounded(&self) -> usize {
        self.unfounded
    }

    /// Beside a carrier of too few servers no server can be served.
    fn check_server<C: Carrier + ?Sized>(&self, carrier: &C, server: usize) -> Result<(), Refusal> {
        let served = carrier.servers() >= self.code.servers();
        Refusal::NoSuchServer.unless(served && server < self.code.servers())
    }

    fn check_object(&self, object: usize) -> Result<(), Refusal> {
        Refusal::NoSuchObject.unless(object < self.code.objects())
    }

    fn others(&self, server: usize) -> impl Iterator<Item = usize> {
        (0..self.code.servers()).filter(move |other| *other != server)
    }

    fn check_lanes<C: Carrier + ?Sized>(&self, carrier: &C, from: usize) -> Result<(), Refusal> {
        let any_full = self.others(from).any(|to| carrier.is_full(from, to));
        Refusal::LaneFull.unless(!any_full)
    }

    /// Posts to every other server; there is room, as `check_lanes` has shown.
    fn tell_others<C: Carrier + ?Sized>(
        &self,
        carrier: &mut C,
        from: usize,
        message: &Message,
    ) -> Result<(), Refusal> {
        self.others(from).try_for_each(|to| carrier.post(from, to, message))
    }

    /// Makes the tag the server's own and tells the others.
    fn adopt<C: Carrier + ?Sized>(
        &mut self,
        carrier: &mut C,
        server: usize,
        object: usize,
        tag: Tag,
    ) -> Result<(), Refusal> {
        self.servers[server].set_own(object, tag);
        let object = object as u32;
        self.tell_others(carrier, server, &Message::TagNotice { object, tag })
    }

    fn decode<'a>(
        &self,
        object: usize,
        symbols: impl Iterator<Item = (usize, &'a [u8])>,
    ) -> Option<Decoded> {
        let last = self.code.decode(object, symbols)?;
        Some(Decoded { value: Cells::from(last.cells), founded: last.solvable })
    }

    /// The object's value from the server's symbol alone, if that recovers it.
    fn decode_alone(&self, server: usize, object: usize) -> Option<Cells> {
        if !self.code.recovers(1 << server, object) {
            return None;
        }
        let symbol = self.servers[server].symbol();
        let decoded = self.decode(object, std::iter::once((server, symbol)))?;
        Some(decoded.value)
    }
}

struct Decoded {
    value: Cells,
    founded: bool,
}
