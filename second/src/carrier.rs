//! Lanes of messages under way, and what a place in a lane keeps.

use std::collections::VecDeque;

use crate::message::Message;
use crate::refusal::Refusal;
use crate::wire;

/// What a lane keeps of one message.
pub trait Parcel {
    /// How many units of memory one place takes.
    const SIZE: u64;

    fn pack(message: &Message) -> Self;
    fn unpack(&self) -> Message;
}

impl Parcel for Message {
    const SIZE: u64 = 1;

    fn pack(message: &Message) -> Message {
        message.clone()
    }

    fn unpack(&self) -> Message {
        self.clone()
    }
}

/// A message as its record.
pub struct Record {
    bytes: Vec<u8>,
}

impl Parcel for Record {
    const SIZE: u64 = wire::LONGEST as u64;

    fn pack(message: &Message) -> Record {
        let mut bytes = Vec::with_capacity(wire::LONGEST);
        wire::write(message, &mut bytes);
        Record { bytes }
    }

    fn unpack(&self) -> Message {
        let (message, _) = wire::read(&self.bytes).expect("what was written is read");
        message
    }
}

pub trait Carrier {
    fn servers(&self) -> usize;
    fn post(&mut self, from: usize, to: usize, message: &Message) -> Result<(), Refusal>;
    fn first(&self, from: usize, to: usize) -> Result<Message, Refusal>;
    /// Removes the oldest message, which `first` has shown.
    fn remove(&mut self, from: usize, to: usize) -> Result<(), Refusal>;
    fn len(&self, from: usize, to: usize) -> Result<usize, Refusal>;
    fn is_full(&self, from: usize, to: usize) -> bool;
}

pub struct Lanes<P> {
    servers: usize,
    places: usize,
    /// The lane from i to j stands at i times the number of servers plus j.
    lanes: Vec<VecDeque<P>>,
}

pub type RecordCarrier = Lanes<Message>;
pub type ByteCarrier = Lanes<Record>;

impl<P: Parcel> Lanes<P> {
    /// `memory` counts units; none means just enough.
    pub fn new(servers: u64, places: u64, memory: Option<u64>) -> Result<Lanes<P>, Refusal> {
        Refusal::ServersOutOfBounds.unless((2..=6).contains(&servers))?;
        Refusal::NoMemory.unless((1..=16).contains(&places))?;
        let needed = servers * (servers - 1) * places;
        let enough = memory.is_none_or(|units| units / P::SIZE >= needed);
        Refusal::NoMemory.unless(enough)?;
        let (servers, places) = (servers as usize, places as usize);
        let lanes = (0..servers * servers).map(|_| VecDeque::with_capacity(places));
        Ok(Lanes { servers, places, lanes: lanes.collect() })
    }

    fn index(&self, from: usize, to: usize) -> Result<usize, Refusal> {
        Refusal::NoSuchServer.unless(from < self.servers && to < self.servers)?;
        Refusal::EqualEnds.unless(from != to)?;
        Ok(from * self.servers + to)
    }
}

impl<P: Parcel> Carrier for Lanes<P> {
    fn servers(&self) -> usize {
        self.servers
    }

    fn post(&mut self, from: usize, to: usize, message: &Message) -> Result<(), Refusal> {
        let index = self.index(from, to)?;
        Refusal::LaneFull.unless(self.lanes[index].len() < self.places)?;
        Refusal::OutOfRange.unless(message.is_in_range())?;
        self.lanes[index].push_back(P::pack(message));
        Ok(())
    }

    fn first(&self, from: usize, to: usize) -> Result<Message, Refusal> {
        let index = self.index(from, to)?;
        let oldest = self.lanes[index].front().ok_or(Refusal::LaneEmpty)?;
        Ok(oldest.unpack())
    }

    fn remove(&mut self, from: usize, to: usize) -> Result<(), Refusal> {
        let index = self.index(from, to)?;
        self.lanes[index].pop_front().ok_or(Refusal::LaneEmpty)?;
        Ok(())
    }

    fn len(&self, from: usize, to: usize) -> Result<usize, Refusal> {
        Ok(self.lanes[self.index(from, to)?].len())
    }

    fn is_full(&self, from: usize, to: usize) -> bool {
        self.len(from, to).is_ok_and(|len| len == self.places)
    }
}

#[cfg(test)]
mod tests {
    use super::*;
    use crate::tag::Tag;

    fn notice(height: u32) -> Message {
        Message::TagNotice { object: 0, tag: Tag::new(height, 0) }
    }

    fn round<P: Parcel>() {
        let mut carrier = Lanes::<P>::new(3, 2, None).expect("laid out");
        for height in [1, 2] {
            assert_eq!(carrier.post(2, 1, &notice(height)), Ok(()));
        }
        assert_eq!(carrier.post(2, 1, &notice(3)), Err(Refusal::LaneFull));
        assert_eq!(carrier.post(2, 0, &notice(6_000_001)), Err(Refusal::OutOfRange));
        assert_eq!(carrier.first(2, 1), Ok(notice(1)));
        assert_eq!(carrier.remove(2, 1), Ok(()));
        assert_eq!(carrier.first(2, 1), Ok(notice(2)));
        assert_eq!(carrier.len(1, 2), Ok(0));
        assert_eq!(carrier.first(1, 2), Err(Refusal::LaneEmpty));
        assert_eq!(carrier.first(1, 1), Err(Refusal::EqualEnds));
        assert_eq!(carrier.first(3, 3), Err(Refusal::NoSuchServer));
    }

    #[test]
    fn both_carriers_keep_order() {
        round::<Message>();
        round::<Record>();
    }

    #[test]
    fn layout_at_its_edges() {
        let bytes = |n, p, m| ByteCarrier::new(n, p, m).err();
        assert_eq!(bytes(7, 17, None), Some(Refusal::ServersOutOfBounds));
        assert_eq!(bytes(6, 17, None), Some(Refusal::NoMemory));
        assert_eq!(bytes(2, 1, Some(167)), Some(Refusal::NoMemory));
        assert_eq!(bytes(2, 1, Some(168)), None);
        assert_eq!(RecordCarrier::new(2, 1, Some(1)).err(), Some(Refusal::NoMemory));
    }
}
