use super::Group;
use crate::carrier::Carrier;
use crate::message::{Cells, Message};
use crate::refusal::Refusal;
use crate::tag::Tag;

#[derive(Clone, Copy, Debug, PartialEq, Eq, PartialOrd, Ord)]
pub enum Encoded {
    Nothing = 0,
    OwnTagRaised = 1,
    ReadIsOpen = 2,
    ValueEntered = 3,
    ReadOpened = 4,
}

impl Group {
    pub fn encode<C: Carrier + ?Sized>(
        &mut self,
        carrier: &mut C,
        server: usize,
        object: usize,
    ) -> Result<Encoded, Refusal> {
        self.check_server(carrier, server)?;
        self.check_object(object)?;
        if self.code.contains(server, object) {
            self.encode_contained(carrier, server, object)
        } else {
            self.follow_the_told(carrier, server, object)
        }
    }

    fn encode_contained<C: Carrier + ?Sized>(
        &mut self,
        carrier: &mut C,
        server: usize,
        object: usize,
    ) -> Result<Encoded, Refusal> {
        let at = &self.servers[server];
        let own = at.own(object);
        let (highest, new) = at.history.highest(object);
        if highest <= own {
            return Ok(Encoded::Nothing);
        }
        if let Some(old) = at.history.value(object, own) {
            self.check_lanes(carrier, server)?;
            let mut symbol = at.symbol().to_vec();
            self.code.re_encode((server, object), &mut symbol, old, new);
            self.servers[server].set_symbol(symbol);
            self.adopt(carrier, server, object, highest)?;
            return Ok(Encoded::OwnTagRaised);
        }
        if at.reads.internal_open(object) {
            return Ok(Encoded::ReadIsOpen);
        }
        match self.decode_alone(server, object) {
            Some(value) => self.enter_own(server, object, own, value),
            None => self.open_internal(carrier, server, object),
        }
    }

    fn enter_own(
        &mut self,
        server: usize,
        object: usize,
        own: Tag,
        value: Cells,
    ) -> Result<Encoded, Refusal> {
        let history = &mut self.servers[server].history;
        Refusal::HistoryFull.unless(!history.is_full())?;
        history.enter(object, own, value);
        Ok(Encoded::ValueEntered)
    }

    fn open_internal<C: Carrier + ?Sized>(
        &mut self,
        carrier: &mut C,
        server: usize,
        object: usize,
    ) -> Result<Encoded, Refusal> {
        self.check_numbers(server)?;
        self.check_lanes(carrier, server)?;
        let read = self.servers[server].start_read(object);
        let tags = read.tags.clone();
        let number = self.servers[server].reads.open_internal(read);
        let question = Message::Question { number, object: object as u32, tags };
        self.tell_others(carrier, server, &question)?;
        Ok(Encoded::ReadOpened)
    }

    /// A server that does not contain the object has nothing to encode: it
    /// follows what all the servers that contain it have reached.
    fn follow_the_told<C: Carrier + ?Sized>(
        &mut self,
        carrier: &mut C,
        server: usize,
        object: usize,
    ) -> Result<Encoded, Refusal> {
        let at = &self.servers[server];
        let reached = (0..self.code.servers())
            .filter(|other| self.code.contains(*other, object))
            .map(|other| at.told(object)[other])
            .min();
        let tag = reached.and_then(|limit| at.history.highest_up_to(object, limit));
        let Some(tag) = tag.filter(|tag| *tag > at.own(object)) else {
            return Ok(Encoded::Nothing);
        };
        self.check_lanes(carrier, server)?;
        self.adopt(carrier, server, object, tag)?;
        Ok(Encoded::OwnTagRaised)
    }
}
