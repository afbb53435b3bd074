use super::reads::{Answer, ClientRead, Way};
use super::Group;
use crate::carrier::Carrier;
use crate::message::{Message, GREATEST_NUMBER};
use crate::refusal::Refusal;

#[derive(Clone, Debug, PartialEq, Eq)]
pub enum Reading {
    Given(Answer),
    Opened(u32),
}

#[derive(Clone, Debug, PartialEq, Eq)]
pub enum Collected {
    StillOpen,
    Given(Answer),
}

impl Group {
    /// `room` is the length of the place that the value is to go to.
    pub fn read<C: Carrier + ?Sized>(
        &mut self,
        carrier: &mut C,
        server: usize,
        object: usize,
        room: usize,
    ) -> Result<Reading, Refusal> {
        self.check_server(carrier, server)?;
        self.check_object(object)?;
        Refusal::WrongLength.unless(room == self.code.cells())?;
        match self.answer_at_once(server, object) {
            Some(answer) => Ok(Reading::Given(answer)),
            None => self.open_client(carrier, server, object),
        }
    }

    /// Way 1 is tried first: where both ways fit, it is the one that is told.
    fn answer_at_once(&self, server: usize, object: usize) -> Option<Answer> {
        let at = &self.servers[server];
        let own = at.own(object);
        let (tag, value) = at.history.highest(object);
        if tag >= own {
            return Some(Answer { value: value.clone(), tag, way: Way::Held });
        }
        Some(Answer { value: self.decode_alone(server, object)?, tag: own, way: Way::Decoded })
    }

    fn open_client<C: Carrier + ?Sized>(
        &mut self,
        carrier: &mut C,
        server: usize,
        object: usize,
    ) -> Result<Reading, Refusal> {
        self.check_numbers(server)?;
        Refusal::ReadsFull.unless(!self.servers[server].reads.clients_full())?;
        self.check_lanes(carrier, server)?;
        let read = self.servers[server].start_read(object);
        let tags = read.tags.clone();
        let number = self.servers[server].reads.open_client(read);
        let question = Message::Question { number, object: object as u32, tags };
        self.tell_others(carrier, server, &question)?;
        Ok(Reading::Opened(number))
    }

    pub(super) fn check_numbers(&self, server: usize) -> Result<(), Refusal> {
        let opened = self.servers[server].reads.opened();
        Refusal::NumbersUsedUp.unless(opened < GREATEST_NUMBER)
    }

    pub fn collect<C: Carrier + ?Sized>(
        &mut self,
        carrier: &C,
        server: usize,
        number: u64,
        room: usize,
    ) -> Result<Collected, Refusal> {
        self.check_server(carrier, server)?;
        Refusal::WrongLength.unless(room == self.code.cells())?;
        let number = u32::try_from(number).map_err(|_| Refusal::NoSuchRead)?;
        let reads = &mut self.servers[server].reads;
        match reads.client(number).ok_or(Refusal::NoSuchRead)? {
            ClientRead::Open(_) => Ok(Collected::StillOpen),
            ClientRead::Answered(answer) => {
                let answer = answer.clone();
                reads.free_client(number);
                Ok(Collected::Given(answer))
            }
        }
    }
}
