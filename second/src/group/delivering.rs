use super::reads::{Answer, OpenRead, Reader, Way};
use super::server::{Waiting, MOST_WAITING};
use super::Group;
use crate::carrier::Carrier;
use crate::message::{Cells, Message, Tags};
use crate::refusal::Refusal;
use crate::tag::Tag;

#[derive(Clone, Copy, Debug, PartialEq, Eq, PartialOrd, Ord)]
pub enum Delivered {
    Noted = 0,
    RepliedPlainly = 1,
    RepliedCoded = 2,
    ReadWaitsOn = 3,
    ReadAnswered = 4,
    ReadNotOpen = 5,
    ReplyUnusable = 6,
    DoesNotFit = 7,
}

/// A question as it was asked.
struct Asked {
    number: u32,
    object: usize,
    tags: Tags,
}

/// A coded reply as it came.
struct Coded<'a> {
    from: usize,
    symbol: &'a [u8],
    stated: &'a [Tag],
}

impl Group {
    pub fn deliver<C: Carrier + ?Sized>(
        &mut self,
        carrier: &mut C,
        from: usize,
        to: usize,
    ) -> Result<Delivered, Refusal> {
        self.check_server(carrier, from)?;
        self.check_server(carrier, to)?;
        Refusal::EqualEnds.unless(from != to)?;
        let message = carrier.first(from, to)?;
        let outcome = if self.fits(&message) {
            self.receive(carrier, from, to, message)?
        } else {
            Delivered::DoesNotFit
        };
        carrier.remove(from, to)?;
        Ok(outcome)
    }

    fn fits(&self, message: &Message) -> bool {
        let object_fits = |object: u32| (object as usize) < self.code.objects();
        let tag_fits = |tag: &Tag| (tag.server as usize) < self.code.servers();
        let tags_fit = |tags: &Tags| tags.len() == self.code.objects() && tags.iter().all(tag_fits);
        let field = self.code.field();
        let cells_fit = |cells: &Cells| {
            cells.len() == self.code.cells() && cells.iter().all(|cell| field.contains(*cell))
        };
        let fits = match message {
            Message::WriteNotice { object, value, clock, .. } => {
                object_fits(*object) && cells_fit(value) && clock.len() == self.code.servers()
            }
            Message::TagNotice { object, tag } => object_fits(*object) && tag_fits(tag),
            Message::Question { object, tags, .. } => object_fits(*object) && tags_fit(tags),
            Message::PlainReply { value, .. } => cells_fit(value),
            Message::CodedReply { symbol, stated, .. } => cells_fit(symbol) && tags_fit(stated),
        };
        fits && message.is_in_range()
    }

    fn receive<C: Carrier + ?Sized>(
        &mut self,
        carrier: &mut C,
        from: usize,
        to: usize,
        message: Message,
    ) -> Result<Delivered, Refusal> {
        match message {
            Message::WriteNotice { object, value, height, clock } => {
                let object = object as usize;
                let tag = Tag::new(height, from);
                let write = Waiting { object, tag, value, clock };
                self.queue(to, write)
            }
            Message::TagNotice { object, tag } => {
                self.servers[to].set_told(object as usize, from, tag);
                Ok(Delivered::Noted)
            }
            Message::Question { number, object, tags } => {
                let object = object as usize;
                let asked = Asked { number, object, tags };
                self.reply(carrier, to, from, &asked)
            }
            Message::PlainReply { number, value } => self.take_plain(to, number, value),
            Message::CodedReply { number, symbol, stated } => {
                let coded = Coded { from, symbol: &symbol, stated: &stated };
                self.take_coded(to, number, &coded)
            }
        }
    }

    fn queue(&mut self, server: usize, write: Waiting) -> Result<Delivered, Refusal> {
        let waiting = &mut self.servers[server].waiting;
        Refusal::WaitingFull.unless(waiting.len() < MOST_WAITING)?;
        waiting.push(write);
        Ok(Delivered::Noted)
    }

    fn reply<C: Carrier + ?Sized>(
        &mut self,
        carrier: &mut C,
        server: usize,
        asker: usize,
        asked: &Asked,
    ) -> Result<Delivered, Refusal> {
        Refusal::LaneFull.unless(!carrier.is_full(server, asker))?;
        let number = asked.number;
        let history = &self.servers[server].history;
        if let Some(value) = history.value(asked.object, asked.tags[asked.object]) {
            let value = value.clone();
            carrier.post(server, asker, &Message::PlainReply { number, value })?;
            return Ok(Delivered::RepliedPlainly);
        }
        let (symbol, stated) = self.symbol_towards(server, &asked.tags);
        let coded = Message::CodedReply { number, symbol, stated };
        carrier.post(server, asker, &coded)?;
        Ok(Delivered::RepliedCoded)
    }

    /// The server's symbol, brought as near to the asked tags as it can be, and
    /// the tags that it is then made of.
    fn symbol_towards(&self, server: usize, asked: &[Tag]) -> (Cells, Tags) {
        let at = &self.servers[server];
        let mut symbol = at.symbol().to_vec();
        let state = |(object, asked): (usize, &Tag)| {
            let own = at.own(object);
            if !self.code.contains(server, object) || *asked == own {
                return own;
            }
            let Some(old) = at.history.value(object, own) else {
                return own;
            };
            let held = at.history.value(object, *asked);
            let new = held.unwrap_or(at.history.zero());
            self.code.re_encode((server, object), &mut symbol, old, new);
            held.map_or(Tag::ZERO, |_| *asked)
        };
        let stated = asked.iter().enumerate().map(state).collect();
        (Cells::from(symbol), stated)
    }

    fn take_plain(&mut self, to: usize, number: u32, value: Cells) -> Result<Delivered, Refusal> {
        match self.servers[to].reads.find(number) {
            None => Ok(Delivered::ReadNotOpen),
            Some((reader, read)) => {
                let (object, tag) = (read.object, read.tag());
                self.close(to, reader, (object, tag), value)
            }
        }
    }

    /// Gives an open read its value, under the read's own tag.
    fn close(
        &mut self,
        server: usize,
        reader: Reader,
        (object, tag): (usize, Tag),
        value: Cells,
    ) -> Result<Delivered, Refusal> {
        let at = &mut self.servers[server];
        match reader {
            Reader::Client(number) => {
                let way = Way::Replied;
                at.reads.answer_client(number, Answer { value, tag, way });
            }
            Reader::Internal(_) => {
                Refusal::HistoryFull.unless(!at.history.is_full())?;
                at.history.enter(object, tag, value);
                at.reads.free_internal(object);
            }
        }
        Ok(Delivered::ReadAnswered)
    }

    fn take_coded(&mut self, to: usize, number: u32, coded: &Coded) -> Result<Delivered, Refusal> {
        let Some((reader, read)) = self.servers[to].reads.find(number) else {
            return Ok(Delivered::ReadNotOpen);
        };
        let Some(symbol) = self.turned(to, read, coded) else {
            return Ok(Delivered::ReplyUnusable);
        };
        let (object, tag) = (read.object, read.tag());
        let set = read.in_hand() | 1 << coded.from;
        if !self.code.recovers(set, object) {
            if let Some(read) = self.servers[to].reads.find_mut(reader) {
                read.symbols.insert(coded.from, Cells::from(symbol));
            }
            return Ok(Delivered::ReadWaitsOn);
        }
        let others = read.symbols.iter().filter(|(s, _)| **s != coded.from);
        let symbols = others.map(|(s, cells)| (*s, &**cells));
        let all = symbols.chain(std::iter::once((coded.from, symbol.as_slice())));
        let decoded = self.decode(object, all).expect("a recovering set decodes");
        let outcome = self.close(to, reader, (object, tag), decoded.value)?;
        self.unfounded += usize::from(!decoded.founded);
        Ok(outcome)
    }

    /// The symbol of a coded reply under the read's tags, if all that takes is held.
    fn turned(&self, to: usize, read: &OpenRead, coded: &Coded) -> Option<Vec<u8>> {
        let history = &self.servers[to].history;
        let mut symbol = coded.symbol.to_vec();
        for (object, (stated, wanted)) in coded.stated.iter().zip(read.tags.iter()).enumerate() {
            if stated == wanted || !self.code.contains(coded.from, object) {
                continue;
            }
            let old = history.value(object, *stated)?;
            let new = history.value(object, *wanted)?;
            self.code.re_encode((coded.from, object), &mut symbol, old, new);
        }
        Some(symbol)
    }
}
