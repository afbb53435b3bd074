//! Messages that no server has sent, and bytes that are no record.

use super::Maker;
use crate::message::{Cells, Clock, Message, Tags};
use crate::script::hex;
use crate::tag::Tag;
use crate::wire;

impl Maker {
    pub(super) fn odd_message(&mut self) {
        let (from, mut to) = (self.a_server(), self.a_server());
        if let (Some(asker), true) = (self.an_asker(), self.random.percent(50)) {
            to = asker;
        }
        let message = match self.random.below(10) {
            0..=1 => self.odd_write(from, to),
            2 => self.odd_tag_notice(),
            3 => self.odd_question(),
            4..=5 => self.odd_plain_reply(to),
            6..=8 => self.odd_coded_reply(to),
            _ => self.unfitting(),
        };
        let line = format!("post {from} {to} {}", hex::digits(&record(&message)));
        let posted = self.say(line) == "posted";
        // Delivered at once it meets the read that it was made for.
        if posted && self.random.percent(50) {
            self.empty_lane(from, to);
        }
    }

    /// A server that has an open read, if there is one.
    fn an_asker(&mut self) -> Option<usize> {
        let asks = |server: &usize| {
            let at = self.group().server(*server);
            at.is_ok_and(|at| at.reads.open_numbers().next().is_some())
        };
        let askers: Vec<usize> = (0..self.servers()).filter(asks).collect();
        self.random.pick(&askers).copied()
    }

    /// A write that may be ready where it arrives.
    fn odd_write(&mut self, from: usize, to: usize) -> Message {
        let mut clock = self.group().clock(to).unwrap_or_default().to_vec();
        clock[from] += [0, 1, 1, 1, 2][self.random.below(5)];
        let count = self.group().code().cells();
        let height = match self.random.below(12) {
            0 => 6_000_000,
            1 => 5_999_999,
            _ => self.random.within(1, 40) as u32,
        };
        Message::WriteNotice {
            object: self.an_object() as u32,
            value: Cells::from(self.some_cells(count)),
            height,
            clock: Clock::from(clock),
        }
    }

    fn a_tag(&mut self) -> Tag {
        match self.random.below(5) {
            0 => Tag::ZERO,
            1 => Tag::new(self.random.within(1, 6_000_000) as u32, self.a_server()),
            _ => Tag::new(self.random.within(1, 30) as u32, self.a_server()),
        }
    }

    fn some_tags(&mut self, count: usize) -> Tags {
        (0..count).map(|_| self.a_tag()).collect()
    }

    fn odd_tag_notice(&mut self) -> Message {
        Message::TagNotice { object: self.an_object() as u32, tag: self.a_tag() }
    }

    fn odd_question(&mut self) -> Message {
        let objects = self.objects();
        Message::Question {
            number: self.random.within(1, 20) as u32,
            object: self.an_object() as u32,
            tags: self.some_tags(objects),
        }
    }

    /// The number of a read that is open there, if there is one.
    fn a_number(&mut self, server: usize) -> u32 {
        let numbers: Vec<u32> = match self.group().server(server) {
            Ok(at) => at.reads.open_numbers().collect(),
            Err(_) => Vec::new(),
        };
        match self.random.pick(&numbers) {
            Some(number) if self.random.percent(85) => *number,
            _ => self.random.within(1, 1_000_000) as u32,
        }
    }

    fn odd_plain_reply(&mut self, to: usize) -> Message {
        let count = self.group().code().cells();
        Message::PlainReply {
            number: self.a_number(to),
            value: Cells::from(self.some_cells(count)),
        }
    }

    fn odd_coded_reply(&mut self, to: usize) -> Message {
        let (count, objects) = (self.group().code().cells(), self.objects());
        Message::CodedReply {
            number: self.a_number(to),
            symbol: Cells::from(self.some_cells(count)),
            stated: self.some_tags(objects),
        }
    }

    /// Within the ranges, and most likely beyond the group's sizes.
    fn unfitting(&mut self) -> Message {
        let cells = self.random.within(1, 16);
        let value: Cells = (0..cells).map(|_| self.random.byte()).collect();
        let number = self.random.within(1, 20) as u32;
        let object = self.random.below(6) as u32;
        let tag = Tag::new(self.random.within(1, 9) as u32, self.random.below(6));
        let tags = Tags::from(vec![tag; self.random.within(1, 6)]);
        match self.random.below(5) {
            0 => Message::WriteNotice {
                object,
                value,
                height: 1,
                clock: Clock::from(vec![1; self.random.within(2, 6)]),
            },
            1 => Message::TagNotice { object, tag },
            2 => Message::Question { number, object, tags },
            3 => Message::PlainReply { number, value },
            _ => Message::CodedReply { number, symbol: value, stated: tags },
        }
    }

    /// A record with something changed, cut off or put behind it.
    pub(super) fn odd_bytes(&mut self) {
        let mut bytes = record(&self.unfitting());
        match self.random.below(8) {
            0 => {}
            1 => bytes.truncate(self.random.below(bytes.len()).max(1)),
            2 => bytes.extend([0, 1, 2]),
            3 => self.change_length(&mut bytes),
            4 => bytes[0] = 0,
            _ => self.change_byte(&mut bytes),
        }
        let digits = hex::digits(&bytes);
        let (from, to) = (self.a_server(), self.a_server());
        // Posted only where it is no record: else it would be an odd message.
        let line = if self.random.percent(50) && wire::read(&bytes).is_err() {
            format!("post {from} {to} {digits}")
        } else {
            format!("bytes {digits}")
        };
        self.say(line);
    }

    fn change_length(&mut self, bytes: &mut Vec<u8>) {
        if self.random.percent(50) {
            bytes.extend([0; 4]);
            bytes[3] = bytes[3].wrapping_add(4);
        } else {
            bytes[3] = bytes[3].saturating_sub(self.random.within(1, 8) as u8);
        }
    }

    /// The low byte of some unit, where numbers, lengths and counts stand.
    fn change_byte(&mut self, bytes: &mut [u8]) {
        let units = bytes.len() / 4;
        let place = self.random.below(units) * 4 + self.random.within(0, 3);
        bytes[place] = [0, 1, 5, 6, 7, 17, 255][self.random.below(7)];
    }
}

fn record(message: &Message) -> Vec<u8> {
    let mut bytes = Vec::new();
    wire::write(message, &mut bytes);
    bytes
}
