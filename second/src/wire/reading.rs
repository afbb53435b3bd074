//! Reading a record: its mark, its fields in order, its end.

use super::fault::{Fault, Wrong};
use super::LAST_FRAGMENT;
use crate::message::{
    count_in_range, notice_height_in_range, number_in_range, object_in_range, tag_in_range, Cells,
    Clock, Message, Tags,
};
use crate::tag::Tag;

/// Reads the record at the start of the bytes: the message and the record's length.
pub fn read(bytes: &[u8]) -> Result<(Message, usize), Fault> {
    let length = record_length(bytes)?;
    let mut fields = Fields { record: &bytes[..length], field: 4, next: 4 };
    let message = read_body(&mut fields)?;
    if fields.next < length {
        return Err(Fault { wrong: Wrong::Leftover, at: fields.next });
    }
    Ok((message, length))
}

fn record_length(bytes: &[u8]) -> Result<usize, Fault> {
    let fault = |wrong| Fault { wrong, at: 0 };
    let (mark, rest) = bytes.split_first_chunk::<4>().ok_or(fault(Wrong::MarkShort))?;
    let mark = u32::from_be_bytes(*mark);
    let body = (mark & !LAST_FRAGMENT) as usize;
    if body > rest.len() {
        return Err(fault(Wrong::MarkShort));
    }
    if mark & LAST_FRAGMENT == 0 {
        return Err(fault(Wrong::NotLast));
    }
    Ok(4 + body)
}

fn read_body(fields: &mut Fields) -> Result<Message, Fault> {
    match fields.number()? {
        1 => Ok(Message::WriteNotice {
            object: fields.ranged(object_in_range)?,
            value: fields.cells()?,
            height: fields.ranged(notice_height_in_range)?,
            clock: fields.clock()?,
        }),
        2 => Ok(Message::TagNotice { object: fields.ranged(object_in_range)?, tag: fields.tag()? }),
        3 => Ok(Message::Question {
            number: fields.ranged(number_in_range)?,
            object: fields.ranged(object_in_range)?,
            tags: fields.tags()?,
        }),
        4 => Ok(Message::PlainReply {
            number: fields.ranged(number_in_range)?,
            value: fields.cells()?,
        }),
        5 => Ok(Message::CodedReply {
            number: fields.ranged(number_in_range)?,
            symbol: fields.cells()?,
            stated: fields.tags()?,
        }),
        _ => Err(fields.fault(Wrong::UnknownKind)),
    }
}

/// Goes through a record field by field and knows where the present one starts.
struct Fields<'a> {
    record: &'a [u8],
    field: usize,
    next: usize,
}

impl<'a> Fields<'a> {
    fn fault(&self, wrong: Wrong) -> Fault {
        Fault { wrong, at: self.field }
    }

    fn start(&mut self) {
        self.field = self.next;
    }

    /// The next `count` bytes of the present field.
    fn bytes(&mut self, count: usize) -> Result<&'a [u8], Fault> {
        let rest = &self.record[self.next..];
        let bytes = rest.get(..count).ok_or(self.fault(Wrong::FieldShort))?;
        self.next += count;
        Ok(bytes)
    }

    fn unit(&mut self) -> Result<u32, Fault> {
        self.bytes(4).map(number_of)
    }

    fn number(&mut self) -> Result<u32, Fault> {
        self.start();
        self.unit()
    }

    fn ranged(&mut self, in_range: fn(u32) -> bool) -> Result<u32, Fault> {
        let number = self.number()?;
        if in_range(number) {
            Ok(number)
        } else {
            Err(self.fault(Wrong::OutOfRange))
        }
    }

    fn cells(&mut self) -> Result<Cells, Fault> {
        self.start();
        let length = self.unit()? as usize;
        let padded = self.bytes(length.next_multiple_of(4))?;
        let (cells, padding) = padded.split_at(length);
        if !(1..=16).contains(&length) || padding.iter().any(|b| *b != 0) {
            return Err(self.fault(Wrong::BadLength));
        }
        Ok(Cells::from(cells))
    }

    /// The bytes of a counted list whose items have `size` bytes each.
    fn items(&mut self, size: usize, least: usize) -> Result<&'a [u8], Fault> {
        self.start();
        let count = self.unit()? as usize;
        let items = self.bytes(count * size)?;
        if !(least..=6).contains(&count) {
            return Err(self.fault(Wrong::BadLength));
        }
        Ok(items)
    }

    fn clock(&mut self) -> Result<Clock, Fault> {
        let items = self.items(4, 2)?;
        let clock: Clock = items.chunks_exact(4).map(number_of).collect();
        if clock.iter().all(|count| count_in_range(*count)) {
            Ok(clock)
        } else {
            Err(self.fault(Wrong::OutOfRange))
        }
    }

    fn tags(&mut self) -> Result<Tags, Fault> {
        let items = self.items(8, 1)?;
        let tags: Tags = items.chunks_exact(8).map(tag_of).collect();
        if tags.iter().all(|tag| tag_in_range(*tag)) {
            Ok(tags)
        } else {
            Err(self.fault(Wrong::OutOfRange))
        }
    }

    fn tag(&mut self) -> Result<Tag, Fault> {
        self.start();
        let tag = tag_of(self.bytes(8)?);
        if tag_in_range(tag) {
            Ok(tag)
        } else {
            Err(self.fault(Wrong::OutOfRange))
        }
    }
}

fn number_of(bytes: &[u8]) -> u32 {
    bytes.iter().fold(0, |number, byte| number << 8 | u32::from(*byte))
}

fn tag_of(bytes: &[u8]) -> Tag {
    let (height, server) = bytes.split_at(4);
    Tag { height: number_of(height), server: number_of(server) }
}
