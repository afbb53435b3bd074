//! The five kinds of message, and what is within range.

use std::rc::Rc;

use crate::tag::Tag;

pub const GREATEST_HEIGHT: u32 = 6_000_000;
pub const GREATEST_COUNT: u32 = 1_000_000;
pub const GREATEST_NUMBER: u32 = 1_000_000;

/// Cells, clocks and lists of tags are shared: one write goes to many lanes.
pub type Cells = Rc<[u8]>;
pub type Clock = Rc<[u32]>;
pub type Tags = Rc<[Tag]>;

#[derive(Clone, Debug, PartialEq, Eq)]
pub enum Message {
    WriteNotice { object: u32, value: Cells, height: u32, clock: Clock },
    TagNotice { object: u32, tag: Tag },
    Question { number: u32, object: u32, tags: Tags },
    PlainReply { number: u32, value: Cells },
    CodedReply { number: u32, symbol: Cells, stated: Tags },
}

impl Message {
    pub fn kind(&self) -> u32 {
        match self {
            Message::WriteNotice { .. } => 1,
            Message::TagNotice { .. } => 2,
            Message::Question { .. } => 3,
            Message::PlainReply { .. } => 4,
            Message::CodedReply { .. } => 5,
        }
    }

    pub fn is_in_range(&self) -> bool {
        match self {
            Message::WriteNotice { object, value, height, clock } => {
                object_in_range(*object)
                    && (1..=16).contains(&value.len())
                    && notice_height_in_range(*height)
                    && (2..=6).contains(&clock.len())
                    && clock.iter().all(|count| count_in_range(*count))
            }
            Message::TagNotice { object, tag } => object_in_range(*object) && tag_in_range(*tag),
            Message::Question { number, object, tags } => {
                number_in_range(*number) && object_in_range(*object) && tags_in_range(tags)
            }
            Message::PlainReply { number, value } => {
                number_in_range(*number) && (1..=16).contains(&value.len())
            }
            Message::CodedReply { number, symbol, stated } => {
                number_in_range(*number)
                    && (1..=16).contains(&symbol.len())
                    && tags_in_range(stated)
            }
        }
    }
}

pub fn object_in_range(object: u32) -> bool {
    object <= 5
}

pub fn notice_height_in_range(height: u32) -> bool {
    (1..=GREATEST_HEIGHT).contains(&height)
}

pub fn count_in_range(count: u32) -> bool {
    count <= GREATEST_COUNT
}

pub fn number_in_range(number: u32) -> bool {
    (1..=GREATEST_NUMBER).contains(&number)
}

/// Height 0 goes with server 0 only: there is one zero tag.
pub fn tag_in_range(tag: Tag) -> bool {
    tag.height <= GREATEST_HEIGHT && tag.server <= 5 && (tag.height > 0 || tag.server == 0)
}

fn tags_in_range(tags: &[Tag]) -> bool {
    (1..=6).contains(&tags.len()) && tags.iter().all(|tag| tag_in_range(*tag))
}
