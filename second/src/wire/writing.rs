//! Writing a record.

use super::LAST_FRAGMENT;
use crate::message::Message;
use crate::tag::Tag;

/// Puts the record of a message within its ranges at the end of `place`.
pub fn write(message: &Message, place: &mut Vec<u8>) {
    let start = place.len();
    put(place, 0);
    put(place, message.kind());
    write_fields(message, place);
    let body = (place.len() - start - 4) as u32;
    place[start..start + 4].copy_from_slice(&(LAST_FRAGMENT | body).to_be_bytes());
}

fn write_fields(message: &Message, place: &mut Vec<u8>) {
    match message {
        Message::WriteNotice { object, value, height, clock } => {
            put(place, *object);
            put_cells(place, value);
            put(place, *height);
            put(place, clock.len() as u32);
            clock.iter().for_each(|count| put(place, *count));
        }
        Message::TagNotice { object, tag } => {
            put(place, *object);
            put_tag(place, *tag);
        }
        Message::Question { number, object, tags } => {
            put(place, *number);
            put(place, *object);
            put_tags(place, tags);
        }
        Message::PlainReply { number, value } => {
            put(place, *number);
            put_cells(place, value);
        }
        Message::CodedReply { number, symbol, stated } => {
            put(place, *number);
            put_cells(place, symbol);
            put_tags(place, stated);
        }
    }
}

fn put(place: &mut Vec<u8>, number: u32) {
    place.extend_from_slice(&number.to_be_bytes());
}

fn put_tag(place: &mut Vec<u8>, tag: Tag) {
    put(place, tag.height);
    put(place, tag.server);
}

fn put_tags(place: &mut Vec<u8>, tags: &[Tag]) {
    put(place, tags.len() as u32);
    tags.iter().for_each(|tag| put_tag(place, *tag));
}

fn put_cells(place: &mut Vec<u8>, cells: &[u8]) {
    put(place, cells.len() as u32);
    place.extend_from_slice(cells);
    let padding = cells.len().next_multiple_of(4) - cells.len();
    place.extend_from_slice(&[0; 4][..padding]);
}
