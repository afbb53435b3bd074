//! A script under way: its group and its carrier, and what each line writes.

use std::fmt::Display;

use super::hex;
use super::line::{Kind, Line};
use super::words::{Readable, Unreadable};
use crate::carrier::{ByteCarrier, Carrier, RecordCarrier};
use crate::code::Code;
use crate::group::reads::Answer;
use crate::group::{Collected, Group, Reading};
use crate::refusal::Refusal;
use crate::tag::Tag;
use crate::wire::{self, Fault};

#[derive(Default)]
pub struct Session {
    pub group: Option<Group>,
    pub carrier: Option<Box<dyn Carrier>>,
}

/// What is written for a line that is not refused.
type Told = Result<String, Refusal>;

impl Session {
    pub fn run(&mut self, line: &Line) -> Readable<String> {
        let told = match line {
            Line::Group { .. } | Line::Carrier { .. } => self.lay_out(line),
            Line::Lane { .. } | Line::Post { .. } | Line::First { .. } => {
                in_lanes(self.carrier()?, line)
            }
            Line::Bytes { bytes } => Ok(read_bytes(bytes)),
            Line::Symbol { .. }
            | Line::Own { .. }
            | Line::Told { .. }
            | Line::Clock { .. }
            | Line::History { .. }
            | Line::Recovers { .. } => look_up(self.group()?, line),
            _ => self.call(line)?,
        };
        Ok(told.unwrap_or_else(|refusal| format!("refused {}", refusal.number())))
    }

    pub fn group(&self) -> Readable<&Group> {
        self.group.as_ref().ok_or_else(no_group)
    }

    fn carrier(&mut self) -> Readable<&mut dyn Carrier> {
        match &mut self.carrier {
            Some(carrier) => Ok(carrier.as_mut()),
            None => Err(no_carrier()),
        }
    }

    fn lay_out(&mut self, line: &Line) -> Told {
        match line {
            Line::Group { field, sizes, table } => {
                self.group = Some(Group::new(Code::new(*field, *sizes, table)?));
            }
            Line::Carrier { kind, servers, places, memory } => {
                self.carrier = Some(match kind {
                    Kind::Records => Box::new(RecordCarrier::new(*servers, *places, *memory)?),
                    Kind::Bytes => Box::new(ByteCarrier::new(*servers, *places, *memory)?),
                });
            }
            _ => {}
        }
        Ok("ready".to_string())
    }

    fn call(&mut self, line: &Line) -> Readable<Told> {
        let group = self.group.as_mut().ok_or_else(no_group)?;
        let carrier = self.carrier.as_deref_mut().ok_or_else(no_carrier)?;
        Ok(match line {
            Line::Write { server, object, cells } => {
                group.write(carrier, *server, *object, cells).map(tag)
            }
            Line::Read { server, object, place } => {
                let room = room(group, *place);
                group.read(carrier, *server, *object, room).map(reading)
            }
            Line::Collect { server, number, place } => {
                let room = room(group, *place);
                group.collect(carrier, *server, *number, room).map(collected)
            }
            Line::Deliver { from, to } => group
                .deliver(carrier, *from, *to)
                .map(|outcome| format!("outcome {}", outcome as u8)),
            Line::Apply { server } => group
                .apply(carrier, *server)
                .map(|applied| applied.map_or("nothing ready".to_string(), tag)),
            Line::Encode { server, object } => group
                .encode(carrier, *server, *object)
                .map(|outcome| format!("outcome {}", outcome as u8)),
            Line::Sweep { server, object } => {
                group.sweep(carrier, *server, *object).map(|count| format!("removed {count}"))
            }
            _ => Ok(String::new()),
        })
    }
}

fn no_group() -> Unreadable {
    Unreadable::new("there is no group yet")
}

fn no_carrier() -> Unreadable {
    Unreadable::new("there is no carrier yet")
}

fn room(group: &Group, place: Option<u64>) -> usize {
    let cells = group.code().cells();
    place.map_or(cells, |length| usize::try_from(length).unwrap_or(usize::MAX))
}

fn look_up(group: &Group, line: &Line) -> Told {
    match line {
        Line::Symbol { server } => Ok(list("symbol", group.symbol(*server)?)),
        Line::Own { server, object } => group.own(*server, *object).map(tag),
        Line::Told { server, object, teller } => group.told(*server, *object, *teller).map(tag),
        Line::Clock { server } => Ok(list("clock", group.clock(*server)?)),
        Line::History { server } => Ok(format!("history {}", group.history_len(*server)?)),
        Line::Recovers { object, servers } => {
            group.recovers(*object, servers).map(|yes| if yes { "yes" } else { "no" }.to_string())
        }
        _ => Ok(String::new()),
    }
}

fn in_lanes(carrier: &mut dyn Carrier, line: &Line) -> Told {
    match line {
        Line::Lane { from, to } => Ok(format!("lane {}", carrier.len(*from, *to)?)),
        Line::First { from, to } => {
            let mut record = Vec::new();
            wire::write(&carrier.first(*from, *to)?, &mut record);
            Ok(format!("record {}", hex::digits(&record)))
        }
        Line::Post { from, to, bytes } => match wire::read(bytes) {
            Err(found) => Ok(fault(found)),
            Ok((message, _)) => {
                carrier.post(*from, *to, &message)?;
                Ok("posted".to_string())
            }
        },
        _ => Ok(String::new()),
    }
}

fn read_bytes(bytes: &[u8]) -> String {
    match wire::read(bytes) {
        Ok((message, used)) => format!("kind {} used {used}", message.kind()),
        Err(found) => fault(found),
    }
}

fn fault(fault: Fault) -> String {
    let (number, at, layer) = (fault.number(), fault.at, fault.layer());
    format!("fault {number} at {at} layer {layer}")
}

fn tag(tag: Tag) -> String {
    format!("tag {} {}", tag.height, tag.server)
}

fn reading(reading: Reading) -> String {
    match reading {
        Reading::Opened(number) => format!("opened {number}"),
        Reading::Given(answer) => given(&answer),
    }
}

fn collected(collected: Collected) -> String {
    match collected {
        Collected::StillOpen => "open".to_string(),
        Collected::Given(answer) => given(&answer),
    }
}

fn given(answer: &Answer) -> String {
    let value = list("value", &answer.value);
    format!("{value} {} way {}", tag(answer.tag), answer.way as u8)
}

fn list<T: Display>(name: &str, items: &[T]) -> String {
    items.iter().fold(name.to_string(), |line, item| format!("{line} {item}"))
}
