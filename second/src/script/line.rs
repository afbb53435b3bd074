//! What a line of a script asks for.

use super::words::{not, Readable, Words};
use crate::code::Sizes;
use crate::field::Field;

#[derive(Clone, Copy, Debug, PartialEq, Eq)]
pub enum Kind {
    Records,
    Bytes,
}

#[derive(Clone, Debug, PartialEq, Eq)]
pub enum Line {
    Group { field: Field, sizes: Sizes, table: Vec<u8> },
    Carrier { kind: Kind, servers: u64, places: u64, memory: Option<u64> },
    Write { server: usize, object: usize, cells: Vec<u8> },
    Read { server: usize, object: usize, place: Option<u64> },
    Collect { server: usize, number: u64, place: Option<u64> },
    Deliver { from: usize, to: usize },
    Apply { server: usize },
    Encode { server: usize, object: usize },
    Sweep { server: usize, object: usize },
    Symbol { server: usize },
    Own { server: usize, object: usize },
    Told { server: usize, object: usize, teller: usize },
    Clock { server: usize },
    History { server: usize },
    Lane { from: usize, to: usize },
    Recovers { object: usize, servers: Vec<usize> },
    Post { from: usize, to: usize, bytes: Vec<u8> },
    First { from: usize, to: usize },
    Bytes { bytes: Vec<u8> },
}

impl Line {
    /// None for a line that has no words.
    pub fn read(line: &[u8]) -> Readable<Option<Line>> {
        let mut words = Words::of(line);
        if words.are_over() {
            return Ok(None);
        }
        let name = words.word()?;
        let line = match name {
            b"group" => group(&mut words)?,
            b"carrier" => carrier(&mut words)?,
            b"write" | b"read" | b"collect" | b"deliver" | b"apply" | b"encode" | b"sweep" => {
                call(name, &mut words)?
            }
            b"post" | b"first" | b"bytes" | b"lane" => message(name, &mut words)?,
            _ => look_up(name, &mut words)?,
        };
        words.end()?;
        Ok(Some(line))
    }
}

fn group(words: &mut Words) -> Readable<Line> {
    let field = match words.word()? {
        b"251" => Field::Mod251,
        b"256" => Field::Gf256,
        word => return Err(not(word, "a field")),
    };
    let sizes =
        Sizes { servers: words.number()?, objects: words.number()?, cells: words.number()? };
    let table = words.cells()?;
    Ok(Line::Group { field, sizes, table })
}

fn carrier(words: &mut Words) -> Readable<Line> {
    let kind = match words.word()? {
        b"records" => Kind::Records,
        b"bytes" => Kind::Bytes,
        word => return Err(not(word, "a kind of carrier")),
    };
    Ok(Line::Carrier {
        kind,
        servers: words.number()?,
        places: words.number()?,
        memory: words.option("memory")?,
    })
}

fn call(name: &[u8], words: &mut Words) -> Readable<Line> {
    let first = words.index()?;
    if name == b"apply" {
        return Ok(Line::Apply { server: first });
    }
    let second = words.number()?;
    let object = usize::try_from(second).unwrap_or(usize::MAX);
    let server = first;
    Ok(match name {
        b"write" => {
            let cells = words.cells()?;
            Line::Write { server, object, cells }
        }
        b"read" => {
            let place = words.option("place")?;
            Line::Read { server, object, place }
        }
        b"collect" => {
            let place = words.option("place")?;
            Line::Collect { server, number: second, place }
        }
        b"deliver" => Line::Deliver { from: server, to: object },
        b"encode" => Line::Encode { server, object },
        _ => Line::Sweep { server, object },
    })
}

fn message(name: &[u8], words: &mut Words) -> Readable<Line> {
    if name == b"bytes" {
        return Ok(Line::Bytes { bytes: words.hex()? });
    }
    let (from, to) = (words.index()?, words.index()?);
    Ok(match name {
        b"post" => {
            let bytes = words.hex()?;
            Line::Post { from, to, bytes }
        }
        b"first" => Line::First { from, to },
        _ => Line::Lane { from, to },
    })
}

fn look_up(name: &[u8], words: &mut Words) -> Readable<Line> {
    Ok(match name {
        b"symbol" => Line::Symbol { server: words.index()? },
        b"clock" => Line::Clock { server: words.index()? },
        b"history" => Line::History { server: words.index()? },
        b"own" => {
            let (server, object) = (words.index()?, words.index()?);
            Line::Own { server, object }
        }
        b"told" => {
            let (server, object) = (words.index()?, words.index()?);
            let teller = words.index()?;
            Line::Told { server, object, teller }
        }
        b"recovers" => {
            let object = words.index()?;
            let servers = words.indices()?;
            Line::Recovers { object, servers }
        }
        _ => return Err(not(name, "the name of a line")),
    })
}
