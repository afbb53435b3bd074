//! Replays a whole script.

use std::io::{self, BufRead, Write};

use super::line::Line;
use super::session::Session;
use super::words::{Readable, Unreadable};

/// How a script came to its end.
#[derive(Debug, PartialEq, Eq)]
pub enum End {
    Reached,
    Unreadable { line: usize, why: Unreadable },
}

pub fn replay(script: impl BufRead, mut out: impl Write) -> io::Result<End> {
    let mut session = Session::default();
    for (index, text) in script.split(b'\n').enumerate() {
        match step(&mut session, &text?) {
            Ok(None) => {}
            Ok(Some(answer)) => writeln!(out, "{answer}")?,
            Err(why) => {
                out.flush()?;
                let line = index + 1;
                return Ok(End::Unreadable { line, why });
            }
        }
    }
    out.flush()?;
    Ok(End::Reached)
}

fn step(session: &mut Session, text: &[u8]) -> Readable<Option<String>> {
    match Line::read(text)? {
        None => Ok(None),
        Some(line) => session.run(&line).map(Some),
    }
}
