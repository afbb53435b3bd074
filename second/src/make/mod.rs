//! Makes random scripts, with the answers that this program gives to them.

mod bad;
mod calls;
mod layout;
mod odd;
mod phases;

use std::fs;
use std::io;
use std::path::Path;

use crate::group::Group;
use crate::random::Random;
use crate::script::line::Line;
use crate::script::session::Session;

/// Writes DIR/SEED.script and DIR/SEED.answers, a script of that many lines that
/// ask for something.
pub fn make(seed: u64, steps: usize, directory: &Path) -> io::Result<()> {
    let mut maker = Maker::new(seed, steps);
    maker.note(&format!("seed {seed}, {steps} steps"));
    while !maker.is_done() {
        maker.run_group();
    }
    fs::create_dir_all(directory)?;
    fs::write(directory.join(format!("{seed}.script")), &maker.script)?;
    fs::write(directory.join(format!("{seed}.answers")), &maker.answers)
}

/// A script that grows, and the session that it has brought about so far.
struct Maker {
    random: Random,
    session: Session,
    script: String,
    answers: String,
    steps_left: usize,
    /// A decoding has met symbols that no list of values has. What it gives is
    /// left open, so the script must not go on with this group.
    spoilt: bool,
}

impl Maker {
    fn new(seed: u64, steps: usize) -> Maker {
        Maker {
            random: Random::new(seed),
            session: Session::default(),
            script: String::new(),
            answers: String::new(),
            steps_left: steps,
            spoilt: false,
        }
    }

    fn is_done(&self) -> bool {
        self.steps_left == 0
    }

    /// Whether the present group has come to its end.
    fn is_over(&self) -> bool {
        self.is_done() || self.spoilt
    }

    fn note(&mut self, text: &str) {
        self.script += &format!("# {text}\n");
    }

    /// Runs a line and writes it down with its answer. Nothing is written once
    /// the group is over.
    fn say(&mut self, text: String) -> String {
        if self.is_over() {
            return String::new();
        }
        let line = Line::read(text.as_bytes()).ok().flatten();
        let line = line.expect("a line that can be read");
        let answer = self.session.run(&line).expect("a line that can be run");
        if self.session.group().is_ok_and(|group| group.unfounded() > 0) {
            self.spoilt = true;
            return String::new();
        }
        self.steps_left -= 1;
        self.script += &format!("{text}\n");
        self.answers += &format!("{answer}\n");
        answer
    }

    fn group(&self) -> &Group {
        self.session.group().expect("laid out before")
    }

    fn servers(&self) -> usize {
        self.group().code().servers()
    }

    fn objects(&self) -> usize {
        self.group().code().objects()
    }

    fn a_server(&mut self) -> usize {
        let servers = self.servers();
        self.random.below(servers)
    }

    fn an_object(&mut self) -> usize {
        let objects = self.objects();
        self.random.below(objects)
    }

    fn some_cells(&mut self, count: usize) -> Vec<u8> {
        let field = self.group().code().field();
        let plain = self.random.percent(10);
        let mut cells = Vec::new();
        while cells.len() < count {
            let byte = if plain { self.random.byte() % 2 } else { self.random.byte() };
            if field.contains(byte) {
                cells.push(byte);
            }
        }
        cells
    }
}

fn joined<T: std::fmt::Display>(items: &[T]) -> String {
    items.iter().map(|item| format!(" {item}")).collect()
}
