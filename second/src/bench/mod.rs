//! A fixed workload, described in docs/SPEED.md, so that other programs can do
//! exactly the same and be measured against this one.

mod draws;
mod tally;

use std::collections::VecDeque;
use std::time::Instant;

use crate::carrier::{ByteCarrier, Carrier, RecordCarrier};
use crate::code::{Code, Sizes};
use crate::field::Field;
use crate::group::{Collected, Group, Reading};
use crate::refusal::Refusal;
use draws::Draws;
use tally::{kind, Call, Tally};

const CALLS: usize = 1_000_000;
const OFFICES: usize = 6;
const OBJECTS: usize = 6;
const CELLS: usize = 16;
const PLACES: u64 = 16;

/// Two offices keep one object each, two keep two, one three and one all six.
#[rustfmt::skip]
const TABLE: [u8; OFFICES * OBJECTS] = [
    1, 0, 0, 0, 0, 0,
    0, 1, 0, 0, 0, 0,
    1, 0, 2, 0, 0, 0,
    0, 1, 0, 3, 0, 0,
    0, 0, 1, 1, 1, 0,
    1, 1, 1, 1, 1, 1,
];

struct Workload<C> {
    group: Group,
    carrier: C,
    draws: Draws,
    tally: Tally,
    /// The reads of each office that are opened and not collected, oldest first.
    opened: [VecDeque<u32>; OFFICES],
}

impl<C: Carrier> Workload<C> {
    fn new(group: Group, carrier: C) -> Workload<C> {
        Workload {
            group,
            carrier,
            draws: Draws::new(),
            tally: Tally::new(),
            opened: Default::default(),
        }
    }

    fn run(&mut self) {
        for _ in 0..CALLS {
            let choice = self.draws.below(1000);
            let server = self.draws.below(OFFICES as u64);
            let object = self.draws.below(OBJECTS as u64);
            match choice {
                0..=9 => self.write(server, object),
                10..=49 => self.read(server, object),
                50..=79 => self.collect(server),
                80..=149 => self.apply(server),
                150..=349 => self.encode(server, object),
                350..=449 => self.sweep(server, object),
                _ => self.deliver(server, (server + 1 + object % 5) % OFFICES),
            }
        }
    }

    fn write(&mut self, server: usize, object: usize) {
        let cells: [u8; CELLS] = std::array::from_fn(|_| self.draws.below(256) as u8);
        match self.group.write(&mut self.carrier, server, object, &cells) {
            Err(refusal) => self.tally.refused(Call::Write, refusal),
            Ok(tag) => {
                self.tally.count(Call::Write, kind::TAG);
                self.tally.tag(tag);
            }
        }
    }

    fn read(&mut self, server: usize, object: usize) {
        match self.group.read(&mut self.carrier, server, object, CELLS) {
            Err(refusal) => self.tally.refused(Call::Read, refusal),
            Ok(Reading::Given(answer)) => self.tally.value(Call::Read, &answer),
            Ok(Reading::Opened(number)) => {
                self.tally.count(Call::Read, kind::OPENED);
                self.tally.fold(u64::from(number));
                self.opened[server].push_back(number);
            }
        }
    }

    fn collect(&mut self, server: usize) {
        let number = self.opened[server].pop_front().unwrap_or(0);
        let collected = self.group.collect(&self.carrier, server, u64::from(number), CELLS);
        match collected {
            Err(refusal) => self.tally.refused(Call::Collect, refusal),
            Ok(Collected::Given(answer)) => self.tally.value(Call::Collect, &answer),
            Ok(Collected::StillOpen) => {
                self.tally.count(Call::Collect, kind::OPEN);
                self.opened[server].push_back(number);
            }
        }
    }

    fn deliver(&mut self, from: usize, to: usize) {
        match self.group.deliver(&mut self.carrier, from, to) {
            Err(refusal) => self.tally.refused(Call::Deliver, refusal),
            Ok(outcome) => self.tally.count(Call::Deliver, kind::OUTCOME + outcome as usize),
        }
    }

    fn apply(&mut self, server: usize) {
        match self.group.apply(&self.carrier, server) {
            Err(refusal) => self.tally.refused(Call::Apply, refusal),
            Ok(None) => self.tally.count(Call::Apply, kind::NOTHING_READY),
            Ok(Some(tag)) => {
                self.tally.count(Call::Apply, kind::TAG);
                self.tally.tag(tag);
            }
        }
    }

    fn encode(&mut self, server: usize, object: usize) {
        match self.group.encode(&mut self.carrier, server, object) {
            Err(refusal) => self.tally.refused(Call::Encode, refusal),
            Ok(outcome) => self.tally.count(Call::Encode, kind::OUTCOME + outcome as usize),
        }
    }

    fn sweep(&mut self, server: usize, object: usize) {
        match self.group.sweep(&self.carrier, server, object) {
            Err(refusal) => self.tally.refused(Call::Sweep, refusal),
            Ok(removed) => {
                self.tally.count(Call::Sweep, kind::REMOVED);
                self.tally.fold(removed as u64);
            }
        }
    }
}

pub fn bench(times: bool) {
    run_over("records", RecordCarrier::new(OFFICES as u64, PLACES, None), times);
    run_over("bytes", ByteCarrier::new(OFFICES as u64, PLACES, None), times);
}

fn run_over<C: Carrier>(name: &str, carrier: Result<C, Refusal>, times: bool) {
    let sizes = Sizes { servers: OFFICES as u64, objects: OBJECTS as u64, cells: CELLS as u64 };
    let code = Code::new(Field::Gf256, sizes, &TABLE).expect("a good code");
    let mut workload = Workload::new(Group::new(code), carrier.expect("laid out"));
    let start = Instant::now();
    workload.run();
    let taken = start.elapsed();
    println!("{name} calls {CALLS}");
    workload.tally.print();
    if times {
        println!("{name} {} ns a call", taken.as_nanos() / CALLS as u128);
    }
}
