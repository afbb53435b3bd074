//! What a group goes through: phases of writing, reading, hoarding, waiting on
//! slow lanes, odd messages, and quiet.

use std::collections::BTreeSet;

use super::Maker;

/// How often each call comes in a phase, one number against the other.
#[derive(Clone, Copy)]
struct Weights {
    name: &'static str,
    write: usize,
    read: usize,
    collect: usize,
    deliver: usize,
    apply: usize,
    encode: usize,
    sweep: usize,
}

#[rustfmt::skip]
const PHASES: [Weights; 6] = [
    Weights { name: "writing", write: 35, read: 3, collect: 2, deliver: 30, apply: 15, encode: 12, sweep: 5 },
    Weights { name: "reading", write: 2, read: 35, collect: 15, deliver: 45, apply: 3, encode: 5, sweep: 3 },
    Weights { name: "asking", write: 0, read: 80, collect: 4, deliver: 10, apply: 1, encode: 3, sweep: 1 },
    Weights { name: "mixed", write: 8, read: 10, collect: 6, deliver: 45, apply: 12, encode: 15, sweep: 8 },
    Weights { name: "hoarding", write: 30, read: 2, collect: 1, deliver: 50, apply: 40, encode: 0, sweep: 0 },
    Weights { name: "waiting", write: 40, read: 2, collect: 1, deliver: 55, apply: 1, encode: 2, sweep: 0 },
];

/// Lanes that nothing is delivered on for the time being.
pub(super) type SlowLanes = BTreeSet<(usize, usize)>;

impl Maker {
    /// One group from its layout to its end.
    pub(super) fn run_group(&mut self) {
        self.note("a new group");
        self.lay_out();
        let odd = self.random.percent(40);
        for _ in 0..self.random.within(2, 7) {
            if self.is_over() {
                return;
            }
            self.run_phase(odd);
            if self.random.percent(65) {
                self.come_to_rest();
            }
        }
    }

    fn run_phase(&mut self, odd: bool) {
        let weights = PHASES[self.random.below(PHASES.len())];
        let slow = self.slow_lanes();
        let named = if slow.is_empty() { "" } else { ", some lanes slow" };
        self.note(&format!("{}{named}", weights.name));
        for _ in 0..self.random.within(40, 260) {
            if self.is_over() {
                return;
            }
            match self.random.below(100) {
                0..=2 => self.look_up(),
                3..=4 => self.bad_call(),
                5..=8 if odd => self.odd_message(),
                9 => self.odd_bytes(),
                _ => self.step(weights, &slow),
            }
        }
    }

    fn slow_lanes(&mut self) -> SlowLanes {
        let share = [0, 0, 30, 60][self.random.below(4)];
        let servers = self.servers();
        let lanes = (0..servers).flat_map(|from| (0..servers).map(move |to| (from, to)));
        lanes.filter(|_| self.random.percent(share)).collect()
    }

    fn step(&mut self, weights: Weights, slow: &SlowLanes) {
        let Weights { write, read, collect, deliver, apply, encode, sweep, .. } = weights;
        let all = [write, read, collect, deliver, apply, encode, sweep];
        let mut chosen = self.random.below(all.iter().sum());
        let call = all.iter().position(|weight| {
            let here = chosen < *weight;
            chosen = chosen.saturating_sub(*weight);
            here
        });
        match call {
            Some(0) => self.write(),
            Some(1) => self.read(),
            Some(2) => self.collect(),
            Some(3) => self.deliver(slow),
            Some(4) => self.apply(),
            Some(5) => self.encode(),
            _ => self.sweep(),
        }
    }

    /// Delivers, applies, encodes and sweeps until nothing moves any more.
    fn come_to_rest(&mut self) {
        self.note("quiet");
        let mut rounds = 0;
        while self.round_of_rest() && rounds < 60 && !self.is_over() {
            rounds += 1;
        }
        for server in 0..self.servers() {
            self.say(format!("history {server}"));
            self.say(format!("symbol {server}"));
        }
    }

    fn round_of_rest(&mut self) -> bool {
        let mut moved = false;
        for server in 0..self.servers() {
            for to in (0..self.servers()).filter(|to| *to != server) {
                moved |= self.empty_lane(server, to);
            }
            while self.say(format!("apply {server}")).starts_with("tag") {
                moved = true;
            }
            for object in 0..self.objects() {
                moved |= self.settle(server, object);
            }
        }
        moved
    }

    pub(super) fn empty_lane(&mut self, from: usize, to: usize) -> bool {
        let mut moved = false;
        while !self.is_over() && self.lane_len(from, to) > 0 {
            if !self.say(format!("deliver {from} {to}")).starts_with("outcome") {
                break;
            }
            moved = true;
        }
        moved
    }

    /// Encodes and sweeps where that can change something.
    fn settle(&mut self, server: usize, object: usize) -> bool {
        let Ok(at) = self.group().server(server) else {
            return false;
        };
        let behind = at.history.highest(object).0 > at.own(object);
        let empty = at.history.is_empty();
        let mut moved = false;
        if behind || self.random.percent(5) {
            let answer = self.say(format!("encode {server} {object}"));
            moved |= matches!(answer.as_str(), "outcome 1" | "outcome 3" | "outcome 4");
        }
        if !empty {
            let answer = self.say(format!("sweep {server} {object}"));
            moved |= answer.starts_with("removed") && answer != "removed 0";
        }
        moved
    }
}
