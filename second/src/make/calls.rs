//! Single calls with arguments that may well be good.

use super::phases::SlowLanes;
use super::{joined, Maker};

impl Maker {
    pub(super) fn write(&mut self) {
        let (server, object) = (self.a_server(), self.an_object());
        let count = self.group().code().cells();
        let cells = self.some_cells(count);
        self.say(format!("write {server} {object}{}", joined(&cells)));
    }

    pub(super) fn read(&mut self) {
        let (server, object) = (self.a_server(), self.an_object());
        let cells = self.group().code().cells();
        let place = if self.random.percent(5) { format!(" place {cells}") } else { String::new() };
        self.say(format!("read {server} {object}{place}"));
    }

    pub(super) fn collect(&mut self) {
        let server = self.a_server();
        let numbers = self.client_numbers(server);
        let number = match self.random.pick(&numbers) {
            Some(number) => *number,
            None => self.random.below(12) as u32,
        };
        let cells = self.group().code().cells();
        let place = if self.random.percent(5) { format!(" place {cells}") } else { String::new() };
        self.say(format!("collect {server} {number}{place}"));
    }

    fn client_numbers(&self, server: usize) -> Vec<u32> {
        let at = self.group().server(server);
        at.map(|at| at.reads.client_numbers().collect()).unwrap_or_default()
    }

    pub(super) fn lane_len(&self, from: usize, to: usize) -> usize {
        let carrier = self.session.carrier.as_deref();
        carrier.map_or(0, |carrier| carrier.len(from, to).unwrap_or(0))
    }

    pub(super) fn deliver(&mut self, slow: &SlowLanes) {
        let servers = self.servers();
        let lanes: Vec<(usize, usize)> = (0..servers)
            .flat_map(|from| (0..servers).map(move |to| (from, to)))
            .filter(|(from, to)| from != to && !slow.contains(&(*from, *to)))
            .collect();
        let full: Vec<(usize, usize)> =
            lanes.iter().copied().filter(|(from, to)| self.lane_len(*from, *to) > 0).collect();
        let chosen = if self.random.percent(92) { &full } else { &lanes };
        if let Some((from, to)) = self.random.pick(chosen).copied() {
            self.say(format!("deliver {from} {to}"));
        }
    }

    pub(super) fn apply(&mut self) {
        let server = self.a_server();
        self.say(format!("apply {server}"));
    }

    pub(super) fn encode(&mut self) {
        let (server, object) = (self.a_server(), self.an_object());
        self.say(format!("encode {server} {object}"));
    }

    pub(super) fn sweep(&mut self) {
        let (server, object) = (self.a_server(), self.an_object());
        self.say(format!("sweep {server} {object}"));
    }

    pub(super) fn look_up(&mut self) {
        let (server, object) = (self.a_server(), self.an_object());
        let other = self.a_server();
        let line = match self.random.below(8) {
            0 => format!("symbol {server}"),
            1 => format!("own {server} {object}"),
            2 => format!("told {server} {object} {other}"),
            3 => format!("clock {server}"),
            4 => format!("history {server}"),
            5 => format!("lane {server} {other}"),
            6 => format!("first {server} {other}"),
            _ => {
                let servers = self.servers();
                let set: Vec<usize> = (0..servers).filter(|_| self.random.percent(50)).collect();
                format!("recovers {object}{}", joined(&set))
            }
        };
        self.say(line);
    }
}
