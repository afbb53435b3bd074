//! Calls with something wrong in them.

use super::{joined, Maker};

/// The tag notice of object 0 with the zero tag.
const ZERO_NOTICE: &str = "8000001000000002000000000000000000000000";

impl Maker {
    pub(super) fn bad_call(&mut self) {
        match self.random.below(3) {
            0 => self.bad_server(),
            1 => self.bad_object(),
            _ => self.bad_rest(),
        }
    }

    /// A number that no server has.
    fn no_server(&mut self) -> String {
        let servers = self.servers();
        let choices = [servers, servers + 1, 6, 7, 255, 256, 4_294_967_296];
        match self.random.below(8) {
            7 => u64::MAX.to_string(),
            choice => choices[choice].to_string(),
        }
    }

    fn bad_server(&mut self) {
        let (bad, server, object) = (self.no_server(), self.a_server(), self.an_object());
        let line = match self.random.below(17) {
            0 => format!("write {bad} {object} 1"),
            1 => format!("read {bad} {object}"),
            2 => format!("collect {bad} 1"),
            3 => format!("deliver {bad} {server}"),
            4 => format!("deliver {server} {bad}"),
            5 => format!("apply {bad}"),
            6 => format!("encode {bad} {object}"),
            7 => format!("sweep {bad} {object}"),
            8 => format!("symbol {bad}"),
            9 => format!("own {bad} {object}"),
            10 => format!("told {server} 99 {bad}"),
            11 => format!("clock {bad}"),
            12 => format!("history {bad}"),
            13 => format!("lane {server} {bad}"),
            14 => format!("recovers {object} {server} {bad}"),
            15 => format!("post {server} {bad} {ZERO_NOTICE}"),
            _ => format!("first {bad} {bad}"),
        };
        self.say(line);
    }

    fn bad_object(&mut self) {
        let objects = self.objects();
        let bad = [objects, objects + 1, 6, 256][self.random.below(4)].max(objects);
        let server = self.a_server();
        let line = match self.random.below(7) {
            0 => format!("write {server} {bad}"),
            1 => format!("read {server} {bad} place 0"),
            2 => format!("encode {server} {bad}"),
            3 => format!("sweep {server} {bad}"),
            4 => format!("own {server} {bad}"),
            5 => format!("told {server} {bad} {server}"),
            _ => format!("recovers {bad} {server}"),
        };
        self.say(line);
    }

    fn bad_rest(&mut self) {
        let (server, object) = (self.a_server(), self.an_object());
        let cells = self.group().code().cells();
        let wrong = [0, cells - 1, cells + 1, 17][self.random.below(4)];
        let line = match self.random.below(7) {
            0 => {
                let value = self.some_cells(wrong);
                format!("write {server} {object}{}", joined(&value))
            }
            1 => {
                let mut value = self.some_cells(cells);
                value[self.random.below(cells)] = self.random.within(250, 255) as u8;
                format!("write {server} {object}{}", joined(&value))
            }
            2 => format!("read {server} {object} place {wrong}"),
            3 => format!("collect {server} 1 place {wrong}"),
            4 => format!("collect {server} {}", u64::MAX),
            5 => format!("deliver {server} {server}"),
            _ => format!("lane {server} {server}"),
        };
        self.say(line);
    }
}
