//! Groups and carriers of all sizes, good ones and bad ones.

use super::{joined, Maker};

/// What a random table looks like.
#[derive(Clone, Copy)]
enum Look {
    Dense,
    Sparse,
    /// Rows of one object first, combinations behind them.
    Systematic,
    /// Each server keeps one object.
    Single,
    /// All rows equal: too few for most numbers of objects.
    Repeated,
}

const LOOKS: [Look; 6] =
    [Look::Dense, Look::Dense, Look::Sparse, Look::Systematic, Look::Single, Look::Repeated];

#[derive(Clone, Copy)]
struct Shape {
    modulus: usize,
    servers: usize,
    objects: usize,
    cells: usize,
}

impl Maker {
    /// Lays out a new group and a new carrier. It must be both before anything
    /// else is said: a spoilt group is behind them until then.
    pub(super) fn lay_out(&mut self) {
        self.spoilt = false;
        while !self.is_done() && !self.lay_out_group() {}
        if self.is_done() {
            return;
        }
        let servers = self.servers();
        self.lay_out_carrier(servers);
    }

    fn lay_out_group(&mut self) -> bool {
        let shape = self.a_shape();
        let mut table = self.a_table(shape);
        match self.random.below(20) {
            0 => table.push(1),
            1 => drop(table.pop()),
            2 => table[0] = self.random.within(250, 255) as u8,
            _ => {}
        }
        let Shape { modulus, servers, objects, cells } = shape;
        let line = format!("group {modulus} {servers} {objects} {cells}{}", joined(&table));
        // A refused layout would leave the old group, spoilt or not, in place.
        self.session.group = None;
        self.say(line) == "ready"
    }

    fn a_shape(&mut self) -> Shape {
        let mut shape = Shape {
            modulus: if self.random.percent(50) { 251 } else { 256 },
            servers: self.random.within(2, 6),
            objects: self.random.within(1, 6),
            cells: self.random.within(1, 16),
        };
        if self.random.percent(40) {
            shape.cells = self.random.within(1, 3);
        }
        // More objects than servers are never all recovered: let them be rare.
        if self.random.percent(90) {
            shape.objects = self.random.within(1, shape.servers);
        }
        match self.random.below(40) {
            0 => shape.servers = self.random.below(2),
            1 => shape.servers = self.random.within(7, 9),
            2 => shape.objects = [0, 7][self.random.below(2)],
            3 => shape.cells = [0, 17][self.random.below(2)],
            _ => {}
        }
        shape
    }

    fn a_table(&mut self, shape: Shape) -> Vec<u8> {
        let look = LOOKS[self.random.below(LOOKS.len())];
        let few = self.random.percent(60);
        let mut rows: Vec<Vec<u8>> = Vec::new();
        for server in 0..shape.servers {
            let mut row = vec![0; shape.objects];
            for (object, coefficient) in row.iter_mut().enumerate() {
                let taken = match look {
                    Look::Dense => true,
                    Look::Sparse => self.random.percent(40),
                    Look::Systematic if server < shape.objects => server == object,
                    Look::Systematic => self.random.percent(70),
                    Look::Single => server % shape.objects == object,
                    Look::Repeated => server == 0,
                };
                let most = if few { 3 } else { 250 };
                *coefficient = if taken { self.random.within(1, most) as u8 } else { 0 };
            }
            rows.push(row);
        }
        if matches!(look, Look::Repeated) {
            rows = vec![rows.first().cloned().unwrap_or_default(); shape.servers];
        }
        let mut table = rows.concat();
        if table.is_empty() {
            table.push(1);
        }
        table
    }

    fn lay_out_carrier(&mut self, servers: usize) {
        let kind = ["records", "bytes"][self.random.below(2)];
        let places = self.random.within(1, 16);
        self.maybe_bad_carrier(kind, servers, places);
        if servers > 2 && self.random.percent(15) {
            self.try_small_carrier(kind, servers, places);
        }
        let size = if kind == "bytes" { 84 } else { 1 };
        let needed = servers * (servers - 1) * places * size;
        match self.random.below(4) {
            0 => drop(self.say(format!("carrier {kind} {servers} {places} memory {needed}"))),
            1 if servers < 6 => {
                let more = self.random.within(servers + 1, 6);
                self.say(format!("carrier {kind} {more} {places}"));
            }
            _ => drop(self.say(format!("carrier {kind} {servers} {places}"))),
        }
    }

    fn maybe_bad_carrier(&mut self, kind: &str, servers: usize, places: usize) {
        let size = if kind == "bytes" { 84 } else { 1 };
        let short = servers * (servers - 1) * places * size - 1;
        match self.random.below(12) {
            0 => drop(self.say(format!("carrier {kind} 7 {places}"))),
            1 => drop(self.say(format!("carrier {kind} 1 0"))),
            2 => drop(self.say(format!("carrier {kind} {servers} 0"))),
            3 => drop(self.say(format!("carrier {kind} {servers} 17"))),
            4 => drop(self.say(format!("carrier {kind} {servers} {places} memory {short}"))),
            _ => {}
        }
    }

    /// Beside a carrier of too few servers every call is refused.
    fn try_small_carrier(&mut self, kind: &str, servers: usize, places: usize) {
        let few = self.random.within(2, servers - 1);
        self.say(format!("carrier {kind} {few} {places}"));
        for line in ["read 0 0", "apply 0", "sweep 1 0", "encode 0 0", "deliver 0 1", "lane 0 1"] {
            self.say(line.to_string());
        }
        self.say("symbol 1".to_string());
    }
}
