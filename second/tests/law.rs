//! The run law by brute force: random runs without odd messages, everything
//! checked after each call.

use std::collections::{BTreeMap, BTreeSet};

use second::carrier::{ByteCarrier, Carrier};
use second::code::{Code, Sizes};
use second::field::Field;
use second::group::reads::{Answer, ClientRead, Way};
use second::group::{Collected, Delivered, Encoded, Group, Reading};
use second::random::Random;
use second::refusal::Refusal;
use second::tag::Tag;

/// An accepted write, with the writes that its server had applied before it.
struct Accepted {
    object: usize,
    value: Vec<u8>,
    past: BTreeSet<Tag>,
}

struct Run {
    random: Random,
    group: Group,
    carrier: ByteCarrier,
    accepted: BTreeMap<Tag, Accepted>,
    applied: Vec<BTreeSet<Tag>>,
    /// The client reads that are open, by server and number, with their objects.
    open: BTreeMap<(usize, u32), usize>,
    /// Those that were closed, with what the latest was at that moment.
    closed: BTreeMap<(usize, u32), (Tag, Vec<u8>)>,
    delivered: BTreeMap<Delivered, usize>,
    encoded: BTreeMap<Encoded, usize>,
    ways: BTreeMap<Way, usize>,
}

fn random_code(random: &mut Random) -> Code {
    loop {
        let field = if random.percent(50) { Field::Mod251 } else { Field::Gf256 };
        let sizes = Sizes {
            servers: random.within(2, 6) as u64,
            objects: random.within(1, 6) as u64,
            cells: random.within(1, 4) as u64,
        };
        let dense = random.within(20, 100);
        let table: Vec<u8> = (0..sizes.servers * sizes.objects)
            .map(|_| if random.percent(dense) { random.byte() % 251 } else { 0 })
            .collect();
        if let Ok(code) = Code::new(field, sizes, &table) {
            return code;
        }
    }
}

impl Run {
    fn new(seed: u64) -> Run {
        let mut random = Random::new(seed);
        let code = random_code(&mut random);
        let servers = code.servers();
        let places = random.within(1, 16) as u64;
        let carrier = ByteCarrier::new(servers as u64, places, None).expect("laid out");
        Run {
            random,
            group: Group::new(code),
            carrier,
            accepted: BTreeMap::new(),
            applied: vec![BTreeSet::new(); servers],
            open: BTreeMap::new(),
            closed: BTreeMap::new(),
            delivered: BTreeMap::new(),
            encoded: BTreeMap::new(),
            ways: BTreeMap::new(),
        }
    }

    fn servers(&self) -> usize {
        self.group.code().servers()
    }

    fn objects(&self) -> usize {
        self.group.code().objects()
    }

    fn cells(&self) -> usize {
        self.group.code().cells()
    }

    fn given(&self, object: usize, tag: Tag) -> Vec<u8> {
        if tag == Tag::ZERO {
            return vec![0; self.cells()];
        }
        let write = &self.accepted[&tag];
        assert_eq!(write.object, object, "a tag of a write to its object");
        write.value.clone()
    }

    fn latest(&self, server: usize, object: usize) -> (Tag, Vec<u8>) {
        let tags = self.applied[server].iter();
        let tag = tags.filter(|tag| self.accepted[tag].object == object).max();
        let tag = tag.copied().unwrap_or(Tag::ZERO);
        (tag, self.given(object, tag))
    }

    fn write(&mut self) {
        let (server, object) = self.somewhere();
        let mut value = vec![0; self.cells()];
        for cell in &mut value {
            *cell = self.random.byte() % 251;
        }
        if let Ok(tag) = self.group.write(&mut self.carrier, server, object, &value) {
            let past = self.applied[server].clone();
            let write = Accepted { object, value, past };
            assert!(self.accepted.insert(tag, write).is_none(), "no two writes share a tag");
            self.applied[server].insert(tag);
        }
    }

    fn apply(&mut self, server: usize) -> bool {
        let Ok(Some(tag)) = self.group.apply(&self.carrier, server) else {
            return false;
        };
        let past = &self.accepted[&tag].past;
        assert!(past.is_subset(&self.applied[server]), "an applied write brings its past");
        assert!(self.applied[server].insert(tag));
        true
    }

    fn read(&mut self) {
        let (server, object) = self.somewhere();
        let cells = self.cells();
        match self.group.read(&mut self.carrier, server, object, cells) {
            Ok(Reading::Given(answer)) => {
                assert_eq!((answer.tag, answer.value.to_vec()), self.latest(server, object));
                *self.ways.entry(answer.way).or_default() += 1;
            }
            Ok(Reading::Opened(number)) => {
                self.open.insert((server, number), object);
            }
            Err(_) => {}
        }
    }

    fn collect(&mut self) {
        let numbers: Vec<(usize, u32)> =
            self.open.keys().chain(self.closed.keys()).copied().collect();
        let Some((server, number)) = self.random.pick(&numbers).copied() else {
            return;
        };
        let cells = self.cells();
        let collected = self.group.collect(&self.carrier, server, u64::from(number), cells);
        match collected.expect("a client read") {
            Collected::StillOpen => assert!(self.open.contains_key(&(server, number))),
            Collected::Given(Answer { value, tag, way }) => {
                let expected = self.closed.remove(&(server, number));
                assert_eq!(expected, Some((tag, value.to_vec())));
                *self.ways.entry(way).or_default() += 1;
            }
        }
    }

    fn deliver(&mut self, from: usize, to: usize) -> Result<Delivered, Refusal> {
        let outcome = self.group.deliver(&mut self.carrier, from, to)?;
        assert_ne!(outcome, Delivered::ReplyUnusable);
        assert_ne!(outcome, Delivered::DoesNotFit);
        *self.delivered.entry(outcome).or_default() += 1;
        Ok(outcome)
    }

    fn encode(&mut self, server: usize, object: usize) -> Result<Encoded, Refusal> {
        let outcome = self.group.encode(&mut self.carrier, server, object)?;
        *self.encoded.entry(outcome).or_default() += 1;
        Ok(outcome)
    }

    fn somewhere(&mut self) -> (usize, usize) {
        let (servers, objects) = (self.servers(), self.objects());
        (self.random.below(servers), self.random.below(objects))
    }

    fn step(&mut self) {
        let (server, object) = self.somewhere();
        match self.random.below(100) {
            0..=5 => self.write(),
            6..=12 => self.read(),
            13..=20 => self.collect(),
            21..=30 => drop(self.apply(server)),
            31..=45 => drop(self.encode(server, object)),
            46..=55 => drop(self.group.sweep(&self.carrier, server, object)),
            _ => {
                let to = (server + 1 + self.random.below(self.servers() - 1)) % self.servers();
                let _ = self.deliver(server, to);
            }
        }
        self.check();
    }

    fn check(&mut self) {
        assert_eq!(self.group.unfounded(), 0);
        for server in 0..self.servers() {
            self.check_symbol(server);
            let at = self.group.server(server).expect("a server");
            for read in at.reads.open() {
                assert!(!self.group.code().recovers(read.in_hand(), read.object));
            }
        }
        self.check_reads();
    }

    fn check_symbol(&self, server: usize) {
        let values: Vec<Vec<u8>> = (0..self.objects())
            .map(|object| {
                let own = self.group.own(server, object).expect("an own tag");
                self.given(object, own)
            })
            .collect();
        let values: Vec<&[u8]> = values.iter().map(Vec::as_slice).collect();
        let symbol = self.group.code().symbol(server, &values);
        assert_eq!(self.group.symbol(server), Ok(symbol.as_slice()));
    }

    fn check_reads(&mut self) {
        let open: Vec<((usize, u32), usize)> = self.open.iter().map(|(k, v)| (*k, *v)).collect();
        for ((server, number), object) in open {
            let at = self.group.server(server).expect("a server");
            if let Some(ClientRead::Answered(answer)) = at.reads.client(number) {
                let latest = self.latest(server, object);
                assert_eq!((answer.tag, answer.value.to_vec()), latest);
                self.open.remove(&(server, number));
                self.closed.insert((server, number), latest);
            }
        }
    }

    /// Goes on without writes and reads until nothing moves any more.
    fn come_to_rest(&mut self) {
        let mut moved = true;
        while moved {
            moved = false;
            for server in 0..self.servers() {
                for to in (0..self.servers()).filter(|to| *to != server) {
                    moved |= self.deliver(server, to).is_ok();
                    self.check();
                }
                moved |= self.apply(server);
                for object in 0..self.objects() {
                    let encoded = self.encode(server, object);
                    moved |=
                        !matches!(encoded, Ok(Encoded::Nothing | Encoded::ReadIsOpen) | Err(_));
                    moved |= self.group.sweep(&self.carrier, server, object) != Ok(0);
                }
                self.check();
            }
        }
    }

    /// Two full lanes that cross and both start with a question stay so: each
    /// answer needs room in the other lane. Then there is no rest to come to.
    fn is_blocked(&self) -> bool {
        let servers = self.servers();
        let lanes = (0..servers).flat_map(|i| (0..servers).map(move |j| (i, j)));
        let mut held = lanes.filter(|(i, j)| i != j && self.carrier.len(*i, *j) != Ok(0));
        let crossed = |(i, j): (usize, usize)| {
            let question = |from, to| self.carrier.first(from, to).is_ok_and(|m| m.kind() == 3);
            question(i, j) && question(j, i) && self.carrier.is_full(j, i)
        };
        held.any(crossed)
    }

    fn check_rest(&self) {
        for (server, object) in
            (0..self.servers()).flat_map(|s| (0..self.objects()).map(move |x| (s, x)))
        {
            let highest = self.latest(0, object).0;
            assert_eq!(self.latest(server, object).0, highest);
            assert_eq!(self.group.own(server, object), Ok(highest));
            assert_eq!(self.group.history_len(server), Ok(0), "histories are empty at rest");
        }
        assert!(self.open.is_empty(), "no read is open at rest");
    }
}

#[test]
fn the_law_holds_of_random_runs() {
    let mut delivered: BTreeMap<Delivered, usize> = BTreeMap::new();
    let mut encoded: BTreeMap<Encoded, usize> = BTreeMap::new();
    let mut ways: BTreeMap<Way, usize> = BTreeMap::new();
    let mut rests = 0;
    for seed in 0..120 {
        let mut run = Run::new(seed);
        for _ in 0..3 {
            for _ in 0..250 {
                run.step();
            }
            run.come_to_rest();
            if run.is_blocked() {
                break;
            }
            run.check_rest();
            rests += 1;
        }
        run.delivered.iter().for_each(|(k, v)| *delivered.entry(*k).or_default() += v);
        run.encoded.iter().for_each(|(k, v)| *encoded.entry(*k).or_default() += v);
        run.ways.iter().for_each(|(k, v)| *ways.entry(*k).or_default() += v);
    }
    assert!(rests > 200, "most runs come to rest");
    assert_eq!((delivered.len(), encoded.len(), ways.len()), (6, 5, 4));
}
