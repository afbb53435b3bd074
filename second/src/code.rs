//! Codes: which combination of the objects each server keeps.

use crate::field::Field;
use crate::linear::{last_unknown, rank, LastUnknown, Row};
use crate::refusal::Refusal;

/// A set of servers, one bit for each.
pub type ServerSet = u8;

#[derive(Clone, Debug)]
pub struct Code {
    field: Field,
    objects: usize,
    cells: usize,
    rows: Vec<Row>,
    /// For each set of servers the objects that it recovers, one bit for each.
    /// Found once at layout, since calls ask again and again.
    recovered: Vec<u8>,
}

/// The sizes of a group as they are asked for, in bounds or not.
#[derive(Clone, Copy, Debug, PartialEq, Eq)]
pub struct Sizes {
    pub servers: u64,
    pub objects: u64,
    pub cells: u64,
}

impl Code {
    pub fn new(field: Field, sizes: Sizes, table: &[u8]) -> Result<Code, Refusal> {
        Refusal::ServersOutOfBounds.unless((2..=6).contains(&sizes.servers))?;
        Refusal::ObjectsOutOfBounds.unless((1..=6).contains(&sizes.objects))?;
        Refusal::CellsOutOfBounds.unless((1..=16).contains(&sizes.cells))?;
        let (servers, objects) = (sizes.servers as usize, sizes.objects as usize);
        let elements = table.iter().all(|c| field.contains(*c));
        Refusal::NoTable.unless(elements && table.len() == servers * objects)?;
        let rows: Vec<Row> = table.chunks(objects).map(<[u8]>::to_vec).collect();
        let everyone = (1u32 << servers) - 1;
        Refusal::ObjectNotRecovered.unless(rank(field, rows.clone()) == objects)?;
        let recovered = (0..=everyone)
            .map(|set| recovered_by(field, &rows_of(&rows, set as ServerSet), objects))
            .collect();
        Ok(Code { field, objects, cells: sizes.cells as usize, rows, recovered })
    }

    pub fn field(&self) -> Field {
        self.field
    }

    pub fn servers(&self) -> usize {
        self.rows.len()
    }

    pub fn objects(&self) -> usize {
        self.objects
    }

    pub fn cells(&self) -> usize {
        self.cells
    }

    pub fn contains(&self, server: usize, object: usize) -> bool {
        self.rows[server][object] != 0
    }

    pub fn recovers(&self, set: ServerSet, object: usize) -> bool {
        self.recovered[usize::from(set)] >> object & 1 == 1
    }

    pub fn symbol(&self, server: usize, values: &[&[u8]]) -> Vec<u8> {
        let mut symbol = vec![0; self.cells];
        for (coefficient, value) in self.rows[server].iter().zip(values) {
            self.field.add_multiple(&mut symbol, *coefficient, value);
        }
        symbol
    }

    /// Turns a server's symbol from the object's old value to its new one.
    pub fn re_encode(&self, place: (usize, usize), symbol: &mut [u8], old: &[u8], new: &[u8]) {
        let (server, object) = place;
        let coefficient = self.rows[server][object];
        self.field.add_multiple(symbol, coefficient, new);
        self.field.add_multiple(symbol, self.field.negate(coefficient), old);
    }

    /// The object's value from the symbols of a set that recovers it.
    pub fn decode<'a>(
        &self,
        object: usize,
        symbols: impl Iterator<Item = (usize, &'a [u8])>,
    ) -> Option<LastUnknown> {
        let system = symbols
            .map(|(server, symbol)| {
                let mut row = self.rows[server].clone();
                row.remove(object);
                row.push(self.rows[server][object]);
                row.extend_from_slice(symbol);
                row
            })
            .collect();
        last_unknown(self.field, system, self.objects)
    }
}

fn rows_of(rows: &[Row], set: ServerSet) -> Vec<Row> {
    rows.iter()
        .enumerate()
        .filter(|(server, _)| set >> server & 1 == 1)
        .map(|(_, row)| row.clone())
        .collect()
}

/// An object is recovered exactly where its column adds to the rank: without it
/// the other columns span less.
fn recovered_by(field: Field, rows: &[Row], objects: usize) -> u8 {
    let whole = rank(field, rows.to_vec());
    let adds = |object: &usize| {
        let mut others = rows.to_vec();
        for row in &mut others {
            row.remove(*object);
        }
        rank(field, others) + 1 == whole
    };
    (0..objects).filter(adds).map(|object| 1 << object).sum()
}

#[cfg(test)]
mod tests {
    use super::*;

    fn sizes(servers: u64, objects: u64, cells: u64) -> Sizes {
        Sizes { servers, objects, cells }
    }

    fn five_offices() -> Code {
        let table = [1, 0, 0, 0, 1, 0, 0, 0, 1, 1, 1, 1, 1, 2, 1];
        Code::new(Field::Mod251, sizes(5, 3, 1), &table).expect("a good code")
    }

    #[test]
    fn figures_of_five_offices() {
        let code = five_offices();
        let values: [&[u8]; 3] = [&[100], &[200], &[250]];
        assert_eq!(code.symbol(3, &values), [48]);
        assert_eq!(code.symbol(4, &values), [248]);
        assert!(code.recovers(0b11000, 1));
        assert!(!code.recovers(0b11000, 0));
        let symbols: [(usize, &[u8]); 2] = [(3, &[48]), (4, &[248])];
        let decoded = code.decode(1, symbols.into_iter()).expect("recovered");
        assert_eq!(decoded.cells, [200]);
        assert!(code.decode(0, symbols.into_iter()).is_none());
    }

    #[test]
    fn layout_refuses_in_order() {
        let refused = |n, k, w, table: &[u8]| Code::new(Field::Mod251, sizes(n, k, w), table).err();
        assert_eq!(refused(1, 9, 9, &[]), Some(Refusal::ServersOutOfBounds));
        assert_eq!(refused(2, 7, 99, &[]), Some(Refusal::ObjectsOutOfBounds));
        assert_eq!(refused(2, 1, 17, &[]), Some(Refusal::CellsOutOfBounds));
        assert_eq!(refused(2, 1, 16, &[1, 251]), Some(Refusal::NoTable));
        assert_eq!(refused(2, 1, 16, &[1]), Some(Refusal::NoTable));
        assert_eq!(refused(2, 1, 16, &[0, 0]), Some(Refusal::ObjectNotRecovered));
        assert_eq!(refused(2, 1, 16, &[0, 250]), None);
    }

    /// Recovery by its definition: no list of values that differs in the object
    /// has symbols 0 at all the servers. Two objects are few enough to try all.
    #[test]
    fn recovery_against_all_values() {
        for field in [Field::Mod251, Field::Gf256] {
            let table = [1, 0, 2, 4, 1, 2, 0, 0];
            let code = Code::new(field, sizes(4, 2, 1), &table).expect("a good code");
            for (set, object) in (0..16u8).flat_map(|set| [(set, 0), (set, 1)]) {
                let vanishes = |a: u8, b: u8| {
                    (0..4)
                        .filter(|s| set >> s & 1 == 1)
                        .all(|s| code.symbol(s, &[&[a], &[b]]) == [0])
                };
                let elements = || (0..=255).filter(|a| field.contains(*a));
                let ambiguous =
                    elements().any(|a| elements().any(|b| [a, b][object] != 0 && vanishes(a, b)));
                assert_eq!(code.recovers(set, object), !ambiguous);
            }
        }
    }
}
