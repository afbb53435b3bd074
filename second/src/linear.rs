//! Lists of rows over a field: their rank, and one unknown of a system.

use crate::field::Field;

pub type Row = Vec<u8>;

/// Brings the rows into steps over their first `columns` places and tells how
/// many steps there are. What stands behind those places goes along.
fn into_steps(field: Field, rows: &mut [Row], columns: usize) -> usize {
    let mut steps = 0;
    for column in 0..columns {
        let Some(found) = (steps..rows.len()).find(|r| rows[*r][column] != 0) else {
            continue;
        };
        rows.swap(steps, found);
        clear_below(field, &mut rows[steps..], column);
        steps += 1;
    }
    steps
}

/// Takes so much of the first row from the others that they are 0 in the column.
fn clear_below(field: Field, rows: &mut [Row], column: usize) {
    let Some((first, others)) = rows.split_first_mut() else {
        return;
    };
    let inverse = field.inverse(first[column]);
    for other in others.iter_mut().filter(|row| row[column] != 0) {
        let factor = field.negate(field.multiply(other[column], inverse));
        field.add_multiple(&mut other[column..], factor, &first[column..]);
    }
}

pub fn rank(field: Field, mut rows: Vec<Row>) -> usize {
    let columns = rows.first().map_or(0, Vec::len);
    into_steps(field, &mut rows, columns)
}

/// The last unknown of a system, and whether the system has a solution at all.
#[derive(Debug, PartialEq, Eq)]
pub struct LastUnknown {
    pub cells: Vec<u8>,
    pub solvable: bool,
}

/// Each row is the coefficients of `unknowns` unknowns and then the cells that
/// they add up to. Answers the last unknown, if the coefficients determine it.
pub fn last_unknown(field: Field, mut rows: Vec<Row>, unknowns: usize) -> Option<LastUnknown> {
    let steps = into_steps(field, &mut rows, unknowns);
    let solvable = rows[steps..].iter().all(|row| row[unknowns..].iter().all(|cell| *cell == 0));
    let bottom = &rows[steps.checked_sub(1)?];
    let (others, last) = bottom[..unknowns].split_at(unknowns - 1);
    if others.iter().any(|c| *c != 0) {
        return None;
    }
    let mut cells = bottom[unknowns..].to_vec();
    field.scale(&mut cells, field.inverse(last[0]));
    Some(LastUnknown { cells, solvable })
}

#[cfg(test)]
mod tests {
    use super::*;

    #[test]
    fn rank_counts_independent_rows() {
        let rows = vec![vec![1, 2, 3], vec![2, 4, 6], vec![0, 0, 1]];
        assert_eq!(rank(Field::Mod251, rows), 2);
        assert_eq!(rank(Field::Gf256, vec![]), 0);
    }

    #[test]
    fn a_system_without_solution_is_told() {
        let rows = vec![vec![1, 5], vec![1, 6]];
        let told = last_unknown(Field::Mod251, rows, 1);
        assert!(told.is_some_and(|t| !t.solvable));
        let rows = vec![vec![2, 8], vec![1, 4]];
        let told = last_unknown(Field::Mod251, rows, 1);
        assert!(told.is_some_and(|t| t.solvable && t.cells == [4]));
    }
}
