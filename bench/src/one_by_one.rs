//! Selections one by one: each selection's set is built from all its
//! constraints, with nothing shared between selections.

use crate::for_size;
use crate::network::Table;
use crate::search::{search, Kept, Lister, Stop};
use crate::zone::{Empty, Zone};
use evidence::archive::Answer;
use evidence::case::Case;

/// How many more selections may be tried.
struct OneByOne {
    left: u64,
}

/// The first selection: the lowest column of each row.
fn first<const M: usize>(table: &Table<M>) -> [usize; M] {
    std::array::from_fn(|row| table.columns(row).next().unwrap_or(0))
}

/// The next selection in the order of words, if there is one.
fn next<const M: usize>(table: &Table<M>, mut columns: [usize; M]) -> Option<[usize; M]> {
    let lowest = first(table);
    for row in (1..M).rev() {
        let higher = table.columns(row).find(|&column| column > columns[row]);
        if let Some(higher) = higher {
            columns[row] = higher;
            return Some(columns);
        }
        columns[row] = lowest[row];
    }
    None
}

/// Brings the set of all times down to that of a selection.
fn constrain<const M: usize>(
    table: &Table<M>,
    zone: &Zone<M>,
    columns: &[usize; M],
    set: &mut Zone<M>,
) -> Result<(), Empty> {
    (1..M).try_for_each(|row| table.add_row(set, zone, columns, row, &mut 0))
}

impl<const M: usize> Lister<M> for OneByOne {
    fn before(&mut self, table: &Table<M>, zone: &Zone<M>, kept: &mut Kept<M>) -> Result<(), Stop> {
        let all_times = Zone::everything();
        let mut selection = Some(first(table));
        while let Some(columns) = selection {
            self.left = self.left.checked_sub(1).ok_or(Stop::Steps)?;
            let built = constrain(table, zone, &columns, kept.zones.add(&all_times));
            kept.keep(built)?;
            selection = next(table, columns);
        }
        Ok(())
    }
}

fn sized<const M: usize>(case: &Case, capacity: usize, limit: u64) -> Option<Answer> {
    let mut one_by_one = OneByOne { left: limit };
    let (answer, _) = search::<M>(case, capacity, &mut one_by_one)?;
    Some(answer)
}

/// The answer on a case within the limits, or none if more than `limit`
/// selections have to be tried.
pub fn verdict(case: &Case, capacity: usize, limit: u64) -> Option<Answer> {
    for_size!(case.n, sized(case, capacity, limit))
}
