//! Rows one by one: the product's algorithm in plain Rust, unverified. A set
//! that is empty after some rows ends all selections that begin so; one that was
//! met before at the same row is dropped, and so is one of which some row leaves
//! nothing, whatever its column. Each set is built where it stays; what is copied
//! is the set of the row before, to that place.

use crate::for_size;
use crate::needs::Needs;
use crate::network::Table;
use crate::search::{search, Kept, Lister, Stop};
use crate::sets::Sets;
use crate::zone::{Empty, Zone};
use evidence::archive::Answer;
use evidence::case::Case;

/// Sets that are remembered for a row of n departures, as many as in the library.
pub fn remembered(n: usize) -> usize {
    match n {
        ..=7 => 128,
        _ => 32,
    }
}

/// What a search cost, in numbers that are the same on every machine.
#[derive(Clone, Copy, Debug, Default, PartialEq, Eq)]
pub struct Cost {
    /// Selections whose set was built to the end and is not empty.
    pub selections: u64,
    /// Tests whether a row with a column may leave something of a set.
    pub tests: u64,
    /// Sets that were built, to the end or until they were empty.
    pub built: u64,
    /// Constraints that changed a set.
    pub changes: u64,
    /// Comparisons of two sets.
    pub compared: u64,
    /// Sets that were not remembered because the table of their row was full.
    pub forgotten: u64,
}

/// What a search may use: sets that it remembers for a row, and constraints that
/// change a set.
#[derive(Clone, Copy)]
struct Effort {
    remembered: usize,
    changes: u64,
}

/// The sets met at each row but the last, for the present zone.
struct Rows<const M: usize> {
    met: Vec<Sets<M>>,
    effort: Effort,
    cost: Cost,
}

/// What the rows for one zone share.
struct Task<'a, const M: usize> {
    table: &'a Table<M>,
    zone: &'a Zone<M>,
    needs: Needs<'a, M>,
    columns: [usize; M],
    effort: Effort,
    cost: &'a mut Cost,
}

impl<const M: usize> Task<'_, M> {
    /// Whether a row with a column may leave something of a set.
    fn fit(&mut self, set: &Zone<M>, row: usize, column: usize) -> bool {
        self.cost.tests += 1;
        self.needs.fit(set, row, column)
    }

    /// Whether every row may: those up to this one with their columns, the later
    /// ones with one of theirs.
    fn all_fit(&mut self, set: &Zone<M>, row: usize) -> bool {
        let table = self.table;
        let mut later = row + 1..M;
        (0..=row).all(|row| self.fit(set, row, self.columns[row]))
            && later.all(|row| table.columns(row).any(|column| self.fit(set, row, column)))
    }

    /// Adds this row with a column to a set.
    fn add_row(&mut self, set: &mut Zone<M>, row: usize, column: usize) -> Result<(), Empty> {
        self.columns[row] = column;
        self.cost.built += 1;
        let changes = &mut self.cost.changes;
        self.table
            .add_row(set, self.zone, &self.columns, row, changes)
    }

    /// Builds the set of this row with a column out of what the rows before left.
    /// It stays, and this is true, if it is not empty, was not met before and every
    /// row may leave something of it.
    fn build(&mut self, here: &mut Sets<M>, set: &Zone<M>, row: usize, column: usize) -> bool {
        if !self.fit(set, row, column) {
            return false;
        }
        let built = self.add_row(here.add(set), row, column);
        if !here.settle(built) {
            return false;
        }
        let stays = self.all_fit(here.last(), row);
        if !stays {
            here.drop_last();
        }
        stays
    }

    /// All selections from this row on, given what the rows before left: each
    /// set is built out of that in the next free place of its row's table. `met`
    /// has the tables from this row on.
    fn rows_from(
        &mut self,
        met: &mut [Sets<M>],
        kept: &mut Kept<M>,
        row: usize,
        set: &Zone<M>,
    ) -> Result<(), Stop> {
        let Some((here, later)) = met.split_first_mut() else {
            return self.last_row(kept, row, set);
        };
        if self.cost.changes > self.effort.changes {
            return Err(Stop::Steps);
        }
        for column in self.table.columns(row) {
            if self.build(here, set, row, column) {
                self.rows_from(later, kept, row + 1, here.last())?;
                self.remember(here);
            }
        }
        Ok(())
    }

    /// The last row's sets, each built at the place of the list's next zone.
    fn last_row(&mut self, kept: &mut Kept<M>, row: usize, set: &Zone<M>) -> Result<(), Stop> {
        for column in self.table.columns(row) {
            if self.fit(set, row, column) {
                let built = self.add_row(kept.zones.add(set), row, column);
                self.cost.selections += u64::from(built.is_ok());
                kept.keep(built)?;
            }
        }
        Ok(())
    }

    /// Remembers the last set of a table, if there is room.
    fn remember(&mut self, met: &mut Sets<M>) {
        if met.all().len() > self.effort.remembered {
            met.drop_last();
            self.cost.forgotten += 1;
        }
    }
}

impl<const M: usize> Lister<M> for Rows<M> {
    fn before(&mut self, table: &Table<M>, zone: &Zone<M>, kept: &mut Kept<M>) -> Result<(), Stop> {
        self.met.iter_mut().for_each(Sets::clear);
        let mut task = Task {
            table,
            zone,
            needs: Needs::new(table, zone),
            columns: [0; M],
            effort: self.effort,
            cost: &mut self.cost,
        };
        task.rows_from(&mut self.met, kept, 1, &Zone::everything())
    }
}

/// One place more for each row than sets are remembered.
fn sized<const M: usize>(case: &Case, capacity: usize, effort: Effort) -> Option<(Answer, Cost)> {
    let mut rows: Rows<M> = Rows {
        met: (2..M).map(|_| Sets::new(effort.remembered + 1)).collect(),
        effort,
        cost: Cost::default(),
    };
    let (answer, compared) = search(case, capacity, &mut rows)?;
    let met: u64 = rows.met.iter().map(|sets| sets.compared).sum();
    rows.cost.compared = met + compared;
    Some((answer, rows.cost))
}

/// The answer on a case within the limits, and what it cost, or none if more than
/// so many constraints change a set.
pub fn within(case: &Case, capacity: usize, changes: u64) -> Option<(Answer, Cost)> {
    let effort = Effort {
        remembered: remembered(case.n),
        changes,
    };
    for_size!(case.n, sized(case, capacity, effort))
}

/// The same without a limit.
pub fn verdict(case: &Case, capacity: usize) -> (Answer, Cost) {
    within(case, capacity, u64::MAX).expect("no limit on steps")
}

/// The same with so many sets remembered for a row. With 0, no set is dropped
/// because it was met before.
pub fn remembering(case: &Case, capacity: usize, remembered: usize) -> (Answer, Cost) {
    let effort = Effort {
        remembered,
        changes: u64::MAX,
    };
    for_size!(case.n, sized(case, capacity, effort)).expect("no limit on steps")
}
