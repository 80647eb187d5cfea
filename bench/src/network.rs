//! The table of a case as the plain versions read it, what a row adds to a
//! preimage, and the first repeated power. M is n + 1.

use crate::zone::{Empty, Zone};
use evidence::case::Case;

/// Stands for a blank.
pub const BLANK: i32 = i32::MIN;

/// The powers that are compared.
const POWERS: usize = 64;

/// A table or a power of it. Row 0 is the clock's, whose one time is 0.
#[derive(Clone, Copy, Debug, PartialEq, Eq)]
pub struct Table<const M: usize>([[i32; M]; M]);

impl<const M: usize> Table<M> {
    pub fn new(case: &Case) -> Table<M> {
        let mut times = [[BLANK; M]; M];
        times[0][0] = 0;
        for (i, row) in times.iter_mut().enumerate().skip(1) {
            for (j, time) in row.iter_mut().enumerate().skip(1) {
                *time = case.time(i - 1, j - 1).map_or(BLANK, |time| time as i32);
            }
        }
        Table(times)
    }

    /// A(i, j) for every j, `BLANK` where there is none.
    pub fn row(&self, i: usize) -> &[i32; M] {
        &self.0[i]
    }

    /// The columns that hold a time in row i.
    pub fn columns(&self, i: usize) -> impl Iterator<Item = usize> + '_ {
        (1..M).filter(move |&j| self.0[i][j] != BLANK)
    }

    /// The max-plus product with a power.
    fn product(&self, power: &Table<M>) -> Table<M> {
        let mut times = [[BLANK; M]; M];
        for (i, row) in times.iter_mut().enumerate().skip(1) {
            for l in self.columns(i) {
                let way = self.0[i][l];
                for (most, &time) in row.iter_mut().zip(&power.0[l]) {
                    if time != BLANK {
                        *most = (*most).max(way + time);
                    }
                }
            }
        }
        Table(times)
    }

    /// The power less its first time, so that powers which differ by one
    /// number become the same.
    fn reduced(mut self) -> Table<M> {
        self.0[0] = [BLANK; M];
        let times = self.0.as_flattened_mut();
        let first = times.iter().copied().find(|&time| time != BLANK);
        for time in times.iter_mut().filter(|time| **time != BLANK) {
            *time -= first.unwrap_or(0);
        }
        self
    }

    /// The least q from 2 to 64 such that power q is an earlier one with one
    /// number added to every time.
    pub fn first_repeat(&self) -> Option<usize> {
        let mut power = *self;
        let mut met = vec![power.reduced()];
        for q in 2..=POWERS {
            power = self.product(&power);
            let reduced = power.reduced();
            if met.contains(&reduced) {
                return Some(q);
            }
            met.push(reduced);
        }
        None
    }

    /// Adds to a set what row i adds for the preimage of a zone: its column
    /// attains the largest sum, and the images of rows 0 to i keep to the zone.
    /// `columns` has the columns of rows 0 to i; `changes` counts the
    /// constraints that change the set.
    pub fn add_row(
        &self,
        set: &mut Zone<M>,
        zone: &Zone<M>,
        columns: &[usize; M],
        i: usize,
        changes: &mut u64,
    ) -> Result<(), Empty> {
        let column = columns[i];
        let most = self.0[i][column];
        for j in self.columns(i) {
            *changes += u64::from(set.constrain(j, column, most - self.0[i][j])?);
        }
        for (row, &other) in columns.iter().enumerate().take(i) {
            let apart = self.0[row][other] - most;
            if let Some(bound) = zone.bound(i, row) {
                *changes += u64::from(set.constrain(column, other, bound + apart)?);
            }
            if let Some(bound) = zone.bound(row, i) {
                *changes += u64::from(set.constrain(other, column, bound - apart)?);
            }
        }
        Ok(())
    }
}
