//! What a zone asks of the times before it, whatever the selection, and a test of
//! a set by it that builds none. M is n + 1.

use crate::network::{Table, BLANK};
use crate::zone::Zone;

/// Stands for a difference of which nothing is asked: less than any bound, also
/// with a time taken off.
const NOTHING: i32 = i32::MIN / 2;

/// The least x'(r) - x(j) of times x whose image x' is in the zone. For every row o,
/// x'(o) is at least x(j) + A(o, j) and at most x'(r) with the zone's bound of o and r.
pub struct Needs<'a, const M: usize> {
    table: &'a Table<M>,
    least: [[i32; M]; M],
}

impl<'a, const M: usize> Needs<'a, M> {
    pub fn new(table: &'a Table<M>, zone: &Zone<M>) -> Needs<'a, M> {
        let mut least = [[NOTHING; M]; M];
        for o in 0..M {
            for (r, least) in least.iter_mut().enumerate() {
                if let Some(bound) = zone.bound(o, r) {
                    raise(least, table.row(o), bound);
                }
            }
        }
        Needs { table, least }
    }

    /// Whether a set may have times for which this column attains the largest sum of
    /// row r and whose image is in the zone. All differences are looked at, since
    /// that is faster than to end at the first.
    pub fn fit(&self, set: &Zone<M>, r: usize, column: usize) -> bool {
        let time = self.table.row(r)[column];
        let pairs = set.row(column).iter().zip(&self.least[r]);
        pairs.fold(true, |fit, (&most, &least)| fit & (most >= least - time))
    }
}

/// Raises each of a row's least differences to a time less the bound.
fn raise<const M: usize>(least: &mut [i32; M], times: &[i32; M], bound: i32) {
    for (least, &time) in least.iter_mut().zip(times) {
        if time != BLANK {
            *least = (*least).max(time - bound);
        }
    }
}
