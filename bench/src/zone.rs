//! Zones as closed difference-bound matrices. M is n + 1; index 0 is the
//! clock's zero.

use evidence::case::{Times, DEPARTURES};

/// Stands for a bound that is not there. Finite bounds stay below 714,000,000 in
/// size for every case, and what constrains a set below 180,000,000, so the sum of
/// two bounds and a constraint fits.
pub const NONE: i32 = i32::MAX;

/// Where the times of a set do not exist.
#[derive(Clone, Copy, Debug, PartialEq, Eq)]
pub struct Empty;

/// A set of times, not empty: the greatest x(i) - x(j) for each pair.
#[derive(Clone, Copy, Debug)]
pub struct Zone<const M: usize>([[i32; M]; M]);

impl<const M: usize> PartialEq for Zone<M> {
    /// One comparison of memory, not one for each row.
    fn eq(&self, other: &Zone<M>) -> bool {
        self.0.as_flattened() == other.0.as_flattened()
    }
}

impl<const M: usize> Zone<M> {
    /// All times.
    pub fn everything() -> Zone<M> {
        let mut most = [[NONE; M]; M];
        for (i, row) in most.iter_mut().enumerate() {
            row[i] = 0;
        }
        Zone(most)
    }

    /// A place of a bound in which another set differs, if there is one. This place is
    /// looked at first.
    pub fn differs(&self, other: &Zone<M>, place: usize) -> Option<usize> {
        let (bounds, others) = (self.0.as_flattened(), other.0.as_flattened());
        if bounds[place] != others[place] {
            return Some(place);
        }
        (0..M * M).find(|&place| bounds[place] != others[place])
    }

    /// The greatest x(i) - x(j), if there is one.
    pub fn bound(&self, i: usize, j: usize) -> Option<i32> {
        let bound = self.0[i][j];
        (bound != NONE).then_some(bound)
    }

    /// The greatest x(i) - x(j) for every j, `NONE` where there is none.
    pub fn row(&self, i: usize) -> &[i32; M] {
        &self.0[i]
    }

    /// One more constraint, x(a) - x(b) <= c, in place. Says whether any bound
    /// changed. Row b and column a do not change, since the set is not empty.
    pub fn constrain(&mut self, a: usize, b: usize, c: i32) -> Result<bool, Empty> {
        if self.0[a][b] <= c {
            return Ok(false);
        }
        if self.bound(b, a).is_some_and(|back| back + c < 0) {
            return Err(Empty);
        }
        let rest = self.0[b];
        for row in self.0.iter_mut().filter(|row| row[a] != NONE) {
            let way = row[a] + c;
            // The row changes nowhere if it does not change here: all bounds are tightest.
            if row[b] <= way {
                continue;
            }
            for (most, &rest) in row.iter_mut().zip(&rest) {
                if rest != NONE {
                    *most = (*most).min(way + rest);
                }
            }
        }
        Ok(true)
    }

    /// The bounds of a pattern too, in place.
    pub fn meet(&mut self, pattern: &[(usize, usize, i32)]) -> Result<(), Empty> {
        for &(i, j, bound) in pattern {
            self.constrain(i, j, bound)?;
        }
        Ok(())
    }

    /// Moves the times by so many seconds, in place: what bounds differences stays.
    pub fn delay(&mut self, seconds: i32) {
        for i in 1..M {
            if self.0[i][0] != NONE {
                self.0[i][0] += seconds;
            }
            if self.0[0][i] != NONE {
                self.0[0][i] -= seconds;
            }
        }
    }

    /// By how many seconds the times are later than those of another set, as the
    /// first bound against the clock that both have tells it.
    pub fn delay_from(&self, other: &Zone<M>) -> Option<i32> {
        let more = |one: Option<i32>, other: Option<i32>| Some(one? - other?);
        (1..M).find_map(|i| {
            let above = more(self.bound(i, 0), other.bound(i, 0));
            above.or_else(|| more(other.bound(0, i), self.bound(0, i)))
        })
    }

    /// The start picked, and the set brought down to it: for each departure in
    /// turn the greatest time; if there is no greatest, the least; if neither, 0.
    pub fn pick(&mut self) -> Result<Times, Empty> {
        let mut times = [0; DEPARTURES];
        for i in 1..M {
            let time = match (self.bound(0, i), self.bound(i, 0)) {
                (_, Some(greatest)) => greatest,
                (Some(below), None) => -below,
                (None, None) => 0,
            };
            self.constrain(i, 0, time)?;
            self.constrain(0, i, -time)?;
            times[i - 1] = i64::from(time);
        }
        Ok(times)
    }
}
