//! A decision in plain Rust, unverified: the library's algorithm, compiled once
//! for each number of departures. M is n + 1; index 0 is the clock's zero. All
//! numbers are whole numbers of parts of a second.

use crate::for_size;
use evidence::archive::{Decided, Decision};
use evidence::case::{pair, Bound, Case, Pattern, Times, DEPARTURES};
use evidence::exact::without_start;
use evidence::selections::{only_differences, parts_of};

/// Stands for a bound that is not there.
const NONE: i64 = i64::MAX;

/// Stands for a blank.
const BLANK: i64 = i64::MIN;

/// What a decision cost, in numbers that are the same on every machine.
#[derive(Clone, Copy, Debug, Default, PartialEq, Eq)]
pub struct Cost {
    /// Columns that were tried.
    pub steps: usize,
    /// Constraints that changed a set.
    pub changes: u64,
}

/// Where the times of a set do not exist.
struct Empty;

/// A column was to be tried and no step was left.
struct Spent;

/// A set of times, not empty: the greatest x(i) - x(j) for each pair.
#[derive(Clone, Copy)]
struct Set<const M: usize>([[i64; M]; M]);

impl<const M: usize> Set<M> {
    /// The times of a pattern.
    fn of(pattern: &Pattern, parts: i64) -> Result<Set<M>, Empty> {
        let mut set = Set([[NONE; M]; M]);
        for i in 0..M {
            set.0[i][i] = 0;
        }
        for i in 0..M {
            for j in (0..M).filter(|&j| j != i) {
                if let Some(Bound { value, strict }) = pattern[pair(M - 1, i, j)] {
                    set.constrain(i, j, value * parts - i64::from(strict))?;
                }
            }
        }
        Ok(set)
    }

    /// One more constraint, x(a) - x(b) <= c, in place. Says whether any bound
    /// changed. Row b and column a do not change, since the set is not empty.
    fn constrain(&mut self, a: usize, b: usize, c: i64) -> Result<bool, Empty> {
        if self.0[a][b] <= c {
            return Ok(false);
        }
        let back = self.0[b][a];
        if back != NONE && back + c < 0 {
            return Err(Empty);
        }
        let rest = self.0[b];
        for row in self.0.iter_mut().filter(|row| row[a] != NONE) {
            let way = row[a] + c;
            if row[b] <= way {
                continue;
            }
            for (most, &rest) in row.iter_mut().zip(&rest) {
                if rest != NONE {
                    *most = (*most).min(way + rest);
                }
            }
        }
        Ok(true)
    }

    /// The start picked: for each departure in turn the greatest time given those
    /// before it; if there is no greatest, the least; if neither, 0.
    fn pick(&self) -> Times {
        let mut times = [0; DEPARTURES];
        for i in 1..M {
            let at = |j: usize| if j == 0 { 0 } else { times[j - 1] };
            let above = (0..i).filter(|&j| self.0[i][j] != NONE);
            let below = (0..i).filter(|&j| self.0[j][i] != NONE);
            let greatest = above.map(|j| at(j) + self.0[i][j]).min();
            let least = below.map(|j| at(j) - self.0[j][i]).max();
            times[i - 1] = greatest.or(least).unwrap_or(0);
        }
        times
    }
}

/// A power of the table. Row 0 is the clock's, whose one time is 0.
#[derive(Clone, Copy)]
struct Power<const M: usize>([[i64; M]; M]);

impl<const M: usize> Power<M> {
    fn of(case: &Case, parts: i64) -> Power<M> {
        let mut power = Power([[BLANK; M]; M]);
        power.0[0][0] = 0;
        for i in 1..M {
            for j in 1..M {
                power.0[i][j] = case.time(i - 1, j - 1).map_or(BLANK, |time| time * parts);
            }
        }
        power
    }

    /// The max-plus product with a power.
    fn product(&self, power: &Power<M>) -> Power<M> {
        let mut times = [[BLANK; M]; M];
        times[0][0] = 0;
        for (row, ways) in times.iter_mut().zip(&self.0).skip(1) {
            for (l, &way) in ways.iter().enumerate().filter(|(_, &way)| way != BLANK) {
                for (most, &time) in row.iter_mut().zip(&power.0[l]) {
                    if time != BLANK {
                        *most = (*most).max(way + time);
                    }
                }
            }
        }
        Power(times)
    }

    /// Whether the other is this one with one number added to every time.
    fn repeated(&self, other: &Power<M>) -> bool {
        let mut added = None;
        let (one, other) = (self.0[1..].as_flattened(), other.0[1..].as_flattened());
        one.iter().zip(other).all(|pair| match pair {
            (&BLANK, &BLANK) => true,
            (&BLANK, _) | (_, &BLANK) => false,
            (one, other) => *added.get_or_insert(other - one) == other - one,
        })
    }
}

/// The search at one cycle: from a set to the target by one step of a power.
struct Descent<'a, const M: usize> {
    power: &'a Power<M>,
    target: &'a Set<M>,
    columns: [usize; M],
    left: usize,
    changes: u64,
}

impl<const M: usize> Descent<'_, M> {
    /// Adds to a set what row i adds with its column: the first that attains the
    /// largest sum, and the images of rows 0 to i keep to the target.
    fn add_row(&mut self, set: &mut Set<M>, i: usize) -> Result<(), Empty> {
        let s = self.columns[i];
        let row = &self.power.0[i];
        for j in (1..M).filter(|&j| row[j] != BLANK) {
            let most = row[s] - row[j] - i64::from(j < s);
            self.changes += u64::from(set.constrain(j, s, most)?);
        }
        for (l, &other) in self.columns.iter().enumerate().take(i) {
            let apart = self.power.0[l][other] - row[s];
            let (above, below) = (self.target.0[i][l], self.target.0[l][i]);
            if above != NONE {
                self.changes += u64::from(set.constrain(s, other, above + apart)?);
            }
            if below != NONE {
                self.changes += u64::from(set.constrain(other, s, below - apart)?);
            }
        }
        Ok(())
    }

    /// The first set that is left after the rows from i on.
    fn from_row(&mut self, set: &Set<M>, i: usize) -> Result<Option<Set<M>>, Spent> {
        if i == M {
            return Ok(Some(*set));
        }
        for s in 1..M {
            if self.power.0[i][s] == BLANK {
                continue;
            }
            self.left = self.left.checked_sub(1).ok_or(Spent)?;
            self.columns[i] = s;
            let mut narrower = *set;
            if self.add_row(&mut narrower, i).is_err() {
                continue;
            }
            if let Some(found) = self.from_row(&narrower, i + 1)? {
                return Ok(Some(found));
            }
        }
        Ok(None)
    }
}

/// The decision that reaches the target at a cycle, with the start from a set.
fn reached<const M: usize>(case: &Case, cycle: usize, set: &Set<M>) -> Decision {
    Decision {
        decided: Decided::Reached { cycle },
        parts: parts_of(case),
        start: set.pick(),
    }
}

/// Cycle after cycle, with `steps` of them left.
fn sized<const M: usize>(case: &Case, cycles: usize, steps: usize, cost: &mut Cost) -> Decision {
    let parts = parts_of(case) as i64;
    let both = (
        Set::<M>::of(&case.start, parts),
        Set::of(&case.target, parts),
    );
    let (Ok(start), Ok(target)) = both else {
        return without_start(Decided::Never);
    };
    let may_repeat =
        only_differences(case.n, &case.start) || only_differences(case.n, &case.target);
    let table = Power::of(case, parts);
    let (mut power, mut kept) = (table, table);
    for cycle in 1..=cycles {
        let mut descent = Descent {
            power: &power,
            target: &target,
            columns: [0; M],
            left: steps - cost.steps,
            changes: 0,
        };
        let found = descent.from_row(&start, 1);
        cost.steps = steps - descent.left;
        cost.changes += descent.changes;
        match found {
            Err(Spent) => return without_start(Decided::Undecided { cycle }),
            Ok(Some(set)) => return reached(case, cycle, &set),
            Ok(None) => power = table.product(&power),
        }
        if may_repeat && kept.repeated(&power) {
            return without_start(Decided::Never);
        }
        if (cycle + 1).is_power_of_two() {
            kept = power;
        }
    }
    without_start(Decided::Clear { cycles })
}

/// The decision on a case within the limits, and what it cost.
pub fn decide(case: &Case, cycles: usize, steps: usize) -> (Decision, Cost) {
    let mut cost = Cost::default();
    let decision = for_size!(case.n, sized(case, cycles, steps, &mut cost));
    (decision, cost)
}
