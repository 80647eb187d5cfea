//! A decision by the words of its definition: k cycles of a table are one cycle
//! of its k-th power, so for each cycle one search over the columns of that
//! power, row by row, from the start to the target. All numbers are whole numbers
//! of parts of a second.

use crate::archive::{Decided, Decision};
use crate::case::{most, Case, DEPARTURES};
use crate::enumeration::in_parts;
use crate::faults;
use crate::selections::{added, only_differences, parts_of, picked, product, Bounds};

/// A decision and how many steps it took.
#[derive(Clone, Copy, Debug, PartialEq, Eq)]
pub struct Exact {
    pub decision: Decision,
    pub steps: usize,
}

/// A column was to be tried and no step was left.
struct Spent;

/// The decision that hands back no start.
pub fn without_start(decided: Decided) -> Decision {
    Decision {
        decided,
        parts: 0,
        start: [0; DEPARTURES],
    }
}

/// The search at one cycle: a power of the table, the target, the steps left.
struct Descent<'a> {
    n: usize,
    power: &'a [Option<i64>],
    target: &'a Bounds,
    steps: usize,
}

impl Descent<'_> {
    /// The power's time in a row and a column, both counted from 1. Row 0 is the
    /// clock's: its one column is 0 and adds 0.
    fn time(&self, row: usize, column: usize) -> Option<i64> {
        match row {
            0 => Some(0),
            _ => self.power[(row - 1) * self.n + column - 1],
        }
    }

    /// What is left of a set if the next row's column is this one, with the columns
    /// of the rows before it: it is the first that attains the row's largest sum,
    /// and the images of the rows so far keep to the target.
    fn with_row(&self, set: &Bounds, columns: &[usize], column: usize) -> Option<Bounds> {
        let row = columns.len();
        let time = self.time(row, column)?;
        let mut set = set.clone();
        for j in 1..=self.n {
            if let Some(other) = self.time(row, j) {
                let less = i64::from(j < column);
                set.add(j, column, most(time - other - less));
            }
        }
        for (above, &chosen) in columns.iter().enumerate() {
            let apart = self.time(above, chosen)? - time;
            if let Some(bound) = self.target.at(row, above) {
                set.add(column, chosen, most(bound.value + apart));
            }
            if let Some(bound) = self.target.at(above, row) {
                set.add(chosen, column, most(bound.value - apart));
            }
        }
        set.closed()
    }

    /// The first set that is left after all rows, with the columns of the rows so
    /// far. Lower columns come first; each that is tried takes a step.
    fn descend(&mut self, set: Bounds, columns: &mut Vec<usize>) -> Result<Option<Bounds>, Spent> {
        let row = columns.len();
        if row > self.n {
            return Ok(Some(set));
        }
        for column in 1..=self.n {
            if self.time(row, column).is_none() {
                continue;
            }
            self.steps = self.steps.checked_sub(1).ok_or(Spent)?;
            let Some(narrower) = self.with_row(&set, columns, column) else {
                continue;
            };
            columns.push(column);
            let found = self.descend(narrower, columns)?;
            columns.pop();
            if found.is_some() {
                return Ok(found);
            }
        }
        Ok(None)
    }
}

/// The bounds of both patterns of a case in parts, or none if one is empty.
fn patterns(scaled: &Case) -> Option<(Bounds, Bounds)> {
    // Less than b parts is at most b - 1.
    let start = Bounds::stated(scaled.n, &scaled.start).in_parts(1)?;
    let target = Bounds::stated(scaled.n, &scaled.target).in_parts(1)?;
    Some((start, target))
}

/// The decision that reaches the target at a cycle, with the start from a set.
fn reached(case: &Case, cycle: usize, set: &Bounds) -> Decision {
    Decision {
        decided: Decided::Reached { cycle },
        parts: parts_of(case),
        start: picked(set),
    }
}

/// Cycle after cycle on a case within the limits, with `left` steps.
fn search(case: &Case, cycles: usize, left: &mut usize) -> Decision {
    let scaled = in_parts(case, parts_of(case));
    let Some((start, target)) = patterns(&scaled) else {
        return without_start(Decided::Never);
    };
    let n = case.n;
    let allowed = only_differences(n, &case.start) || only_differences(n, &case.target);
    let mut power = scaled.times[..n * n].to_vec();
    let mut kept = power.clone();
    for cycle in 1..=cycles {
        let mut descent = Descent {
            n,
            power: &power,
            target: &target,
            steps: *left,
        };
        let found = descent.descend(start.clone(), &mut vec![0]);
        *left = descent.steps;
        match found {
            Err(Spent) => return without_start(Decided::Undecided { cycle }),
            Ok(Some(set)) => return reached(case, cycle, &set),
            Ok(None) => power = product(&scaled, &power),
        }
        if allowed && added(&kept, &power).is_some() {
            return without_start(Decided::Never);
        }
        if (cycle + 1).is_power_of_two() {
            kept = power.clone();
        }
    }
    without_start(Decided::Clear { cycles })
}

/// The decision on any case over any number of cycles, with so many steps.
pub fn decide(case: &Case, cycles: usize, steps: usize) -> Exact {
    if let Err(fault) = faults::of_decision(case, cycles) {
        let decision = without_start(Decided::Refused(fault));
        return Exact { decision, steps: 0 };
    }
    let mut left = steps;
    let decision = search(case, cycles, &mut left);
    Exact {
        decision,
        steps: steps - left,
    }
}
