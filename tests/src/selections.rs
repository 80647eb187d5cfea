//! Brute search 2: the whole verdict by the words of the statement. Lists are
//! made by trying every selection on every zone.

use crate::archive::{Answer, Fault, Verdict};
use crate::case::{most, pair, Bound, Case, Pattern, Times, DEPARTURES};

/// The column selected in each row.
pub type Selection = [usize; DEPARTURES];

/// Whether a bound allows less than another: of equal numbers the strict one.
fn tighter(one: Bound, other: Bound) -> bool {
    one.value < other.value || one.value == other.value && one.strict && !other.strict
}

/// What two bounds in a row allow; it is strict if one of them is.
fn sum(one: Bound, other: Bound) -> Bound {
    Bound {
        value: one.value + other.value,
        strict: one.strict || other.strict,
    }
}

/// For each pair i, j from 0 to n a bound on x(i) - x(j), or none, row by row.
#[derive(Clone, Debug, PartialEq, Eq)]
pub struct Bounds {
    n: usize,
    bounds: Vec<Option<Bound>>,
}

impl Bounds {
    /// No bound, but that x(i) - x(i) is 0.
    pub fn free(n: usize) -> Bounds {
        let mut all = vec![None; (n + 1) * (n + 1)];
        for i in 0..=n {
            all[i * (n + 1) + i] = Some(most(0));
        }
        Bounds { n, bounds: all }
    }

    /// The bound on x(i) - x(j).
    pub fn at(&self, i: usize, j: usize) -> Option<Bound> {
        self.bounds[i * (self.n + 1) + j]
    }

    /// The bounds that a pattern states.
    pub fn stated(n: usize, pattern: &Pattern) -> Bounds {
        let mut bounds = Bounds::free(n);
        for i in 0..=n {
            for j in (0..=n).filter(|&j| j != i) {
                if let Some(bound) = pattern[pair(n, i, j)] {
                    bounds.add(i, j, bound);
                }
            }
        }
        bounds
    }

    /// One more bound on x(i) - x(j).
    pub fn add(&mut self, i: usize, j: usize, bound: Bound) {
        let place = &mut self.bounds[i * (self.n + 1) + j];
        if place.is_none_or(|known| tighter(bound, known)) {
            *place = Some(bound);
        }
    }

    /// The tightest bounds (Floyd and Warshall), or none for an empty set: then
    /// the way from some i back to itself is negative, or 0 and strict.
    pub fn closed(mut self) -> Option<Bounds> {
        let size = self.n + 1;
        for via in 0..size {
            let onward = self.bounds[via * size..(via + 1) * size].to_vec();
            for ways in self.bounds.chunks_mut(size) {
                let Some(left) = ways[via] else {
                    continue;
                };
                for (known, right) in ways.iter_mut().zip(&onward) {
                    let way = right.map(|right| sum(left, right));
                    if way.is_some_and(|way| known.is_none_or(|known| tighter(way, known))) {
                        *known = way;
                    }
                }
            }
        }
        let stays = |i: usize| self.at(i, i) == Some(most(0));
        (0..size).all(stays).then_some(self)
    }

    /// What both sets have in common.
    pub fn and(mut self, other: &Bounds) -> Option<Bounds> {
        for i in 0..=self.n {
            for j in 0..=self.n {
                if let Some(bound) = other.at(i, j) {
                    self.add(i, j, bound);
                }
            }
        }
        self.closed()
    }

    /// The times of the set that are whole numbers of parts of a second: less
    /// than b seconds is at most b * parts - 1 of them. None if there are none.
    pub fn in_parts(&self, parts: usize) -> Option<Bounds> {
        let mut set = Bounds::free(self.n);
        for i in 0..=self.n {
            for j in 0..=self.n {
                if let Some(Bound { value, strict }) = self.at(i, j) {
                    set.add(i, j, most(value * parts as i64 - i64::from(strict)));
                }
            }
        }
        set.closed()
    }

    /// Whether times in parts of a second lie in the set.
    pub fn holds(&self, parts: usize, x: &Times) -> bool {
        let at = |i: usize| if i == 0 { 0 } else { x[i - 1] };
        let kept = |i: usize, j: usize| {
            self.at(i, j).is_none_or(|bound| {
                let (apart, allowed) = (at(i) - at(j), bound.value * parts as i64);
                apart < allowed || apart == allowed && !bound.strict
            })
        };
        (0..=self.n).all(|i| (0..=self.n).all(|j| kept(i, j)))
    }

    /// Whether every finite bound is within request [9]'s limit for list k.
    fn within_limit(&self, k: usize) -> bool {
        let limit = (self.n * (k + 1)) as i64 * 1_000_000;
        let mut finite = self.bounds.iter().flatten();
        finite.all(|bound| bound.value.abs() <= limit)
    }
}

/// All selections, row 1 first, lower column first.
pub fn selections(case: &Case) -> Vec<Selection> {
    let mut all = vec![[0; DEPARTURES]];
    for row in 0..case.n {
        let mut longer = Vec::new();
        for selection in &all {
            for column in (0..case.n).filter(|&j| case.time(row, j).is_some()) {
                let mut next: Selection = *selection;
                next[row] = column;
                longer.push(next);
            }
        }
        all = longer;
    }
    all
}

/// The times for which each selected column attains its row's largest sum and
/// the image is in the zone.
pub fn before(case: &Case, zone: &Bounds, selection: &Selection) -> Option<Bounds> {
    let mut set = Bounds::free(case.n);
    // The image of departure i is that of its column with its time added; the
    // clock's zero stays where it is.
    let mut column = [0; DEPARTURES + 1];
    let mut added = [0; DEPARTURES + 1];
    for row in 0..case.n {
        let selected = selection[row];
        let largest = case.time(row, selected).expect("a selected time");
        column[row + 1] = selected + 1;
        added[row + 1] = largest;
        for j in 0..case.n {
            if let Some(time) = case.time(row, j) {
                set.add(j + 1, selected + 1, most(largest - time));
            }
        }
    }
    for i in 0..=case.n {
        for j in 0..=case.n {
            if let Some(bound) = zone.at(i, j) {
                let back = most(added[j] - added[i]);
                set.add(column[i], column[j], sum(bound, back));
            }
        }
    }
    set.closed()
}

/// The list made from another; it ends at the first zone beyond the capacity.
pub fn next_list(
    case: &Case,
    selections: &[Selection],
    list: &[Bounds],
    capacity: usize,
) -> Vec<Bounds> {
    let mut kept: Vec<Bounds> = Vec::new();
    for zone in list {
        for selection in selections {
            match before(case, zone, selection) {
                Some(set) if !kept.contains(&set) => kept.push(set),
                _ => continue,
            }
            if kept.len() > capacity {
                return kept;
            }
        }
    }
    kept
}

/// The max-plus product of the table and a power.
pub fn product(case: &Case, power: &[Option<i64>]) -> Vec<Option<i64>> {
    let n = case.n;
    let entry = |i: usize, j: usize| {
        let sums = (0..n).filter_map(|l| Some(case.time(i, l)? + power[l * n + j]?));
        sums.max()
    };
    (0..n * n)
        .map(|place| entry(place / n, place % n))
        .collect()
}

/// The one number that makes one power of the other when added to every time.
pub fn added(one: &[Option<i64>], other: &[Option<i64>]) -> Option<i64> {
    let mut number = None;
    let shifted = one.iter().zip(other).all(|pair| match pair {
        (None, None) => true,
        (Some(a), Some(b)) => *number.get_or_insert(b - a) == b - a,
        _ => false,
    });
    number.filter(|_| shifted)
}

/// The first repeated power q, the power p that it repeats, and what is added.
#[derive(Clone, Copy, Debug, PartialEq, Eq)]
pub struct Repeat {
    pub q: usize,
    pub p: usize,
    pub added: i64,
}

/// The first repeat among the powers 1 to 64, if there is one.
pub fn first_repeat(case: &Case) -> Option<Repeat> {
    let mut powers = vec![case.times[..case.n * case.n].to_vec()];
    for q in 2..=64 {
        let power = product(case, &powers[q - 2]);
        for (earlier, p) in powers.iter().zip(1..) {
            if let Some(added) = added(earlier, &power) {
                return Some(Repeat { q, p, added });
            }
        }
        powers.push(power);
    }
    None
}

/// Whether no stated bound names x(0).
pub fn only_differences(n: usize, pattern: &Pattern) -> bool {
    (1..=n).all(|i| pattern[pair(n, i, 0)].is_none() && pattern[pair(n, 0, i)].is_none())
}

/// The searched horizon M, and whether q - 1 was allowed and is M.
pub fn searched(case: &Case) -> (usize, bool) {
    let allowed = only_differences(case.n, &case.start) || only_differences(case.n, &case.target);
    match first_repeat(case) {
        Some(repeat) if allowed && repeat.q - 1 <= case.horizon => (repeat.q - 1, true),
        _ => (case.horizon, false),
    }
}

/// The parts of a second that a start is handed back in: 1, or n + 1 if a bound
/// of either pattern is strict.
pub fn parts_of(case: &Case) -> usize {
    match case.marked() {
        true => case.n + 1,
        false => 1,
    }
}

/// The start picked from a set without strict bounds: for each departure in turn
/// the greatest time; if there is none, the least; if neither, 0. Each time is
/// fixed by two more bounds before the next is looked for.
pub fn picked(set: &Bounds) -> Times {
    let mut set = set.clone();
    let mut times = [0; DEPARTURES];
    for i in 1..=set.n {
        set = set.closed().expect("the set holds the times chosen so far");
        times[i - 1] = match (set.at(i, 0), set.at(0, i)) {
            (None, None) => 0,
            (None, Some(below)) => -below.value,
            (Some(greatest), _) => greatest.value,
        };
        set.add(i, 0, most(times[i - 1]));
        set.add(0, i, most(-times[i - 1]));
    }
    times
}

/// The answer of an outcome that hands back no start.
pub fn without_start(verdict: Verdict) -> Answer {
    Answer {
        verdict,
        parts: 0,
        start: [0; DEPARTURES],
    }
}

/// An answer and the lengths of the lists made on the way, from list 0 on; a
/// list beyond the capacity counts one more than that.
pub struct Outcome {
    pub answer: Answer,
    pub lengths: Vec<usize>,
}

/// What the first zone of list k that meets the start has in common with it, or
/// the fault of the list.
fn decided(
    list: &[Bounds],
    start: &Bounds,
    capacity: usize,
    k: usize,
) -> Result<Option<Bounds>, Fault> {
    assert!(list.iter().all(|zone| zone.within_limit(k)), "list {k}");
    if list.len() > capacity {
        return Err(Fault {
            number: 11,
            returned: k,
        });
    }
    Ok(list.iter().find_map(|zone| zone.clone().and(start)))
}

/// The answer that reaches the target at a cycle, with the start from a set.
fn reached(case: &Case, cycle: usize, common: &Bounds) -> Answer {
    let parts = parts_of(case);
    let set = common.in_parts(parts);
    let set = set.expect("a set that is not empty has times in so many parts");
    Answer {
        verdict: Verdict::Reached { cycle },
        parts,
        start: picked(&set),
    }
}

/// The whole search on a case within the limits. Whether a list is dry is looked
/// at before the next is made, and of the last one after its cycle.
pub fn search(case: &Case, capacity: usize) -> Outcome {
    let (last, repeats) = searched(case);
    let selections = selections(case);
    let start = Bounds::stated(case.n, &case.start);
    let target = Bounds::stated(case.n, &case.target).closed();
    let mut list: Vec<Bounds> = target.into_iter().collect();
    let mut lengths = vec![list.len()];
    for k in 1..=last {
        if list.is_empty() {
            break;
        }
        list = next_list(case, &selections, &list, capacity);
        lengths.push(list.len());
        let answer = match decided(&list, &start, capacity, k) {
            Err(fault) => without_start(Verdict::Refused(fault)),
            Ok(Some(common)) => reached(case, k, &common),
            Ok(None) => continue,
        };
        return Outcome { answer, lengths };
    }
    let verdict = if repeats || list.is_empty() {
        Verdict::Never
    } else {
        Verdict::Clear {
            horizon: case.horizon,
        }
    };
    let answer = without_start(verdict);
    Outcome { answer, lengths }
}
