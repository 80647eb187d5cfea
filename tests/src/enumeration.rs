//! Brute search 1: the starts of a box, put forward step by step. Times are
//! whole seconds, or whole numbers of parts of a second on a case in parts.

use crate::case::{pair, Bound, Case, Pattern, Times, DEPARTURES};
use std::cmp::Reverse;

/// The case with times and bounds in parts of a second.
pub fn in_parts(case: &Case, parts: usize) -> Case {
    let parts = parts as i64;
    let mut scaled = Case::empty(case.n, case.horizon);
    let times = &case.times[..case.n * case.n];
    for (to, time) in scaled.times.iter_mut().zip(times) {
        *to = time.map(|time| time * parts);
    }
    let count = case.n * (case.n + 1);
    let places = scaled.start[..count].iter_mut();
    for (to, bound) in places.chain(&mut scaled.target).zip(case.bounds()) {
        *to = bound.map(|Bound { value, strict }| Bound {
            value: value * parts,
            strict,
        });
    }
    scaled
}

/// The numbers of parts of a second in which starts are looked for: all up to
/// n + 1, in which every set that is not empty has times, and two beyond.
pub fn tried_parts(n: usize) -> impl Iterator<Item = usize> {
    (1..=n + 1).chain([n + 2, 2 * (n + 1)])
}

/// The times of the next cycle.
pub fn step(case: &Case, x: &Times) -> Times {
    let mut next = [0; DEPARTURES];
    for (i, time) in next.iter_mut().enumerate().take(case.n) {
        let sums = (0..case.n).filter_map(|j| case.time(i, j).map(|a| x[j] + a));
        *time = sums.max().expect("every row holds a time");
    }
    next
}

/// The times after `cycles` steps.
pub fn image(case: &Case, x: &Times, cycles: usize) -> Times {
    (0..cycles).fold(*x, |times, _| step(case, &times))
}

/// Whether the times lie within a pattern.
pub fn within(n: usize, pattern: &Pattern, x: &Times) -> bool {
    let at = |i: usize| if i == 0 { 0 } else { x[i - 1] };
    (0..=n).all(|i| {
        (0..=n).filter(|&j| j != i).all(|j| {
            let apart = at(i) - at(j);
            match pattern[pair(n, i, j)] {
                None => true,
                Some(bound) if bound.strict => apart < bound.value,
                Some(bound) => apart <= bound.value,
            }
        })
    })
}

/// The first cycle from 1 to `limit` at which a start's times are in the target.
pub fn first_cycle(case: &Case, x: &Times, limit: usize) -> Option<usize> {
    let mut times = *x;
    for cycle in 1..=limit {
        times = step(case, &times);
        if within(case.n, &case.target, &times) {
            return Some(cycle);
        }
    }
    None
}

/// Whether a start lies within the start pattern and is in the target at a cycle.
pub fn leads(case: &Case, x: &Times, cycle: usize) -> bool {
    within(case.n, &case.start, x) && within(case.n, &case.target, &image(case, x, cycle))
}

/// All starts at most `radius` away from a centre in each departure, the
/// first departure changing slowest.
pub fn starts(n: usize, centre: &Times, radius: i64) -> Vec<Times> {
    let mut all = vec![[0; DEPARTURES]];
    for departure in 0..n {
        let mut longer = Vec::new();
        for start in &all {
            for offset in -radius..=radius {
                let mut next = *start;
                next[departure] = centre[departure] + offset;
                longer.push(next);
            }
        }
        all = longer;
    }
    all
}

/// In each row the lowest column that attains the largest sum.
fn columns(case: &Case, x: &Times) -> [usize; DEPARTURES] {
    let mut columns = [0; DEPARTURES];
    for (i, column) in columns.iter_mut().enumerate().take(case.n) {
        let sum = |j: &usize| case.time(i, *j).map(|a| x[*j] + a);
        // The last of equal sums is taken.
        *column = (0..case.n).rev().max_by_key(sum).expect("a column");
    }
    columns
}

/// The columns of each cycle, the last cycle first. Of the starts that lead into
/// the target, those in the first zone of list `cycles` that meets the start
/// pattern are the ones with the least word.
fn word(case: &Case, x: &Times, cycles: usize) -> Vec<[usize; DEPARTURES]> {
    let mut times = *x;
    let mut word = Vec::new();
    for _ in 0..cycles {
        word.push(columns(case, &times));
        times = step(case, &times);
    }
    word.reverse();
    word
}

/// The first cycle from 1 to `limit` at which some start of the box that lies
/// within the start pattern is in the target, with the one picked from the box:
/// in the first zone, the greatest time of departure 1, then of 2, and so on.
/// Where the box holds the whole start pattern, that is the start handed back.
pub fn first_in_box(
    case: &Case,
    centre: &Times,
    radius: i64,
    limit: usize,
) -> Option<(usize, Times)> {
    let inside = starts(case.n, centre, radius);
    let inside = inside.iter().filter(|x| within(case.n, &case.start, x));
    let met = inside.filter_map(|x| first_cycle(case, x, limit).map(|cycle| (cycle, *x)));
    met.min_by_key(|(cycle, x)| (*cycle, word(case, x, *cycle), Reverse(*x)))
}

/// How a time was chosen: the greatest possible, the least, or 0.
#[derive(Clone, Copy, Debug)]
pub enum Choice {
    Greatest,
    Least,
    Zero,
}

/// No range of a time has an end as far off.
const FAR: i64 = 10_000_000_000;

/// Whether a start still leads into the target, in the same zone, if departure
/// i is that much later and with it any of those after it, but none before.
fn can_be_later(case: &Case, x: &Times, cycle: usize, i: usize, later: i64) -> bool {
    (0..1 << (case.n - i - 1)).any(|with: usize| {
        let mut moved = *x;
        moved[i] += later;
        for j in (i + 1..case.n).filter(|j| with >> (j - i - 1) & 1 == 1) {
            moved[j] += later;
        }
        leads(case, &moved, cycle) && word(case, &moved, cycle) == word(case, x, cycle)
    })
}

/// How the time of departure i was chosen in a start that leads into the target
/// at a cycle, or none if it is against the rule. It needs no box: in a zone a
/// greater time is possible just if one that is 1 later is, with some of the
/// departures after it moved as far, and there is no greatest just if they can
/// be moved without end. The same holds of lesser times.
pub fn choice(case: &Case, x: &Times, cycle: usize, i: usize) -> Option<Choice> {
    let can = |later| can_be_later(case, x, cycle, i, later);
    let (choice, right) = match (can(FAR), can(-FAR)) {
        (false, _) => (Choice::Greatest, !can(1)),
        (true, false) => (Choice::Least, !can(-1)),
        (true, true) => (Choice::Zero, x[i] == 0),
    };
    (right && leads(case, x, cycle)).then_some(choice)
}
