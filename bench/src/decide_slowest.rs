//! A search for cases on which a decision takes long: changes by chance, kept
//! unless they make it cheaper. What counts is what plain Rust counts.

use crate::decide::{print_one, CYCLES, STEPS};
use crate::descent;
use crate::slowest::number;
use evidence::case::{most, pair, Case, DEPARTURES};
use evidence::random::Random;
use std::time::{Duration, Instant};

/// Cycles and steps while looking; what is found is then decided over 64 cycles.
const FEW_CYCLES: usize = 16;
const FEW_STEPS: usize = 200_000;

/// Changes in a row without a slower case after which a search begins anew.
const PATIENCE: usize = 300;

/// What a decision costs, about as long as it takes.
fn weight(case: &Case, cycles: usize, steps: usize) -> u64 {
    let (_, cost) = descent::decide(case, cycles, steps);
    cost.changes + 2 * cost.steps as u64
}

/// A time of a table: any; a loop that hardly gains or loses, and links that lose
/// much; the same with a loop over several departures.
fn time(random: &mut Random, kind: usize, looped: bool) -> i64 {
    match (kind, looped) {
        (0, _) => random.between(-86_400, 86_400),
        (1, true) => random.between(-10, 10),
        (1, false) => random.between(-40_000, 0),
        (_, true) => random.between(-200, 200),
        (_, false) => random.between(-86_400, -20_000),
    }
}

/// Patterns that name every departure and the clock, loosely. Only the last two
/// are told apart, the last one later by a second; since their rows are the same,
/// nothing but the last row says that no time is in the target.
fn name_all(case: &mut Case) {
    let n = case.n;
    for i in 1..=n {
        for j in (1..=n).filter(|&j| j != i) {
            case.target[pair(n, i, j)] = Some(most(1_000_000));
        }
    }
    if n > 1 {
        case.target[pair(n, n - 1, n)] = Some(most(-1));
    }
    case.target[pair(n, 1, 0)] = Some(most(1_000_000));
    case.start[pair(n, 1, 0)] = Some(most(1_000_000));
}

/// Where a search begins: a table of one of three kinds whose last two rows are the
/// same.
fn beginning(random: &mut Random, n: usize, kind: usize) -> Case {
    let mut case = Case::empty(n, 64);
    let shift = if kind == 2 { 1 + random.below(n) } else { 0 };
    for i in 0..n {
        for j in 0..n {
            let looped = (i + shift) % n == j;
            case.times[i * n + j] = Some(time(random, kind, looped));
        }
    }
    if n > 1 {
        case.times
            .copy_within((n - 2) * n..(n - 1) * n, (n - 1) * n);
    }
    name_all(&mut case);
    case
}

/// Changes one time, copies one, copies a row, or blanks a time where its row has
/// another.
fn change_table(random: &mut Random, case: &mut Case) {
    let n = case.n;
    let (one, other, column) = (random.below(n), random.below(n), random.below(n));
    let place = one * n + column;
    match random.below(8) {
        0 => case.times.copy_within(other * n..other * n + n, one * n),
        1 => case.times[place] = case.time(other, column).or(Some(0)),
        2 if (0..n).any(|j| j != column && case.time(one, j).is_some()) => case.times[place] = None,
        _ => {
            let step = random.one_of(&[1, 100, 10_000]);
            let time = case.times[place].unwrap_or(0) + step * random.between(-4, 4);
            case.times[place] = Some(time.clamp(-86_400, 86_400));
        }
    }
}

/// Changes one bound of a pattern, or takes it out.
fn change_pattern(random: &mut Random, case: &mut Case) {
    let n = case.n;
    let place = random.below(n * (n + 1));
    let pattern = match random.below(3) {
        0 => &mut case.start,
        _ => &mut case.target,
    };
    let step = random.one_of(&[1, 1_000, 100_000]);
    let about = pattern[place].map_or(1_000_000, |bound| bound.value);
    let value = (about + step * random.between(-4, 4)).clamp(-1_000_000, 1_000_000);
    pattern[place] = (!random.chance(1, 3)).then_some(most(value));
}

/// A case changed in one to three places. The last two rows mostly stay the same.
fn changed(random: &mut Random, case: &Case) -> Case {
    let mut next = *case;
    for _ in 0..=random.below(3) {
        match random.below(4) {
            0 => change_pattern(random, &mut next),
            _ => change_table(random, &mut next),
        }
    }
    let n = next.n;
    if n > 1 && random.chance(7, 8) {
        next.times
            .copy_within((n - 2) * n..(n - 1) * n, (n - 1) * n);
    }
    next
}

/// The slowest case met from one beginning, and its weight over few cycles.
fn climb(random: &mut Random, beginning: Case, end: Instant) -> (u64, Case) {
    let weigh = |case: &Case| weight(case, FEW_CYCLES, FEW_STEPS);
    let (mut most, mut case) = (weigh(&beginning), beginning);
    let mut patience = PATIENCE;
    while patience > 0 && Instant::now() < end {
        let next = changed(random, &case);
        let weight = weigh(&next);
        patience = if weight > most {
            PATIENCE
        } else {
            patience - 1
        };
        if weight >= most {
            (most, case) = (weight, next);
        }
    }
    (most, case)
}

/// Looks for so many seconds for a slow case of n departures, from three kinds of
/// beginnings in turn, and prints the slowest over 64 cycles of the three that
/// were slowest over few.
pub fn search(n: &str, seed: &str, seconds: &str) -> Result<(), String> {
    let n: usize = number(n)?;
    if !(1..=DEPARTURES).contains(&n) {
        return Err(format!("no case has {n} departures"));
    }
    let mut random = Random::new(number(seed)?);
    let end = Instant::now() + Duration::from_secs(number(seconds)?);
    let mut found: Vec<(u64, Case)> = Vec::new();
    for round in 0.. {
        if round > 2 && Instant::now() >= end {
            break;
        }
        let beginning = beginning(&mut random, n, round % 3);
        found.push(climb(&mut random, beginning, end));
        found.sort_by_key(|(weight, _)| std::cmp::Reverse(*weight));
        found.truncate(3);
    }
    let cases = found.into_iter().map(|(_, case)| case);
    if let Some(case) = cases.max_by_key(|case| weight(case, CYCLES, STEPS)) {
        print_one(&case);
    }
    Ok(())
}
