//! A search for cases of 7 departures on which a verdict takes long: changes
//! by chance, kept unless they make the search cheaper. What counts is what
//! plain Rust counts, so a search finds the same on every machine.

use crate::compare::turn;
use crate::measure::{library, plain};
use crate::rows::{self, Cost};
use crate::table::words;
use crate::{hex, of_hex};
use evidence::case::{most, pair, Case, Pattern};
use evidence::random::Random;
use evidence::text::capacity;
use std::time::Instant;

const N: usize = 7;

/// Cycles searched while looking; what is found is then searched for 64.
const CYCLES: usize = 8;

/// Comparisons or tests of sets that take about as long as a change of one.
const WEIGHT: u64 = 12;

/// Kinds of cases that a search begins with.
const KINDS: usize = 4;

fn weight(cost: Cost) -> u64 {
    WEIGHT * cost.changes + cost.compared + cost.tests
}

/// How far a search goes from each beginning: so many changes, or so many seconds.
#[derive(Clone, Copy)]
enum Span {
    Changes(usize),
    Seconds(f64),
}

impl Span {
    /// The share of a beginning in a number of changes, or of seconds if an s stands
    /// behind it.
    fn of(text: &str) -> Result<Span, String> {
        match text.strip_suffix('s') {
            Some(seconds) => Ok(Span::Seconds(number::<f64>(seconds)? / KINDS as f64)),
            None => Ok(Span::Changes(number::<usize>(text)? / KINDS)),
        }
    }

    fn lasts(self, changes: usize, begin: Instant) -> bool {
        match self {
            Span::Changes(most) => changes < most,
            Span::Seconds(most) => begin.elapsed().as_secs_f64() < most,
        }
    }
}

/// Both ways, so that the difference is a number.
fn fix(pattern: &mut Pattern, i: usize, j: usize, bound: i64) {
    pattern[pair(N, i, j)] = Some(most(bound));
    pattern[pair(N, j, i)] = Some(most(-bound));
}

/// A case whose start nobody can meet but names the clock, so that the search
/// goes on to the horizon.
fn without_start() -> Case {
    let mut case = Case::empty(N, CYCLES);
    case.start[pair(N, 1, 0)] = Some(most(0));
    case.start[pair(N, 0, 1)] = Some(most(-1));
    case
}

/// A table of times from 0 to `size`, and a target of one point.
fn even(random: &mut Random, size: i64) -> Case {
    let mut case = without_start();
    for time in &mut case.times[..N * N] {
        *time = Some(random.between(0, size));
    }
    for i in 1..=N {
        fix(&mut case.target, i, 0, random.between(0, size));
    }
    case
}

/// Two blocks of departures, times of 0 from each to the other and less within, and
/// a target of one point, the blocks apart: the lists take turns, so that none is
/// the one before it moved.
fn blocks(random: &mut Random) -> Case {
    let cut = 2 + random.below(2);
    let (within, apart) = random.one_of(&[(-1, 1), (-100, 1), (-100, 100)]);
    let mut case = without_start();
    for (place, time) in case.times[..N * N].iter_mut().enumerate() {
        let same = (place / N < cut) == (place % N < cut);
        *time = Some(if same { within } else { 0 });
    }
    for i in 1..=N {
        fix(&mut case.target, i, 0, if i <= cut { 0 } else { apart });
    }
    case
}

/// A table in which departure 7, or 6, is so far ahead that it attains every
/// row's largest sum. Nothing but the last row says so: the rows before it meet
/// more sets than are remembered, and few of them stay. Where 6 is as far ahead
/// as 7, the rows tell one interval of their difference from the next; the
/// difference falls from cycle to cycle, so that the list grows.
fn led(random: &mut Random) -> Case {
    let rows = [
        [-10_000, -10_000, -10_000, -10_000, -5_000, -900, 0],
        [-5_000, -5_000, -5_000, -5_000, 0, -2_000, -1_000],
        [-10_000, -10_000, -10_000, -10_000, -5_000, -450, 0],
    ];
    let mut case = without_start();
    for (i, row) in [0, 0, 0, 0, 1, 2].into_iter().enumerate() {
        for (j, &time) in rows[row].iter().enumerate() {
            let more = if j < 4 { random.between(0, 1) } else { 0 };
            case.times[i * N + j] = Some(time + more);
        }
    }
    case.times[5 * N + 6] = None;
    case.times[6 * N + 6] = Some(0);
    for (i, ahead) in [4_000, 4_000, 4_000, 4_000, -1_000, 1_000]
        .into_iter()
        .enumerate()
    {
        case.target[pair(N, i + 1, 7)] = Some(most(ahead));
    }
    case.target[pair(N, 7, 0)] = Some(most(1_000_000));
    case
}

/// Changes one time to about that of another row, or copies or swaps rows.
fn change_table(random: &mut Random, case: &mut Case) {
    let (one, other, column) = (random.below(N), random.below(N), random.below(N));
    let place = one * N + column;
    match random.below(8) {
        0 => case.times.copy_within(other * N..other * N + N, one * N),
        1 => (0..N).for_each(|j| case.times.swap(one * N + j, other * N + j)),
        2 if (0..N).any(|j| j != column && case.time(one, j).is_some()) => case.times[place] = None,
        _ => {
            let about = case.time(other, column).unwrap_or(0);
            let step = random.one_of(&[1, 1, 100]);
            let time = about + step * random.between(-2, 2);
            case.times[place] = Some(time.clamp(-86_400, 86_400));
        }
    }
}

/// Changes the target: one bound, or both of a pair.
fn change_target(random: &mut Random, case: &mut Case) {
    let (i, j) = (random.below(N + 1), random.below(N));
    let j = if j < i { j } else { j + 1 };
    let place = pair(N, i, j);
    let about = case.target[place].map_or(0, |bound| bound.value);
    let bound = (about + random.between(-2, 2)).clamp(-1_000_000, 1_000_000);
    match random.below(4) {
        0 => case.target[place] = None,
        1 => fix(&mut case.target, i, j, bound),
        _ => case.target[place] = Some(most(bound)),
    }
}

fn changed(random: &mut Random, case: &Case) -> Case {
    let mut next = *case;
    for _ in 0..=random.below(3) {
        if random.chance(3, 4) {
            change_table(random, &mut next);
        } else {
            change_target(random, &mut next);
        }
    }
    next
}

/// The slowest case met from one beginning, and its weight.
fn climb(random: &mut Random, beginning: Case, span: Span) -> (u64, Case) {
    let weigh = |case: &Case| weight(rows::verdict(case, capacity(N)).1);
    let begin = Instant::now();
    let mut case = beginning;
    let mut most = weigh(&case);
    let mut changes = 0;
    while span.lasts(changes, begin) {
        changes += 1;
        let next = changed(random, &case);
        let weight = weigh(&next);
        if weight >= most {
            (most, case) = (weight, next);
        }
    }
    (most, case)
}

/// Prints a case, what it costs and how long it takes.
fn print(case: &Case) {
    println!("{}", hex(case));
    let (answer, cost) = rows::verdict(case, capacity(case.n));
    println!("{cost:?}");
    let (by_library, found) = turn(library(case));
    let (by_plain, _) = turn(plain(case));
    assert_eq!(found, Some(answer), "two answers");
    println!(
        "{:?}: library {}, plain Rust {}",
        answer.verdict,
        words(by_library),
        words(by_plain)
    );
}

/// A number that is given as an argument.
pub fn number<T: std::str::FromStr>(text: &str) -> Result<T, String> {
    text.parse().map_err(|_| format!("{text} is not a number"))
}

/// The slower of a case over 64 cycles and what was found before.
fn slower(found: Option<(u64, Case)>, mut case: Case) -> Option<(u64, Case)> {
    case.horizon = 64;
    let weight = weight(rows::verdict(&case, capacity(N)).1);
    match found {
        Some((most, _)) if most > weight => found,
        _ => Some((weight, case)),
    }
}

/// Looks for a slow case from beginnings of each kind and prints it.
pub fn search(seed: &str, span: &str) -> Result<(), String> {
    let mut random = Random::new(number(seed)?);
    let span = Span::of(span)?;
    let mut found = None;
    for kind in 0..KINDS {
        let beginning = match kind {
            0 => even(&mut random, 0),
            1 => even(&mut random, 2),
            2 => blocks(&mut random),
            _ => led(&mut random),
        };
        found = slower(found, beginning);
        let (_, case) = climb(&mut random, beginning, span);
        found = slower(found, case);
    }
    if let Some((_, case)) = found {
        print(&case);
    }
    Ok(())
}

/// Prints one packed case, given in hexadecimal digits.
pub fn one(digits: &str) -> Result<(), String> {
    print(&of_hex(digits)?);
    Ok(())
}
