//! Families of 15 departures. Seeds are fixed, so each run has the same cases.

use crate::families::{around, ring, table, window, with_patterns, Family};
use crate::kinds::Kind;
use crate::rows;
use evidence::archive::Verdict;
use evidence::case::{most, pair, Case, DEPARTURES};
use evidence::random::Random;
use evidence::text::capacity;

const N: usize = DEPARTURES;

/// Cases in a random family.
const CASES: usize = 12;

/// Makes a table.
type Draw = fn(&mut Random) -> Case;

/// A family whose cases are not searched one by one.
fn family(name: &str, cases: Vec<Case>) -> Family {
    Family {
        name: name.to_string(),
        cases,
        limit: 0,
    }
}

/// Whether cycle 1 leaves a case undecided, or takes so long that more than a
/// million constraints change a set.
fn of_use(case: &Case) -> bool {
    let mut one_cycle = *case;
    one_cycle.horizon = 1;
    let found = rows::within(&one_cycle, capacity(N), 1_000_000);
    !matches!(
        found.map(|(answer, _)| answer.verdict),
        Some(Verdict::Reached { .. } | Verdict::Refused(_))
    )
}

/// Random tables; the kinds of patterns take turns.
fn kind(name: &str, seed: u64, draw: Draw) -> Kind {
    Kind {
        name: name.to_string(),
        seed,
        draw: Box::new(move |random, number| {
            let case = draw(random);
            with_patterns(random, case, number % 4)
        }),
        of_use: |_, case| of_use(case),
    }
}

/// Times of 60 to 1,200 seconds, so many in each row.
fn times(random: &mut Random, count: usize) -> Case {
    table(random, N, count, (60, 1200))
}

/// Each departure by itself, and up to four waits for others.
fn few_waits(random: &mut Random) -> Case {
    let mut case = ring(random, N, 1);
    for _ in 0..4 {
        case.times[random.below(N * N)] = Some(random.between(60, 1200));
    }
    case
}

/// A start that nobody can meet but that names the clock, so that the search goes
/// on to the horizon.
fn without_start(mut case: Case) -> Case {
    window(&mut case.start, N, (1, 0), 1, 0);
    case
}

/// Times of 0 in the first five columns, from nowhere to all times 0: each list
/// has 31 zones, and no selection of any of them is empty.
fn zeros() -> Case {
    let mut case = Case::empty(N, 64);
    for row in case.times.chunks_mut(N) {
        row[..5].fill(Some(0));
    }
    case.target = around(N, &[0; N], 0, true);
    without_start(case)
}

/// The least that x(15) - x(i) can be in a table without a blank.
fn least_apart(case: &Case, i: usize) -> i64 {
    let time = |row: usize, column: usize| case.time(row - 1, column).expect("no blank");
    let apart = (0..N).map(|column| time(15, column) - time(i, column));
    apart.min().expect("a column")
}

/// A table without a blank whose target bounds x(15) - x(i) alone, to the least that
/// it can be or to a second less. All other rows are free, so that whatever they
/// select is built before the last row tells that it is empty.
fn led(random: &mut Random, i: usize, less: i64) -> Case {
    let mut case = times(random, N);
    case.target[pair(N, 15, i)] = Some(most(least_apart(&case, i) - less));
    without_start(case)
}

/// Every other case cannot be met.
fn led_family(name: &str, i: usize) -> Family {
    let mut random = Random::new(600);
    let cases = (0..CASES / 2).map(|number| led(&mut random, i, number as i64 % 2));
    family(name, cases.collect())
}

/// The kinds of random cases, in the order of the table.
pub fn kinds() -> Vec<Kind> {
    vec![
        kind("dense 15", 501, |random| times(random, N)),
        kind("half full 15", 502, |random| times(random, N / 2)),
        kind("sparse 15", 503, |random| {
            let count = 2 + random.below(2);
            times(random, count)
        }),
        kind("few waits 15", 506, few_waits),
        kind("ring of 15, 2 a row", 504, |random| ring(random, N, 2)),
        kind("ring of 15, 3 a row", 505, |random| ring(random, N, 3)),
    ]
}

/// All families, in the order of the table.
pub fn all() -> Vec<Family> {
    let kinds = kinds().into_iter();
    let mut families: Vec<Family> = kinds.map(|kind| kind.family(CASES, 0)).collect();
    families.push(family("zeros of 15, 5 columns", vec![zeros()]));
    families.push(led_family("led 15", 14));
    families.push(led_family("led 15, by row 1", 1));
    families
}
