//! A test of the benchmark: the plain versions against the brute search and
//! the archive on random cases.

use bench::{families, hex, one_by_one, packed, rows};
use evidence::archive;
use evidence::case::{Case, DEPARTURES};
use evidence::random::wide::wide_trial;
use evidence::random::{crowded_trial, dense_trial, trial, Random, Trial};
use evidence::selections::search;
use evidence::text::capacity;

/// Compares all four answers on one case and returns the kind of the answer.
fn compare(case: &Case, capacity: usize, words: &str) -> usize {
    let expected = search(case, capacity).answer;
    let m = case.n + 1;
    let mut work = vec![0; 2 * capacity * m * m];
    let by_archive = archive::verdict(&packed(case), capacity, &mut work);
    assert_eq!(by_archive, Ok(expected), "archive, {words}");
    let (by_rows, _) = rows::verdict(case, capacity);
    assert_eq!(by_rows, expected, "rows one by one, {words}");
    let by_selections = one_by_one::verdict(case, capacity, u64::MAX);
    assert_eq!(by_selections, Some(expected), "one by one, {words}");
    match expected.verdict {
        archive::Verdict::Reached { .. } => 0,
        archive::Verdict::Clear { .. } => 1,
        archive::Verdict::Never => 2,
        archive::Verdict::Refused(_) => 3,
    }
}

fn compare_all(seeds: std::ops::Range<u64>, least: usize, draw: fn(&mut Random) -> Trial) {
    let mut counts = [0; 4];
    for seed in seeds {
        let Trial { case, capacity, .. } = draw(&mut Random::new(seed));
        let words = format!("seed {seed}, Z {capacity}, {case:?}");
        counts[compare(&case, capacity, &words)] += 1;
    }
    println!("reached, clear, never, refused: {counts:?}");
    assert!(counts.iter().all(|&count| count >= least), "{counts:?}");
}

#[test]
fn on_cases_of_all_sizes() {
    compare_all(0..8000, 500, trial);
}

#[test]
fn on_many_departures() {
    compare_all(0..2000, 20, wide_trial);
}

#[test]
fn on_tables_without_blanks() {
    compare_all(0..60, 0, |random| {
        let n = random.between(5, 6) as usize;
        dense_trial(random, n)
    });
}

#[test]
fn on_long_lists() {
    compare_all(0..60, 0, |random| {
        let n = random.between(3, 4) as usize;
        crowded_trial(random, n, 4)
    });
}

/// A table with hardly any different times, so that lists soon repeat, mostly with
/// the clock moved, and a start on the clock that is met late, if at all.
fn repeating_trial(random: &mut Random) -> Trial {
    let n = random.between(2, 4) as usize;
    let mut case = Case::empty(n, 64);
    let time = random.between(-2, 2);
    let chance = random.below(3);
    case.times[..n * n].fill_with(|| Some(time + i64::from(random.chance(chance, 9))));
    let slack = random.between(0, 1);
    case.target = families::around(n, &[0; DEPARTURES], slack, random.chance(5, 6));
    let at = random.between(-40, 40);
    match random.below(2) {
        0 => families::window(&mut case.start, n, (1, 0), at, at + slack),
        _ => case.start = families::around(n, &[at; DEPARTURES], slack, true),
    }
    Trial {
        case,
        capacity: 16,
        near: [0; DEPARTURES],
        parts: 1,
    }
}

#[test]
fn on_lists_that_repeat() {
    compare_all(0..600, 10, repeating_trial);
}

/// The families' cases with all sets remembered, with few, so that more are met at
/// a row than that, and with none: dropping sets changes no answer. Without
/// dropping, the table of zeros would take too long.
#[test]
fn with_and_without_dropping() {
    let mut forgotten = 0;
    for family in families::all() {
        let zeros = |case: &Case| case.times[..case.n * case.n] == [Some(0); 49];
        for case in family.cases.iter().filter(|case| !zeros(case)) {
            let (with, _) = rows::verdict(case, capacity(case.n));
            let (few, cost) = rows::remembering(case, capacity(case.n), 4);
            let (without, _) = rows::remembering(case, capacity(case.n), 0);
            assert_eq!([few, without], [with; 2], "{}", hex(case));
            forgotten += cost.forgotten;
        }
    }
    assert!(forgotten > 1000, "{forgotten}");
}
