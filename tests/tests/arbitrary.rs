//! Arbitrary bytes, mutated cases and arbitrary marks: every call ends, answers
//! as the faults and brute search 2 say, and leaves the workspace as it must be.

use evidence::archive;
use evidence::case::{Case, Entries, Form, DEPARTURES, START};
use evidence::checks::{named, named_unpacked, noisy, of_packed, of_unpacked, Lent};
use evidence::damage::{any_bytes, mutated};
use evidence::faults;
use evidence::random::wide::{any_trial, wide_trial};
use evidence::random::{bearable, trial, Draw, Random};
use std::ops::Range;

/// Calls the archive and returns whether the bytes were a case. Cases that
/// are too long a search for the brute one are left out.
fn check(seed: u64, random: &mut Random, bytes: &[u8]) -> bool {
    let mut capacity = 1 + random.below(6);
    let read = faults::of_packed(bytes);
    if let Ok(case) = &read {
        match bearable(case, capacity) {
            Some(less) => capacity = less,
            None => return false,
        }
    }
    let n = read.map_or(DEPARTURES, |case| case.n);
    let length = faults::workspace(n, capacity) + random.below(3);
    let mut lent = Lent::new(random, length);
    let answer = archive::verdict(bytes, capacity, lent.part());
    let words = || named(seed, bytes, capacity);
    let expected = of_packed(bytes, capacity, length);
    assert_eq!(answer, Ok(expected), "archive, brute: {}", words());
    assert_eq!(lent.right_after(&expected), Ok(()), "{}", words());
    read.is_ok()
}

fn compare_arbitrary(seeds: Range<u64>, form: Form, most: usize) {
    for seed in seeds {
        let mut random = Random::new(seed);
        let bytes = any_bytes(&mut random, form, most);
        check(seed, &mut random, &bytes);
    }
}

#[test]
fn arbitrary_bytes() {
    compare_arbitrary(4_000_000..4_060_000, Form::Old, 600);
}

#[test]
fn arbitrary_wide_bytes() {
    compare_arbitrary(4_000_000..4_030_000, Form::Wide, 2100);
}

fn compare_mutated(seeds: Range<u64>, form: Form, draw: Draw, least: usize) {
    let mut cases = 0;
    for seed in seeds {
        let mut random = Random::new(seed);
        let bytes = mutated(&mut random, form, draw);
        cases += usize::from(check(seed, &mut random, &bytes));
    }
    println!("cases left after mutation: {cases}");
    assert!(cases >= least, "only {cases} were cases");
}

#[test]
fn mutated_cases() {
    compare_mutated(5_000_000..5_060_000, Form::Old, trial, 3000);
}

#[test]
fn mutated_wide_cases() {
    compare_mutated(5_000_000..5_020_000, Form::Wide, any_trial, 1000);
}

/// A case with any bytes in the places of the marks, some of them mostly 0.
fn any_marks(random: &mut Random, mut case: Case) -> (Case, Entries) {
    let mut entries = noisy(random, &case);
    let zeros = random.below(4);
    for byte in &mut entries.strict {
        *byte = match random.below(4) < zeros {
            true => 0,
            false => random.draw() as u8,
        };
    }
    let bounds = case.start.iter_mut().chain(&mut case.target);
    for (bound, &byte) in bounds.zip(&entries.strict[START..]) {
        if let Some(bound) = bound {
            bound.strict = byte != 0;
        }
    }
    (case, entries)
}

/// Returns how often a start is handed back in so many parts.
fn compare_marks(seeds: Range<u64>, draw: Draw) -> [usize; DEPARTURES + 2] {
    let mut counts = [0; DEPARTURES + 2];
    for seed in seeds {
        let mut random = Random::new(seed);
        let trial = draw(&mut random);
        let (case, entries) = any_marks(&mut random, trial.case);
        let (n, horizon, capacity) = (case.n, case.horizon, trial.capacity);
        let length = faults::workspace(n, capacity) + random.below(3);
        let mut lent = Lent::new(&mut random, length);
        let answer = archive::verdict_entries(n, horizon, &entries, capacity, lent.part());
        let words = || named_unpacked(seed, &case, capacity);
        let expected = of_unpacked(&case, capacity, length);
        assert_eq!(answer, Ok(expected), "archive, brute: {}", words());
        assert_eq!(lent.right_after(&expected), Ok(()), "{}", words());
        counts[expected.parts] += 1;
    }
    println!("parts 0 to 16: {counts:?}");
    counts
}

#[test]
fn arbitrary_marks() {
    let counts = compare_marks(6_000_000..6_020_000, trial);
    assert!(counts[..6].iter().all(|&count| count >= 100), "{counts:?}");
}

#[test]
fn arbitrary_marks_of_many_departures() {
    let counts = compare_marks(6_000_000..6_006_000, wide_trial);
    assert!(counts[9..].iter().sum::<usize>() >= 40, "{counts:?}");
}
