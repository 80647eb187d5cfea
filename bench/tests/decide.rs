//! A test of the benchmark's plain decisions: against the definition and the archive
//! on random cases, and against the defined verdict on the families.

use bench::descent;
use bench::questions;
use evidence::archive::{self, Decided};
use evidence::case::Case;
use evidence::exact;
use evidence::random::wide::any_trial;
use evidence::random::{dense_trial, strict_dense_trial, Draw, Random};

/// Compares decision and steps on one case; the number of steps.
fn compare(case: &Case, cycles: usize, steps: usize, words: &str) -> usize {
    let exact = exact::decide(case, cycles, steps);
    let (decision, cost) = descent::decide(case, cycles, steps);
    assert_eq!(
        (decision, cost.steps),
        (exact.decision, exact.steps),
        "{words}"
    );
    let by_archive = archive::decide(case, cycles, steps);
    assert_eq!(by_archive, Ok(decision), "archive, {words}");
    cost.steps
}

fn compare_all(seeds: std::ops::Range<u64>, draw: Draw) {
    for seed in seeds {
        let mut random = Random::new(seed);
        let case = draw(&mut random).case;
        let cycles = random.one_of(&[1, 5, 64, 64, 200]);
        let words = format!("seed {seed}, {cycles} cycles, {case:?}");
        let steps = compare(&case, cycles, 2_000, &words);
        compare(&case, cycles, random.below(steps + 1), &words);
    }
}

#[test]
fn on_cases_of_all_sizes() {
    compare_all(0..4_000, any_trial);
}

#[test]
fn on_tables_without_blanks() {
    compare_all(0..100, |random| {
        let n = random.between(2, 15) as usize;
        dense_trial(random, n)
    });
    compare_all(0..100, |random| {
        let n = random.between(2, 15) as usize;
        strict_dense_trial(random, n)
    });
}

/// Every case of the families is decided over 64 cycles.
#[test]
fn on_the_families() {
    let counts = questions::all()
        .into_iter()
        .map(|family| family.cases.len());
    assert_eq!(counts.collect::<Vec<_>>(), [100, 30, 30, 50, 50, 60]);
    for family in questions::all() {
        for case in &family.cases {
            let (decision, _) = descent::decide(case, 64, 10_000_000);
            let undecided = matches!(decision.decided, Decided::Undecided { .. });
            assert!(!undecided, "{}", bench::hex(case));
        }
    }
}
