//! Random cases: the archive against both brute searches.

use evidence::archive::{self, Answer, Run, RunInParts, Verdict};
use evidence::case::Case;
use evidence::checks::{met_in_a_box, named, named_unpacked, noisy, unmet_up_to, Lent};
use evidence::enumeration::{image, in_parts, leads};
use evidence::faults;
use evidence::random::wide::{strict_wide_trial, wide_trial};
use evidence::random::{
    crowded_trial, dense_trial, drifting_trial, sharper, strict_dense_trial, strict_trial, trial,
    turning_trial, Draw, Random, Trial,
};
use evidence::selections::{search, Outcome};
use std::thread;

/// Cases of up to 7 departures without a strict bound, and with one; and as many
/// of 8 to 15 departures of each kind.
const CASES: u64 = 24_000;
const MARKED: u64 = 12_000;
const WIDE: u64 = 4_000;
const WORKERS: u64 = 4;

/// Calls by outcome: reached at 1, reached later, clear, never by a repeated
/// power alone, never by a dry list, table full.
type Counts = [usize; 6];

fn kind(outcome: &Outcome) -> usize {
    match outcome.answer.verdict {
        Verdict::Reached { cycle: 1 } => 0,
        Verdict::Reached { .. } => 1,
        Verdict::Clear { .. } => 2,
        Verdict::Never => 3 + usize::from(outcome.lengths.contains(&0)),
        Verdict::Refused(_) => 5,
    }
}

/// A workspace of the exact length, or up to 200 numbers longer.
fn workspace(random: &mut Random, case: &Case, capacity: usize) -> Lent {
    let more = random.one_of(&[0, 1, 200]) as usize;
    Lent::new(random, faults::workspace(case.n, capacity) + more)
}

/// The case packed in each form must give the expected answer and leave the
/// workspace as it must be.
fn compare_packed(seed: u64, random: &mut Random, case: &Case, capacity: usize, expected: &Answer) {
    for &form in case.forms() {
        let bytes = case.pack(form);
        let mut lent = workspace(random, case, capacity);
        let packed = archive::verdict(&bytes, capacity, lent.part());
        let words = || named(seed, &bytes, capacity);
        assert_eq!(packed, Ok(*expected), "archive, brute search: {}", words());
        assert_eq!(lent.right_after(expected), Ok(()), "{}", words());
    }
}

/// The unpacked case must do so too, and a run from the start that it hands back
/// must give the times of that start at the cycle reached.
fn compare(seed: u64, random: &mut Random, case: &Case, capacity: usize, expected: &Answer) {
    compare_packed(seed, random, case, capacity, expected);
    let words = || named_unpacked(seed, case, capacity);
    let mut lent = workspace(random, case, capacity);
    let entries = noisy(random, case);
    let (n, horizon) = (case.n, case.horizon);
    let unpacked = archive::verdict_entries(n, horizon, &entries, capacity, lent.part());
    assert_eq!(
        unpacked,
        Ok(*expected),
        "unpacked, brute search: {}",
        words()
    );
    assert_eq!(lent.right_after(expected), Ok(()), "unpacked: {}", words());
    if let Verdict::Reached { cycle } = expected.verdict {
        let Answer { parts, start, .. } = *expected;
        let times = image(&in_parts(case, parts), &start, cycle);
        let judged = Ok(());
        let run = Run { judged, times };
        let ran = archive::run_parts_entries(n, &entries, &start, cycle);
        assert_eq!(ran, Ok(RunInParts { run, parts }), "run: {}", words());
    }
}

/// Brute search 1: a reached verdict does what it says, and no start of a box
/// around the clock's zero or around the hidden start contradicts a verdict, in
/// whatever parts of a second.
fn enumerate(seed: u64, trial: &Trial, capacity: usize, answer: &Answer) {
    let case = &trial.case;
    let words = || format!("{answer:?}, {}", named_unpacked(seed, case, capacity));
    if let Verdict::Reached { cycle } = answer.verdict {
        let scaled = in_parts(case, answer.parts);
        assert!(leads(&scaled, &answer.start, cycle), "{}", words());
    }
    let met = met_in_a_box(trial, unmet_up_to(&answer.verdict));
    assert_eq!(met, None, "met too early: {}", words());
}

/// Compares with both brute searches and counts the outcome.
fn judge(
    seed: u64,
    random: &mut Random,
    trial: &Trial,
    capacity: usize,
    counts: &mut Counts,
) -> Vec<usize> {
    let outcome = search(&trial.case, capacity);
    compare(seed, random, &trial.case, capacity, &outcome.answer);
    enumerate(seed, trial, capacity, &outcome.answer);
    counts[kind(&outcome)] += 1;
    outcome.lengths
}

/// One random case, with the capacity drawn and then with one at which its
/// longest list just fits or just does not.
fn check(seed: u64, random: &mut Random, trial: &Trial, counts: &mut Counts) {
    let lengths = judge(seed, random, trial, trial.capacity, counts);
    if lengths.iter().any(|&length| length > trial.capacity) {
        return;
    }
    if let Some(capacity) = sharper(random, &lengths) {
        judge(seed, random, trial, capacity, counts);
    }
}

fn worker(number: u64, cases: u64, draw: Draw) -> Counts {
    let mut counts = [0; 6];
    for seed in (number..cases).step_by(WORKERS as usize) {
        let mut random = Random::new(seed);
        let trial = draw(&mut random);
        check(seed, &mut random, &trial, &mut counts);
    }
    counts
}

/// Tables without a blank: so many cases of so many departures.
fn full(cases: &[(usize, u64)], draw: fn(&mut Random, usize) -> Trial) {
    let mut counts = [0; 6];
    for &(n, cases) in cases {
        for seed in 8_000_000..8_000_000 + cases {
            let mut random = Random::new(seed);
            let trial = draw(&mut random, n);
            check(seed, &mut random, &trial, &mut counts);
        }
    }
    println!("full tables: {counts:?}");
    let [at_once, _, clear, _, dry, full] = counts;
    assert!(at_once.min(clear).min(dry).min(full) >= 10, "{counts:?}");
}

/// Up to 823,543 selections.
#[test]
fn full_tables() {
    full(&[(5, 60), (6, 6), (7, 1)], dense_trial);
}

#[test]
fn full_tables_with_marks() {
    full(&[(5, 60), (6, 6), (7, 1)], strict_dense_trial);
}

/// Lists of some hundred zones, with the largest capacity and close ones.
#[test]
fn long_lists() {
    let mut counts = [0; 6];
    for (n, horizon, cases) in [(4, 6, 20), (5, 2, 8), (5, 3, 1)] {
        for seed in 9_000_000..9_000_000 + cases {
            let mut random = Random::new(seed);
            let trial = crowded_trial(&mut random, n, horizon);
            check(seed, &mut random, &trial, &mut counts);
        }
    }
    println!("long lists: {counts:?}");
    let [_, _, clear, _, _, full] = counts;
    assert!(clear.min(full) >= 10, "{counts:?}");
}

/// Lists that are the ones before them with the clock moved, or the same.
#[test]
fn lists_that_move_with_the_clock() {
    let mut counts = [0; 6];
    for seed in 10_000_000..10_000_600 {
        let mut random = Random::new(seed);
        let n = 1 + random.below(4);
        let trial = drifting_trial(&mut random, n);
        check(seed, &mut random, &trial, &mut counts);
    }
    println!("moving lists: {counts:?}");
    let [_, later, clear, ..] = counts;
    assert!(later.min(clear) >= 100, "{counts:?}");
}

/// Lists that are the ones so many cycles before them with the clock moved, or the same.
#[test]
fn lists_that_take_turns() {
    let mut counts = [0; 6];
    for seed in 12_000_000..12_000_600 {
        let mut random = Random::new(seed);
        let n = 2 + random.below(4);
        let trial = turning_trial(&mut random, n);
        check(seed, &mut random, &trial, &mut counts);
    }
    println!("lists in turns: {counts:?}");
    let [_, later, clear, ..] = counts;
    assert!(later.min(clear) >= 100, "{counts:?}");
}

/// Compares random cases in several threads. Every outcome makes up at least one
/// call in so many.
fn agree(cases: u64, draw: Draw, one_in: usize) {
    let counts = thread::scope(|scope| {
        let workers: Vec<_> = (0..WORKERS)
            .map(|number| scope.spawn(move || worker(number, cases, draw)))
            .collect();
        let mut sum = [0; 6];
        for worker in workers {
            let counts = worker
                .join()
                .expect("a worker found a difference, see above");
            sum.iter_mut().zip(counts).for_each(|(s, c)| *s += c);
        }
        sum
    });
    let total: usize = counts.iter().sum();
    println!("reached 1, reached later, clear, never, dry, full: {counts:?} of {total}");
    assert!(
        counts.iter().all(|&count| one_in * count >= total),
        "{counts:?} of {total}"
    );
}

#[test]
fn archive_and_brute_searches_agree() {
    agree(CASES, trial, 100);
}

#[test]
fn archive_and_brute_searches_agree_on_marks() {
    agree(MARKED, strict_trial, 100);
}

#[test]
fn archive_and_brute_searches_agree_on_many_departures() {
    agree(WIDE, wide_trial, 100);
}

#[test]
fn archive_and_brute_searches_agree_on_many_departures_with_marks() {
    agree(WIDE, strict_wide_trial, 200);
}
