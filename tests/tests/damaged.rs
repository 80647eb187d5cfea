//! Damaged inputs and calls: the archive's faults against `faults.rs`, and the
//! workspace afterwards.

use evidence::archive::{self, Run, RunInParts};
use evidence::case::{Case, Form, BOUNDS, DEPARTURES};
use evidence::checks::{fault_number, named, named_unpacked, noisy, of_packed, of_unpacked, Lent};
use evidence::damage;
use evidence::enumeration::{image, in_parts};
use evidence::faults;
use evidence::random::wide::{any_trial, strict_wide_trial, wide_trial};
use evidence::random::{strict_trial, trial, Draw, Random};
use evidence::selections::parts_of;

/// How often each fault, or none, must occur at least; 12 is reserved.
const LEAST: usize = 40;

fn enough(counts: &[usize; 14], numbers: &[usize]) {
    println!("faults 0 to 13: {counts:?}");
    for &number in numbers {
        assert!(
            counts[number] >= LEAST,
            "too few faults {number}: {counts:?}"
        );
    }
}

fn compare_packed(cases: u64, form: Form, draw: Draw) {
    let mut counts = [0; 14];
    for seed in 1_000_000..1_000_000 + cases {
        let mut random = Random::new(seed);
        let call = damage::packed(&mut random, form, draw);
        let expected = of_packed(&call.bytes, call.capacity, call.work_length);
        let mut lent = Lent::new(&mut random, call.work_length);
        let answer = archive::verdict(&call.bytes, call.capacity, lent.part());
        let words = || named(seed, &call.bytes, call.capacity);
        let length = call.work_length;
        assert_eq!(
            answer,
            Ok(expected),
            "archive, brute: {length} lent, {}",
            words()
        );
        assert_eq!(lent.right_after(&expected), Ok(()), "{}", words());
        counts[fault_number(&expected)] += 1;
    }
    enough(&counts, &[0, 1, 2, 4, 5, 6, 7, 8, 9, 10, 11]);
}

#[test]
fn packed() {
    compare_packed(14_000, Form::Old, trial);
}

#[test]
fn packed_wide() {
    compare_packed(7_000, Form::Wide, any_trial);
}

fn compare_unpacked(cases: u64, draw: Draw) {
    let mut counts = [0; 14];
    for seed in 2_000_000..2_000_000 + cases {
        let mut random = Random::new(seed);
        let call = damage::unpacked(&mut random, draw);
        let expected = of_unpacked(&call.case, call.capacity, call.work_length);
        let mut lent = Lent::new(&mut random, call.work_length);
        let entries = noisy(&mut random, &call.case);
        let (n, horizon) = (call.case.n, call.case.horizon);
        let answer = archive::verdict_entries(n, horizon, &entries, call.capacity, lent.part());
        let words = || named_unpacked(seed, &call.case, call.capacity);
        let length = call.work_length;
        assert_eq!(
            answer,
            Ok(expected),
            "archive, brute: {length} lent, {}",
            words()
        );
        assert_eq!(lent.right_after(&expected), Ok(()), "{}", words());
        counts[fault_number(&expected)] += 1;
    }
    enough(&counts, &[0, 2, 3, 4, 5, 6, 9, 10, 11]);
}

#[test]
fn unpacked() {
    compare_unpacked(14_000, trial);
}

#[test]
fn unpacked_with_marks() {
    compare_unpacked(14_000, strict_trial);
}

#[test]
fn unpacked_of_many_departures() {
    compare_unpacked(5_000, wide_trial);
}

#[test]
fn unpacked_of_many_departures_with_marks() {
    compare_unpacked(5_000, strict_wide_trial);
}

/// What a run must give, in seconds or in parts of a second.
fn expected_run(call: &damage::RunCall, parts: usize) -> Run {
    let judged = faults::of_run(&call.case, &call.start, call.cycle);
    let mut start = call.start;
    let times = match judged {
        Ok(()) => {
            start[call.case.n..].fill(0);
            // A run does not look at the bounds, which may be too large here.
            let table = Case {
                start: [None; BOUNDS],
                target: [None; BOUNDS],
                ..call.case
            };
            image(&in_parts(&table, parts), &start, call.cycle)
        }
        Err(_) => [0; DEPARTURES],
    };
    Run { judged, times }
}

/// What a run in parts must give.
fn expected_in_parts(call: &damage::RunCall) -> RunInParts {
    let judged = faults::of_run(&call.case, &call.start, call.cycle);
    let parts = judged.map_or(0, |()| parts_of(&call.case));
    let run = expected_run(call, parts);
    RunInParts { run, parts }
}

/// Damaged runs; returns how often the parts are 0, 1 and more.
fn compare_runs(cases: u64, draw: Draw) -> [usize; 3] {
    let (mut counts, mut kinds) = ([0; 14], [0; 3]);
    for seed in 3_000_000..3_000_000 + cases {
        let mut random = Random::new(seed);
        let call = damage::run(&mut random, draw);
        let expected = expected_run(&call, 1);
        let entries = noisy(&mut random, &call.case);
        let run = archive::run_entries(call.case.n, &entries, &call.start, call.cycle);
        let (start, cycle) = (&call.start, call.cycle);
        let words = || format!("{start:?}, {}", named_unpacked(seed, &call.case, 0));
        assert_eq!(
            run,
            Ok(expected),
            "archive, brute: cycle {cycle} from {}",
            words()
        );
        let in_parts = expected_in_parts(&call);
        let run = archive::run_parts_entries(call.case.n, &entries, start, cycle);
        assert_eq!(
            run,
            Ok(in_parts),
            "in parts, brute: cycle {cycle} from {}",
            words()
        );
        counts[expected.judged.map_or_else(|fault| fault.number, |_| 0)] += 1;
        kinds[in_parts.parts.min(2)] += 1;
    }
    enough(&counts, &[0, 2, 3, 4, 5, 13]);
    kinds
}

#[test]
fn runs() {
    let [_, whole, in_parts] = compare_runs(14_000, trial);
    assert!(whole > 1000 && in_parts == 0, "{whole}, {in_parts}");
}

#[test]
fn runs_with_marks() {
    let [_, _, in_parts] = compare_runs(14_000, strict_trial);
    assert!(in_parts > 1000, "{in_parts}");
}

#[test]
fn runs_of_many_departures() {
    let [_, _, in_parts] = compare_runs(7_000, strict_wide_trial);
    assert!(in_parts > 1000, "{in_parts}");
}
