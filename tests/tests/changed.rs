//! Previews and commits of one changed time: the archive against its verdict
//! on a changed copy, and against the faults of request [2].

use evidence::archive::{self, Answer, Change, Fault, Verdict};
use evidence::case::{most, Case, Entries, DEPARTURES};
use evidence::checks::{fault_number, noisy, refused, Lent};
use evidence::damage::{self, ChangeCall, UnpackedCall};
use evidence::faults;
use evidence::random::wide::{strict_wide_trial, wide_trial};
use evidence::random::{strict_trial, trial, Draw, Random};

/// What a commit must leave: one place set, all else as it was.
fn with_place(n: usize, entries: &Entries, change: &Change) -> Entries {
    let place = (change.row - 1) * n + change.column - 1;
    let mut copy = entries.clone();
    copy.present[place] = u8::from(change.has != 0);
    copy.values[place] = change.time;
    copy
}

/// Previews and commits, with random numbers in all ignored entries: the one
/// must answer and the other be judged as stated, and leave the workspace and
/// the entries as they must be. Hands back the entries.
fn check(seed: u64, given: &ChangeCall, answer: Answer, judged: Result<(), Fault>) -> Entries {
    let ChangeCall { call, change } = given;
    let (n, horizon) = (call.case.n, call.case.horizon);
    let words = || format!("seed {seed}, {given:?}");
    let mut random = Random::new(seed);
    let before = noisy(&mut random, &call.case);
    let mut lent = Lent::new(&mut random, call.work_length);
    let preview = archive::preview(n, horizon, &before, change, call.capacity, lent.part());
    assert_eq!(preview, Ok(answer), "preview: {}", words());
    assert_eq!(lent.right_after(&answer), Ok(()), "{}", words());
    let mut after = before.clone();
    let commit = archive::commit(n, horizon, &mut after, change);
    assert_eq!(commit, Ok(judged), "commit: {}", words());
    let expected = match judged {
        Ok(()) => with_place(n, &before, change),
        Err(_) => before,
    };
    assert_eq!(after, expected, "committed: {}", words());
    after
}

/// What the preview must answer: the archive's verdict on a changed copy.
fn on_a_copy(given: &ChangeCall) -> Answer {
    let ChangeCall { call, change } = given;
    let mut copy = call.case;
    match faults::of_change(&call.case, change) {
        Err(fault) => return refused(fault),
        Ok(place) => copy.times[place] = (change.has != 0).then_some(change.time),
    }
    let mut work = vec![1; call.work_length];
    archive::verdict_unpacked(&copy, call.capacity, &mut work).expect("an outcome")
}

fn enough(what: &str, counts: &[usize], places: &[usize]) {
    println!("{what}: {counts:?}");
    for &place in places {
        assert!(counts[place] >= 40, "too few of {place}: {what} {counts:?}");
    }
}

/// Random changes, two in three of which get as far as a verdict on the copy.
fn compare_copies(cases: u64, draw: Draw) {
    let (mut own, mut later, mut kinds) = ([0; 16], [0; 16], [0; 4]);
    for seed in 6_000_000..6_000_000 + cases {
        let given = damage::changed(&mut Random::new(seed), draw);
        let ChangeCall { call, change } = &given;
        let (case, capacity, length) = (&call.case, call.capacity, call.work_length);
        let answer = on_a_copy(&given);
        if let Err(fault) = faults::of_preview(case, change, capacity, length) {
            assert_eq!(answer, refused(fault), "seed {seed}, {given:?}");
        }
        let judged = faults::of_commit(case, change);
        let after = check(seed, &given, answer, judged);
        match faults::of_change(case, change) {
            Err(fault) => own[fault.number] += 1,
            Ok(_) => later[fault_number(&answer)] += 1,
        }
        if judged.is_err() {
            continue;
        }
        let mut lent = Lent::new(&mut Random::new(seed), length);
        let verdict = archive::verdict_entries(case.n, case.horizon, &after, capacity, lent.part());
        assert_eq!(verdict, Ok(answer), "committed: seed {seed}, {given:?}");
        assert_eq!(lent.right_after(&answer), Ok(()), "seed {seed}, {given:?}");
        let old = case.time(change.row - 1, change.column - 1);
        kinds[2 * usize::from(old.is_some()) + usize::from(change.has != 0)] += 1;
    }
    enough("the case's own faults, and 15", &own, &[2, 3, 4, 5, 6, 15]);
    let judged: usize = later.iter().sum();
    assert!(3 * judged >= 2 * cases as usize, "{later:?}");
    enough("none, and later faults", &later, &[0, 4, 5, 9, 10, 11]);
    enough("blank, filled, blanked, replaced", &kinds, &[0, 1, 2, 3]);
}

#[test]
fn copies() {
    compare_copies(30_000, trial);
}

#[test]
fn copies_with_marks() {
    compare_copies(10_000, strict_trial);
}

#[test]
fn copies_of_many_departures() {
    compare_copies(5_000, wide_trial);
}

#[test]
fn copies_of_many_departures_with_marks() {
    compare_copies(5_000, strict_wide_trial);
}

/// One cycle of n departures with times in one column alone, all 0, and the
/// change of one of them to 1. Every start will do, so that it is reached.
fn plain(n: usize, row: usize, column: usize) -> ChangeCall {
    let mut case = Case::empty(n, 1);
    for i in 0..n {
        case.times[i * n + column - 1] = Some(0);
    }
    ChangeCall {
        call: UnpackedCall {
            case,
            capacity: 1,
            work_length: faults::workspace(n, 1),
        },
        change: Change {
            row,
            column,
            has: 1,
            time: 1,
        },
    }
}

/// What a plain change gives: reached, or the fault.
fn check_plain(given: &ChangeCall, judged: Result<(), (usize, usize)>) {
    let reached = Answer {
        verdict: Verdict::Reached { cycle: 1 },
        parts: 1,
        start: [0; DEPARTURES],
    };
    let judged = judged.map_err(|(number, returned)| Fault { number, returned });
    check(0, given, judged.map_or_else(refused, |()| reached), judged);
}

/// Each entry of tables of every size: the limit and beyond it, a row emptied,
/// and the case's own faults in the very entry that would be replaced.
fn every_change(n: usize, row: usize, column: usize) {
    let first = (row - 1) * n;
    let place = first + column - 1;
    for (old, new, judged) in [
        (Some(0), Some(86_400), Ok(())),
        (Some(0), Some(-86_400), Ok(())),
        (Some(0), Some(86_401), Err((4, place))),
        (Some(0), Some(-86_401), Err((4, place))),
        (Some(0), None, Err((5, first))),
        (Some(86_401), Some(0), Err((4, place))),
        (Some(-86_401), None, Err((4, place))),
        (None, Some(0), Err((5, first))),
    ] {
        let mut given = plain(n, row, column);
        given.call.case.times[place] = old;
        given.change.has = u8::from(new.is_some());
        given.change.time = new.unwrap_or(i64::MIN);
        check_plain(&given, judged);
    }
}

#[test]
fn every_place() {
    for n in 1..=DEPARTURES {
        for place in 0..n * n {
            every_change(n, place / n + 1, place % n + 1);
        }
    }
}

#[test]
fn outside() {
    for n in 1..=DEPARTURES {
        for line in [0, n + 1, usize::MAX] {
            for (row, column) in [(line, 1), (1, line), (n, line), (line, n), (line, line)] {
                let mut given = plain(n, 1, 1);
                (given.change.row, given.change.column) = (row, column);
                check_plain(&given, Err((15, 0)));
            }
        }
    }
}

/// A fault's number, what it returns, and what causes it in a plain change of
/// three departures in row 3 and column 2.
type Cause = (usize, usize, fn(&mut ChangeCall));

/// In the order in which they are judged. No change can be both beyond the limit
/// and blank: there the earlier cause undoes the later.
const CAUSES: [Cause; 12] = [
    (2, 0, |given| given.call.case.n = 16),
    (3, 0, |given| given.call.case.horizon = 65),
    (4, 1, |given| given.call.case.times[1] = Some(86_401)),
    (5, 3, |given| given.call.case.times[4] = None),
    (4, 7, |given| given.call.case.times[7] = Some(-86_401)),
    (6, 2, |given| {
        given.call.case.start[2] = Some(most(1_000_001))
    }),
    (6, 12, |given| {
        given.call.case.target[0] = Some(most(-1_000_001))
    }),
    (15, 0, |given| given.change.row = 4),
    (4, 7, |given| {
        (given.change.has, given.change.time) = (1, 86_401)
    }),
    (5, 6, |given| given.change.has = 0),
    (9, 0, |given| given.call.capacity = 0),
    (10, 0, |given| given.call.work_length -= 1),
];

#[test]
fn pairs_of_faults() {
    for (place, &(number, returned, cause)) in CAUSES.iter().enumerate() {
        for (_, _, later) in &CAUSES[place..] {
            let mut given = plain(3, 3, 2);
            later(&mut given);
            cause(&mut given);
            let fault = Fault { number, returned };
            let judged = match number {
                9 | 10 => Ok(()),
                _ => Err(fault),
            };
            check(0, &given, refused(fault), judged);
        }
    }
}
