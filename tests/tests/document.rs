//! The examples of the statement, through brute search 2, the text maker and
//! the archive.

use evidence::archive::{self, Answer, Fault, Run, RunInParts, Verdict};
use evidence::case::{less, most, pair, Case, Form, Times, DEPARTURES, TIMES};
use evidence::checks::refused;
use evidence::faults;
use evidence::longest::longest;
use evidence::selections::{first_repeat, search, without_start, Bounds, Repeat};
use evidence::text::{lines, printed};

/// A pair of departures and a bound on their difference.
type Bound = (usize, usize, i64);

/// A table of two rows, with the patterns still free.
fn two(horizon: usize, times: [Option<i64>; 4]) -> Case {
    let mut case = Case::empty(2, horizon);
    case.times[..4].copy_from_slice(&times);
    case
}

fn r(horizon: usize) -> Case {
    two(horizon, [Some(2), Some(5), Some(3), Some(3)])
}

fn s(horizon: usize) -> Case {
    two(horizon, [None, Some(0), Some(0), None])
}

fn o(horizon: usize) -> Case {
    let mut case = Case::empty(1, horizon);
    case.times[0] = Some(1);
    case
}

/// The case with these bounds in its start and its target.
fn from_to(mut case: Case, start: &[Bound], target: &[Bound]) -> Case {
    for &(i, j, bound) in start {
        case.start[pair(case.n, i, j)] = Some(most(bound));
    }
    for &(i, j, bound) in target {
        case.target[pair(case.n, i, j)] = Some(most(bound));
    }
    case
}

/// The same with strict bounds.
fn from_to_less(mut case: Case, start: &[Bound], target: &[Bound]) -> Case {
    for &(i, j, bound) in start {
        case.start[pair(case.n, i, j)] = Some(less(bound));
    }
    for &(i, j, bound) in target {
        case.target[pair(case.n, i, j)] = Some(less(bound));
    }
    case
}

/// Checks one example against brute search 2 and the archive, unpacked and packed
/// in each form that has a place for it.
fn check_answer(case: &Case, capacity: usize, stated: Answer) {
    let length = faults::workspace(case.n, capacity);
    let searched = search(case, capacity).answer;
    assert_eq!(searched, stated, "brute search, Z {capacity}, {case:?}");
    let unpacked = archive::verdict_unpacked(case, capacity, &mut vec![7; length]);
    assert_eq!(unpacked, Ok(stated), "unpacked, Z {capacity}, {case:?}");
    for &form in case.forms() {
        let packed = archive::verdict(&case.pack(form), capacity, &mut vec![7; length]);
        assert_eq!(packed, Ok(stated), "{form:?}, Z {capacity}, {case:?}");
    }
}

/// Times that begin with these.
fn times(first: &[i64]) -> Times {
    let mut times = [0; DEPARTURES];
    times[..first.len()].copy_from_slice(first);
    times
}

/// Checks an example whose start, if any, is in whole seconds.
fn check(case: &Case, capacity: usize, verdict: Verdict, first: [i64; 2]) {
    let stated = Answer {
        verdict,
        parts: usize::from(matches!(verdict, Verdict::Reached { .. })),
        start: times(&first),
    };
    check_answer(case, capacity, stated);
}

/// Checks an example that is reached with a start in parts of a second.
fn check_parts(case: &Case, cycle: usize, parts: usize, first: &[i64]) {
    let stated = Answer {
        verdict: reached(cycle),
        parts,
        start: times(first),
    };
    check_answer(case, 128, stated);
}

fn reached(cycle: usize) -> Verdict {
    Verdict::Reached { cycle }
}

fn clear(horizon: usize) -> Verdict {
    Verdict::Clear { horizon }
}

fn full(returned: usize) -> Verdict {
    let number = 11;
    Verdict::Refused(Fault { number, returned })
}

#[test]
fn repeated_powers() {
    let repeat = |q, p, added| Some(Repeat { q, p, added });
    assert_eq!(first_repeat(&r(1)), repeat(4, 2, 8));
    assert_eq!(first_repeat(&s(1)), repeat(3, 1, 0));
    assert_eq!(first_repeat(&o(1)), repeat(2, 1, 1));
}

#[test]
fn network_examples() {
    let to_equal = |case| from_to(case, &[(1, 2, 0)], &[(1, 2, 1), (2, 1, 1)]);
    check(&to_equal(r(3)), 128, reached(2), [0, 0]);
    check(&to_equal(r(1)), 128, clear(1), [0, 0]);
    let to_three = |case| from_to(case, &[], &[(2, 1, -3)]);
    check(&to_three(r(3)), 128, Verdict::Never, [0, 0]);
    check(&to_three(r(2)), 128, Verdict::Never, [0, 0]);
    let one = [(1, 2, 1), (2, 1, -1)];
    check(&from_to(s(2), &one, &one), 128, reached(2), [0, -1]);
    check(&from_to(s(1), &one, &one), 128, clear(1), [0, 0]);
    let five = |case| from_to(case, &[(1, 0, 0), (0, 1, 0)], &[(1, 0, 5), (0, 1, -5)]);
    check(&five(o(5)), 128, reached(5), [0, 0]);
    check(&five(o(4)), 128, clear(4), [0, 0]);
    let within = [(1, 0, 1), (0, 1, 0), (2, 0, 1), (0, 2, 0)];
    let within = from_to(r(1), &[], &within);
    check(&within, 128, reached(1), [-2, -5]);
    check(&within, 1, full(1), [0, 0]);
    let nobody = from_to(r(3), &[], &[(1, 2, 0), (2, 1, -1)]);
    check(&nobody, 128, Verdict::Never, [0, 0]);
}

/// The example of request [4].
#[test]
fn latest_start() {
    let mut minute = o(1);
    minute.times[0] = Some(60);
    let until_nine = from_to(minute, &[(0, 1, 0), (1, 0, 9)], &[]);
    check(&until_nine, 128, reached(1), [9, 0]);
}

/// Request [5], with clock bounds in both patterns: the lists of d ≤ -1 have 1,
/// 2 and 0 zones, so that only a table of one zone runs full.
#[test]
fn dry_lists() {
    let behind = |case, start: &[Bound]| from_to(case, start, &[(1, 2, -1), (1, 0, 9)]);
    let unmet = |horizon| behind(r(horizon), &[(1, 2, 2), (1, 0, 0)]);
    check(&unmet(1), 2, clear(1), [0, 0]);
    check(&unmet(2), 2, Verdict::Never, [0, 0]);
    check(&unmet(64), 2, Verdict::Never, [0, 0]);
    check(&unmet(2), 1, full(1), [0, 0]);
    check(&behind(r(2), &[(1, 0, 0)]), 2, reached(1), [0, -3]);
    let nobody = from_to(unmet(1), &[], &[(2, 1, 0)]);
    check(&nobody, 1, Verdict::Never, [0, 0]);
}

/// d between 0 and 1, without both.
const BETWEEN: [Bound; 2] = [(1, 2, 1), (2, 1, 0)];

/// The bounds of request [6] can be met, in the start and in the target. With
/// "less than b" written as b - 1 nobody meets them.
#[test]
fn strict_bounds() {
    check_parts(&from_to_less(s(1), &BETWEEN, &[]), 1, 3, &[0, -1]);
    check_parts(&from_to_less(s(1), &[], &BETWEEN), 1, 3, &[0, 2]);
    let both = |horizon| from_to_less(s(horizon), &BETWEEN, &BETWEEN);
    check_parts(&both(2), 2, 3, &[0, -1]);
    check_answer(&both(1), 128, without_start(clear(1)));
    let whole = [(1, 2, 0), (2, 1, -1)];
    check(&from_to(s(2), &whole, &whole), 128, Verdict::Never, [0, 0]);
    let zone = Bounds::stated(2, &both(1).start).closed();
    let zone = zone.expect("a zone that is not empty");
    assert_eq!(zone.in_parts(1), None);
}

/// Request [4]'s example with strict bounds: less than 9 is at most 17 halves.
/// The parts go by the patterns, also where the set shows no strict bound.
#[test]
fn latest_start_in_parts() {
    let mut minute = o(1);
    minute.times[0] = Some(60);
    let below_nine = from_to_less(minute, &[(0, 1, 0), (1, 0, 9)], &[]);
    check_parts(&below_nine, 1, 2, &[17]);
    let until_nine = from_to(minute, &[(0, 1, 0), (1, 0, 9)], &[]);
    check_parts(&from_to_less(until_nine, &[], &[(1, 0, 1000)]), 1, 2, &[18]);
    check_parts(&from_to_less(minute, &[(0, 1, 5)], &[]), 1, 2, &[-9]);
}

/// 0 < x(1) < ... < x(n) < 1 has times in (n + 1)ths, and in nothing coarser.
#[test]
fn parts_that_are_needed() {
    for n in 1..=DEPARTURES {
        let mut case = Case::empty(n, 1);
        for i in 0..n {
            case.times[i * n + i] = Some(0);
            case.start[pair(n, i, i + 1)] = Some(less(0));
        }
        case.start[pair(n, n, 0)] = Some(less(1));
        let zone = Bounds::stated(n, &case.start).closed();
        let zone = zone.expect("a zone that is not empty");
        assert!((1..=n).all(|parts| zone.in_parts(parts).is_none()));
        let steps: Vec<i64> = (1..=n as i64).collect();
        check_parts(&case, 1, n + 1, &steps);
    }
}

/// A strict bound that states 0 around a cycle leaves nothing.
#[test]
fn strict_and_empty() {
    let nobody = from_to_less(from_to(s(3), &[], &[(1, 2, 0)]), &[], &[(2, 1, 0)]);
    check_answer(&nobody, 128, without_start(Verdict::Never));
    check(&from_to(nobody, &[], &[(2, 1, 0)]), 128, reached(1), [0, 0]);
}

/// Marks of the times, of absent bounds and of those beyond n are ignored: the
/// start is in whole seconds.
#[test]
fn marks_that_do_not_count() {
    let one = [(1, 2, 1), (2, 1, -1)];
    let case = from_to(s(2), &one, &one);
    let mut entries = case.entries();
    for (mark, present) in entries.strict.iter_mut().zip(&entries.present) {
        *mark = 255 * (1 - present);
    }
    entries.strict[..TIMES].fill(255);
    let stated = Answer {
        verdict: reached(2),
        parts: 1,
        start: times(&[0, -1]),
    };
    let mut work = vec![7; faults::workspace(2, 128)];
    let answer = archive::verdict_entries(2, 2, &entries, 128, &mut work);
    assert_eq!(answer, Ok(stated));
    let ran = archive::run_parts_entries(2, &entries, &stated.start, 1);
    assert_eq!(ran.map(|ran| ran.parts), Ok(1));
}

/// A run of the start that is handed back, in thirds, and what the program would
/// print of it.
#[test]
fn runs_in_parts() {
    let case = from_to_less(s(2), &BETWEEN, &BETWEEN);
    for (cycle, first) in [(0, [0, -1]), (1, [-1, 0]), (2, [0, -1])] {
        let run = Run {
            judged: Ok(()),
            times: times(&first),
        };
        let ran = archive::run_parts(&case, &times(&[0, -1]), cycle);
        assert_eq!(ran, Ok(RunInParts { run, parts: 3 }));
    }
    let answer = search(&case, 128).answer;
    let text = "reached 2 of 3\n0 0 -1\n1 -1 0\n2 0 -1\n";
    assert_eq!(lines(&case, &answer), text);
    let after =
        |case: &Case| archive::run_parts(case, &[0; DEPARTURES], 2).map(|ran| ran.run.times);
    assert_eq!(after(&r(1)), Ok(times(&[8, 8])));
    assert_eq!(
        after(&from_to_less(r(1), &[(1, 2, 9)], &[])),
        Ok(times(&[24, 24]))
    );
}

#[test]
fn images_of_the_first_example() {
    let after = |first, second| {
        let times = times(&[first, second]);
        let judged = Ok(());
        Ok(Run { judged, times })
    };
    assert_eq!(archive::run(&r(1), &[0; DEPARTURES], 0), after(0, 0));
    assert_eq!(archive::run(&r(1), &[0; DEPARTURES], 1), after(5, 3));
    assert_eq!(archive::run(&r(1), &[0; DEPARTURES], 2), after(8, 8));
}

/// The fault of a call on each packed form and on the unpacked case, 0 and 0
/// without one.
fn all_faults(case: &Case) -> [(usize, usize); 3] {
    let [old, wide] = [Form::Old, Form::Wide].map(|form| case.pack(form));
    let brute = [
        faults::of_packed(&old).map(|_| ()),
        faults::of_packed(&wide).map(|_| ()),
        faults::of_case(case),
    ];
    let length = faults::workspace(case.n, 1);
    let answers = [
        archive::verdict(&old, 1, &mut vec![7; length]),
        archive::verdict(&wide, 1, &mut vec![7; length]),
        archive::verdict_unpacked(case, 1, &mut vec![7; length]),
    ];
    for (judged, answer) in brute.iter().zip(answers) {
        match judged {
            Err(fault) => assert_eq!(answer, Ok(refused(*fault)), "{case:?}"),
            Ok(()) => assert_eq!(answer, Ok(search(case, 1).answer), "{case:?}"),
        }
    }
    brute.map(|judged| judged.map_or_else(|fault| (fault.number, fault.returned), |_| (0, 0)))
}

#[test]
fn edges_of_values() {
    for sign in [1, -1] {
        let mut case = o(1);
        case.times[0] = Some(sign * 86_400);
        assert_eq!(all_faults(&case), [(0, 0); 3]);
        case.times[0] = Some(sign * 86_401);
        assert_eq!(all_faults(&case), [(4, 9), (4, 13), (4, 0)]);
        let case = from_to(o(1), &[(0, 1, sign * 1_000_000)], &[]);
        assert_eq!(all_faults(&case), [(0, 0); 3]);
        let case = from_to(o(1), &[(0, 1, sign * 1_000_001)], &[]);
        assert_eq!(all_faults(&case), [(6, 28), (6, 32), (6, 0)]);
        let case = from_to(o(1), &[], &[(1, 0, sign * 1_000_001)]);
        assert_eq!(all_faults(&case), [(6, 31), (6, 35), (6, 3)]);
    }
}

#[test]
fn edges_of_the_call() {
    let never = without_start(Verdict::Never);
    let fault = |number| {
        let returned = 0;
        refused(Fault { number, returned })
    };
    let horizon = |n| from_to(o(n), &[(0, 1, -1), (1, 0, 0)], &[]);
    let judge = |n, length| archive::verdict_unpacked(&horizon(n), 3, &mut vec![7; length]);
    assert_eq!(judge(64, 24), Ok(never));
    assert_eq!(judge(65, 24), Ok(fault(3)));
    assert_eq!(judge(0, 24), Ok(fault(3)));
    assert_eq!(judge(64, 23), Ok(fault(10)));
}

/// Fifteen departures, each on its own, reached at 1, and sixteen.
#[test]
fn edges_of_departures() {
    for n in [8, 15] {
        let mut case = Case::empty(n, 1);
        for i in 0..n {
            case.times[i * n + i] = Some(60);
        }
        check(&case, 1, reached(1), [0, 0]);
        let length = faults::workspace(n, 1);
        case.n = 16;
        let two = Fault {
            number: 2,
            returned: 0,
        };
        let answer = archive::verdict_unpacked(&case, 1, &mut vec![7; length]);
        assert_eq!(answer, Ok(refused(two)));
        let run = archive::run(&case, &[0; DEPARTURES], 1);
        assert_eq!(run.map(|run| run.judged), Ok(Err(two)));
    }
}

#[test]
fn what_a_planner_sees() {
    let seen = |bytes: &[u8]| printed(bytes);
    assert_eq!(seen(&[0x20, 0x40, 0x03, 0xC0]), "reached 1\n0 0\n1 60\n");
    assert_eq!(seen(&[0x20, 0x40, 0x03]), "refused 1 9\n");
    assert_eq!(seen(&[0x20, 0x40, 0x03, 0xC0, 0]), "refused 8 32\n");
    assert_eq!(seen(&[]), "refused 1 0\n");
    assert_eq!(seen(&[0]), "refused 2 0\n");
    assert_eq!(seen(&[2]), "refused 1 7\n");
}

#[test]
fn packed_lengths() {
    let mut case = Case::empty(1, 1);
    case.times[0] = Some(60);
    assert_eq!(case.pack(Form::Old), [0x20, 0x40, 0x03, 0xC0]);
    assert_eq!(case.pack(Form::Wide), [0x02, 0x04, 0x00, 0x3C, 0x00]);
    let mut old = Case::empty(7, 64);
    old.times[..49].fill(Some(-1));
    old.start[..56].fill(Some(most(1)));
    old.target[..56].fill(Some(most(-1)));
    for (form, case, length) in [(Form::Old, old, 426), (Form::Wide, longest(), 1916)] {
        assert_eq!(case.pack(form).len(), length);
        assert_eq!(faults::of_packed(&case.pack(form)), Ok(case));
    }
}
