//! Decisions: the archive against both brute searches, against the verdict that
//! document 01 defines, and against the definition as `exact.rs` has it.

use evidence::archive::{self, Decided, Decision, Verdict};
use evidence::case::{less, most, pair, Case, DEPARTURES};
use evidence::checks::{met_in_a_box, named_unpacked, noisy};
use evidence::damage;
use evidence::enumeration::{image, in_parts, leads};
use evidence::exact::{self, without_start, Exact};
use evidence::faults::{self, fault};
use evidence::longest::{full, longest, start_of_longest};
use evidence::random::wide::any_trial;
use evidence::random::{crowded_trial, dense_trial, strict_dense_trial, Random, Trial};
use evidence::rings::{long_rings, rings};
use evidence::selections::{first_repeat, parts_of, search, searched};
use evidence::solver;
use std::thread;

/// Random cases that are compared with the brute searches, and with the definition.
const CASES: u64 = 20_000;
const DEFINED: u64 = 8_000;
const WORKERS: u64 = 4;

/// More steps than any of the cases takes that is to be decided.
const ENOUGH: usize = 10_000_000;

/// What the archive decides. All that it must ignore is made random.
fn decided(random: &mut Random, case: &Case, cycles: usize, steps: usize) -> Decision {
    let entries = noisy(random, case);
    let decision = archive::decide_entries(case.n, case.horizon, &entries, cycles, steps);
    decision.unwrap_or_else(|unknown| panic!("{unknown:?}, {case:?}"))
}

/// Runs one test over seeds in several threads; the sums of what they count.
fn count<const KINDS: usize>(
    seeds: u64,
    one: impl Fn(u64, &mut [usize; KINDS]) + Sync,
) -> [usize; KINDS] {
    let work = |number: u64| {
        let mut counts = [0; KINDS];
        for seed in (number..seeds).step_by(WORKERS as usize) {
            one(seed, &mut counts);
        }
        counts
    };
    thread::scope(|scope| {
        let workers: Vec<_> = (0..WORKERS)
            .map(|number| scope.spawn(move || work(number)))
            .collect();
        let mut sums = [0; KINDS];
        for worker in workers {
            let counts = worker.join().expect("no difference in a worker");
            sums.iter_mut().zip(counts).for_each(|(s, c)| *s += c);
        }
        sums
    })
}

/// The last cycle up to which the target is not met, by the decision. Starts of a
/// box can contradict never, here up to cycle 100.
fn unmet_up_to(decided: &Decided) -> usize {
    match *decided {
        Decided::Refused(_) => 0,
        Decided::Reached { cycle } | Decided::Undecided { cycle } => cycle - 1,
        Decided::Clear { cycles } => cycles,
        Decided::Never => 100,
    }
}

/// A reached decision hands back a start in the right parts that does what is
/// said; every other one hands back none.
fn check_start(case: &Case, decision: &Decision, words: &dyn Fn() -> String) {
    let Decided::Reached { cycle } = decision.decided else {
        assert_eq!(*decision, without_start(decision.decided), "{}", words());
        return;
    };
    let Decision { parts, start, .. } = *decision;
    assert_eq!(parts, parts_of(case), "{}", words());
    let scaled = in_parts(case, parts);
    assert!(leads(&scaled, &start, cycle), "{}", words());
    assert!(start[case.n..].iter().all(|&time| time == 0), "{}", words());
    if cycle <= 64 {
        let ran = archive::run_parts(case, &start, cycle).expect("a known outcome");
        assert_eq!((ran.run.judged, ran.parts), (Ok(()), parts), "{}", words());
        assert_eq!(ran.run.times, image(&scaled, &start, cycle), "{}", words());
    }
}

/// Whether a decision agrees with a verdict over as many cycles. A full table at k
/// says that nothing is met before k.
fn agrees(verdict: &Verdict, decided: &Decided) -> bool {
    match (verdict, decided) {
        (Verdict::Reached { cycle: one }, Decided::Reached { cycle: other }) => one == other,
        (Verdict::Clear { horizon }, Decided::Clear { cycles }) => horizon == cycles,
        (Verdict::Never, Decided::Clear { .. } | Decided::Never) => true,
        (Verdict::Clear { .. }, Decided::Never) => true,
        (Verdict::Refused(fault), decided) => {
            fault.number == 11 && unmet_up_to(decided) + 1 >= fault.returned
        }
        _ => false,
    }
}

/// The defined verdict by the archive, with so many zones.
fn defined(case: &Case, capacity: usize) -> Verdict {
    let mut work = vec![0; faults::workspace(case.n, capacity)];
    let answer = archive::verdict_unpacked(case, capacity, &mut work);
    answer.expect("a known outcome").verdict
}

/// Never by a repeated power q is found with 3 (q - 1) cycles at the latest.
fn check_repeat(case: &Case, verdict: &Verdict, words: &dyn Fn() -> String) {
    let (_, repeats) = searched(case);
    if let (Verdict::Never, true, Some(repeat)) = (verdict, repeats, first_repeat(case)) {
        let decision = archive::decide(case, 3 * (repeat.q - 1), ENOUGH);
        let never = Ok(without_start(Decided::Never));
        assert_eq!(decision, never, "{repeat:?}, {}", words());
    }
}

/// Compares a decision with the verdict of brute search 2, and every other one with
/// the archive's for 128 zones or now and then 4,096.
fn compare_verdicts(seed: u64, trial: &Trial, decided: &Decided, words: &dyn Fn() -> String) {
    let case = &trial.case;
    let brute = search(case, trial.capacity).answer.verdict;
    assert!(agrees(&brute, decided), "{brute:?}, {}", words());
    check_repeat(case, &brute, words);
    let capacity = match seed % 40 {
        0 => 4096,
        even if even % 2 == 0 => 128,
        _ => return,
    };
    let verdict = defined(case, capacity);
    assert!(agrees(&verdict, decided), "{verdict:?}, {}", words());
}

/// One random case. Counts reached 1, reached later, clear and never.
fn compare(seed: u64, counts: &mut [usize; 4]) {
    let mut random = Random::new(10_000_000 + seed);
    let trial = any_trial(&mut random);
    let case = &trial.case;
    let decision = decided(&mut random, case, case.horizon, ENOUGH);
    let words = || {
        format!(
            "{decision:?}, {}",
            named_unpacked(seed, case, trial.capacity)
        )
    };
    check_start(case, &decision, &words);
    let met = met_in_a_box(&trial, unmet_up_to(&decision.decided));
    assert_eq!(met, None, "met too early: {}", words());
    compare_verdicts(seed, &trial, &decision.decided, &words);
    let kind = match decision.decided {
        Decided::Reached { cycle: 1 } => 0,
        Decided::Reached { .. } => 1,
        Decided::Clear { .. } => 2,
        Decided::Never => 3,
        other => panic!("{other:?}, {}", words()),
    };
    counts[kind] += 1;
}

#[test]
fn archive_and_brute_searches_agree() {
    let counts = count(CASES, compare);
    println!("reached 1, reached later, clear, never: {counts:?}");
    assert!(counts.iter().all(|&count| count >= 1_000), "{counts:?}");
}

/// Decides a case with all steps that it takes, with exactly so many, with one
/// less, and with few. Each decision must be the defined one.
fn check_defined(
    random: &mut Random,
    case: &Case,
    (cycles, most): (usize, usize),
    words: &dyn Fn() -> String,
) -> Decision {
    let Exact { decision, steps } = exact::decide(case, cycles, most);
    let fewer = [0, 1, random.below(20), random.below(steps + 1)];
    let about = [most, steps, steps.saturating_sub(1)];
    for given in about.into_iter().chain(fewer) {
        let expected = match given >= steps {
            true => decision,
            false => exact::decide(case, cycles, given).decision,
        };
        let found = decided(random, case, cycles, given);
        let words = || format!("{cycles} cycles, {given} of {steps} steps, {}", words());
        assert_eq!(found, expected, "archive, definition: {}", words());
    }
    decision
}

/// Counts reached, clear, never, undecided.
fn count_kind(counts: &mut [usize; 4], decision: &Decision) {
    let kind = match decision.decided {
        Decided::Reached { .. } => 0,
        Decided::Clear { .. } => 1,
        Decided::Never => 2,
        Decided::Undecided { .. } => 3,
        Decided::Refused(fault) => panic!("{fault:?}"),
    };
    counts[kind] += 1;
}

/// A number of cycles, now and then the most.
fn any_cycles(random: &mut Random, case: &Case) -> usize {
    match random.below(64) {
        0 => 4096,
        1..=7 => 200,
        8..=31 => 64,
        32..=39 => 1,
        40..=47 => 1 + random.below(9),
        _ => case.horizon,
    }
}

/// A random case: few columns, or a table without a blank.
fn any_table(random: &mut Random) -> Trial {
    match random.below(16) {
        0 => {
            let n = random.between(4, 7) as usize;
            crowded_trial(random, n, 64)
        }
        1 => {
            let n = random.between(5, 15) as usize;
            dense_trial(random, n)
        }
        2 => {
            let n = random.between(5, 15) as usize;
            strict_dense_trial(random, n)
        }
        _ => any_trial(random),
    }
}

#[test]
fn decisions_are_the_defined_ones() {
    let counts = count(DEFINED, |seed, counts| {
        let mut random = Random::new(11_000_000 + seed);
        let case = any_table(&mut random).case;
        let cycles = any_cycles(&mut random, &case);
        let words = || named_unpacked(seed, &case, 0);
        let most = random.one_of(&[40, 1_000, 1_000, 5_000]);
        let decision = check_defined(&mut random, &case, (cycles, most), &words);
        check_start(&case, &decision, &words);
        count_kind(counts, &decision);
    });
    println!("reached, clear, never, undecided: {counts:?}");
    assert!(counts.iter().all(|&count| count >= 80), "{counts:?}");
}

/// Fifteen departures. The first tells the cycle, and the target is met at that one
/// alone. The others are in pairs that run apart by 172,800 seconds in a cycle; in
/// the target one of each is at least 1,000,000 behind the other. The start of each
/// pair hangs on that of the pair before it.
fn far(cycle: i64, strict: bool) -> Case {
    let n = DEPARTURES;
    let mut case = Case::empty(n, 64);
    let bound = |value| if strict { less(value) } else { most(value) };
    for (behind, ahead) in (1..8).zip(8..15) {
        case.times[behind * n + behind] = Some(-86_400);
        case.times[ahead * n + ahead] = Some(86_400);
        if behind > 1 {
            case.times[(ahead - 1) * n + behind] = Some(86_400);
        }
        case.target[pair(n, ahead + 1, behind + 1)] = Some(bound(-1_000_000));
    }
    case.times[0] = Some(1_000_000 / cycle);
    let then = 1_000_000 / cycle * cycle;
    for (pattern, time) in [(&mut case.start, 0), (&mut case.target, then)] {
        pattern[pair(n, 1, 0)] = Some(most(time));
        pattern[pair(n, 0, 1)] = Some(most(-time));
    }
    case.start[pair(n, 2, 0)] = Some(bound(1_000_000));
    case.start[pair(n, 0, 2)] = Some(bound(1_000_000));
    case
}

/// Times of a start far from 0, at the last cycle there is and one too late for it.
#[test]
fn large_numbers() {
    let mut random = Random::new(12_000_000);
    for (cycle, cycles, strict) in [
        (4096, 4096, true),
        (4096, 4095, false),
        (64, 64, true),
        (64, 64, false),
    ] {
        let case = far(cycle, strict);
        let expected = exact::decide(&case, cycles, ENOUGH).decision;
        println!("{expected:?}");
        let words = || format!("cycle {cycle} of {cycles}, {strict}");
        let found = decided(&mut random, &case, cycles, ENOUGH);
        assert_eq!(found, expected, "{}", words());
        check_start(&case, &found, &words);
    }
}

/// Damaged cases and numbers of cycles beyond the limits.
#[test]
fn damaged_calls() {
    let mut counts = [0; 7];
    for seed in 13_000_000..13_010_000 {
        let mut random = Random::new(seed);
        let case = damage::unpacked(&mut random, any_trial).case;
        let huge = [0, 4097, 1 << 32, (1 << 32) + 1, usize::MAX];
        let cycles = match random.below(6) {
            0 => random.one_of(&huge),
            _ => 1 + random.below(9),
        };
        let expected = exact::decide(&case, cycles, 100).decision;
        let found = decided(&mut random, &case, cycles, 100);
        let words = named_unpacked(seed, &case, 0);
        assert_eq!(found, expected, "{cycles} cycles, {words}");
        let number = match expected.decided {
            Decided::Refused(fault) => fault.number,
            _ => 0,
        };
        counts[number] += 1;
    }
    println!("without a fault, then faults 1 to 6: {counts:?}");
    let least = [0, 2, 3, 4, 5, 6].map(|number| counts[number]);
    assert!(least.iter().all(|&count| count >= 40), "{counts:?}");
}

/// A call on a case.
struct Call {
    case: Case,
    cycles: usize,
    steps: usize,
}

/// A fault's number, what it returns, and what causes it in a plain call of three
/// departures.
type Cause = (usize, usize, fn(&mut Call));

/// In the order in which they are judged.
const CAUSES: [Cause; 11] = [
    (2, 0, |call| call.case.n = 0),
    (2, 0, |call| call.case.n = 16),
    (3, 0, |call| call.case.horizon = 0),
    (3, 0, |call| call.case.horizon = 65),
    (4, 1, |call| call.case.times[1] = Some(86_401)),
    (5, 3, |call| call.case.times[3..6].fill(None)),
    (4, 7, |call| call.case.times[7] = Some(-86_401)),
    (6, 2, |call| call.case.start[2] = Some(most(1_000_001))),
    (6, 12, |call| call.case.target[0] = Some(less(-1_000_001))),
    (3, 0, |call| call.cycles = 0),
    (3, 0, |call| call.cycles = 4097),
];

/// A call on three departures whose times are all 0; every start will do.
fn plain() -> Call {
    let mut case = Case::empty(3, 64);
    case.times[..9].fill(Some(0));
    Call {
        case,
        cycles: 4096,
        steps: 3,
    }
}

/// What a call gives.
fn of_call(call: &Call) -> Decision {
    decided(&mut Random::new(0), &call.case, call.cycles, call.steps)
}

#[test]
fn each_fault_alone_and_before_each_later_one() {
    let reached = Decision {
        decided: Decided::Reached { cycle: 1 },
        parts: 1,
        start: [0; DEPARTURES],
    };
    assert_eq!(of_call(&plain()), reached);
    for (place, &(number, returned, cause)) in CAUSES.iter().enumerate() {
        for (_, _, later) in &CAUSES[place..] {
            let mut call = plain();
            later(&mut call);
            cause(&mut call);
            let refused = without_start(Decided::Refused(fault(number, returned)));
            assert_eq!(of_call(&call), refused);
            call.steps = 0;
            assert_eq!(of_call(&call), refused);
        }
    }
}

/// The limits themselves are no faults: the horizon is 1 or 64, the cycles 1 or
/// 4,096, and neither decides what the other does.
#[test]
fn limits_of_horizon_and_cycles() {
    for horizon in [1, 64] {
        for cycles in [1, 2, 63, 64, 65, 4095, 4096] {
            let mut call = plain();
            (call.case.horizon, call.cycles) = (horizon, cycles);
            call.steps = usize::MAX;
            // x(1) is 0 at first, so that x(2) is 0 or more after every cycle.
            for pattern in [&mut call.case.start, &mut call.case.target] {
                pattern[pair(3, 1, 0)] = Some(most(0));
                pattern[pair(3, 0, 1)] = Some(most(0));
            }
            call.case.target[pair(3, 2, 0)] = Some(most(-1));
            let clear = without_start(Decided::Clear { cycles });
            assert_eq!(of_call(&call), clear, "horizon {horizon}");
        }
    }
}

/// Reached, clear and never among rings over so many cycles, each compared with the
/// definition.
fn decide_rings(cases: &[Case], cycles: usize) -> [usize; 4] {
    let mut random = Random::new(14_000_000);
    let mut counts = [0; 4];
    for (number, case) in cases.iter().enumerate() {
        let words = || format!("ring {number}, {cycles} cycles");
        let decision = decided(&mut random, case, cycles, ENOUGH);
        let expected = exact::decide(case, cycles, ENOUGH).decision;
        assert_eq!(decision, expected, "{}", words());
        check_start(case, &decision, &words);
        count_kind(&mut counts, &decision);
    }
    counts
}

/// Compares the decisions with the defined verdicts of some rings; on how many the
/// table is full.
fn full_tables(cases: &[Case], capacity: usize) -> usize {
    let mut full = 0;
    for (number, case) in cases.iter().enumerate() {
        let verdict = defined(case, capacity);
        let decision = archive::decide(case, 64, ENOUGH).expect("a known outcome");
        let words = || format!("{verdict:?}, {decision:?}, ring {number}");
        assert!(agrees(&verdict, &decision.decided), "{}", words());
        check_repeat(case, &verdict, &words);
        full += usize::from(matches!(verdict, Verdict::Refused(_)));
    }
    full
}

/// With 128 zones the table is full on 86 of them. Those of 3 to 5 departures are
/// compared with 4,096 zones too.
#[test]
fn all_rings_are_decided() {
    let cases = rings();
    assert_eq!(full_tables(&cases, 128), 86);
    assert_eq!(full_tables(&cases[..60], 4096), 18);
    assert_eq!(decide_rings(&cases, 64), [59, 32, 9, 0]);
    assert_eq!(decide_rings(&cases, 4096), [73, 0, 27, 0]);
}

#[test]
fn long_rings_are_decided() {
    for (n, counts) in [(10, [23, 7, 0, 0]), (15, [24, 6, 0, 0])] {
        assert_eq!(decide_rings(&long_rings(n), 64), counts, "rings of {n}");
    }
}

/// What a decision may take of the stack.
const STACK: usize = 256 * 1024;

/// Decisions that go through all rows of fifteen departures. Overrunning the stack
/// would end the process.
fn deep_calls() {
    let reached = Decision {
        decided: Decided::Reached { cycle: 1 },
        parts: 16,
        start: start_of_longest(),
    };
    let case = longest();
    assert_eq!(archive::decide(&case, 4096, ENOUGH), Ok(reached));
    let never = without_start(Decided::Never);
    assert_eq!(archive::decide(&full(15), 4096, ENOUGH), Ok(never));
    let undecided = without_start(Decided::Undecided { cycle: 1 });
    assert_eq!(archive::decide(&case, 4096, 14), Ok(undecided));
    let case = far(64, true);
    let decision = archive::decide(&case, 64, ENOUGH).expect("a known outcome");
    assert_eq!(decision.decided, Decided::Reached { cycle: 64 });
}

#[test]
fn a_decision_fits_a_small_stack() {
    let thread = thread::Builder::new().stack_size(STACK);
    let ended = thread.spawn(deep_calls).expect("a thread").join();
    assert!(ended.is_ok(), "a call went wrong, see above");
}

/// z3 finds a ring met at the cycle that is decided and not at the one before.
#[test]
fn a_solver_agrees_on_rings() {
    let Some(version) = solver::version() else {
        println!("z3 is not here; the comparison with it is left out");
        return;
    };
    let (mut said, mut silent) = (0, 0);
    for (number, case) in rings().iter().enumerate().step_by(5) {
        let decision = archive::decide(case, 64, ENOUGH).expect("a known outcome");
        let (last, met) = match decision.decided {
            Decided::Reached { cycle } => (cycle, true),
            _ => (8, false),
        };
        for cycle in [last - 1, last].into_iter().filter(|&cycle| cycle > 0) {
            let expected = met && cycle == last;
            match solver::met(case, cycle, 5).expect("z3 runs") {
                Some(found) => assert_eq!(found, expected, "ring {number}, cycle {cycle}"),
                None => silent += 1,
            }
            said += 1;
        }
    }
    println!("{version}: {said} questions, {silent} not answered in time");
}
