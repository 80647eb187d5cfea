//! A test of the tests: brute search 1 against brute search 2.

use evidence::archive::Verdict;
use evidence::case::{most, pair, Case, Times, DEPARTURES};
use evidence::checks::unmet_up_to;
use evidence::enumeration::{
    choice, first_cycle, first_in_box, image, in_parts, starts, step, tried_parts, within,
};
use evidence::random::wide::{strict_wide_trial, wide_trial};
use evidence::random::{bearable, strict_trial, trial, Draw, Random};
use evidence::selections::{
    before, next_list, parts_of, picked, search, selections, Bounds, Selection,
};

/// The largest distance from the clock's zero in the boxes here, by n: in
/// seconds, and in boxes of starts in parts of a second, in seconds too.
const RADIUS: [i64; 4] = [0, 30, 7, 3];
const RADIUS_IN_PARTS: [i64; 4] = [0, 12, 3, 1];

/// A random case of 1 to 3 departures.
fn small_case(random: &mut Random, draw: Draw) -> (Case, usize) {
    loop {
        let trial = draw(random);
        if trial.case.n <= 3 {
            return (trial.case, trial.capacity);
        }
    }
}

/// Bounds the start so that all of it lies in the box.
fn enclose(case: &mut Case, radii: &[i64; 4]) {
    let radius = radii[case.n];
    for i in 1..=case.n {
        for place in [pair(case.n, i, 0), pair(case.n, 0, i)] {
            let inside = case.start[place].filter(|bound| bound.value <= radius);
            case.start[place] = inside.or(Some(most(radius)));
        }
    }
}

/// Compares one answer with enumeration and returns its kind.
fn compare(case: &Case, capacity: usize, radius: i64, words: &str) -> usize {
    let answer = search(case, capacity).answer;
    let limit = unmet_up_to(&answer.verdict);
    let (kind, limit, met) = match answer.verdict {
        Verdict::Reached { cycle } => (0, cycle, Some((cycle, answer.start))),
        Verdict::Clear { .. } => (1, limit, None),
        Verdict::Never => (2, limit, None),
        Verdict::Refused(_) => (3, limit, None),
    };
    let parts = parts_of(case);
    let reach = radius * parts as i64;
    let first = first_in_box(&in_parts(case, parts), &[0; DEPARTURES], reach, limit);
    assert_eq!(first, met, "{answer:?}, {words}");
    kind
}

/// Every start lies in the box, so enumeration decides when the target is met
/// and which start is handed back.
fn answers(draw: Draw, cases: u64, radii: &[i64; 4]) {
    let mut counts = [0; 4];
    for seed in 0..cases {
        let mut random = Random::new(seed);
        let (mut case, capacity) = small_case(&mut random, draw);
        enclose(&mut case, radii);
        if let Some(capacity) = bearable(&case, capacity) {
            let words = format!("seed {seed}, Z {capacity}, {case:?}");
            counts[compare(&case, capacity, radii[case.n], &words)] += 1;
        }
    }
    println!("reached, clear, never, refused: {counts:?}");
    assert!(counts.iter().all(|&count| count > 100), "{counts:?}");
}

#[test]
fn answers_on_enclosed_starts() {
    answers(trial, 4000, &RADIUS);
}

#[test]
fn answers_with_marks_on_enclosed_starts() {
    answers(strict_trial, 4000, &RADIUS_IN_PARTS);
}

/// In whatever parts of a second, no start arrives before the verdict says; in
/// those of the answer, and in parts of these, one arrives then. Returns whether
/// none arrives in whole seconds.
fn compare_parts(case: &Case, capacity: usize, words: &str) -> bool {
    let answer = search(case, capacity).answer;
    let unmet = unmet_up_to(&answer.verdict);
    let mut in_seconds = true;
    for parts in tried_parts(case.n) {
        let reach = RADIUS_IN_PARTS[case.n] * parts as i64;
        let first = |limit| {
            let met = first_in_box(&in_parts(case, parts), &[0; DEPARTURES], reach, limit);
            met.map(|(cycle, _)| cycle)
        };
        let words = || format!("{parts} parts, {answer:?}, {words}");
        assert_eq!(first(unmet), None, "{}", words());
        let Verdict::Reached { cycle } = answer.verdict else {
            continue;
        };
        let arrives = first(cycle) == Some(cycle);
        assert!(
            arrives || !parts.is_multiple_of(answer.parts),
            "{}",
            words()
        );
        in_seconds &= arrives || parts > 1;
    }
    !in_seconds
}

/// Compares in all parts and returns how often only fractions arrive.
fn in_all_parts(draw: Draw, cases: u64) -> usize {
    let fractions = (0..cases).filter(|&seed| {
        let mut random = Random::new(seed);
        let (mut case, capacity) = small_case(&mut random, draw);
        enclose(&mut case, &RADIUS_IN_PARTS);
        let words = format!("seed {seed}, {case:?}");
        bearable(&case, capacity).is_some_and(|capacity| compare_parts(&case, capacity, &words))
    });
    fractions.count()
}

#[test]
fn no_start_in_parts_contradicts() {
    assert_eq!(in_all_parts(trial, 1500), 0);
    let fractions = in_all_parts(strict_trial, 3000);
    println!("reached in fractions alone: {fractions}");
    assert!(fractions > 300, "{fractions}");
}

/// Each time of a start handed back is by the rule, and each part of the rule is
/// used so often.
fn by_the_rule(draw: Draw, cases: u64, least: usize) {
    let mut counts = [0; 3];
    for seed in 0..cases {
        let trial = draw(&mut Random::new(seed));
        let answer = search(&trial.case, trial.capacity).answer;
        let Verdict::Reached { cycle } = answer.verdict else {
            continue;
        };
        let scaled = in_parts(&trial.case, answer.parts);
        for i in 0..trial.case.n {
            let Some(choice) = choice(&scaled, &answer.start, cycle, i) else {
                panic!("seed {seed}, departure {i}, {answer:?}, {:?}", trial.case);
            };
            counts[choice as usize] += 1;
        }
    }
    println!("greatest, least, 0: {counts:?}");
    assert!(counts.iter().all(|&count| count > least), "{counts:?}");
}

#[test]
fn starts_by_the_rule() {
    by_the_rule(trial, 4000, 200);
}

#[test]
fn starts_in_parts_by_the_rule() {
    by_the_rule(strict_trial, 8000, 200);
}

#[test]
fn starts_of_many_departures_by_the_rule() {
    by_the_rule(wide_trial, 600, 10);
}

#[test]
fn starts_of_many_departures_in_parts_by_the_rule() {
    by_the_rule(strict_wide_trial, 1000, 5);
}

/// Whether each selected column attains its row's largest sum.
fn attains(case: &Case, selection: &Selection, x: &Times) -> bool {
    let next = step(case, x);
    (0..case.n).all(|i| {
        let column = selection[i];
        case.time(i, column).map(|time| time + x[column]) == Some(next[i])
    })
}

/// Each start of a box is in a selection's set just if the words say so. Returns
/// how many are.
fn members(case: &Case, parts: usize, radius: i64, words: &str) -> usize {
    let Some(zone) = Bounds::stated(case.n, &case.target).closed() else {
        return 0;
    };
    let scaled = in_parts(case, parts);
    let all = starts(case.n, &[0; DEPARTURES], radius * parts as i64);
    let mut members = 0;
    for selection in selections(case) {
        let set = before(case, &zone, &selection);
        for x in &all {
            let inside = set.as_ref().is_some_and(|set| set.holds(parts, x));
            let image = step(&scaled, x);
            let said = attains(&scaled, &selection, x) && within(case.n, &scaled.target, &image);
            assert_eq!(inside, said, "{parts} parts, {x:?}, {selection:?}, {words}");
            members += usize::from(inside);
        }
    }
    members
}

#[test]
fn sets_of_selections() {
    let mut count = 0;
    for seed in 0..1500 {
        let (case, _) = small_case(&mut Random::new(seed), trial);
        let words = format!("seed {seed}, {case:?}");
        count += members(&case, 1, RADIUS[case.n], &words);
    }
    assert!(count > 10_000, "{count}");
}

#[test]
fn sets_of_selections_with_marks() {
    let mut count = 0;
    for seed in 0..1500 {
        let (case, _) = small_case(&mut Random::new(seed), strict_trial);
        let words = format!("seed {seed}, {case:?}");
        for parts in tried_parts(case.n) {
            count += members(&case, parts, RADIUS_IN_PARTS[case.n], &words);
        }
    }
    assert!(count > 10_000, "{count}");
}

/// Which starts are in no zone and which in one, and which lists are not dry and
/// which are.
#[derive(Default)]
struct Listed {
    members: [usize; 2],
    dry: [usize; 2],
}

impl Listed {
    fn count(&mut self, case: &Case, parts: &[usize], radius: i64, words: &str) {
        let selections = selections(case);
        let target = Bounds::stated(case.n, &case.target).closed();
        let mut list: Vec<Bounds> = target.into_iter().collect();
        for k in 1..=5 {
            list = next_list(case, &selections, &list, 400);
            if list.len() > 400 {
                break;
            }
            let words = format!("k {k}, {words}");
            for &parts in parts {
                self.compare(case, parts, radius, (k, &list), &words);
            }
            self.dry[usize::from(list.is_empty())] += 1;
        }
    }

    /// Each start of a box is in a zone of list k just if its times at cycle k
    /// are in the target. Where parts are enough for the case, each zone has such
    /// times, in the box or not.
    fn compare(
        &mut self,
        case: &Case,
        parts: usize,
        radius: i64,
        (k, list): (usize, &[Bounds]),
        words: &str,
    ) {
        let scaled = in_parts(case, parts);
        let met = |x: &Times| within(case.n, &scaled.target, &image(&scaled, x, k));
        for x in &starts(case.n, &[0; DEPARTURES], radius * parts as i64) {
            let listed = list.iter().any(|zone| zone.holds(parts, x));
            assert_eq!(listed, met(x), "{parts} parts, {x:?}, {words}");
            self.members[usize::from(listed)] += 1;
        }
        if !parts.is_multiple_of(parts_of(case)) {
            return;
        }
        for zone in list {
            let x = zone.in_parts(parts).as_ref().map(picked);
            assert!(x.is_some_and(|x| met(&x)), "{parts} parts, {x:?}, {words}");
        }
    }
}

fn listed(draw: Draw, cases: u64, radii: &[i64; 4], parts: fn(usize) -> Vec<usize>) {
    let mut found = Listed::default();
    for seed in 0..cases {
        let (case, _) = small_case(&mut Random::new(seed), draw);
        let words = format!("seed {seed}, {case:?}");
        found.count(&case, &parts(case.n), radii[case.n], &words);
    }
    let Listed { members, dry } = found;
    assert!(members.iter().all(|&count| count > 10_000), "{members:?}");
    println!("not dry, dry: {dry:?}");
    assert!(dry.iter().all(|&count| count > 300), "{dry:?}");
}

#[test]
fn lists_and_images() {
    listed(trial, 800, &RADIUS, |_| vec![1]);
}

#[test]
fn lists_and_images_with_marks() {
    listed(strict_trial, 800, &RADIUS_IN_PARTS, |n| {
        tried_parts(n).collect()
    });
}

/// The first cycle of a start is the least at which its times are in the target.
#[test]
fn first_cycles() {
    for seed in 0..500 {
        let mut random = Random::new(seed);
        let trial = trial(&mut random);
        let met = |k: &usize| {
            let times = image(&trial.case, &trial.near, *k);
            within(trial.case.n, &trial.case.target, &times)
        };
        let least = (1..=64).find(met);
        assert_eq!(
            first_cycle(&trial.case, &trial.near, 64),
            least,
            "seed {seed}"
        );
    }
}
