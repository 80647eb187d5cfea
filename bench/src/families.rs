//! Families of cases. Seeds are fixed, so each run has the same cases.

use crate::kinds::Kind;
use crate::rows;
use evidence::archive::Verdict;
use evidence::case::{most, pair, Case, Pattern, Times, BOUNDS, DEPARTURES};
use evidence::enumeration::image;
use evidence::random::Random;
use evidence::text::capacity;

/// Cases of one kind.
pub struct Family {
    pub name: String,
    pub cases: Vec<Case>,
    /// Selections that may be tried one by one on each case.
    pub limit: u64,
}

/// Cases in a random family.
const CASES: usize = 20;

/// Selections tried one by one on a random case: about half a second.
const LIMIT: u64 = 3_000_000;

/// Bounds low <= x(i) - x(j) <= high.
pub fn window(pattern: &mut Pattern, n: usize, (i, j): (usize, usize), low: i64, high: i64) {
    pattern[pair(n, i, j)] = Some(most(high));
    pattern[pair(n, j, i)] = Some(most(-low));
}

/// Bounds each difference to `slack` seconds around that of given times. With
/// the clock, these are bounds on the times too.
pub fn around(n: usize, x: &Times, slack: i64, clock: bool) -> Pattern {
    let at = |i: usize| if i == 0 { 0 } else { x[i - 1] };
    let mut pattern = [None; BOUNDS];
    for j in usize::from(!clock)..n {
        for i in j + 1..=n {
            let apart = at(i) - at(j);
            window(&mut pattern, n, (i, j), apart - slack, apart + slack);
        }
    }
    pattern
}

/// A table with `count` times in each row.
pub fn table(random: &mut Random, n: usize, count: usize, (low, high): (i64, i64)) -> Case {
    let mut case = Case::empty(n, 64);
    for row in 0..n {
        let mut columns: Vec<usize> = (0..n).collect();
        for place in 0..count {
            columns.swap(place, place + random.below(n - place));
            case.times[row * n + columns[place]] = Some(random.between(low, high));
        }
    }
    case
}

/// Gives a table patterns around a start and what it becomes after 2 to 8
/// cycles. One kind bounds differences, one the clock too; a third has a start
/// apart from all that the target can come from, so that nothing is reached; in
/// the fourth the target is not quite what the start becomes.
pub fn with_patterns(random: &mut Random, mut case: Case, kind: usize) -> Case {
    let n = case.n;
    let mut x = [0; DEPARTURES];
    for time in x.iter_mut().take(n) {
        *time = random.between(0, 1200);
    }
    let mut then = image(&case, &x, 2 + random.below(7));
    let slack = random.one_of(&[0, 1, 10]);
    let clock = kind == 1 || kind == 2;
    if kind == 3 {
        then[random.below(n)] += random.between(1, 60);
    }
    case.start = around(n, &x, slack, clock);
    case.target = around(n, &then, slack, clock);
    if kind == 2 {
        case.start = [None; BOUNDS];
        window(&mut case.start, n, (1, 0), 100_000, 100_000 + slack);
    }
    case
}

/// Whether the verdict says enough for a place in a family: not decided at
/// cycle 1, and table full only sometimes.
fn of_use(random: &mut Random, case: &Case) -> bool {
    match rows::verdict(case, capacity(case.n)).0.verdict {
        Verdict::Refused(fault) => fault.returned > 1 && random.chance(1, 6),
        Verdict::Reached { cycle } => cycle > 1,
        _ => true,
    }
}

/// Random tables with `counts` times a row, of 60 to 1,200 seconds.
fn random_kind(name: &str, n: usize, counts: &'static [usize]) -> Kind {
    Kind {
        name: format!("{name} {n}"),
        seed: n as u64,
        draw: Box::new(move |random, number| {
            let count = random.one_of(counts);
            let case = table(random, n, count, (60, 1200));
            with_patterns(random, case, number % 4)
        }),
        of_use,
    }
}

/// Whether each departure depends on each in time: the table is irreducible.
fn connected(case: &Case) -> bool {
    let links = |i: usize| (0..case.n).filter(move |&j| case.time(i, j).is_some());
    let all_from = |first: usize| {
        let mut met = vec![first];
        let mut next = 0;
        while let Some(&i) = met.get(next) {
            let fresh: Vec<usize> = links(i).filter(|j| !met.contains(j)).collect();
            met.extend(fresh);
            next += 1;
        }
        met.len() == case.n
    };
    (0..case.n).all(all_from)
}

/// Table 1 of document 000: irreducible tables with 3 times of 1 to 20 in each
/// row, from x(1) >= ... >= x(5) to x(1) <= ... <= x(5).
fn document_case(random: &mut Random, n: usize) -> Case {
    loop {
        let mut case = table(random, n, 3, (1, 20));
        for i in 1..5 {
            case.start[pair(n, i + 1, i)] = Some(most(0));
            case.target[pair(n, i, i + 1)] = Some(most(0));
        }
        if connected(&case) {
            return case;
        }
    }
}

/// All of them are of use.
fn document_kind(n: usize) -> Kind {
    Kind {
        name: format!("document 000 ({n}, 3)"),
        seed: 100 + n as u64,
        draw: Box::new(move |random, _| document_case(random, n)),
        of_use: |_, _| true,
    }
}

/// A ring: each departure waits for itself, with `count` = 2 also for the one before
/// it, with 3 for the one after it too.
pub fn ring(random: &mut Random, n: usize, count: usize) -> Case {
    let mut case = Case::empty(n, 64);
    for row in 0..n {
        for column in [row, (row + n - 1) % n, (row + 1) % n].iter().take(count) {
            case.times[row * n + column] = Some(random.between(60, 1200));
        }
    }
    case
}

/// Rings of 7.
fn ring_kind(count: usize) -> Kind {
    Kind {
        name: format!("ring of 7, {count} a row"),
        seed: 200 + count as u64,
        draw: Box::new(move |random, number| {
            let case = ring(random, 7, count);
            with_patterns(random, case, number % 4)
        }),
        of_use,
    }
}

/// The table of 7 departures without a blank, all times 0, from x(1) = 1 and
/// x(2) = 0 to all times 0. Each list has 127 zones, and no selection of any
/// of them is empty.
pub fn zeros(horizon: usize) -> Case {
    let mut case = Case::empty(7, horizon);
    case.times[..49].fill(Some(0));
    window(&mut case.start, 7, (1, 0), 1, 1);
    window(&mut case.start, 7, (2, 0), 0, 0);
    case.target = around(7, &[0; DEPARTURES], 0, true);
    case
}

/// The table of zeros. One by one, each zone has 823,543 selections; cycle 1
/// has one zone, later cycles have 127, which is too many.
fn zero_family(horizon: usize) -> Family {
    Family {
        name: format!("zeros of 7, N = {horizon}"),
        cases: vec![zeros(horizon)],
        limit: LIMIT,
    }
}

/// Tables without a blank, over one cycle; in every other case a start gets into
/// the target. For the comparison with a solver.
pub fn one_cycle(n: usize) -> Vec<Case> {
    let mut random = Random::new(300);
    let mut cases = Vec::new();
    while cases.len() < 6 {
        let mut case = table(&mut random, n, n, (60, 1200));
        let mut x = [0; DEPARTURES];
        x[..n].fill_with(|| random.between(0, 1200));
        let then = image(&case, &x, 1 + cases.len() % 2);
        case.horizon = 1;
        case.start = around(n, &x, 10, true);
        case.target = around(n, &then, 10, true);
        let verdict = rows::verdict(&case, capacity(n)).0.verdict;
        if !matches!(verdict, Verdict::Refused(_)) {
            cases.push(case);
        }
    }
    cases
}

/// The kinds of random cases, in the order of the table.
pub fn kinds() -> Vec<Kind> {
    vec![
        random_kind("dense", 5, &[5]),
        random_kind("dense", 6, &[6]),
        random_kind("dense", 7, &[7]),
        random_kind("sparse", 5, &[2, 3]),
        random_kind("sparse", 6, &[2, 3]),
        random_kind("sparse", 7, &[2, 3]),
        document_kind(5),
        document_kind(6),
        document_kind(7),
        ring_kind(2),
        ring_kind(3),
    ]
}

/// All families, in the order of the table.
pub fn all() -> Vec<Family> {
    let kinds = kinds().into_iter();
    let mut families: Vec<Family> = kinds.map(|kind| kind.family(CASES, LIMIT)).collect();
    families.extend([1, 2, 64].map(zero_family));
    families
}
