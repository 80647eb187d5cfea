//! Ring lines asked whether two trams come closer than ninety seconds. Each
//! departure waits for itself and for the one before it.

use crate::case::{most, pair, Case, Pattern};
use crate::mersenne::Mersenne;

/// Seconds that a ring takes.
const ROUND: i64 = 1800;

/// A bound: x(i) - x(j) is at most so much.
pub fn bound(pattern: &mut Pattern, n: usize, (i, j): (usize, usize), value: i64) {
    pattern[pair(n, i, j)] = Some(most(value));
}

/// The table of a ring.
pub fn ring(random: &mut Mersenne, n: usize) -> Case {
    let mut case = Case::empty(n, 64);
    for i in 0..n {
        case.times[i * n + i] = Some(random.between(-30, 60));
        let round = if i == 0 { ROUND } else { 0 };
        case.times[i * n + (i + n - 1) % n] = Some(60 - round);
    }
    case
}

/// Each departure an equal part of the round behind the one before it, or up to
/// ten seconds more or less.
fn even_start(case: &mut Case) {
    let n = case.n;
    let apart = ROUND / n as i64;
    for i in 1..n {
        bound(&mut case.start, n, (i + 1, i), apart + 10);
        bound(&mut case.start, n, (i, i + 1), 10 - apart);
    }
}

/// Departure `first` + 1 is less than ninety seconds behind departure `first`.
pub fn close(case: &mut Case, first: usize) {
    bound(&mut case.target, case.n, (first + 1, first), 89);
    bound(&mut case.target, case.n, (first, first + 1), 0);
}

/// A ring whose departures are apart at the start, and the first two close in the
/// target.
fn closing(random: &mut Mersenne, n: usize) -> Case {
    let mut case = ring(random, n);
    even_start(&mut case);
    close(&mut case, 1);
    case
}

/// Twenty rings each of 3 to 7 departures.
pub fn rings() -> Vec<Case> {
    let mut random = Mersenne::new(11);
    let sizes = (3..=7).flat_map(|n| [n; 20]);
    sizes.map(|n| closing(&mut random, n)).collect()
}

/// Thirty rings of n departures, 10 or 15.
pub fn long_rings(n: usize) -> Vec<Case> {
    let mut random = Mersenne::new(100 + n as u32);
    (0..30).map(|_| closing(&mut random, n)).collect()
}
