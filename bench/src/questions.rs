//! Families of questions on which the table of zones mostly runs full. They were
//! first drawn in Python, so the numbers are drawn as there.

use crate::families::{around, Family};
use evidence::case::{Case, DEPARTURES};
use evidence::mersenne::Mersenne;
use evidence::rings::{bound, close, long_rings, ring, rings};

fn family(name: &str, cases: Vec<Case>) -> Family {
    Family {
        name: name.to_string(),
        cases,
        limit: 0,
    }
}

/// Seven departures with times of 60 to 1,200 seconds, so many in each row; a start
/// around drawn times, and departures 1 and 2 close in the target.
fn drawn(random: &mut Mersenne, counts: &[usize]) -> Case {
    let n = 7;
    let mut case = Case::empty(n, 64);
    let count = random.one_of(counts);
    for i in 0..n {
        for j in random.some_of(n, count) {
            case.times[i * n + j] = Some(random.between(60, 1200));
        }
    }
    let mut x = [0; DEPARTURES];
    x[..n].fill_with(|| random.between(0, 1200));
    let slack = random.one_of(&[0, 10, 60]);
    case.start = around(n, &x, slack, false);
    close(&mut case, 1);
    case
}

/// Fifty such cases.
fn fifty(name: &str, counts: &[usize], seed: u32) -> Family {
    let mut random = Mersenne::new(seed);
    family(name, (0..50).map(|_| drawn(&mut random, counts)).collect())
}

/// A ring in whose start each departure is 95 to 3,600 seconds behind the one
/// before it, and in whose target all of them are close.
fn all_close(random: &mut Mersenne, n: usize) -> Case {
    let mut case = ring(random, n);
    for i in 1..n {
        bound(&mut case.start, n, (i, i + 1), -95);
        bound(&mut case.start, n, (i + 1, i), 3600);
        close(&mut case, i);
    }
    case
}

/// Twelve such rings each of 5, 6, 7, 10 and 15 departures, behind as many other
/// rings that are drawn and left out.
fn bunches() -> Family {
    let mut random = Mersenne::new(77);
    let sizes = || [5, 6, 7, 10, 15].into_iter().flat_map(|n| [n; 12]);
    for n in sizes() {
        ring(&mut random, n);
    }
    let cases = sizes().map(|n| all_close(&mut random, n)).collect();
    family("all pairs under 90 s, 5 to 15", cases)
}

/// All families, in the order of the table.
pub fn all() -> Vec<Family> {
    vec![
        family("rings of 3 to 7", rings()),
        family("ring of 10", long_rings(10)),
        family("ring of 15", long_rings(15)),
        fifty("dense 7", &[7], 7),
        fifty("sparse 7", &[2, 3], 8),
        bunches(),
    ]
}
