//! The longest packed cases.

use crate::case::{less, most, pair, Case, Pattern, Times, BOUNDS, DEPARTURES, TIMES};

/// The case of n departures in which every entry is there, at a limit and without
/// marks: for 7 the longest of the old form, 426 bytes, and 440 in the wide form.
pub fn full(n: usize) -> Case {
    let mut case = Case::empty(n, 64);
    case.times[..n * n].fill(Some(-86_400));
    case.start[..n * (n + 1)].fill(Some(most(-1_000_000)));
    case.target[..n * (n + 1)].fill(Some(most(1_000_000)));
    case
}

/// Less than a second more than each difference of given times.
fn near(x: &Times) -> Pattern {
    let n = DEPARTURES;
    let at = |i: usize| if i == 0 { 0 } else { x[i - 1] };
    let mut pattern = [None; BOUNDS];
    for i in 0..=n {
        for j in (0..=n).filter(|&j| j != i) {
            pattern[pair(n, i, j)] = Some(less(at(i) - at(j) + 1));
        }
    }
    pattern
}

/// Fifteen departures without a blank, every bound there and strict: 1,916 bytes
/// in the wide form. Departure 1 is so far ahead that all the others follow it.
///
/// It is reached at 1, by the words alone: the start is less than a second around
/// 0 for departure 1 and around -100,000 for the others, so its image is the time
/// of departure 1 everywhere, less than a second around 0 as the target asks. If
/// row 1 followed another departure, row 2 would be 172,800 or more later than row
/// 1; so row 1 follows departure 1, row 2 any, and all other rows departure 1. List
/// 1 has 15 zones, and the first holds the whole start, whose latest times are 15
/// sixteenths later than 0 and -100,000.
pub fn longest() -> Case {
    let mut case = Case::empty(DEPARTURES, 64);
    case.times = [Some(-86_400); TIMES];
    case.times[DEPARTURES..2 * DEPARTURES].fill(Some(86_400));
    for row in 0..DEPARTURES {
        case.times[row * DEPARTURES] = Some(0);
    }
    let mut start = [-100_000; DEPARTURES];
    start[0] = 0;
    case.start = near(&start);
    case.target = near(&[0; DEPARTURES]);
    case
}

/// The start that is handed back for it, in sixteenths of a second.
pub fn start_of_longest() -> Times {
    let mut start = [-1_600_000 + 15; DEPARTURES];
    start[0] = 15;
    start
}
