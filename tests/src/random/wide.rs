//! Random cases of 8 to 15 departures. Their tables have few columns, so that
//! brute search 2 comes to an end.

use super::*;

/// The first column of each row: its own, that of the departure before it, each
/// column once, or any.
fn first_columns(random: &mut Random, n: usize) -> Vec<usize> {
    match random.below(4) {
        0 => (0..n).collect(),
        1 => (0..n).map(|row| (row + n - 1) % n).collect(),
        2 => mixed_order(random, n),
        _ => (0..n).map(|_| random.below(n)).collect(),
    }
}

/// A table with one column in each row and up to 8 more times. In two of three
/// A(i, j) is `drift` + u(i) - u(j), less something in the columns that are not
/// the first, so that powers soon repeat.
fn few_columns(random: &mut Random, case: &mut Case, scale: Scale) {
    let n = case.n;
    for (i, j) in first_columns(random, n).into_iter().enumerate() {
        case.times[i * n + j] = Some(0);
    }
    for _ in 0..random.one_of(&[0, 1, 2, 2, 3, 4, 6, 8]) {
        let time = &mut case.times[random.below(n * n)];
        *time = time.or(Some(-random.between(0, 4)));
    }
    let size = random.one_of(&[0, 2, 9]);
    let ahead: Vec<i64> = (0..n).map(|_| random.between(-size, size)).collect();
    let drift = random.one_of(&[0, 0, 1, -1, 7, -scale.time / 2]);
    let repeats = random.chance(2, 3);
    for (place, entry) in case.times.iter_mut().enumerate() {
        *entry = entry.map(|less| match repeats {
            true => drift + ahead[place / n] - ahead[place % n] + less,
            false => time(random, scale),
        });
    }
}

/// A random case of 8 to 15 departures.
pub fn wide_trial(random: &mut Random) -> Trial {
    match random.below(256) {
        0 => {
            let pairs = random.one_of(&[4, 5, 6, 7]);
            ladder_trial(random, pairs)
        }
        _ => trial_of(random, 8, 15, few_columns),
    }
}

/// A random case of 8 to 15 departures with a strict bound that counts.
pub fn strict_wide_trial(random: &mut Random) -> Trial {
    let with_fractions: Draw = |random| fraction_trial_of(random, 8, 15, few_columns);
    marked_trial(random, with_fractions, wide_trial)
}

/// A random case of 1 to 15 departures, with strict bounds or without.
pub fn any_trial(random: &mut Random) -> Trial {
    let draws: [Draw; 4] = [trial, strict_trial, wide_trial, strict_wide_trial];
    random.one_of(&draws)(random)
}
