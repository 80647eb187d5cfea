//! A seeded generator of numbers, and random cases made with it.

pub mod wide;

use crate::archive::Verdict;
use crate::case::{most, pair, Bound, Case, Pattern, Times, BOUNDS, DEPARTURES};
use crate::enumeration::{image, in_parts};
use crate::selections::{first_repeat, search, searched};

/// Numbers that follow from the seed alone (splitmix64).
pub struct Random {
    state: u64,
}

impl Random {
    pub fn new(seed: u64) -> Random {
        Random { state: seed }
    }

    /// Numbers of another kind that follow from this state, which stays.
    pub fn apart(&self) -> Random {
        Random::new(!self.state)
    }

    pub fn draw(&mut self) -> u64 {
        self.state = self.state.wrapping_add(0x9E37_79B9_7F4A_7C15);
        let mut mixed = self.state;
        mixed = (mixed ^ mixed >> 30).wrapping_mul(0xBF58_476D_1CE4_E5B9);
        mixed = (mixed ^ mixed >> 27).wrapping_mul(0x94D0_49BB_1331_11EB);
        mixed ^ mixed >> 31
    }

    /// A number from 0 to `count` - 1.
    pub fn below(&mut self, count: usize) -> usize {
        (self.draw() % count as u64) as usize
    }

    /// A number from `low` to `high`.
    pub fn between(&mut self, low: i64, high: i64) -> i64 {
        low + (self.draw() % (high - low + 1) as u64) as i64
    }

    /// True `part` times out of `whole` on average.
    pub fn chance(&mut self, part: usize, whole: usize) -> bool {
        self.below(whole) < part
    }

    /// One of the items.
    pub fn one_of<T: Copy>(&mut self, items: &[T]) -> T {
        items[self.below(items.len())]
    }
}

/// A random case, a capacity, and a start near which brute search 1 looks, with
/// the parts of a second that it is in.
pub struct Trial {
    pub case: Case,
    pub capacity: usize,
    pub near: Times,
    pub parts: usize,
}

/// Makes random cases.
pub type Draw = fn(&mut Random) -> Trial;

/// Makes the table of a case of a scale.
type DrawTable = fn(&mut Random, &mut Case, Scale);

/// The largest sizes of times and of bounds in a case, and whether the
/// table's times are all of that size.
#[derive(Clone, Copy)]
struct Scale {
    time: i64,
    bound: i64,
    extreme: bool,
}

const fn scale(time: i64, bound: i64, extreme: bool) -> Scale {
    Scale {
        time,
        bound,
        extreme,
    }
}

const SMALL: Scale = scale(3, 4, false);
const MIDDLE: Scale = scale(60, 100, false);
const LARGE: Scale = scale(86_400, 1_000_000, false);
const EXTREME: Scale = scale(86_400, 1_000_000, true);

/// Zones times selections times cycles that brute search 2 may have to try. Sets
/// of more than 7 departures take it about eight times as long.
fn labour(n: usize) -> usize {
    match n {
        ..=7 => 100_000,
        _ => 12_000,
    }
}

/// How many selections a case has.
pub fn selection_count(case: &Case) -> usize {
    let columns = |i: usize| (0..case.n).filter(|&j| case.time(i, j).is_some()).count();
    (0..case.n).map(columns).product()
}

/// A capacity with which the search on this case stays short, or none if
/// even one zone is too many.
pub fn bearable(case: &Case, capacity: usize) -> Option<usize> {
    let sets_of_a_zone = selection_count(case).saturating_mul(searched(case).0);
    let zones = labour(case.n) / sets_of_a_zone;
    (zones > 0).then_some(capacity.min(zones))
}

/// A time of a scale, sometimes at the very limit.
fn time(random: &mut Random, scale: Scale) -> i64 {
    if scale.extreme {
        random.one_of(&[-scale.time, scale.time])
    } else if random.chance(1, 8) {
        random.one_of(&[-scale.time, 0, scale.time])
    } else {
        random.between(-scale.time, scale.time)
    }
}

/// A table of any kind: each entry is there `part` times out of 6.
fn any_table(random: &mut Random, case: &mut Case, scale: Scale, part: usize) {
    for i in 0..case.n {
        for j in 0..case.n {
            if random.chance(part, 6) {
                case.times[i * case.n + j] = Some(time(random, scale));
            }
        }
        if (0..case.n).all(|j| case.time(i, j).is_none()) {
            let j = random.below(case.n);
            case.times[i * case.n + j] = Some(time(random, scale));
        }
    }
}

/// A mixed order of the departures.
fn mixed_order(random: &mut Random, n: usize) -> Vec<usize> {
    let mut order: Vec<usize> = (0..n).collect();
    for last in (1..n).rev() {
        order.swap(last, random.below(last + 1));
    }
    order
}

/// A table whose powers soon repeat: A(i, j) is `drift` + u(i) - u(j), less
/// something off a permutation's places.
fn repeating_table(random: &mut Random, case: &mut Case, drift: i64, part: usize) {
    let n = case.n;
    let order = mixed_order(random, n);
    let size = random.one_of(&[0, 2, 9]);
    let ahead: Vec<i64> = (0..n).map(|_| random.between(-size, size)).collect();
    for i in 0..n {
        for j in 0..n {
            let on = order[i] == j;
            if on || random.chance(part, 6) {
                let less = if on { 0 } else { random.between(0, 4) };
                case.times[i * n + j] = Some(drift + ahead[i] - ahead[j] - less);
            }
        }
    }
}

/// A table whose powers repeat after about `length` cycles: one departure loses
/// a second or more in each cycle until the links of another overtake it.
fn slow_table(random: &mut Random, case: &mut Case, length: i64) {
    let n = case.n;
    let drift = random.one_of(&[0, 0, 1, -7, 60]);
    let loss = random.between(1, 3);
    let there = random.between(0, loss * length);
    case.times[0] = Some(drift);
    for i in 1..n {
        case.times[i * n + i] = Some(drift - loss);
        case.times[i * n] = Some(drift - there);
        case.times[i] = Some(drift - (loss * length - there));
    }
    if n > 2 {
        let (i, j) = (random.below(n), random.below(n));
        case.times[i * n + j] = case.time(i, j).or(Some(drift - loss * length));
    }
}

/// Bounds around given times: each pair is bounded `part` times out of 6, with
/// up to `slack` seconds more than the times need. A bound beyond the limit
/// is left out.
fn around(random: &mut Random, n: usize, x: &Times, slack: i64, part: usize) -> Pattern {
    let mut pattern = [None; BOUNDS];
    let at = |i: usize| if i == 0 { 0 } else { x[i - 1] };
    for i in 0..=n {
        for j in (0..=n).filter(|&j| j != i) {
            let bound = at(i) - at(j) + random.between(0, slack);
            if random.chance(part, 6) && bound.abs() <= 1_000_000 {
                pattern[pair(n, i, j)] = Some(most(bound));
            }
        }
    }
    pattern
}

/// Bounds of any kind, with no times in mind; many cannot be met.
fn any_pattern(random: &mut Random, n: usize, scale: Scale, part: usize) -> Pattern {
    let mut pattern = [None; BOUNDS];
    for bound in pattern.iter_mut().take(n * (n + 1)) {
        if random.chance(part, 6) {
            *bound = Some(most(random.between(-scale.bound / 2, scale.bound)));
        }
    }
    pattern
}

/// The pattern without the bounds that name the clock.
fn differences(n: usize, mut pattern: Pattern) -> Pattern {
    for i in 1..=n {
        pattern[pair(n, i, 0)] = None;
        pattern[pair(n, 0, i)] = None;
    }
    pattern
}

/// A pattern: free, loose, tight around the times, or of any kind.
fn pattern(random: &mut Random, n: usize, x: &Times, scale: Scale) -> Pattern {
    let made = match random.below(9) {
        0 => [None; BOUNDS],
        1 => around(random, n, x, scale.bound, 2),
        8 => around(random, n, x, 0, 1),
        2 => around(random, n, x, 2, 3),
        3 | 4 => around(random, n, x, 1, 6),
        5 => around(random, n, x, 0, 6),
        6 => any_pattern(random, n, scale, 1),
        _ => any_pattern(random, n, scale, 3),
    };
    if random.chance(1, 2) {
        differences(n, made)
    } else {
        made
    }
}

/// Times of a scale. In extreme cases each is far from that of the departure
/// before it, so that bounds add up.
fn times(random: &mut Random, n: usize, scale: Scale) -> Times {
    let mut x = [0; DEPARTURES];
    if scale.extreme {
        let mut last = 0;
        let sign = random.one_of(&[-1, 1]);
        for departure in mixed_order(random, n) {
            last += sign * random.between(900_000, 1_000_000);
            x[departure] = last;
        }
        return x;
    }
    for time in x.iter_mut().take(n) {
        *time = random.between(-scale.bound / 2, scale.bound / 2);
    }
    x
}

/// A number of cycles, mostly small.
fn cycles(random: &mut Random) -> usize {
    match random.below(12) {
        0 => 64,
        1 => 1 + random.below(64),
        2..=4 => 1 + random.below(12),
        _ => 1 + random.below(4),
    }
}

/// A horizon close to what decides: the cycle at which the hidden start
/// arrives, or the first repeated power.
fn sharp_horizon(random: &mut Random, case: &Case, arrival: usize) -> usize {
    let about = match (random.below(3), first_repeat(case)) {
        (0, _) | (_, None) => arrival,
        (_, Some(repeat)) => repeat.q - 1,
    };
    (about + random.below(4)).saturating_sub(1).clamp(1, 64)
}

/// A table of one of four kinds.
fn table(random: &mut Random, case: &mut Case, scale: Scale) {
    let part = random.one_of(&[0, 1, 2, 4, 6]);
    match random.below(6) {
        0 | 1 => any_table(random, case, scale, part),
        2 | 3 => {
            let drift = random.one_of(&[0, 0, 1, -1, 7, -scale.time / 2]);
            repeating_table(random, case, drift, part)
        }
        4 if case.n > 1 => {
            let length = random.one_of(&[6, 12, 30, 58, 70]);
            slow_table(random, case, length)
        }
        _ => any_table(random, case, scale, 6),
    }
}

/// A table with few times.
fn sparse_table(random: &mut Random, case: &mut Case, scale: Scale) {
    let part = random.below(2);
    any_table(random, case, scale, part)
}

/// Patterns and horizon for a table: the target lies around what a hidden
/// start becomes after some cycles.
fn with_patterns(random: &mut Random, mut case: Case, scale: Scale) -> (Case, Times) {
    let near = times(random, case.n, scale);
    let arrival = cycles(random);
    let then = image(&case, &near, arrival);
    case.start = pattern(random, case.n, &near, scale);
    case.target = pattern(random, case.n, &then, scale);
    case.horizon = if scale.extreme && random.chance(1, 2) {
        64
    } else if random.chance(1, 2) {
        sharp_horizon(random, &case, arrival)
    } else {
        cycles(random)
    };
    (case, near)
}

/// Whether cycle 1 already decides. Most such cases are drawn again, since
/// they say little about later cycles.
fn reached_at_once(case: &Case, capacity: usize) -> bool {
    let mut one_cycle = *case;
    one_cycle.horizon = 1;
    let verdict = search(&one_cycle, capacity).answer.verdict;
    verdict == Verdict::Reached { cycle: 1 }
}

/// A capacity for a case, unless the case says little or is too much for brute
/// search 2.
fn with_capacity(random: &mut Random, case: Case, near: Times, parts: usize) -> Option<Trial> {
    let capacity = random.one_of(&[1, 2, 3, 5, 9, 17, 40, 128]);
    if reached_at_once(&case, capacity) && random.chance(5, 6) {
        return None;
    }
    let capacity = bearable(&case, capacity)?;
    Some(Trial {
        case,
        capacity,
        near,
        parts,
    })
}

/// A random case of `low` to `high` departures.
fn trial_of(random: &mut Random, low: i64, high: i64, table: DrawTable) -> Trial {
    loop {
        let scale = random.one_of(&[SMALL, SMALL, SMALL, MIDDLE, MIDDLE, LARGE, LARGE, EXTREME]);
        let mut case = Case::empty(random.between(low, high) as usize, 1);
        table(random, &mut case, scale);
        let (case, near) = with_patterns(random, case, scale);
        if let Some(trial) = with_capacity(random, case, near, 1) {
            return trial;
        }
    }
}

/// A case in which several zones meet the start, so that their order decides
/// which start is handed back: few bounds on the start, many on the target.
fn choice_trial(random: &mut Random) -> Trial {
    loop {
        let n = random.between(2, 4) as usize;
        let scale = random.one_of(&[SMALL, SMALL, MIDDLE]);
        let mut case = Case::empty(n, 1 + random.below(4));
        let part = random.between(3, 6) as usize;
        any_table(random, &mut case, scale, part);
        let near = times(random, n, scale);
        let then = image(&case, &near, case.horizon);
        let slack = random.between(0, 3);
        case.target = around(random, n, &then, slack, part);
        for _ in 0..random.below(3) {
            let place = random.below(n * (n + 1));
            case.start[place] = Some(most(random.between(-2 * scale.bound, 0)));
        }
        if let Some(capacity) = bearable(&case, 128) {
            return Trial {
                case,
                capacity,
                near,
                parts: 1,
            };
        }
    }
}

/// A case in which the first repeated power is about 64, the horizon too, and
/// the target is hard to meet.
fn late_trial(random: &mut Random) -> Trial {
    let mut case = Case::empty(random.between(2, 3) as usize, 1);
    let length = random.between(59, 65);
    slow_table(random, &mut case, length);
    case.horizon = random.between(61, 64) as usize;
    let near = times(random, case.n, MIDDLE);
    let then = times(random, case.n, MIDDLE);
    case.start = around(random, case.n, &near, 1, 4);
    case.target = differences(case.n, around(random, case.n, &then, 1, 6));
    Trial {
        case,
        capacity: 128,
        near,
        parts: 1,
    }
}

/// A case of some pairs of departures with large bounds in its lists, up to
/// 36,000,000 for three pairs, met only late. In each pair one departure falls
/// behind and the other runs ahead, and the one behind of the next pair gives the
/// one ahead the first push. The last departure keeps the time.
fn ladder_trial(random: &mut Random, pairs: usize) -> Trial {
    let n = 2 * pairs + 1;
    let order = mixed_order(random, n);
    let cycles = random.between(50, 64);
    let mut case = Case::empty(n, (cycles as usize + random.below(2)).min(64));
    let place = |i: usize, j: usize| n * order[i] + order[j];
    for (behind, ahead) in (0..pairs).zip(pairs..) {
        case.times[place(behind, behind)] = Some(-random.between(86_000, 86_400));
        case.times[place(ahead, ahead)] = Some(random.between(86_000, 86_400));
        if behind + 1 < pairs {
            case.times[place(ahead, behind + 1)] = Some(86_400);
        }
        let bound = random.between(900_000, 1_000_000);
        case.target[pair(n, order[behind] + 1, order[ahead] + 1)] = Some(most(bound));
    }
    case.times[place(n - 1, n - 1)] = Some(1_000_000 / cycles);
    let clock = order[n - 1] + 1;
    let last = 1_000_000 / cycles * cycles;
    for (pattern, time) in [(&mut case.start, 0), (&mut case.target, last)] {
        pattern[pair(n, clock, 0)] = Some(most(time));
        pattern[pair(n, 0, clock)] = Some(most(-time));
    }
    case.start[pair(n, order[0] + 1, 0)] = Some(most(random.between(0, 9)));
    case.start[pair(n, 0, order[0] + 1)] = Some(most(0));
    Trial {
        case,
        capacity: 128,
        near: [0; DEPARTURES],
        parts: 1,
    }
}

/// A random case: most are of 1 to 4 departures, some of 5 to 7.
pub fn trial(random: &mut Random) -> Trial {
    match random.below(64) {
        0..=3 => trial_of(random, 5, 7, sparse_table),
        4..=15 => choice_trial(random),
        16..=17 => late_trial(random),
        18 => ladder_trial(random, 3),
        _ => trial_of(random, 1, 4, table),
    }
}

/// Makes bounds strict, one in three.
pub fn mark(random: &mut Random, case: &mut Case) {
    for bound in case.start.iter_mut().chain(&mut case.target).flatten() {
        bound.strict = random.chance(1, 3);
    }
}

/// Bounds in seconds around times in parts of a second: each pair is bounded
/// `part` times out of 6, with up to `slack` seconds more than the times need.
/// Every other bound that may then be strict is.
fn around_parts(
    random: &mut Random,
    n: usize,
    (x, parts): (&Times, i64),
    slack: i64,
    part: usize,
) -> Pattern {
    let mut pattern = [None; BOUNDS];
    let at = |i: usize| if i == 0 { 0 } else { x[i - 1] };
    for i in 0..=n {
        for j in (0..=n).filter(|&j| j != i) {
            let apart = at(i) - at(j);
            let value = random.between(0, slack) - (-apart).div_euclid(parts);
            let strict = apart < value * parts && random.chance(1, 2);
            if random.chance(part, 6) && value.abs() <= 1_000_000 {
                pattern[pair(n, i, j)] = Some(Bound { value, strict });
            }
        }
    }
    pattern
}

/// Patterns and horizon for a table, with a hidden start between two seconds: the
/// target lies around what it becomes after some cycles. Often nobody meets both
/// patterns in whole seconds. The start is handed back with its parts.
fn with_fractions(random: &mut Random, mut case: Case, scale: Scale) -> (Case, Times, usize) {
    let n = case.n;
    let parts = random.between(2, 2 * n as i64 + 2);
    let bound = random.one_of(&[2, scale.bound]) * parts;
    let near = times(random, n, Scale { bound, ..scale });
    let arrival = cycles(random);
    let then = image(&in_parts(&case, parts as usize), &near, arrival);
    for (pattern, x) in [(&mut case.start, &near), (&mut case.target, &then)] {
        let (slack, part) = random.one_of(&[(0, 6), (0, 6), (0, 2), (1, 1), (2, 3)]);
        *pattern = around_parts(random, n, (x, parts), slack, part);
        if random.chance(1, 3) {
            *pattern = differences(n, *pattern);
        }
    }
    case.horizon = sharp_horizon(random, &case, arrival);
    (case, near, parts as usize)
}

/// A case of `low` to `high` departures with such a start.
fn fraction_trial_of(random: &mut Random, low: i64, high: i64, table: DrawTable) -> Trial {
    loop {
        let scale = random.one_of(&[SMALL, SMALL, SMALL, MIDDLE, LARGE]);
        let mut case = Case::empty(random.between(low, high) as usize, 1);
        table(random, &mut case, scale);
        let (case, near, parts) = with_fractions(random, case, scale);
        if let Some(trial) = with_capacity(random, case, near, parts) {
            return trial;
        }
    }
}

/// A case with a strict bound that counts, drawn with such a start or marked.
fn marked_trial(random: &mut Random, with_fractions: Draw, plain: Draw) -> Trial {
    loop {
        let trial = if random.chance(1, 2) {
            with_fractions(random)
        } else {
            let mut trial = plain(random);
            mark(random, &mut trial.case);
            trial
        };
        if trial.case.marked() {
            return trial;
        }
    }
}

/// A random case with a strict bound that counts.
pub fn strict_trial(random: &mut Random) -> Trial {
    marked_trial(
        random,
        |random| fraction_trial_of(random, 1, 4, table),
        trial,
    )
}

/// A table of n departures without a single blank, over one or two cycles.
fn dense_table(random: &mut Random, n: usize, scale: Scale) -> Case {
    let mut case = Case::empty(n, if n < 6 { 2 } else { 1 });
    any_table(random, &mut case, scale, 6);
    case
}

/// Moves half of the starts off, so that the search goes on: departure 1 is some
/// seconds later than the hidden start, which has it at `first`.
fn move_off(random: &mut Random, case: &mut Case, first: i64) {
    if random.chance(1, 2) {
        case.start[pair(case.n, 0, 1)] = Some(most(-first - 5));
        case.start[pair(case.n, 1, 0)] = None;
    }
}

/// A case without a single blank in its table, and a capacity that its lists
/// seldom exceed.
pub fn dense_trial(random: &mut Random, n: usize) -> Trial {
    let scale = random.one_of(&[SMALL, MIDDLE]);
    let mut case = dense_table(random, n, scale);
    let near = times(random, n, scale);
    let then = image(&case, &near, 1);
    case.start = around(random, n, &near, 1, 3);
    case.target = around(random, n, &then, 1, 6);
    move_off(random, &mut case, near[0]);
    Trial {
        case,
        capacity: 128,
        near,
        parts: 1,
    }
}

/// Such a case with strict bounds and a hidden start in (n + 1)ths of a second.
pub fn strict_dense_trial(random: &mut Random, n: usize) -> Trial {
    let scale = random.one_of(&[SMALL, MIDDLE]);
    let mut case = dense_table(random, n, scale);
    let parts = n as i64 + 1;
    let bound = scale.bound * parts;
    let near = times(random, n, Scale { bound, ..scale });
    let then = image(&in_parts(&case, n + 1), &near, 1);
    case.start = around_parts(random, n, (&near, parts), 1, 3);
    case.target = around_parts(random, n, (&then, parts), 1, 6);
    move_off(random, &mut case, near[0].div_euclid(parts));
    Trial {
        case,
        capacity: 128,
        near,
        parts: n + 1,
    }
}

/// A case whose lists grow long: no blanks, a wide target or none, and a
/// start that nobody can meet, so that the search goes on.
pub fn crowded_trial(random: &mut Random, n: usize, horizon: usize) -> Trial {
    let scale = random.one_of(&[SMALL, MIDDLE, LARGE]);
    let mut case = Case::empty(n, horizon);
    any_table(random, &mut case, scale, 6);
    for i in 1..=n {
        if random.chance(1, 2) {
            case.target[pair(n, i, 0)] = Some(most(2 * scale.time));
            case.target[pair(n, 0, i)] = Some(most(2 * scale.time));
        }
    }
    case.start[pair(n, 0, 1)] = Some(most(-1));
    case.start[pair(n, 1, 0)] = Some(most(0));
    Trial {
        case,
        capacity: 4096,
        near: [0; DEPARTURES],
        parts: 1,
    }
}

/// A case whose lists move with the clock: all times are one number, and start
/// and target bound every departure against the clock, the start so many cycles
/// earlier, or a second beside that.
pub fn drifting_trial(random: &mut Random, n: usize) -> Trial {
    let drift = random.between(-9, 9);
    let mut case = Case::empty(n, 64);
    for place in 0..n * n {
        if place % (n + 1) == 0 || random.chance(2, 3) {
            case.times[place] = Some(drift);
        }
    }
    let first = random.one_of(&[0, 0, 1]) - drift * random.between(1, 64);
    let slack = random.one_of(&[0, 1, 5]);
    for i in 1..=n {
        case.target[pair(n, i, 0)] = Some(most(slack));
        case.target[pair(n, 0, i)] = Some(most(0));
        case.start[pair(n, i, 0)] = Some(most(first + slack));
        case.start[pair(n, 0, i)] = Some(most(-first));
    }
    if random.chance(1, 3) {
        mark(random, &mut case);
    }
    Trial {
        case,
        capacity: 128,
        near: [first; DEPARTURES],
        parts: 1,
    }
}

/// A case whose lists take turns: each departure waits for the next one alone, and
/// the last one for the first, so that each list is the one n cycles before it with
/// the clock moved by the times of the round, which make 0 in some cases. Start and
/// target bound every departure against the clock, the start so many cycles earlier,
/// or a second beside that.
pub fn turning_trial(random: &mut Random, n: usize) -> Trial {
    let mut case = Case::empty(n, 64);
    let mut waits: Vec<i64> = (0..n).map(|_| random.between(-9, 9)).collect();
    if random.chance(1, 3) {
        waits[n - 1] -= waits.iter().sum::<i64>();
    }
    for (i, wait) in waits.iter().enumerate() {
        case.times[i * n + (i + 1) % n] = Some(*wait);
    }
    let cycles = 1 + random.below(64);
    let aside = random.one_of(&[0, 0, 1]);
    let slack = random.one_of(&[0, 1, 5]);
    let mut near = [0; DEPARTURES];
    for i in 0..n {
        let late = random.between(0, 20);
        let on_the_way: i64 = (0..cycles).map(|k| waits[(i + k) % n]).sum();
        let (j, first) = ((i + cycles) % n, late - on_the_way + aside);
        case.target[pair(n, i + 1, 0)] = Some(most(late + slack));
        case.target[pair(n, 0, i + 1)] = Some(most(-late));
        case.start[pair(n, j + 1, 0)] = Some(most(first + slack));
        case.start[pair(n, 0, j + 1)] = Some(most(-first));
        near[j] = first;
    }
    if random.chance(1, 3) {
        mark(random, &mut case);
    }
    Trial {
        case,
        capacity: 128,
        near,
        parts: 1,
    }
}

/// A second capacity for a case, from the lengths of its lists: the longest
/// list just fits or just does not.
pub fn sharper(random: &mut Random, lengths: &[usize]) -> Option<usize> {
    let longest = lengths.iter().copied().max().unwrap_or(0);
    match longest {
        0 => None,
        1 => Some(1),
        _ => Some(longest - random.below(2)),
    }
}
