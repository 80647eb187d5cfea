//! Random damage to packed cases, unpacked cases, runs and changes.

use crate::archive::Change;
use crate::case::{Bound, Case, Form, Times, DEPARTURES};
use crate::faults;
use crate::random::{bearable, Draw, Random, Trial};

/// A call on packed bytes.
pub struct PackedCall {
    pub bytes: Vec<u8>,
    pub capacity: usize,
    pub work_length: usize,
}

/// A call on an unpacked case.
#[derive(Debug)]
pub struct UnpackedCall {
    pub case: Case,
    pub capacity: usize,
    pub work_length: usize,
}

/// A run.
pub struct RunCall {
    pub case: Case,
    pub start: Times,
    pub cycle: usize,
}

/// A change of one time of an unpacked case.
#[derive(Debug)]
pub struct ChangeCall {
    pub call: UnpackedCall,
    pub change: Change,
}

/// A number at a limit, just beyond it, or at the end of a field's range.
fn at_limit(random: &mut Random, limit: i64, width: u32) -> i64 {
    let half = 1 << (width - 1);
    let size = random.one_of(&[limit, limit + 1, limit + 2, half - 1]);
    random.one_of(&[size, -size, -half])
}

/// One of the table's places.
fn place(random: &mut Random, n: usize) -> usize {
    random.below(n * n)
}

/// Gives a number to one of the bounds, which keeps its mark.
fn put(random: &mut Random, bounds: &mut [Option<Bound>], value: i64) {
    let bound = &mut bounds[random.below(bounds.len())];
    let strict = bound.is_some_and(|bound| bound.strict);
    *bound = Some(Bound { value, strict });
}

/// Puts a time, a bound or an empty row into a case with n from 1 to 15.
fn damage_values(random: &mut Random, case: &mut Case) {
    let n = case.n;
    match random.below(4) {
        0 => case.times[place(random, n)] = Some(at_limit(random, 86_400, 18)),
        1 => {
            let row = random.below(n);
            case.times[row * n..row * n + n].fill(None);
        }
        2 => {
            let value = at_limit(random, 1_000_000, 21);
            put(random, &mut case.start[..n * (n + 1)], value)
        }
        _ => {
            let value = at_limit(random, 1_000_000, 21);
            put(random, &mut case.target[..n * (n + 1)], value)
        }
    }
}

/// Damages bytes: flipped bits, a cut, more bytes, a set bit in the last
/// byte, three zero bits and perhaps n = 0 in the wide field, or other bytes
/// altogether.
fn damage_bytes(random: &mut Random, bytes: &mut Vec<u8>) {
    match random.below(7) {
        0 | 1 => {
            for _ in 0..=random.below(3) {
                let bit = random.below(8 * bytes.len().max(1));
                if let Some(byte) = bytes.get_mut(bit / 8) {
                    *byte ^= 128 >> (bit % 8);
                }
            }
        }
        2 => bytes.truncate(random.below(bytes.len() + 1)),
        3 => {
            for _ in 0..=random.below(3) {
                bytes.push(random.one_of(&[0, 0, 128, 255]));
            }
        }
        4 => {
            if let Some(last) = bytes.last_mut() {
                *last |= 1 << random.below(7);
            }
        }
        5 => {
            if let Some(first) = bytes.first_mut() {
                *first &= random.one_of(&[31, 1]);
            }
        }
        _ => {
            let length = random.below(60);
            *bytes = (0..length).map(|_| random.draw() as u8).collect();
        }
    }
}

/// A byte with which a case of a form begins; n is mostly 1 or 2.
fn first_byte(random: &mut Random, form: Form) -> u8 {
    let small = 1 + random.below(2) as u8;
    let any = random.draw() as u8;
    match form {
        Form::Old => small << 5 | any & 31,
        Form::Wide if random.chance(2, 3) => small << 1 | any & 1,
        Form::Wide => any & 31,
    }
}

/// Bytes of any kind, 0 to `most` of them; the first often names a small n.
pub fn any_bytes(random: &mut Random, form: Form, most: usize) -> Vec<u8> {
    let length = random.below(most + 1);
    let ones = random.one_of(&[0, 1, 2, 3]);
    let mut bytes: Vec<u8> = Vec::with_capacity(length);
    for _ in 0..length {
        // Fewer bits of 1 make fewer entries, so that more fields are read.
        let byte = (0..ones).fold(random.draw() as u8, |byte, _| byte & random.draw() as u8);
        bytes.push(byte);
    }
    if let (Some(first), true) = (bytes.first_mut(), random.chance(1, 2)) {
        *first = first_byte(random, form);
    }
    bytes
}

/// Changes one place of the bytes, or takes part of another case.
fn mutate(random: &mut Random, bytes: &mut Vec<u8>, form: Form, draw: Draw) {
    let at = random.below(bytes.len() + 1);
    match random.below(7) {
        0 => bytes.insert(at, random.draw() as u8),
        1 if at < bytes.len() => drop(bytes.remove(at)),
        2 if at < bytes.len() => bytes[at] = random.draw() as u8,
        3 if at < bytes.len() => bytes[at] ^= 1 << random.below(8),
        4 => {
            let other = draw(random).case.pack(form);
            bytes.truncate(at);
            bytes.extend(other.get(at..).unwrap_or(&[]));
        }
        5 => bytes.truncate(at),
        _ => {
            let from = random.below(at + 1);
            bytes.extend_from_within(from..at);
        }
    }
}

/// A valid case changed up to four times.
pub fn mutated(random: &mut Random, form: Form, draw: Draw) -> Vec<u8> {
    let mut bytes = draw(random).case.pack(form);
    for _ in 0..=random.below(4) {
        mutate(random, &mut bytes, form, draw);
    }
    bytes
}

/// A capacity and a length of the workspace, either of them often bad.
fn lent(random: &mut Random, n: usize, good: usize) -> (usize, usize) {
    let capacity = match random.below(8) {
        0 => random.one_of(&[0, 4097, 5000, usize::MAX, 1 << 63, 1 << 61]),
        _ => good,
    };
    let exact = faults::workspace(n.min(DEPARTURES), capacity.min(4097));
    let length = match random.below(8) {
        0 => exact.saturating_sub(1),
        1 => random.below(exact + 1),
        2 => 0,
        3 => exact + 1 + random.below(300),
        _ => exact,
    };
    (capacity, length)
}

/// Whether brute search 2 can take on what is left of a case, and with which
/// capacity. A capacity of 4,096 is tried now and then.
fn good_capacity(random: &mut Random, case: &Case, given: usize) -> Option<usize> {
    if random.chance(1, 16) && bearable(case, 4096) == Some(4096) {
        return Some(4096);
    }
    bearable(case, given)
}

/// A packed call with up to two kinds of damage. The form must have a place for
/// the cases drawn.
pub fn packed(random: &mut Random, form: Form, draw: Draw) -> PackedCall {
    loop {
        let mut trial = draw(random);
        for _ in 0..random.below(3) {
            damage_values(random, &mut trial.case);
        }
        let mut bytes = trial.case.pack(form);
        for _ in 0..random.below(3) {
            damage_bytes(random, &mut bytes);
        }
        let good = match faults::of_packed(&bytes) {
            Ok(case) => good_capacity(random, &case, trial.capacity),
            Err(_) => Some(trial.capacity),
        };
        if let Some(good) = good {
            let (capacity, work_length) = lent(random, trial.case.n, good);
            return PackedCall {
                bytes,
                capacity,
                work_length,
            };
        }
    }
}

/// A value far beyond every limit, or just beyond one.
fn far(random: &mut Random, limit: i64) -> i64 {
    let sizes = [limit, limit + 1, 1 << 31, 1 << 32, (1 << 32) + 1, i64::MAX];
    let size = random.one_of(&sizes);
    random.one_of(&[size, -size, i64::MIN])
}

/// Damages an unpacked case, n and N included.
fn damage_case(random: &mut Random, case: &mut Case) {
    let n = case.n.clamp(1, DEPARTURES);
    let huge = [0, 16, 17, 255, 256, 257, 1 << 32, (1 << 32) + 1, usize::MAX];
    match random.below(6) {
        0 => case.n = random.one_of(&huge),
        1 => case.horizon = random.one_of(&[0, 64, 65, 255, 257, (1 << 32) + 1, usize::MAX]),
        2 => case.times[place(random, n)] = Some(far(random, 86_400)),
        3 => {
            let value = far(random, 1_000_000);
            put(random, &mut case.start[..n * (n + 1)], value)
        }
        4 => {
            let value = far(random, 1_000_000);
            put(random, &mut case.target[..n * (n + 1)], value)
        }
        _ => {
            case.n = n;
            damage_values(random, case)
        }
    }
}

/// An unpacked call with up to two kinds of damage.
pub fn unpacked(random: &mut Random, draw: Draw) -> UnpackedCall {
    loop {
        let mut trial = draw(random);
        for _ in 0..random.below(3) {
            damage_case(random, &mut trial.case);
        }
        let good = match faults::of_case(&trial.case) {
            Ok(()) => good_capacity(random, &trial.case, trial.capacity),
            Err(_) => Some(trial.capacity),
        };
        if let Some(good) = good {
            let (capacity, work_length) = lent(random, trial.case.n, good);
            return UnpackedCall {
                case: trial.case,
                capacity,
                work_length,
            };
        }
    }
}

/// A row or a column, sometimes outside the table.
fn line(random: &mut Random, n: usize) -> usize {
    match random.below(16) {
        0 => random.one_of(&[0, n + 1, 16, 257, (1 << 32) + 1, usize::MAX]),
        _ => 1 + random.below(n),
    }
}

/// A time or a blank for any entry of the table, sometimes beyond a limit.
fn change(random: &mut Random, n: usize) -> Change {
    let size = random.one_of(&[3, 90, 86_400]);
    Change {
        row: line(random, n),
        column: line(random, n),
        has: random.one_of(&[0, 0, 1, 1, 2, 255]),
        time: match random.below(4) {
            0 => far(random, 86_400),
            _ => random.between(-size, size),
        },
    }
}

/// A change in an unpacked call, with damage to every third call.
pub fn changed(random: &mut Random, draw: Draw) -> ChangeCall {
    let call = if random.chance(1, 3) {
        unpacked(random, draw)
    } else {
        let Trial { case, capacity, .. } = draw(random);
        UnpackedCall {
            case,
            capacity,
            work_length: faults::workspace(case.n, capacity) + random.below(3),
        }
    };
    let change = change(random, call.case.n.clamp(1, DEPARTURES));
    ChangeCall { call, change }
}

/// A run, with damage to its case, its cycle or its start times.
pub fn run(random: &mut Random, draw: Draw) -> RunCall {
    let mut case = draw(random).case;
    for _ in 0..random.below(3) {
        damage_case(random, &mut case);
    }
    let huge = [255, 256, 1 << 32, (1 << 32) + 3, usize::MAX];
    let cycle = match random.below(8) {
        0 => random.one_of(&huge),
        1..=3 => random.below(71),
        _ => random.below(65),
    };
    let limit: i64 = 1_000_000_000_000;
    let mut start = [0; DEPARTURES];
    for time in &mut start {
        *time = match random.below(12) {
            0 => random.one_of(&[limit + 1, -limit - 1, i64::MIN, i64::MAX, i64::MIN + 1]),
            1 | 2 => random.one_of(&[limit, -limit]),
            3 | 4 => random.between(-limit, limit),
            _ => random.between(-1000, 1000),
        };
    }
    RunCall { case, start, cycle }
}
