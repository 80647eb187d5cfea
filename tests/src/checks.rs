//! What several tests do alike: what should come out of a call, lending a
//! workspace and looking at it afterwards, and naming a case that failed.

use crate::archive::{Answer, Fault, Verdict};
use crate::case::{Case, Entries, Times, BOUNDS, DEPARTURES, ENTRIES, START, TARGET, TIMES};
use crate::enumeration::{first_in_box, in_parts, tried_parts};
use crate::faults;
use crate::random::{Random, Trial};
use crate::selections::{parts_of, search, without_start};

/// The answer that refuses with a fault.
pub fn refused(fault: Fault) -> Answer {
    without_start(Verdict::Refused(fault))
}

/// The number of the fault, 0 without one.
pub fn fault_number(answer: &Answer) -> usize {
    match answer.verdict {
        Verdict::Refused(fault) => fault.number,
        _ => 0,
    }
}

/// The last cycle up to which the target is not met, by the verdict. Never says
/// so of every cycle. Starts of a box can contradict it, here up to cycle 100;
/// they cannot tell it from clear, whichever its cause.
pub fn unmet_up_to(verdict: &Verdict) -> usize {
    match *verdict {
        Verdict::Reached { cycle } => cycle - 1,
        Verdict::Clear { horizon } => horizon,
        Verdict::Never => 100,
        Verdict::Refused(fault) => fault.returned - 1,
    }
}

/// What a call on a case without a fault of its own must answer.
fn of_good_case(case: &Case, capacity: usize, work_length: usize) -> Answer {
    match faults::of_call(case.n, capacity, work_length) {
        Err(fault) => refused(fault),
        Ok(()) => search(case, capacity).answer,
    }
}

/// What the verdict on packed bytes must be.
pub fn of_packed(bytes: &[u8], capacity: usize, work_length: usize) -> Answer {
    match faults::of_packed(bytes) {
        Err(fault) => refused(fault),
        Ok(case) => of_good_case(&case, capacity, work_length),
    }
}

/// What the verdict on an unpacked case must be.
pub fn of_unpacked(case: &Case, capacity: usize, work_length: usize) -> Answer {
    match faults::of_case(case) {
        Err(fault) => refused(fault),
        Ok(()) => of_good_case(case, capacity, work_length),
    }
}

/// The parts of a second in which starts are looked for: in all that are tried
/// where a bound is strict, else in seconds and in (n + 1)ths.
fn parts_looked_at(case: &Case) -> Vec<usize> {
    match parts_of(case) {
        1 => vec![1, case.n + 1],
        _ => tried_parts(case.n).collect(),
    }
}

/// How far a box goes, in parts of a second. With many departures only its centre
/// is looked at.
fn radius(n: usize, parts: usize) -> i64 {
    let second = parts as i64;
    let radii = match parts {
        1 => [12, 4, 2, 1, 0],
        _ => [6 * second, 2 * second, second / 2 + 1, 1, 1],
    };
    radii.get(n - 1).copied().unwrap_or(0)
}

/// The hidden start in other parts of a second, or the last ones before it.
fn near_in(trial: &Trial, parts: usize) -> Times {
    let own = trial.parts as i64;
    trial.near.map(|time| (time * parts as i64).div_euclid(own))
}

/// A start that is in the target at a cycle from 1 to `limit`, if a box around the
/// clock's zero or around the hidden start has one, in whatever parts of a second.
#[derive(Clone, Copy, Debug, PartialEq, Eq)]
pub struct MetInABox {
    pub parts: usize,
    pub cycle: usize,
    pub start: Times,
}

/// Looks for such a start by brute search 1.
pub fn met_in_a_box(trial: &Trial, limit: usize) -> Option<MetInABox> {
    let case = &trial.case;
    parts_looked_at(case).into_iter().find_map(|parts| {
        let scaled = in_parts(case, parts);
        let centres = [[0; DEPARTURES], near_in(trial, parts)];
        let met = |centre| first_in_box(&scaled, centre, radius(case.n, parts), limit);
        let (cycle, start) = centres.iter().find_map(met)?;
        Some(MetInABox {
            parts,
            cycle,
            start,
        })
    })
}

/// Numbers or bytes on each side of what is lent that no call may touch.
const GUARD: usize = 16;

/// A workspace full of numbers other than 0, between two guards.
#[derive(Clone, Debug, PartialEq, Eq)]
pub struct Lent {
    all: Vec<i32>,
    before: Vec<i32>,
}

impl Lent {
    pub fn new(random: &mut Random, length: usize) -> Lent {
        let mut next = random.draw() as i32;
        let all: Vec<i32> = (0..length + 2 * GUARD)
            .map(|_| {
                next = next.wrapping_mul(1_664_525).wrapping_add(1_013_904_223);
                next | 1
            })
            .collect();
        Lent {
            before: all.clone(),
            all,
        }
    }

    /// The part that is lent.
    pub fn part(&mut self) -> &mut [i32] {
        let end = self.all.len() - GUARD;
        &mut self.all[GUARD..end]
    }

    /// Whether the workspace is as it must be after such an answer: as it was
    /// after faults 1 to 10 and 15, all zero after every other answer.
    pub fn right_after(&self, answer: &Answer) -> Result<(), String> {
        let (first, last) = (GUARD, self.all.len() - GUARD);
        if self.all[..first] != self.before[..first] || self.all[last..] != self.before[last..] {
            return Err("numbers beside the workspace were changed".to_string());
        }
        let (lent, before) = (&self.all[first..last], &self.before[first..last]);
        match fault_number(answer) {
            1..=10 | 15 if lent != before => Err("the workspace was changed".to_string()),
            1..=10 | 15 => Ok(()),
            _ => match lent.iter().position(|&number| number != 0) {
                Some(place) => Err(format!("number {place} of {} is not 0", lent.len())),
                None => Ok(()),
            },
        }
    }
}

/// An output full of random bytes, between two guards.
pub struct Output {
    all: Vec<u8>,
    before: Vec<u8>,
}

impl Output {
    pub fn new(random: &mut Random, length: usize) -> Output {
        let all: Vec<u8> = (0..length + 2 * GUARD)
            .map(|_| random.draw() as u8)
            .collect();
        Output {
            before: all.clone(),
            all,
        }
    }

    /// The part that is lent.
    pub fn part(&mut self) -> &mut [u8] {
        let end = self.all.len() - GUARD;
        &mut self.all[GUARD..end]
    }

    /// Whether the part begins with these bytes and all else is as it was.
    pub fn holds(&self, bytes: &[u8]) -> bool {
        let mut expected = self.before.clone();
        expected[GUARD..GUARD + bytes.len()].copy_from_slice(bytes);
        self.all == expected
    }
}

/// The entries of a case with every number that must be ignored made random:
/// values marked absent, all entries beyond n, and the marks of all these and of
/// the times. Presence and a mark that counts are any number but 0.
pub fn noisy(random: &mut Random, case: &Case) -> Entries {
    let mut marks = random.apart();
    let mut entries = case.entries();
    let (times, bounds) = match case.n {
        1..=DEPARTURES => (case.n * case.n, case.n * (case.n + 1)),
        _ => (TIMES, BOUNDS),
    };
    for place in 0..ENTRIES {
        let used = match place {
            ..START => place < times,
            START..TARGET => place - START < bounds,
            TARGET.. => place - TARGET < bounds,
        };
        let present = used && entries.present[place] != 0;
        entries.strict[place] = match (present && place >= START, entries.strict[place]) {
            (false, _) => marks.between(0, 255) as u8,
            (true, 0) => 0,
            (true, _) => marks.between(1, 255) as u8,
        };
        if present {
            entries.present[place] = random.between(1, 255) as u8;
            continue;
        }
        entries.values[place] = random.draw() as i64;
        if !used {
            entries.present[place] = random.between(0, 255) as u8;
        }
    }
    entries
}

/// Words for a failed comparison on packed bytes.
pub fn named(seed: u64, bytes: &[u8], capacity: usize) -> String {
    let hex: Vec<String> = bytes.iter().map(|byte| format!("{byte:02X}")).collect();
    let case = match faults::of_packed(bytes) {
        Ok(case) => format!("n {}, N {}", case.n, case.horizon),
        Err(fault) => format!("{fault:?}"),
    };
    format!("seed {seed}, {case}, Z {capacity}, bytes {}", hex.join(" "))
}

/// Words for a failed comparison on an unpacked case.
pub fn named_unpacked(seed: u64, case: &Case, capacity: usize) -> String {
    let (n, horizon) = (case.n, case.horizon);
    format!("seed {seed}, n {n}, N {horizon}, Z {capacity}, unpacked {case:?}")
}
