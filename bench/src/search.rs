//! The search that the plain versions share; they differ in how a list is
//! made. M is n + 1.

use crate::network::Table;
use crate::sets::Sets;
use crate::zone::{Empty, Zone};
use evidence::archive::{Answer, Fault, Verdict};
use evidence::case::{pair, Case, Pattern};
use evidence::selections::{only_differences, without_start};
use std::ops::RangeInclusive;

/// Calls a function that is generic in M for a number of departures.
#[macro_export]
macro_rules! for_size {
    ($n:expr, $function:ident($($argument:expr),*)) => {
        match $n {
            1 => $function::<2>($($argument),*),
            2 => $function::<3>($($argument),*),
            3 => $function::<4>($($argument),*),
            4 => $function::<5>($($argument),*),
            5 => $function::<6>($($argument),*),
            6 => $function::<7>($($argument),*),
            7 => $function::<8>($($argument),*),
            8 => $function::<9>($($argument),*),
            9 => $function::<10>($($argument),*),
            10 => $function::<11>($($argument),*),
            11 => $function::<12>($($argument),*),
            12 => $function::<13>($($argument),*),
            13 => $function::<14>($($argument),*),
            14 => $function::<15>($($argument),*),
            15 => $function::<16>($($argument),*),
            n => panic!("no case of {n} departures is within the limits"),
        }
    };
}

/// Why a list is not made to its end.
#[derive(Clone, Copy, Debug, PartialEq, Eq)]
pub enum Stop {
    /// It is longer than the capacity.
    Full,
    /// Making it takes more steps than allowed.
    Steps,
}

/// A list that is being made. It has one place more than zones, where a set is
/// built for which the list has no room.
pub struct Kept<const M: usize> {
    pub zones: Sets<M>,
    capacity: usize,
}

impl<const M: usize> Kept<M> {
    fn new(capacity: usize) -> Kept<M> {
        Kept {
            zones: Sets::new(capacity + 1),
            capacity,
        }
    }

    /// Keeps the last set if it is not empty and differs from all kept.
    pub fn keep(&mut self, built: Result<(), Empty>) -> Result<(), Stop> {
        let kept = self.zones.settle(built);
        match kept && self.zones.all().len() > self.capacity {
            true => Err(Stop::Full),
            false => Ok(()),
        }
    }
}

/// A way to make lists.
pub trait Lister<const M: usize> {
    /// Keeps the sets of times whose image is in the zone, one for each
    /// selection, in order.
    fn before(&mut self, table: &Table<M>, zone: &Zone<M>, kept: &mut Kept<M>) -> Result<(), Stop>;
}

/// The bounds that a pattern states, none of them strict: the plain versions have
/// no marks.
fn stated(n: usize, pattern: &Pattern) -> Vec<(usize, usize, i32)> {
    let pairs = (0..=n).flat_map(|i| (0..=n).map(move |j| (i, j)));
    let stated = pairs.filter(|(i, j)| i != j).filter_map(|(i, j)| {
        let bound = pattern[pair(n, i, j)]?;
        assert!(!bound.strict, "a strict bound on {i}, {j}");
        Some((i, j, bound.value as i32))
    });
    stated.collect()
}

/// The searched horizon, and the verdict where nothing is met up to it.
fn searched<const M: usize>(case: &Case, table: &Table<M>) -> (usize, Verdict) {
    let n = case.n;
    let horizon = case.horizon;
    if only_differences(n, &case.start) || only_differences(n, &case.target) {
        if let Some(q) = table.first_repeat().filter(|q| q - 1 <= horizon) {
            return (q - 1, Verdict::Never);
        }
    }
    (horizon, Verdict::Clear { horizon })
}

/// The table is full at list k.
fn full(k: usize) -> Answer {
    without_start(Verdict::Refused(Fault {
        number: 11,
        returned: k,
    }))
}

/// What list k decides, if anything.
fn decided<const M: usize>(
    list: &[Zone<M>],
    start: &[(usize, usize, i32)],
    k: usize,
) -> Option<Answer> {
    let picked = |zone: &Zone<M>| {
        let mut common = *zone;
        common.meet(start).ok()?;
        Some(common.pick().expect("a set that is not empty"))
    };
    let start = list.iter().find_map(picked)?;
    Some(Answer {
        verdict: Verdict::Reached { cycle: k },
        parts: 1,
        start,
    })
}

/// By how many seconds the times of each zone of a list are later than those of
/// the list before it, if they differ in nothing else.
fn delay<const M: usize>(before: &[Zone<M>], list: &[Zone<M>]) -> Option<i32> {
    let mut pairs = before.iter().zip(list);
    let seconds = pairs.clone().find_map(|(one, next)| next.delay_from(one));
    let seconds = seconds.unwrap_or(0);
    let delayed = |(one, next): (&Zone<M>, &Zone<M>)| {
        let mut one = *one;
        one.delay(seconds);
        one == *next
    };
    (before.len() == list.len() && pairs.all(delayed)).then_some(seconds)
}

/// What these cycles decide where each list is the one before it, later by so many
/// seconds. With 0 all lists are the same, and none decides anything.
fn repeated<const M: usize>(
    list: &mut [Zone<M>],
    seconds: i32,
    start: &[(usize, usize, i32)],
    mut cycles: RangeInclusive<usize>,
) -> Option<Answer> {
    if seconds == 0 {
        return None;
    }
    cycles.find_map(|k| {
        list.iter_mut().for_each(|zone| zone.delay(seconds));
        decided(list, start, k)
    })
}

/// So many of the last lists are held, the list of cycle k in place k % PLACES, but
/// none in the first cycles.
const PLACES: usize = 5;
const EARLY: usize = 4;

/// The last lists, from a cycle on.
struct Past<const M: usize> {
    lists: [Vec<Zone<M>>; PLACES],
    from: usize,
    /// The most zones of a list that is held.
    room: usize,
}

impl<const M: usize> Past<M> {
    fn new() -> Past<M> {
        let numbers = if M <= 6 { 1024 } else { 8192 };
        Past {
            lists: std::array::from_fn(|_| Vec::new()),
            from: EARLY + 1,
            room: numbers / (M * M),
        }
    }

    fn hold(&mut self, list: &[Zone<M>], k: usize) {
        if k <= EARLY {
            return;
        }
        if list.is_empty() || self.room < list.len() {
            self.from = k + 1;
            return;
        }
        let place = &mut self.lists[k % PLACES];
        place.clear();
        place.extend_from_slice(list);
    }

    /// How many cycles before list k the list is which it is, later by so many
    /// seconds. The list right before it was looked at.
    fn turn(&self, k: usize) -> Option<(usize, i32)> {
        let mut lags = (2..PLACES).take_while(|lag| self.from + lag <= k);
        lags.find_map(|lag| {
            let before = &self.lists[(k - lag) % PLACES];
            Some((lag, delay(before, &self.lists[k % PLACES])?))
        })
    }

    /// What these cycles decide where each list is the one so many before it, later
    /// by so many seconds.
    fn repeated(
        &mut self,
        (lag, seconds): (usize, i32),
        start: &[(usize, usize, i32)],
        mut cycles: RangeInclusive<usize>,
    ) -> Option<Answer> {
        if seconds == 0 {
            return None;
        }
        cycles.find_map(|k| {
            let mut list = self.lists[(k - lag) % PLACES].clone();
            list.iter_mut().for_each(|zone| zone.delay(seconds));
            let answer = decided(&list, start, k);
            self.lists[k % PLACES] = list;
            answer
        })
    }
}

/// The present list, the one before it and the last ones.
struct Lists<const M: usize> {
    list: Kept<M>,
    before: Kept<M>,
    past: Past<M>,
}

impl<const M: usize> Lists<M> {
    /// List 0 is the target.
    fn new(capacity: usize, target: &[(usize, usize, i32)]) -> Lists<M> {
        let [mut list, before] = [Kept::new(capacity), Kept::new(capacity)];
        let built = list.zones.add(&Zone::everything()).meet(target);
        list.zones.settle(built);
        Lists {
            list,
            before,
            past: Past::new(),
        }
    }

    fn is_empty(&self) -> bool {
        self.list.zones.all().is_empty()
    }

    /// Makes the next list.
    fn advance(&mut self, table: &Table<M>, lister: &mut impl Lister<M>) -> Result<(), Stop> {
        std::mem::swap(&mut self.list, &mut self.before);
        self.list.zones.clear();
        let mut zones = self.before.zones.all().iter();
        zones.try_for_each(|zone| lister.before(table, zone, &mut self.list))
    }

    /// What the cycles up to the last decide, if anything.
    fn decide(
        &mut self,
        table: &Table<M>,
        start: &[(usize, usize, i32)],
        last: usize,
        lister: &mut impl Lister<M>,
    ) -> Result<Option<Answer>, Stop> {
        for k in 1..=last {
            if self.is_empty() {
                break;
            }
            match self.advance(table, lister) {
                Err(Stop::Full) => return Ok(Some(full(k))),
                made => made?,
            }
            let answer = decided(self.list.zones.all(), start, k);
            if answer.is_some() {
                return Ok(answer);
            }
            if let Some(seconds) = delay(self.before.zones.all(), self.list.zones.all()) {
                let list = self.list.zones.all_mut();
                return Ok(repeated(list, seconds, start, k + 1..=last));
            }
            self.past.hold(self.list.zones.all(), k);
            if let Some(turn) = self.past.turn(k) {
                return Ok(self.past.repeated(turn, start, k + 1..=last));
            }
        }
        Ok(None)
    }
}

/// The whole search on a case within the limits, and how many comparisons of
/// two sets it made, or none if it takes more steps than allowed.
pub fn search<const M: usize>(
    case: &Case,
    capacity: usize,
    lister: &mut impl Lister<M>,
) -> Option<(Answer, u64)> {
    let table = Table::new(case);
    let start = stated(case.n, &case.start);
    let (last, otherwise) = searched(case, &table);
    let mut lists = Lists::new(capacity, &stated(case.n, &case.target));
    let answer = lists.decide(&table, &start, last, lister).ok()?;
    let end = match lists.is_empty() {
        true => Verdict::Never,
        false => otherwise,
    };
    let compared = lists.list.zones.compared + lists.before.zones.compared;
    Some((answer.unwrap_or(without_start(end)), compared))
}
