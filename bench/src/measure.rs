//! Times of the three versions on one case, taken in turn so that whatever
//! else the machine does hits all alike.

use crate::{hex, one_by_one, rows};
use evidence::archive::{self, Answer, Verdict};
use evidence::case::Case;
use evidence::faults::workspace;
use evidence::text::capacity;
use std::hint::black_box;
use std::time::Instant;

/// Rounds in which each version has its turn.
const ROUNDS: usize = 5;

/// Seconds that a turn takes at least, by running the version several times.
const TURN: f64 = 0.002;

/// A version whose one run takes longer than these seconds is not run again.
const LONG: f64 = 0.1;

/// What the versions found and took on a case.
pub struct Measured {
    pub verdict: Verdict,
    /// Seconds of the library on the unpacked case.
    pub library: f64,
    /// Seconds of plain Rust, rows one by one.
    pub rows: f64,
    /// Seconds of plain Rust, selections one by one, unless left out.
    pub one_by_one: Option<f64>,
}

/// A version: its answer, unless it takes more steps than allowed.
type Version<'a> = Box<dyn FnMut() -> Option<Answer> + 'a>;

/// A version and the seconds that it took, turn by turn.
struct Timed<'a> {
    version: Version<'a>,
    first: Option<Answer>,
    repeats: usize,
    seconds: Vec<f64>,
}

/// The middle one, or the mean of the two in the middle.
pub fn median(numbers: &[f64]) -> Option<f64> {
    let mut sorted = numbers.to_vec();
    sorted.sort_by(f64::total_cmp);
    let half = sorted.len() / 2;
    let upper = sorted.get(half)?;
    let lower = sorted[(sorted.len() - 1) / 2];
    Some((lower + upper) / 2.0)
}

impl<'a> Timed<'a> {
    /// Runs the version once, to see its answer and how often a turn is to
    /// repeat it.
    fn new(mut version: Version<'a>) -> Timed<'a> {
        let begin = Instant::now();
        let first = version();
        let took = begin.elapsed().as_secs_f64();
        let again = first.is_some() && took < LONG;
        Timed {
            version,
            first,
            repeats: if again { (TURN / took) as usize + 1 } else { 0 },
            seconds: if again { Vec::new() } else { vec![took] },
        }
    }

    fn turn(&mut self) {
        if self.repeats == 0 {
            return;
        }
        let begin = Instant::now();
        for _ in 0..self.repeats {
            black_box((self.version)());
        }
        let took = begin.elapsed().as_secs_f64();
        self.seconds.push(took / self.repeats as f64);
    }

    /// The median, if the version came to an end.
    fn median(&self) -> Option<f64> {
        self.first.and(median(&self.seconds))
    }
}

/// The library on a case, with memory lent to it.
pub fn library(case: &Case) -> impl FnMut() -> Option<Answer> + '_ {
    library_with(case, capacity(case.n))
}

/// The same with room for so many zones.
pub fn library_with(case: &Case, zones: usize) -> impl FnMut() -> Option<Answer> + '_ {
    let entries = case.entries();
    let mut work = vec![0; workspace(case.n, zones)];
    move || archive::verdict_entries(case.n, case.horizon, &entries, zones, &mut work).ok()
}

/// The product's algorithm in plain Rust on a case.
pub fn plain(case: &Case) -> impl FnMut() -> Option<Answer> + '_ {
    || Some(rows::verdict(case, capacity(case.n)).0)
}

/// Measures a case. All versions must give the same answer; the run ends where
/// they do not.
pub fn measure(case: &Case, limit: u64) -> Measured {
    let versions: [Version; 3] = [
        Box::new(library(case)),
        Box::new(plain(case)),
        Box::new(|| one_by_one::verdict(case, capacity(case.n), limit)),
    ];
    let mut timed = versions.map(Timed::new);
    let [first, others @ ..] = timed.each_ref().map(|version| version.first);
    let answer = first.unwrap_or_else(|| panic!("no answer on {}", hex(case)));
    for other in others.into_iter().flatten() {
        assert_eq!(answer, other, "two answers on {}", hex(case));
    }
    for _ in 0..ROUNDS {
        timed.iter_mut().for_each(Timed::turn);
    }
    let [library, rows, one_by_one] = timed.each_ref().map(Timed::median);
    Measured {
        verdict: answer.verdict,
        library: library.expect("an answer"),
        rows: rows.expect("an answer"),
        one_by_one,
    }
}
