//! Decisions beside the verdict that document 01 defines and beside z3, on families
//! of questions. Each version has a process of its own on a case, which is ended
//! after a limit.

use crate::compare::turn;
use crate::descent;
use crate::families::Family;
use crate::limited::{least, seconds, time, Ended};
use crate::measure::median;
use crate::table::{ratio, words};
use crate::{hex, of_hex};
use evidence::archive::{self, Decision};
use evidence::case::Case;
use evidence::solver;
use std::io;
use std::time::Instant;

/// Cycles asked for, and steps: columns that may be tried.
pub const CYCLES: usize = 64;
pub const STEPS: usize = 10_000_000;

/// Cases of a family that z3 is asked about, and seconds that it has for one.
const ASKED: usize = 15;
const LIMIT: f64 = 10.0;

/// What stands above the table.
const HEAD: &str = "\
| family | cases | reached | clear | never | undecided | library | at most | plain Rust \
| library / plain | 128 zones | time | 4,096 zones | time | z3 | time |
|---|---|---|---|---|---|---|---|---|---|---|---|---|---|---|---|";

/// What stands below it.
const NOTES: &str = "\
Reached to undecided, library: decisions over 64 cycles with 10,000,000 steps. Plain
Rust: the same algorithm, unverified. 128 and 4,096 zones: how many cases the defined
verdict decides with such a table, not full and in 10 seconds. z3: the same of the
first 15 cases, asked cycle by cycle, all in 10 seconds. Times are medians over all
cases, of which those stopped count as longer than all others; ratios are medians of
each case's ratio.";

/// The library's decision on a case.
pub fn library(case: &Case) -> impl FnMut() -> Option<Decision> + '_ {
    let entries = case.entries();
    move || archive::decide_entries(case.n, case.horizon, &entries, CYCLES, STEPS).ok()
}

/// The same in plain Rust.
pub fn plain(case: &Case) -> impl FnMut() -> Option<Decision> + '_ {
    || Some(descent::decide(case, CYCLES, STEPS).0)
}

/// What was done on a case: the decision, the same in plain Rust, the verdict with
/// 128 zones and with 4,096; none if it was stopped.
struct Asked {
    library: Option<Ended>,
    plain: Option<Ended>,
    few: Option<Ended>,
    many: Option<Ended>,
}

/// All versions on a case. The two decisions must be the same.
fn ask(case: &Case) -> io::Result<Asked> {
    let (library, plain) = (least("decide", case)?, least("plain decide", case)?);
    if let (Some(one), Some(other)) = (&library, &plain) {
        assert_eq!(one.answer, other.answer, "two answers on {}", hex(case));
    }
    Ok(Asked {
        library,
        plain,
        few: least("zones 128", case)?,
        many: least("zones 4096", case)?,
    })
}

/// Whether a verdict is there and the table was not full.
fn decides(verdict: &Option<Ended>) -> bool {
    let said = verdict.as_ref().map(|ended| ended.answer.as_str());
    said.is_some_and(|said| !said.contains("Refused"))
}

/// The seconds in which z3 finds the first cycle at which a case is met, or that
/// there is none, without end where it does not. It may not contradict a decision.
fn solve(case: &Case, decided: &str) -> io::Result<f64> {
    let begin = Instant::now();
    for cycle in 1..=CYCLES {
        let left = LIMIT - begin.elapsed().as_secs_f64();
        let met = match left > 0.0 {
            true => solver::met(case, cycle, left.ceil() as u32)?,
            false => None,
        };
        let expected = decided.contains(&format!("cycle: {cycle} "));
        match met {
            None => return Ok(f64::INFINITY),
            Some(met) => assert_eq!(met, expected, "z3 at {cycle} on {}", hex(case)),
        }
        if met == Some(true) {
            break;
        }
    }
    Ok(begin.elapsed().as_secs_f64())
}

/// How long z3 takes on the first cases that are decided; none without z3.
fn solved(cases: &[Case], asked: &[Asked]) -> io::Result<Vec<f64>> {
    if solver::version().is_none() {
        return Ok(Vec::new());
    }
    let decided = asked.iter().map(|asked| asked.library.as_ref());
    let pairs = cases.iter().zip(decided).take(ASKED);
    let pairs = pairs.filter_map(|(case, ended)| Some((case, ended?.answer.as_str())));
    pairs.map(|(case, decided)| solve(case, decided)).collect()
}

/// How many decisions there are of each kind.
fn outcomes(asked: &[Asked]) -> [usize; 4] {
    let answers = asked.iter().filter_map(|asked| asked.library.as_ref());
    let answers: Vec<&str> = answers.map(|ended| ended.answer.as_str()).collect();
    ["Reached", "Clear", "Never", "Undecided"]
        .map(|kind| answers.iter().filter(|said| said.contains(kind)).count())
}

/// The median in words, or "-".
fn middle(times: &[f64]) -> String {
    median(times).map_or("-".to_string(), time)
}

/// How many cases a verdict decides, and its median time.
fn share(asked: &[Asked], verdict: fn(&Asked) -> &Option<Ended>) -> String {
    let count = asked.iter().filter(|asked| decides(verdict(asked))).count();
    let times: Vec<f64> = asked.iter().map(|asked| seconds(verdict(asked))).collect();
    format!("{count} | {}", middle(&times))
}

/// How many of those asked z3 decides, and its median time.
fn solver_share(times: &[f64]) -> String {
    let count = times.iter().filter(|time| time.is_finite()).count();
    match times.len() {
        0 => "- | -".to_string(),
        all => format!("{count} of {all} | {}", middle(times)),
    }
}

/// One line of the table.
fn line(family: &Family) -> io::Result<String> {
    let asked: io::Result<Vec<Asked>> = family.cases.iter().map(ask).collect();
    let asked = asked?;
    let [reached, clear, never, undecided] = outcomes(&asked);
    let library: Vec<f64> = asked.iter().map(|asked| seconds(&asked.library)).collect();
    let plain: Vec<f64> = asked.iter().map(|asked| seconds(&asked.plain)).collect();
    let ratios: Vec<f64> = library.iter().zip(&plain).map(|(l, p)| l / p).collect();
    let cells = [
        format!("| {} | {}", family.name, asked.len()),
        format!("{reached} | {clear} | {never} | {undecided}"),
        middle(&library),
        time(library.iter().copied().fold(0.0, f64::max)),
        middle(&plain),
        median(&ratios).map_or("-".to_string(), ratio),
        share(&asked, |asked| &asked.few),
        share(&asked, |asked| &asked.many),
        solver_share(&solved(&family.cases, &asked)?),
    ];
    Ok(cells.join(" | ") + " |")
}

/// Measures the families and prints each line as soon as it is known.
pub fn print(families: &[Family]) -> io::Result<()> {
    match solver::version() {
        Some(version) => println!("{version}\n"),
        None => println!("z3 is not here; its columns are left out.\n"),
    }
    println!("{HEAD}");
    for family in families {
        println!("{}", line(family)?);
    }
    println!("\n{NOTES}");
    Ok(())
}

/// Prints a case, its decision, what it costs and how long it takes.
pub fn print_one(case: &Case) {
    println!("{}", hex(case));
    let (decision, cost) = descent::decide(case, CYCLES, STEPS);
    println!("{cost:?}");
    let (by_library, found) = turn(library(case));
    let (by_plain, _) = turn(plain(case));
    assert_eq!(found, Some(decision), "two answers");
    println!(
        "{:?}: library {}, plain Rust {}",
        decision.decided,
        words(by_library),
        words(by_plain)
    );
}

/// Prints one packed case, given in hexadecimal digits.
pub fn one(digits: &str) -> Result<(), String> {
    print_one(&of_hex(digits)?);
    Ok(())
}
