//! Families of which some cases are slow: each version has a process of its own on
//! a case, which is ended after a limit.

use crate::compare::turn;
use crate::decide;
use crate::families::Family;
use crate::measure::{library, library_with, median, plain};
use crate::table::{ratio, words};
use crate::{hex, of_hex, packed};
use evidence::case::Case;
use std::fmt::Debug;
use std::io::{self, Read, Write};
use std::path::Path;
use std::process::{Child, Command, Stdio};
use std::thread::sleep;
use std::time::{Duration, Instant};
use std::{env, fs};

/// How long a process may take.
const LIMIT: Duration = Duration::from_secs(10);

/// Turns of each version on a case, unless one takes longer than `LONG` seconds.
const TURNS: usize = 3;
const LONG: f64 = 0.3;

/// A case that takes the library as many seconds is written down.
const SLOW: f64 = 1.0;

/// What stands above the table.
const HEAD: &str = "\
| family | cases | reached | clear | never | full | library | plain Rust \
| library / plain | library at most | library stopped | plain stopped |
|---|---|---|---|---|---|---|---|---|---|---|---|";

/// What stands below it.
const NOTES: &str = "\
A case's time is the least of its turns, at most three. Times are medians over all
cases, ratios medians over those that both versions end. Stopped: cases that are
not ended after 10 seconds, which count as longer than all others.";

/// What a version took on a case and answered.
pub struct Ended {
    pub seconds: f64,
    pub answer: String,
}

/// What both versions did on a case; none if it was stopped.
struct Both {
    library: Option<Ended>,
    plain: Option<Ended>,
}

/// Gives the packed case on standard input, a line of hexadecimal digits, a turn
/// of a version. Prints its seconds and its answer.
pub fn one(version: &str) -> Result<(), String> {
    let line = io::read_to_string(io::stdin()).map_err(|error| error.to_string())?;
    let case = of_hex(line.trim_end())?;
    match version {
        "library" => say(turn(library(&case))),
        "plain" => say(turn(plain(&case))),
        "zones 128" => say(turn(library_with(&case, 128))),
        "zones 4096" => say(turn(library_with(&case, 4096))),
        "decide" => say(turn(decide::library(&case))),
        "plain decide" => say(turn(decide::plain(&case))),
        _ => return Err(format!("no version {version}")),
    }
    Ok(())
}

/// Prints the seconds and the answer of a turn.
fn say<A: Debug>((seconds, answer): (f64, A)) {
    println!("{seconds} {answer:?}");
}

/// Whether a process ends by itself within the limit; otherwise it is ended.
fn ends(process: &mut Child) -> io::Result<bool> {
    let begin = Instant::now();
    while process.try_wait()?.is_none() {
        if begin.elapsed() > LIMIT {
            process.kill()?;
            process.wait()?;
            return Ok(false);
        }
        sleep(Duration::from_millis(1));
    }
    Ok(true)
}

/// One turn of a version on a case, in a process of its own.
fn one_turn(version: &str, case: &Case) -> io::Result<Option<Ended>> {
    let mut process = Command::new(env::current_exe()?)
        .args(["one", version])
        .stdin(Stdio::piped())
        .stdout(Stdio::piped())
        .spawn()?;
    let missing = || io::Error::other(format!("{version} says nothing on {}", hex(case)));
    let mut input = process.stdin.take().ok_or_else(missing)?;
    writeln!(input, "{}", hex(case))?;
    drop(input);
    if !ends(&mut process)? {
        return Ok(None);
    }
    let mut said = String::new();
    let mut output = process.stdout.take().ok_or_else(missing)?;
    output.read_to_string(&mut said)?;
    let (seconds, answer) = said.split_once(' ').ok_or_else(missing)?;
    Ok(Some(Ended {
        seconds: seconds.parse().map_err(io::Error::other)?,
        answer: answer.trim_end().to_string(),
    }))
}

/// The least of a version's turns on a case.
pub fn least(version: &str, case: &Case) -> io::Result<Option<Ended>> {
    let mut least = one_turn(version, case)?;
    for _ in 1..TURNS {
        match &mut least {
            Some(ended) if ended.seconds < LONG => {
                let again = one_turn(version, case)?;
                let seconds = again.map_or(f64::INFINITY, |again| again.seconds);
                ended.seconds = ended.seconds.min(seconds);
            }
            _ => break,
        }
    }
    Ok(least)
}

/// Both versions on a case. Where both end, the answers must be the same.
fn both(case: &Case) -> io::Result<Both> {
    let [library, plain] = [least("library", case)?, least("plain", case)?];
    if let (Some(one), Some(other)) = (&library, &plain) {
        assert_eq!(one.answer, other.answer, "two answers on {}", hex(case));
    }
    Ok(Both { library, plain })
}

/// The seconds of a version, without end where it was stopped.
pub fn seconds(ended: &Option<Ended>) -> f64 {
    ended.as_ref().map_or(f64::INFINITY, |ended| ended.seconds)
}

/// Seconds in words.
pub fn time(seconds: f64) -> String {
    match seconds.is_finite() {
        true => words(seconds),
        false => format!("over {} s", LIMIT.as_secs()),
    }
}

/// How many cases one of the versions ended with an answer of each kind.
fn outcomes(cases: &[Both]) -> [usize; 4] {
    let answers = cases
        .iter()
        .filter_map(|case| case.library.as_ref().or(case.plain.as_ref()));
    let answers: Vec<&str> = answers.map(|ended| ended.answer.as_str()).collect();
    ["Reached", "Clear", "Never", "Refused"]
        .map(|kind| answers.iter().filter(|said| said.contains(kind)).count())
}

/// One line of the table.
fn line(name: &str, cases: &[Both]) -> String {
    let [reached, clear, never, full] = outcomes(cases);
    let library: Vec<f64> = cases.iter().map(|case| seconds(&case.library)).collect();
    let plain: Vec<f64> = cases.iter().map(|case| seconds(&case.plain)).collect();
    let ratios = library.iter().zip(&plain).map(|(one, other)| one / other);
    let ratios: Vec<f64> = ratios
        .filter(|ratio| *ratio > 0.0 && ratio.is_finite())
        .collect();
    let middle = |times: &[f64]| median(times).map_or("-".to_string(), time);
    let stopped = |times: &[f64]| times.iter().filter(|time| time.is_infinite()).count();
    let most = library.iter().copied().fold(0.0, f64::max);
    let cells = [
        format!("| {name} | {}", cases.len()),
        format!("{reached} | {clear} | {never} | {full}"),
        middle(&library),
        middle(&plain),
        median(&ratios).map_or("-".to_string(), ratio),
        time(most),
        format!("{} | {} |", stopped(&library), stopped(&plain)),
    ];
    cells.join(" | ")
}

/// Writes the slow cases of a family to a folder and says what they took.
fn write_slow(family: &Family, cases: &[Both], folder: &Path) -> io::Result<Vec<String>> {
    let mut lines = Vec::new();
    for (number, (case, took)) in family.cases.iter().zip(cases).enumerate() {
        let [library, plain] = [seconds(&took.library), seconds(&took.plain)];
        if library < SLOW {
            continue;
        }
        fs::create_dir_all(folder)?;
        let file = format!(
            "{}-{number}.case",
            family.name.replace(", ", "-").replace(' ', "-")
        );
        fs::write(folder.join(&file), packed(case))?;
        let (library, plain) = (time(library), time(plain));
        lines.push(format!("- {file}: library {library}, plain Rust {plain}"));
    }
    Ok(lines)
}

/// Measures the families, prints each line as soon as it is known, and writes down
/// the slow cases.
pub fn print(families: &[Family]) -> io::Result<()> {
    let folder = Path::new(env!("CARGO_MANIFEST_DIR")).join("target/slow");
    let mut slow = Vec::new();
    println!("{HEAD}");
    for family in families {
        let cases: io::Result<Vec<Both>> = family.cases.iter().map(both).collect();
        let cases = cases?;
        println!("{}", line(&family.name, &cases));
        slow.extend(write_slow(family, &cases, &folder)?);
    }
    println!("\n{NOTES}");
    if !slow.is_empty() {
        println!(
            "\nSlow cases, written to target/slow:\n\n{}",
            slow.join("\n")
        );
    }
    Ok(())
}
