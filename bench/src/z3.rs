//! The program with its start-up against z3 on the formula of document 000.

use crate::families::one_cycle;
use crate::measure::median;
use crate::table::words;
use crate::{hex, packed};
use evidence::archive::{self, Verdict};
use evidence::case::Case;
use evidence::faults::workspace;
use evidence::solver::{formula, version};
use evidence::text::capacity;
use std::env;
use std::fs::{self, File};
use std::io::{self, Write};
use std::path::{Path, PathBuf};
use std::process::{Command, Output, Stdio};
use std::time::Instant;

/// Times that each program is run on a case, in turn.
const ROUNDS: usize = 11;

/// The program, at its place in the repository unless told otherwise.
fn program() -> PathBuf {
    match env::var_os("TRAMCHECK") {
        Some(given) => PathBuf::from(given),
        None => Path::new(env!("CARGO_MANIFEST_DIR")).join("../crates/tramcheck/out/tramcheck"),
    }
}

/// Runs a program to its end with a file on its standard input; the seconds
/// that this takes, and what it printed.
fn run(program: &Path, argument: Option<&Path>, input: &Path) -> io::Result<(f64, String)> {
    let input = File::open(input)?;
    let begin = Instant::now();
    let Output { stdout, .. } = Command::new(program)
        .args(argument)
        .stdin(Stdio::from(input))
        .output()?;
    let took = begin.elapsed().as_secs_f64();
    Ok((took, String::from_utf8_lossy(&stdout).into_owned()))
}

/// Whether the target is met at cycle 1, by the library.
fn met(case: &Case) -> bool {
    let zones = capacity(case.n);
    let mut work = vec![0; workspace(case.n, zones)];
    match archive::verdict(&packed(case), zones, &mut work).map(|answer| answer.verdict) {
        Ok(Verdict::Reached { cycle: 1 }) => true,
        Ok(Verdict::Clear { horizon: 1 } | Verdict::Never) => false,
        other => panic!("{other:?} on {}", hex(case)),
    }
}

fn write(path: &Path, bytes: &[u8]) -> io::Result<()> {
    File::create(path)?.write_all(bytes)
}

/// The median seconds of the program and of z3 on a case.
fn compare(case: &Case, folder: &Path) -> io::Result<(f64, f64)> {
    let (file, smt) = (folder.join("case"), folder.join("case.smt2"));
    write(&file, &packed(case))?;
    // Equation 12 of document 000.
    write(&smt, formula(case, 1).as_bytes())?;
    let expected = met(case);
    let (mut ours, mut theirs) = (Vec::new(), Vec::new());
    for _ in 0..ROUNDS {
        let (took, text) = run(&program(), None, &file)?;
        assert_eq!(text.starts_with("reached 1\n"), expected, "{}", hex(case));
        ours.push(took);
        let (took, text) = run(Path::new("z3"), Some(&smt), &file)?;
        let said = if expected { "sat\n" } else { "unsat\n" };
        assert_eq!(text, said, "z3 on {}", hex(case));
        theirs.push(took);
    }
    let median = |seconds: &[f64]| median(seconds).expect("some rounds");
    Ok((median(&ours), median(&theirs)))
}

/// One line of the table.
fn line(case: &Case, folder: &Path) -> io::Result<String> {
    let (ours, theirs) = compare(case, folder)?;
    let said = if met(case) { "met" } else { "not met" };
    let times = format!("{} | {}", words(ours), words(theirs));
    let ratio = theirs / ours;
    Ok(format!("| {said} | {} | {times} | {ratio:.1} |", case.n))
}

/// Prints the comparison, or that a program for it is missing.
pub fn print() -> io::Result<()> {
    let Some(version) = version() else {
        println!("\nz3 is not here; the comparison with it is left out.");
        return Ok(());
    };
    if !program().exists() {
        println!("\nThe program is not built; the comparison with z3 is left out.");
        return Ok(());
    }
    println!("\n{version}");
    println!("\n| no blank, one cycle | departures | program | z3 | z3 / program |");
    println!("|---|---|---|---|---|");
    let folder = env::temp_dir().join(format!("bench-{}", std::process::id()));
    fs::create_dir(&folder)?;
    for case in [7, 15].into_iter().flat_map(one_cycle) {
        println!("{}", line(&case, &folder)?);
    }
    fs::remove_dir_all(&folder)
}
