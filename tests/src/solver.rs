//! Whether a target is met at a cycle, as a question for an outside solver, z3.

use crate::case::{pair, Bound, Case, Pattern};
use crate::enumeration::in_parts;
use crate::selections::parts_of;
use std::io::{self, Write};
use std::process::{Command, Output, Stdio};

/// The variable of a departure in a cycle; departure 0 is the clock's zero.
fn variable(cycle: usize, departure: usize) -> String {
    match departure {
        0 => "zero".to_string(),
        _ => format!("x{cycle}_{departure}"),
    }
}

/// A whole number as SMT-LIB writes it.
fn number(value: i64) -> String {
    match value {
        0.. => value.to_string(),
        _ => format!("(- {})", value.unsigned_abs()),
    }
}

/// A comparison of a difference of two variables with a number.
fn compared(sign: &str, one: &str, other: &str, value: i64) -> String {
    format!("({sign} (- {one} {other}) {})", number(value))
}

/// A pattern over the variables of a cycle. Of whole numbers, less than b is at
/// most b - 1.
fn pattern(n: usize, cycle: usize, pattern: &Pattern) -> Vec<String> {
    let pairs = (0..=n).flat_map(|i| (0..=n).map(move |j| (i, j)));
    let stated = pairs.filter(|(i, j)| i != j).filter_map(|(i, j)| {
        let Bound { value, strict } = pattern[pair(n, i, j)]?;
        let (one, other) = (variable(cycle, i), variable(cycle, j));
        Some(compared("<=", &one, &other, value - i64::from(strict)))
    });
    stated.collect()
}

/// Row i of a cycle: no sum is more than the departure's time, and one of them is
/// that time.
fn row(case: &Case, cycle: usize, i: usize) -> Vec<String> {
    let next = variable(cycle, i + 1);
    let sums = |sign: &str| {
        let columns = (0..case.n).filter_map(|j| Some((j, case.time(i, j)?)));
        let sum = |(j, time)| compared(sign, &next, &variable(cycle - 1, j + 1), time);
        columns.map(sum).collect::<Vec<_>>()
    };
    let mut parts = sums(">=");
    parts.push(format!("(or {})", sums("=").join(" ")));
    parts
}

/// That some start is in the target at a cycle, as SMT-LIB 2: every cycle up to
/// there one by one. Numbers are in parts of a second, so that whole ones meet it
/// if any do.
pub fn formula(case: &Case, cycle: usize) -> String {
    let case = in_parts(case, parts_of(case));
    let mut lines = vec!["(set-logic QF_IDL)".to_string()];
    let departures = (0..=cycle).flat_map(|at| (1..=case.n).map(move |i| (at, i)));
    for (at, i) in [(0, 0)].into_iter().chain(departures) {
        lines.push(format!("(declare-fun {} () Int)", variable(at, i)));
    }
    let mut parts = pattern(case.n, 0, &case.start);
    for at in 1..=cycle {
        parts.extend((0..case.n).flat_map(|i| row(&case, at, i)));
    }
    parts.extend(pattern(case.n, cycle, &case.target));
    lines.extend(parts.iter().map(|part| format!("(assert {part})")));
    lines.push("(check-sat)\n".to_string());
    lines.join("\n")
}

/// The solver's version, if it is installed.
pub fn version() -> Option<String> {
    let Output { stdout, .. } = Command::new("z3").arg("--version").output().ok()?;
    Some(String::from_utf8_lossy(&stdout).trim_end().to_string())
}

/// Whether the target is met at a cycle, or none if the solver does not say so
/// within a limit.
pub fn met(case: &Case, cycle: usize, seconds: u32) -> io::Result<Option<bool>> {
    let mut solver = Command::new("z3")
        .args(["-in", &format!("-T:{seconds}")])
        .stdin(Stdio::piped())
        .stdout(Stdio::piped())
        .spawn()?;
    if let Some(mut input) = solver.stdin.take() {
        input.write_all(formula(case, cycle).as_bytes())?;
    }
    let Output { stdout, .. } = solver.wait_with_output()?;
    match String::from_utf8_lossy(&stdout).trim_end() {
        "sat" => Ok(Some(true)),
        "unsat" => Ok(Some(false)),
        "timeout" | "unknown" => Ok(None),
        said => Err(io::Error::other(format!("z3 says {said}"))),
    }
}
