//! Runs the benchmark:
//!
//!     bench                        all families, dropping, packing, and z3
//!     bench WORD...                families whose names have one of the words
//!     bench decide WORD...         decisions where the table of zones runs full
//!     bench decide-slowest N SEED SECONDS
//!                                  a search for a slow decision
//!     bench decide-case HEX        the decision on one packed case
//!     bench dropping               what dropping equal sets saves
//!     bench fifteen WORD...        families of 15 departures, with a time limit
//!     bench full WORD...           how often the table of zones runs full
//!     bench packing                writing and reading packed cases
//!     bench z3                     the comparison with z3
//!     bench compare BEFORE WORD... another build of this program and this one
//!     bench copying WORD...        which of the library's instructions copy
//!     bench slowest SEED STEPS     a search for a slow case; 60s for a minute
//!     bench case HEX               one packed case
//!
//! `bench turns`, `bench once` and `bench one` are what compare, copying, decide and
//! fifteen start.

use bench::families::{self, Family};
use bench::kinds::Kind;
use bench::{
    compare, copying, decide, decide_slowest, dropping, fifteen, full, limited, packing, questions,
    slowest, table, z3,
};
use std::env;
use std::process::ExitCode;

/// Whether a name has one of the words, or there are none.
fn named(name: &str, words: &[&str]) -> bool {
    words.is_empty() || words.iter().any(|word| name.contains(word))
}

/// The families whose names have one of the words, or all without any.
fn among(mut families: Vec<Family>, words: &[&str]) -> Vec<Family> {
    families.retain(|family| named(&family.name, words));
    families
}

/// The same of those of up to 7 departures.
fn chosen(words: &[&str]) -> Vec<Family> {
    among(families::all(), words)
}

/// The same of the random kinds of all sizes.
fn kinds(words: &[&str]) -> Vec<Kind> {
    let kinds = families::kinds().into_iter().chain(fifteen::kinds());
    kinds.filter(|kind| named(&kind.name, words)).collect()
}

/// All families.
fn every() -> Vec<Family> {
    let mut families = families::all();
    families.extend(fifteen::all());
    families
}

fn run(words: &[&str]) -> Result<(), String> {
    let solver = || z3::print().map_err(|error| format!("the comparison with z3: {error}"));
    match words {
        ["slowest", seed, steps] => slowest::search(seed, steps),
        ["compare", before, words @ ..] => compare::print(before, &chosen(words))
            .map_err(|error| format!("the comparison of two builds: {error}")),
        ["copying", words @ ..] => {
            copying::print(&chosen(words)).map_err(|error| format!("counting what copies: {error}"))
        }
        ["fifteen", words @ ..] => limited::print(&among(fifteen::all(), words))
            .map_err(|error| format!("fifteen departures: {error}")),
        ["decide", words @ ..] => decide::print(&among(questions::all(), words))
            .map_err(|error| format!("decisions: {error}")),
        ["decide-case", hex] => decide::one(hex),
        ["decide-slowest", n, seed, seconds] => decide_slowest::search(n, seed, seconds),
        ["one", version] => limited::one(version),
        ["once"] => copying::once(),
        ["turns"] => compare::turns(),
        ["case", hex] => slowest::one(hex),
        ["full", words @ ..] => {
            full::print(&kinds(words));
            Ok(())
        }
        ["z3"] => solver(),
        ["dropping"] => {
            dropping::print();
            Ok(())
        }
        ["packing"] => {
            packing::print(&every());
            Ok(())
        }
        [] => {
            table::print(&families::all());
            dropping::print();
            packing::print(&every());
            solver()
        }
        _ => {
            table::print(&chosen(words));
            Ok(())
        }
    }
}

fn main() -> ExitCode {
    let arguments: Vec<String> = env::args().skip(1).collect();
    let words: Vec<&str> = arguments.iter().map(String::as_str).collect();
    match run(&words) {
        Ok(()) => ExitCode::SUCCESS,
        Err(words) => {
            eprintln!("{words}");
            ExitCode::FAILURE
        }
    }
}
