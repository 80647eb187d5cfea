//! What the program prints, made from the faults and brute search 2.

use crate::archive::{Answer, Verdict};
use crate::case::Case;
use crate::enumeration::{in_parts, step};
use crate::faults;
use crate::selections::search;

/// The capacity that the program uses for n departures.
pub fn capacity(n: usize) -> usize {
    match n {
        ..=7 => 128,
        _ => 32,
    }
}

/// What the program prints for the bytes on its standard input.
pub fn printed(bytes: &[u8]) -> String {
    match faults::of_packed(bytes) {
        Err(fault) => format!("refused {} {}\n", fault.number, fault.returned),
        Ok(case) => lines(&case, &search(&case, capacity(case.n)).answer),
    }
}

/// The lines for an answer on a case. Times are in parts of a second where a
/// second has more than one.
pub fn lines(case: &Case, answer: &Answer) -> String {
    match answer.verdict {
        Verdict::Refused(fault) => format!("refused {} {}\n", fault.number, fault.returned),
        Verdict::Clear { horizon } => format!("clear {horizon}\n"),
        Verdict::Never => "never\n".to_string(),
        Verdict::Reached { cycle: last } => {
            let of = match answer.parts {
                1 => String::new(),
                parts => format!(" of {parts}"),
            };
            let mut text = format!("reached {last}{of}\n");
            let scaled = in_parts(case, answer.parts);
            let mut times = answer.start;
            for cycle in 0..=last {
                text += &cycle.to_string();
                for time in &times[..case.n] {
                    text += &format!(" {time}");
                }
                text += "\n";
                times = step(&scaled, &times);
            }
            text
        }
    }
}
