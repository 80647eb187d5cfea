//! A benchmark of the library against plain Rust and against an outside solver.

pub mod compare;
pub mod copying;
pub mod decide;
pub mod decide_slowest;
pub mod descent;
pub mod dropping;
pub mod families;
pub mod fifteen;
pub mod full;
pub mod kinds;
pub mod limited;
pub mod machine;
pub mod measure;
pub mod needs;
pub mod network;
pub mod one_by_one;
pub mod packing;
pub mod questions;
pub mod rows;
pub mod search;
pub mod sets;
pub mod slowest;
pub mod table;
pub mod z3;
pub mod zone;

use evidence::case::Case;
use evidence::faults;

/// The packed case, in the old form where that has a place for it.
pub fn packed(case: &Case) -> Vec<u8> {
    case.pack(case.forms()[0])
}

/// The packed case in hexadecimal digits.
pub fn hex(case: &Case) -> String {
    let bytes = packed(case);
    bytes.iter().map(|byte| format!("{byte:02x}")).collect()
}

/// The case of hexadecimal digits.
pub fn of_hex(digits: &str) -> Result<Case, String> {
    let pairs = digits.as_bytes().chunks(2);
    let bytes: Option<Vec<u8>> = pairs
        .map(|pair| u8::from_str_radix(std::str::from_utf8(pair).ok()?, 16).ok())
        .collect();
    let bytes = bytes.ok_or("not hexadecimal digits")?;
    faults::of_packed(&bytes).map_err(|fault| format!("refused: {fault:?}"))
}
