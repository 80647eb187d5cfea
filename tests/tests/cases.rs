//! The cases to try: the program prints for each what stands beside it.

use evidence::faults;
use evidence::random::selection_count;
use evidence::text::printed;
use std::env;
use std::fs::{self, File};
use std::path::{Path, PathBuf};
use std::process::Command;

/// A file or folder below the one that holds the package.
fn beside(name: &str) -> PathBuf {
    Path::new(env!("CARGO_MANIFEST_DIR")).join("..").join(name)
}

/// The program, at its place in the repository unless told otherwise.
fn program() -> PathBuf {
    match env::var_os("TRAMCHECK") {
        Some(given) => PathBuf::from(given),
        None => beside("crates/tramcheck/out/tramcheck"),
    }
}

/// Whether the brute search is done soon: the selections are few, or there is
/// nothing to search.
fn is_small(bytes: &[u8]) -> bool {
    faults::of_packed(bytes).map_or(true, |case| selection_count(&case) < 1000)
}

#[test]
fn every_case_prints_what_is_stored() {
    let mut count = 0;
    for entry in fs::read_dir(beside("cases")).expect("the folder of cases") {
        let case = entry.expect("a file").path();
        if case.extension().is_none_or(|end| end != "case") {
            continue;
        }
        let stored = fs::read_to_string(case.with_extension("out")).expect("the stored output");
        let bytes = fs::read(&case).expect("the case");
        if is_small(&bytes) {
            assert_eq!(printed(&bytes), stored, "brute search on {case:?}");
        }
        let output = Command::new(program())
            .stdin(File::open(&case).expect("the case"))
            .output()
            .expect("the program starts");
        assert_eq!(String::from_utf8_lossy(&output.stdout), stored, "{case:?}");
        count += 1;
    }
    assert!(count >= 10, "{count} cases");
}
