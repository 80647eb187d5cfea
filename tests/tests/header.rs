//! The header from C: a small program is compiled with it, linked with the
//! archive and run; one compiled with an older header does not link.

use std::env;
use std::path::{Path, PathBuf};
use std::process::{Command, Output};

/// A folder named by a variable, or one beside the package.
fn folder(variable: &str, otherwise: &str) -> PathBuf {
    match env::var(variable) {
        Ok(given) => PathBuf::from(given),
        Err(_) => Path::new(env!("CARGO_MANIFEST_DIR")).join(otherwise),
    }
}

/// Where a program is put.
fn program(name: &str) -> PathBuf {
    Path::new(env!("CARGO_TARGET_TMPDIR")).join(name)
}

/// Compiles a C program and links it with the archive.
fn compile(name: &str) -> Output {
    let source = format!("tests/{name}.c");
    Command::new("cc")
        .args(["-std=c11", "-Wall", "-Wextra", "-Werror", "-O1", "-I"])
        .arg(folder("EMBED_INCLUDE", "../include"))
        .arg(Path::new(env!("CARGO_MANIFEST_DIR")).join(source))
        .arg(folder("EMBED_DIR", "../crates/embed/out").join("libembed.a"))
        .arg("-o")
        .arg(program(name))
        .output()
        .expect("the C compiler starts")
}

#[test]
fn a_c_program_embeds_the_archive() {
    let output = compile("embed");
    let words = String::from_utf8_lossy(&output.stderr);
    assert!(output.status.success(), "the C compiler says: {words}");
    let output = Command::new(program("embed")).output().expect("it starts");
    assert!(output.status.success(), "ended with {}", output.status);
    let stated = "\
of 1: 1 0 1: 0 0 0 0 0 0 0 0 0 0 0 0 0 0 0
1 0
of 1: 1 0 1: 0 0 0 0 0 0 0 0 0 0 0 0 0 0 0
of 0: 3 0 0: 0 0 0 0 0 0 0 0 0 0 0 0 0 0 0
1
of 0: 2 0 1: 0 0 0 0 0 0 0 0 0 0 0 0 0 0 0
1
1 0 10: 593 0 0 0 0 0 0 0 0 0 0 0 0 0 0
0 3 0: 0 0 0 0 0 0 0 0 0 0 0 0 0 0 0
1
4 0 4: 1 1, 1 0 60
4 0 4: 0 5
0 14 4
4
4 0 5: 02 04 00 3C 00
4 0 4: 0
of 0: 2 0 1: 0 0 0 0 0 0 0 0 0 0 0 0 0 0 0
of 1: 1 0 1: 0 0 0 0 0 0 0 0 0 0 0 0 0 0 0
4 0 0: 1 90
0 5 0: 1 90
of 2: 1 0 1: 1 0 0 0 0 0 0 0 0 0 0 0 0 0 0
of 2: 1 0 1: 181 0 0 0 0 0 0 0 0 0 0 0 0 0 0
0 16 0
4 0 16
4 0 16: 1 1, 1 1 91
of 2: 1 0 1: 1 0 0 0 0 0 0 0 0 0 0 0 0 0 0
of 2: 1 0 1: 1 0 0 0 0 0 0 0 0 0 0 0 0 0 0
of 0: 5 0 1: 0 0 0 0 0 0 0 0 0 0 0 0 0 0 0
1
of 0: 0 3 0: 0 0 0 0 0 0 0 0 0 0 0 0 0 0 0
of 0: 2 0 4096: 0 0 0 0 0 0 0 0 0 0 0 0 0 0 0
1
of 0: 3 0 0: 0 0 0 0 0 0 0 0 0 0 0 0 0 0 0
1
1 0 64: 3840 3841 3842 3843 3844 3845 3846 3847 3848 3849 3850 3851 3852 3853 3854
0 16 0
0 14 124
";
    assert_eq!(String::from_utf8_lossy(&output.stdout), stated);
}

#[test]
fn a_program_with_an_older_header_does_not_link() {
    let output = compile("older");
    let words = String::from_utf8_lossy(&output.stderr);
    assert!(!output.status.success(), "an older program was linked");
    assert!(words.contains("undefined reference"), "{words}");
}
