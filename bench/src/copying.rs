//! How many of the library's instructions copy memory, by `valgrind
//! --tool=callgrind`. The library has no names for lines, and the compiler
//! writes its small functions out where they are called, so what counts is what
//! can be told from the machine code alone: memcpy and memmove, and loops that
//! do nothing but copy.

use crate::families::Family;
use crate::machine::{copy_loops, CopyLoops, Instruction};
use crate::measure::library;
use crate::{hex, of_hex};
use evidence::case::Case;
use std::collections::HashSet;
use std::io::{self, Write};
use std::path::Path;
use std::process::{Command, Stdio};
use std::{env, fs};

/// The function whose instructions count, with all that it calls.
const COUNTED: &str = "tramcheck_verdict_unpacked_15";

/// Instructions of a call of memcpy: its three arguments and the call.
const CALL: u64 = 4;

/// Instructions executed, all and those of each kind.
#[derive(Clone, Copy, Default)]
struct Counts {
    all: u64,
    memcpy: u64,
    loops: u64,
    /// Calls of memcpy, and what leads into the loops.
    set_up: u64,
    /// In memset.
    clearing: u64,
    /// In functions whose names are missing.
    nameless: u64,
}

/// Gives each packed case on standard input, a line of hexadecimal digits, to
/// the library once.
pub fn once() -> Result<(), String> {
    for line in io::stdin().lines() {
        let line = line.map_err(|error| error.to_string())?;
        library(&of_hex(&line)?)().ok_or(format!("no answer on {line}"))?;
    }
    Ok(())
}

/// The profile of this program on the cases, with a count for each instruction.
fn profile(cases: &[Case]) -> io::Result<String> {
    let file = env::temp_dir().join(format!("bench-{}.callgrind", std::process::id()));
    let mut child = Command::new("valgrind")
        .args(["--tool=callgrind", "--quiet", "--dump-instr=yes"])
        .args([
            "--dump-line=no",
            "--compress-pos=no",
            "--compress-strings=no",
        ])
        .arg(format!("--toggle-collect={COUNTED}"))
        .arg(format!("--callgrind-out-file={}", file.display()))
        .arg(env::current_exe()?)
        .arg("once")
        .stdin(Stdio::piped())
        .spawn()?;
    let mut input = child.stdin.take().ok_or(io::Error::other("no pipe"))?;
    for case in cases {
        writeln!(input, "{}", hex(case))?;
    }
    drop(input);
    if !child.wait()?.success() {
        return Err(io::Error::other("valgrind failed"));
    }
    let profile = fs::read_to_string(&file)?;
    fs::remove_file(&file)?;
    Ok(profile)
}

/// The numbers of a line of costs: an address and a count.
fn cost(line: &str) -> Option<(u64, u64)> {
    let (address, count) = line.strip_prefix("0x")?.split_once(' ')?;
    Some((u64::from_str_radix(address, 16).ok()?, count.parse().ok()?))
}

/// Whether a function copies memory.
fn copies(function: &str) -> bool {
    function.contains("memcpy") || function.contains("memmove")
}

/// Counts what a profile says of a program whose copy loops are given.
fn counted(profile: &str, program: &Path, loops: &CopyLoops) -> Counts {
    let mut counts = Counts::default();
    let (mut object, mut function, mut called) = ("", "", "");
    let mut lines = profile.lines();
    while let Some(line) = lines.next() {
        match line.split_once('=') {
            Some(("ob", name)) => object = name,
            Some(("fn", name)) => function = name,
            Some(("cfn", name)) => called = name,
            Some(("calls", times)) => {
                counts.call(called, times);
                // What the call costs; it is counted where it arises.
                lines.next();
            }
            _ => {
                if let Some((address, count)) = cost(line) {
                    let own = Path::new(object) == program;
                    let place = own.then_some(address);
                    counts.add(function, place, loops, count);
                }
            }
        }
    }
    counts
}

impl Counts {
    /// Instructions of a function, at a place of this program or elsewhere.
    fn add(&mut self, function: &str, place: Option<u64>, loops: &CopyLoops, count: u64) {
        let among = |places: &HashSet<u64>| place.is_some_and(|place| places.contains(&place));
        self.all += count;
        if function.starts_with("0x") {
            self.nameless += count;
        }
        if copies(function) {
            self.memcpy += count;
        } else if function.contains("memset") {
            self.clearing += count;
        } else if among(&loops.bodies) {
            self.loops += count;
        } else if among(&loops.leads) {
            self.set_up += count;
        }
    }

    /// The line of a call begins with how often it was made.
    fn call(&mut self, called: &str, times: &str) {
        let count = times.split(' ').next().and_then(|times| times.parse().ok());
        if copies(called) {
            self.set_up += CALL * count.unwrap_or(0);
        }
    }

    /// One line of the table.
    fn line(&self, family: &Family) -> String {
        let copying = self.memcpy + self.loops;
        let share = |part: u64| format!("{:.1} %", 100.0 * part as f64 / self.all as f64);
        let parts = [copying, self.memcpy, self.loops, self.set_up, self.clearing];
        let (name, cases, all) = (&family.name, family.cases.len(), self.all);
        format!(
            "| {name} | {cases} | {all} | {} |",
            parts.map(share).join(" | ")
        )
    }
}

/// The copy loops of this program.
fn loops(program: &Path) -> io::Result<CopyLoops> {
    let output = Command::new("objdump")
        .args(["-d", "--no-show-raw-insn"])
        .arg(program)
        .output()?;
    let text = String::from_utf8_lossy(&output.stdout);
    let instructions: Vec<Instruction> = text.lines().filter_map(Instruction::read).collect();
    Ok(copy_loops(&instructions))
}

/// Counts the instructions on each family and prints their shares.
pub fn print(families: &[Family]) -> io::Result<()> {
    let program = env::current_exe()?.canonicalize()?;
    let loops = loops(&program)?;
    println!(
        "| family | cases | instructions | copying | memcpy | copy loops | set-up | clearing |"
    );
    println!("|---|---|---|---|---|---|---|---|");
    for family in families {
        let counts = counted(&profile(&family.cases)?, &program, &loops);
        if counts.nameless > 0 {
            return Err(io::Error::other("names in the C library are missing"));
        }
        println!("{}", counts.line(family));
    }
    Ok(())
}
