//! Two builds of the benchmark, each linked with an archive of its own. Their
//! processes take turns on every case, so that whatever else the machine does
//! hits both alike.

use crate::families::Family;
use crate::measure::{library, median, plain};
use crate::table::{ratio, words};
use crate::{hex, of_hex};
use evidence::case::Case;
use std::env;
use std::hint::black_box;
use std::io::{self, BufRead, BufReader, Lines, Write};
use std::path::{Path, PathBuf};
use std::process::{Child, ChildStdin, ChildStdout, Command, Stdio};
use std::time::{Duration, Instant};

/// Rounds in which each build has its turn on a case.
const ROUNDS: usize = 15;

/// How long a turn takes at least, by calling the version several times.
const TURN: Duration = Duration::from_millis(2);

/// The clock that counts how long this process computes, on Linux.
const COMPUTING: i32 = 2;

/// What stands above the table.
const HEAD: &str = "\
| family | cases | library before | after | before / after | of each case | of the means \
| plain before / after | library / plain before | after |
|---|---|---|---|---|---|---|---|---|---|";

/// What stands below it.
const NOTES: &str = "\
A case's time is the least of its turns. Library before and after: medians over
the cases, and their ratio. Of each case: the median of each case's ratio. Of the
means: the ratio of the mean times of a case. Plain before / after, library /
plain: medians of each case's ratio. Where both builds have the same source,
plain before / after shows the noise.";

/// A time as the C library has it.
#[repr(C)]
struct Time {
    seconds: i64,
    nanoseconds: i64,
}

extern "C" {
    fn clock_gettime(clock: i32, time: *mut Time) -> i32;
}

/// The seconds that this process has computed: the time in which others have
/// the processor does not count.
fn computed() -> f64 {
    let mut time = Time {
        seconds: 0,
        nanoseconds: 0,
    };
    // The pointer is that of a variable that lives to the end of the call.
    let failed = unsafe { clock_gettime(COMPUTING, &mut time) };
    assert_eq!(failed, 0, "no clock");
    time.seconds as f64 + time.nanoseconds as f64 * 1e-9
}

/// The seconds of one call, over a turn, and the answer.
pub fn turn<A>(mut version: impl FnMut() -> A) -> (f64, A) {
    let (begin, before) = (Instant::now(), computed());
    let mut calls = 0.0;
    loop {
        let answer = black_box(version());
        calls += 1.0;
        if begin.elapsed() >= TURN {
            return ((computed() - before) / calls, answer);
        }
    }
}

/// Gives each packed case on standard input, a line of hexadecimal digits, a
/// turn of the library and one of plain Rust. Prints the seconds of both and
/// the answer.
pub fn turns() -> Result<(), String> {
    for line in io::stdin().lines() {
        let line = line.map_err(|error| error.to_string())?;
        let case = of_hex(&line)?;
        let (by_library, answer) = turn(library(&case));
        let (by_plain, other) = turn(plain(&case));
        assert_eq!(answer, other, "two answers on {line}");
        println!("{by_library} {by_plain} {answer:?}");
    }
    Ok(())
}

/// A build at work.
struct Build {
    process: Child,
    cases: ChildStdin,
    replies: Lines<BufReader<ChildStdout>>,
}

/// What a build took on a case, in turns, and what it answered.
#[derive(Default)]
struct Turns {
    library: Vec<f64>,
    plain: Vec<f64>,
    answer: String,
}

/// The times of a case for both builds: the least of its turns, since other
/// work on the machine only adds to them.
struct Compared {
    library: [f64; 2],
    plain: [f64; 2],
}

impl Compared {
    fn of(turns: &[Turns; 2]) -> Compared {
        let least = |seconds: &[f64]| seconds.iter().copied().fold(f64::INFINITY, f64::min);
        Compared {
            library: turns.each_ref().map(|turns| least(&turns.library)),
            plain: turns.each_ref().map(|turns| least(&turns.plain)),
        }
    }
}

impl Build {
    fn start(path: &Path) -> io::Result<Build> {
        let mut process = Command::new(path)
            .arg("turns")
            .stdin(Stdio::piped())
            .stdout(Stdio::piped())
            .spawn()?;
        let missing = || io::Error::other("no pipe");
        Ok(Build {
            cases: process.stdin.take().ok_or_else(missing)?,
            replies: BufReader::new(process.stdout.take().ok_or_else(missing)?).lines(),
            process,
        })
    }

    /// Ends it: there are no more cases.
    fn end(self) -> io::Result<()> {
        let Build {
            mut process, cases, ..
        } = self;
        drop(cases);
        process.wait().map(drop)
    }

    /// Has its turn on a case.
    fn turn(&mut self, digits: &str, turns: &mut Turns) -> io::Result<()> {
        writeln!(self.cases, "{digits}")?;
        let ended = || io::Error::other(format!("no reply on {digits}"));
        let reply = self.replies.next().ok_or_else(ended)??;
        let mut parts = reply.splitn(3, ' ');
        for seconds in [&mut turns.library, &mut turns.plain] {
            let number = parts.next().and_then(|part| part.parse().ok());
            seconds.push(number.ok_or_else(ended)?);
        }
        turns.answer = parts.next().ok_or_else(ended)?.to_string();
        Ok(())
    }
}

/// Both builds on the cases of a family, in turn; each round begins with new
/// processes, since where their memory lies makes a difference. The answers on
/// a case must be the same.
fn compare(paths: &[PathBuf; 2], cases: &[Case]) -> io::Result<Vec<Compared>> {
    let digits: Vec<String> = cases.iter().map(hex).collect();
    let mut turns: Vec<[Turns; 2]> = digits.iter().map(|_| Default::default()).collect();
    for _ in 0..ROUNDS {
        let mut builds = [Build::start(&paths[0])?, Build::start(&paths[1])?];
        for (digits, turns) in digits.iter().zip(&mut turns) {
            for (build, turns) in builds.iter_mut().zip(turns) {
                build.turn(digits, turns)?;
            }
        }
        builds.into_iter().try_for_each(Build::end)?;
    }
    for (digits, [before, after]) in digits.iter().zip(&turns) {
        assert_eq!(before.answer, after.answer, "two answers on {digits}");
    }
    Ok(turns.iter().map(Compared::of).collect())
}

/// One line of the table.
fn line(name: &str, compared: &[Compared]) -> String {
    let middle = |number: &dyn Fn(&Compared) -> f64| {
        let numbers: Vec<f64> = compared.iter().map(number).collect();
        median(&numbers).expect("a case")
    };
    let [before, after] = [0, 1].map(|build| middle(&|case| case.library[build]));
    let all = |build: usize| compared.iter().map(|case| case.library[build]).sum::<f64>();
    let by_plain = |build: usize| middle(&|case| case.library[build] / case.plain[build]);
    let ratios = [
        before / after,
        middle(&|case| case.library[0] / case.library[1]),
        all(0) / all(1),
        middle(&|case| case.plain[0] / case.plain[1]),
        by_plain(0),
        by_plain(1),
    ];
    let times = [before, after].map(words);
    let cells: Vec<String> = times.into_iter().chain(ratios.map(ratio)).collect();
    format!("| {name} | {} | {} |", compared.len(), cells.join(" | "))
}

/// Compares another build, before, with this one, after, and prints each line as
/// soon as it is known.
pub fn print(before: &str, families: &[Family]) -> io::Result<()> {
    let paths = [PathBuf::from(before), env::current_exe()?];
    println!("{HEAD}");
    for family in families {
        let compared = compare(&paths, &family.cases)?;
        println!("{}", line(&family.name, &compared));
    }
    println!("\n{NOTES}");
    Ok(())
}
