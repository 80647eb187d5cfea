//! The table of families, in Markdown.

use crate::families::Family;
use crate::measure::{measure, median, Measured};
use evidence::archive::Verdict;

/// What stands above the table.
const HEAD: &str = "\
| family | cases | reached | clear | never | full | library | plain Rust | one by one \
| library / plain | one by one / library | library at most |
|---|---|---|---|---|---|---|---|---|---|---|---|";

/// What stands below it.
const NOTES: &str = "\
Library: the static library on the unpacked case. Plain Rust: the same algorithm,
unverified. One by one: plain Rust that builds each selection's set by itself;
\"-\" where it was left out because it tries too many selections, and a number in
brackets where it was left out on the other cases. Times are medians over the
cases, ratios are medians of each case's ratio.";

/// Seconds with a unit, in three digits.
pub fn words(seconds: f64) -> String {
    let (number, unit) = match seconds {
        s if s < 1e-3 => (s * 1e6, "µs"),
        s if s < 1.0 => (s * 1e3, "ms"),
        s => (s, "s"),
    };
    let digits = match number {
        n if n < 10.0 => 2,
        n if n < 100.0 => 1,
        _ => 0,
    };
    format!("{number:.digits$} {unit}")
}

/// How many cases were reached, clear, never and refused.
fn outcomes(measured: &[Measured]) -> [usize; 4] {
    let mut counts = [0; 4];
    for case in measured {
        let kind = match case.verdict {
            Verdict::Reached { .. } => 0,
            Verdict::Clear { .. } => 1,
            Verdict::Never => 2,
            Verdict::Refused(_) => 3,
        };
        counts[kind] += 1;
    }
    counts
}

/// The median of a number over the cases that have it, or "-".
fn middle(
    measured: &[Measured],
    number: impl Fn(&Measured) -> Option<f64>,
    words: fn(f64) -> String,
) -> String {
    let numbers: Vec<f64> = measured.iter().filter_map(number).collect();
    median(&numbers).map_or("-".to_string(), words)
}

/// How many cases one by one was not left out on, where it was on others.
fn some(measured: &[Measured]) -> String {
    let tried = measured.iter().filter(|case| case.one_by_one.is_some());
    match tried.count() {
        count if 0 < count && count < measured.len() => format!(" ({count})"),
        _ => String::new(),
    }
}

/// A ratio in two digits after the point.
pub fn ratio(ratio: f64) -> String {
    format!("{ratio:.2}")
}

/// One line of the table.
fn line(name: &str, measured: &[Measured]) -> String {
    let [reached, clear, never, full] = outcomes(measured);
    let cases = measured.len();
    let below = |case: &Measured| Some(case.one_by_one? / case.library);
    let most = measured.iter().map(|case| case.library).reduce(f64::max);
    let cells = [
        format!("| {name} | {cases} | {reached} | {clear} | {never} | {full}"),
        middle(measured, |case| Some(case.library), words),
        middle(measured, |case| Some(case.rows), words),
        middle(measured, |case| case.one_by_one, words) + &some(measured),
        middle(measured, |case| Some(case.library / case.rows), ratio),
        middle(measured, below, ratio),
        most.map_or("-".to_string(), words),
    ];
    cells.join(" | ") + " |"
}

/// Measures the families and prints each line as soon as it is known.
pub fn print(families: &[Family]) {
    println!("{HEAD}");
    for family in families {
        let measure = |case| measure(case, family.limit);
        let measured: Vec<Measured> = family.cases.iter().map(measure).collect();
        println!("{}", line(&family.name, &measured));
    }
    println!("\n{NOTES}");
}
