//! The program: what it prints, byte for byte, however its input and output
//! are set up.

use evidence::case::{less, most, pair, Case, Form, DEPARTURES};
use evidence::checks::named;
use evidence::damage;
use evidence::faults;
use evidence::longest::{longest, start_of_longest};
use evidence::random::wide::any_trial;
use evidence::random::{crowded_trial, trial, Draw, Random};
use evidence::selections::search;
use evidence::text::{capacity, printed};
use std::fs::{self, File};
use std::io::{pipe, ErrorKind, PipeReader, Read, Seek, Write};
use std::ops::Range;
use std::os::fd::{AsRawFd, RawFd};
use std::os::unix::process::CommandExt;
use std::path::PathBuf;
use std::process::{Child, Command, ExitStatus, Stdio};
use std::thread::{self, sleep};
use std::time::Duration;

extern "C" {
    fn fcntl(fd: RawFd, command: i32, ...) -> i32;
    fn close(fd: RawFd) -> i32;
}

/// The numbers that Linux gives to these.
const F_GETFL: i32 = 3;
const F_SETFL: i32 = 4;
const O_NONBLOCK: i32 = 0o4000;

/// Makes reads or writes on a pipe's end return at once.
fn never_wait(end: &impl AsRawFd) {
    let fd = end.as_raw_fd();
    // The descriptor is open as long as `end` is borrowed.
    let set = unsafe {
        let flags = fcntl(fd, F_GETFL);
        fcntl(fd, F_SETFL, flags | O_NONBLOCK)
    };
    assert_eq!(set, 0, "the pipe could not be set not to wait");
}

fn program() -> Command {
    let path = match std::env::var("TRAMCHECK") {
        Ok(given) => PathBuf::from(given),
        Err(_) => PathBuf::from(env!("CARGO_MANIFEST_DIR")).join("../crates/tramcheck/out/tramcheck"),
    };
    Command::new(path)
}

/// Starts the program with pipes on both sides.
fn started() -> Child {
    let mut command = program();
    command.stdin(Stdio::piped()).stdout(Stdio::piped());
    command.spawn().expect("the program starts")
}

/// Writes pieces of input, with a pause after each, and closes the input. The
/// program may stop reading before the end.
fn feed(mut input: impl Write, bytes: &[u8], piece: usize, pause: Duration) {
    for part in bytes.chunks(piece) {
        match input.write_all(part) {
            Ok(()) => sleep(pause),
            Err(error) if error.kind() == ErrorKind::BrokenPipe => return,
            Err(error) => panic!("the input could not be written: {error}"),
        }
    }
}

/// The program ended by itself; which status it then has is left open.
fn ended(status: ExitStatus) {
    assert!(status.code().is_some(), "ended with {status}");
}

/// All that comes out of the program.
fn output(child: Child) -> String {
    let output = child.wait_with_output().expect("the program ends");
    ended(output.status);
    String::from_utf8(output.stdout).expect("the output is text")
}

/// What the program prints for an input given at once.
fn prints(bytes: &[u8]) -> String {
    let mut child = started();
    let input = child.stdin.take().expect("the input is a pipe");
    thread::scope(|scope| {
        scope.spawn(|| feed(input, bytes, bytes.len().max(1), Duration::ZERO));
        output(child)
    })
}

/// Words for a failed comparison.
fn words(seed: u64, bytes: &[u8]) -> String {
    let zones = faults::of_packed(bytes).map_or(0, |case| capacity(case.n));
    named(seed, bytes, zones)
}

/// A case of n departures that is reached at 64, and whose text is long.
fn late_case(n: usize) -> Case {
    let mut case = Case::empty(n, 64);
    for i in 0..n {
        case.times[i * n + i] = Some(if i == 0 { 15_625 } else { -86_400 });
        let first = if i == 0 { 0 } else { -1_000_000 };
        case.start[pair(n, i + 1, 0)] = Some(most(first));
        case.start[pair(n, 0, i + 1)] = Some(most(-first));
    }
    case.target[pair(n, 0, 1)] = Some(most(-1_000_000));
    case
}

/// The longest text of the old form, more than 4,096 bytes.
fn long_case() -> Case {
    late_case(7)
}

#[test]
fn stated_inputs() {
    let first = [0x20, 0x40, 0x03, 0xC0];
    assert_eq!(prints(&first), "reached 1\n0 0\n1 60\n");
    assert_eq!(prints(&first[..3]), "refused 1 9\n");
    assert_eq!(prints(&[0x20, 0x40, 0x03, 0xC0, 0]), "refused 8 32\n");
    assert_eq!(prints(&[]), "refused 1 0\n");
    assert_eq!(prints(&[0]), "refused 2 0\n");
    assert_eq!(prints(&[2]), "refused 1 7\n");
}

fn compare_random(form: Form, draw: Draw) {
    let kinds = ["reached", "clear", "never", "refused 11"];
    let mut counts = [0; 4];
    for seed in 6_000_000..6_000_300 {
        let bytes = draw(&mut Random::new(seed)).case.pack(form);
        let text = printed(&bytes);
        assert_eq!(prints(&bytes), text, "{}", words(seed, &bytes));
        for (kind, count) in kinds.iter().zip(&mut counts) {
            *count += usize::from(text.starts_with(kind));
        }
    }
    println!("{kinds:?}: {counts:?}");
    assert!(counts.iter().all(|&count| count >= 3), "{counts:?}");
}

#[test]
fn random_cases() {
    compare_random(Form::Old, trial);
}

/// Up to fifteen departures, with strict bounds or without.
#[test]
fn random_wide_cases() {
    compare_random(Form::Wide, any_trial);
}

fn compare_damaged(form: Form, draw: Draw) {
    let mut seed = 7_000_000;
    let mut left = 200;
    while left > 0 {
        seed += 1;
        let bytes = damage::packed(&mut Random::new(seed), form, draw).bytes;
        if faults::of_packed(&bytes).is_err() {
            assert_eq!(prints(&bytes), printed(&bytes), "{}", words(seed, &bytes));
            left -= 1;
        }
    }
}

#[test]
fn damaged_cases() {
    compare_damaged(Form::Old, trial);
}

#[test]
fn damaged_wide_cases() {
    compare_damaged(Form::Wide, any_trial);
}

#[test]
fn long_output() {
    let bytes = long_case().pack(Form::Old);
    let expected = printed(&bytes);
    assert!(expected.starts_with("reached 64\n") && expected.len() > 4096);
    assert_eq!(prints(&bytes), expected);
}

/// In sixteenths of a second.
#[test]
fn long_output_of_fifteen_departures() {
    let mut case = late_case(15);
    case.target[pair(15, 0, 1)] = Some(less(-999_999));
    let bytes = case.pack(Form::Wide);
    let expected = printed(&bytes);
    assert!(expected.starts_with("reached 64 of 16\n") && expected.len() > 8192);
    assert_eq!(prints(&bytes), expected);
}

/// Up to 7 departures the program has room for exactly 128 zones, in both forms: a
/// longest list of 128 fits and one of 129 does not. The seeds were chosen for
/// these lengths.
#[test]
fn room_for_zones() {
    for (seed, longest, said) in [(63, 128, "clear 6\n"), (106, 129, "refused 11 6\n")] {
        let case = crowded_trial(&mut Random::new(seed), 4, 6).case;
        let lengths = search(&case, 4096).lengths;
        assert_eq!(lengths.iter().max(), Some(&longest), "seed {seed}");
        for form in [Form::Old, Form::Wide] {
            let bytes = case.pack(form);
            assert_eq!(prints(&bytes), said, "{}", words(seed, &bytes));
        }
    }
}

/// All times are 0 and patterns free. The first rows have the columns of these
/// ranges, later ones their own, so that list 1 has a zone for each selection.
fn open_case(n: usize, columns: &[Range<usize>]) -> Case {
    let mut case = Case::empty(n, 1);
    for row in 0..n {
        for column in columns.get(row).cloned().unwrap_or(row..row + 1) {
            case.times[row * n + column] = Some(0);
        }
    }
    case
}

/// Above 7 departures it has room for exactly 32.
#[test]
fn room_for_zones_above_seven() {
    let pairs = |rows: usize| (0..rows).map(|row| row..row + 2).collect::<Vec<_>>();
    for (n, columns, zones) in [
        (7, pairs(6), 64),
        (8, pairs(5), 32),
        (8, pairs(6), 64),
        (15, vec![0..8, 8..12], 32),
        (15, vec![0..11, 11..14], 33),
    ] {
        let case = open_case(n, &columns);
        assert_eq!(search(&case, 4096).lengths, [1, zones]);
        let zeros = " 0".repeat(n);
        let said = match zones <= capacity(n) {
            true => format!("reached 1\n0{zeros}\n1{zeros}\n"),
            false => "refused 11 1\n".to_string(),
        };
        assert_eq!(prints(&case.pack(Form::Wide)), said, "{n}, {zones}");
    }
}

/// The longest case is read to its end, and no further than a byte behind it.
#[test]
fn longest_case() {
    let bytes = longest().pack(Form::Wide);
    assert_eq!(bytes.len(), 1916);
    let start: Vec<String> = start_of_longest().map(|time| time.to_string()).into();
    let then = ["15"; DEPARTURES].join(" ");
    let said = format!("reached 1 of 16\n0 {}\n1 {then}\n", start.join(" "));
    assert_eq!(prints(&bytes), said);
    assert_eq!(prints(&bytes[..1915]), "refused 1 15305\n");
    assert_eq!(prints(&[&bytes[..], &[0]].concat()), "refused 8 15328\n");
}

/// However long the input is, only its first 1,917 bytes are read.
#[test]
fn bytes_that_are_read() {
    let mut bytes = longest().pack(Form::Wide);
    bytes.resize(100_000, 0);
    let path = PathBuf::from(env!("CARGO_TARGET_TMPDIR")).join("long-input");
    fs::write(&path, &bytes).expect("a file");
    let mut file = File::open(&path).expect("the file");
    let mut command = program();
    command.stdin(file.try_clone().expect("a second handle"));
    let child = command.stdout(Stdio::piped()).spawn();
    let said = output(child.expect("the program starts"));
    assert_eq!(said, "refused 8 15328\n");
    assert_eq!(file.stream_position().expect("a place"), 1917);
}

#[test]
fn a_million_bytes() {
    let mut bytes = vec![0; 1_000_000];
    assert_eq!(prints(&bytes), "refused 2 0\n");
    bytes[..4].copy_from_slice(&[0x20, 0x40, 0x03, 0xC0]);
    assert_eq!(prints(&bytes), "refused 8 32\n");
    for mut bytes in [long_case().pack(Form::Old), longest().pack(Form::Wide)] {
        let place = 8 * bytes.len();
        bytes.resize(1_000_000, 255);
        assert_eq!(prints(&bytes), format!("refused 8 {place}\n"));
    }
}

#[test]
fn input_in_pieces() {
    let bytes = long_case().pack(Form::Old);
    let mut child = started();
    let input = child.stdin.take().expect("the input is a pipe");
    feed(input, &bytes, 1, Duration::from_millis(2));
    assert_eq!(output(child), printed(&bytes));
}

#[test]
fn closed_input() {
    let mut command = program();
    command.stdin(Stdio::null()).stdout(Stdio::piped());
    // Between fork and exec only the standard input is closed.
    unsafe {
        command.pre_exec(|| {
            close(0);
            Ok(())
        });
    }
    let child = command.spawn().expect("the program starts");
    assert_eq!(output(child), "refused 1 0\n");
}

#[test]
fn input_that_does_not_wait() {
    let bytes = long_case().pack(Form::Old);
    let (reader, writer) = pipe().expect("a pipe");
    never_wait(&reader);
    let mut command = program();
    command.stdin(reader).stdout(Stdio::piped());
    let child = command.spawn().expect("the program starts");
    // The command still holds the reading end.
    drop(command);
    sleep(Duration::from_millis(100));
    feed(writer, &bytes, 50, Duration::from_millis(10));
    assert_eq!(output(child), printed(&bytes));
}

/// Reads a pipe to its end, slowly while it is full.
fn drain(mut reader: PipeReader) -> Vec<u8> {
    let mut all = Vec::new();
    let mut piece = [0; 3000];
    loop {
        match reader.read(&mut piece) {
            Ok(0) => return all,
            Ok(length) => all.extend_from_slice(&piece[..length]),
            Err(error) => panic!("the output could not be read: {error}"),
        }
        sleep(Duration::from_millis(2));
    }
}

#[test]
fn full_output_that_does_not_wait() {
    let bytes = long_case().pack(Form::Old);
    let (reader, mut writer) = pipe().expect("a pipe");
    never_wait(&writer);
    let mut filled = 0;
    for size in [1000, 1] {
        while let Ok(length) = writer.write(&[b'.'; 1000][..size]) {
            filled += length;
        }
    }
    let mut command = program();
    command.stdin(Stdio::piped()).stdout(writer);
    let mut child = command.spawn().expect("the program starts");
    // The command still holds the writing end.
    drop(command);
    let input = child.stdin.take().expect("the input is a pipe");
    feed(input, &bytes, bytes.len(), Duration::from_millis(100));
    let all = drain(reader);
    ended(child.wait().expect("the program ends"));
    assert!(all[..filled].iter().all(|&byte| byte == b'.'));
    let text = String::from_utf8_lossy(&all[filled..]);
    assert_eq!(text, printed(&bytes));
}
