//! Cases written and read in both forms: the archive against the packer and the
//! reader of this package, both written from document 01 and the requests.

use evidence::archive::{self, Fault, Reading};
use evidence::case::{less, most, packed_bits, Bound, Case, Form, BOUNDS, ENTRIES, START};
use evidence::checks::{named, named_unpacked, noisy, Output};
use evidence::damage;
use evidence::faults;
use evidence::longest::{full, longest};
use evidence::random::wide::{any_trial, wide_trial};
use evidence::random::{strict_trial, trial, Draw, Random};

/// What is handed back of a case that was read.
fn read_as(case: &Case, judged: Result<usize, Fault>) -> Reading {
    Reading {
        judged,
        n: case.n,
        horizon: case.horizon,
        entries: case.entries(),
    }
}

/// The case without the entries beyond n, as a reader gives it.
fn trimmed(case: &Case) -> Case {
    let mut plain = *case;
    plain.times[case.n * case.n..].fill(None);
    plain.start[case.n * (case.n + 1)..].fill(None);
    plain.target[case.n * (case.n + 1)..].fill(None);
    plain
}

fn compare_there_and_back(cases: u64, form: Form, draw: Draw) {
    for seed in 4_000_000..4_000_000 + cases {
        let mut random = Random::new(seed);
        let case = draw(&mut random).case;
        let bytes = case.pack(form);
        let words = || named(seed, &bytes, 0);
        let more = random.one_of(&[0, 0, 1, 40]);
        let mut output = Output::new(&mut random, bytes.len() + more);
        let entries = noisy(&mut random, &case);
        let written = archive::write_entries(form, case.n, case.horizon, &entries, output.part());
        assert_eq!(written, Ok(Ok(bytes.len())), "{}", words());
        assert!(output.holds(&bytes), "other bytes: {}", words());
        let reading = archive::read(&output.part()[..bytes.len()]).expect("an outcome");
        let expected = read_as(&trimmed(&case), Ok(bytes.len()));
        assert_eq!(reading, expected, "{}", words());
        let mut again = Output::new(&mut random, bytes.len());
        let (n, horizon) = (reading.n, reading.horizon);
        let written = archive::write_entries(form, n, horizon, &reading.entries, again.part());
        assert_eq!(written, Ok(Ok(bytes.len())), "again: {}", words());
        assert!(again.holds(&bytes), "other bytes again: {}", words());
    }
}

#[test]
fn there_and_back() {
    compare_there_and_back(20_000, Form::Old, trial);
}

#[test]
fn there_and_back_in_the_wide_form() {
    compare_there_and_back(10_000, Form::Wide, any_trial);
}

fn compare_room(form: Form, draw: Draw) {
    for seed in 4_100_000..4_102_000 {
        let mut random = Random::new(seed);
        let case = draw(&mut random).case;
        let bytes = case.pack(form);
        for length in [0, random.below(bytes.len()), bytes.len() - 1, bytes.len()] {
            let mut output = Output::new(&mut random, length);
            let written = archive::write(form, &case, output.part());
            let short = Fault {
                number: 14,
                returned: bytes.len(),
            };
            let (expected, front) = match length < bytes.len() {
                true => (Err(short), &bytes[..0]),
                false => (Ok(bytes.len()), &bytes[..]),
            };
            let words = || format!("{length} lent, {}", named(seed, &bytes, 0));
            assert_eq!(written, Ok(expected), "{}", words());
            assert!(output.holds(front), "other bytes: {}", words());
        }
    }
}

#[test]
fn room() {
    compare_room(Form::Old, trial);
}

#[test]
fn room_in_the_wide_form() {
    compare_room(Form::Wide, any_trial);
}

/// What writing a case to an output of some length must give.
fn written(form: Form, case: &Case, length: usize) -> Result<Vec<u8>, Fault> {
    faults::of_written(form, case)?;
    let bytes = case.pack(form);
    let returned = bytes.len();
    match length < returned {
        true => Err(Fault {
            number: 14,
            returned,
        }),
        false => Ok(bytes),
    }
}

/// Damaged cases, many of them with an output that is too short: the case's own
/// fault is the one that is told, and the output stays as it was.
fn compare_damaged(cases: u64, form: Form, draw: Draw, numbers: &[usize]) {
    let mut counts = [0; 17];
    for seed in 4_200_000..4_200_000 + cases {
        let mut random = Random::new(seed);
        let case = damage::unpacked(&mut random, draw).case;
        let length = random.below(500);
        let expected = written(form, &case, length);
        let mut output = Output::new(&mut random, length);
        let entries = noisy(&mut random, &case);
        let told = archive::write_entries(form, case.n, case.horizon, &entries, output.part());
        let words = || format!("{length} lent, {}", named_unpacked(seed, &case, 0));
        let count = expected.as_ref().map(Vec::len).map_err(|fault| *fault);
        assert_eq!(told, Ok(count), "{}", words());
        let front = expected.as_deref().unwrap_or_default();
        assert!(output.holds(front), "other bytes: {}", words());
        counts[expected.map_or_else(|fault| fault.number, |_| 0)] += 1;
    }
    println!("faults 0 to 16: {counts:?}");
    for &number in numbers {
        assert!(counts[number] >= 40, "too few faults {number}: {counts:?}");
    }
}

#[test]
fn damaged_cases() {
    compare_damaged(20_000, Form::Old, trial, &[0, 2, 3, 4, 5, 6, 14]);
}

#[test]
fn damaged_cases_with_marks() {
    compare_damaged(20_000, Form::Old, strict_trial, &[2, 3, 4, 5, 6, 16]);
}

/// More than the old form has a place for: what is not 2 is 16.
#[test]
fn damaged_cases_of_many_departures() {
    compare_damaged(3_000, Form::Old, wide_trial, &[2, 16]);
}

#[test]
fn damaged_cases_in_the_wide_form() {
    compare_damaged(10_000, Form::Wide, any_trial, &[0, 2, 3, 4, 5, 6, 14]);
}

/// Gives a number to a bound, which keeps its mark.
fn put(bound: &mut Option<Bound>, value: i64) {
    let strict = bound.is_some_and(|bound| bound.strict);
    *bound = Some(Bound { value, strict });
}

/// Makes a bound strict, whatever its number.
fn mark(bound: &mut Option<Bound>) {
    *bound = Some(less(bound.map_or(0, |bound| bound.value)));
}

/// What is done to a case of two departures, and the fault that it is.
type Damage = (fn(&mut Case), usize, usize);

/// The faults of the old form, in the order in which they are judged.
const DAMAGES: [Damage; 15] = [
    (|case| case.n = 16, 2, 0),
    (|case| case.n = 8, 16, 0),
    (|case| case.horizon = 65, 3, 0),
    (|case| case.times[1] = Some(-86_401), 4, 1),
    (|case| case.times[2..4].fill(None), 5, 2),
    (|case| put(&mut case.start[0], 1_000_001), 6, 0),
    (|case| mark(&mut case.start[0]), 16, 0),
    (|case| mark(&mut case.start[1]), 16, 1),
    (|case| put(&mut case.start[5], -1_000_001), 6, 5),
    (|case| mark(&mut case.start[5]), 16, 5),
    (|case| put(&mut case.target[0], -1_000_001), 6, 6),
    (|case| mark(&mut case.target[0]), 16, 6),
    (|case| mark(&mut case.target[4]), 16, 10),
    (|case| put(&mut case.target[5], 1_000_001), 6, 11),
    (|case| mark(&mut case.target[5]), 16, 11),
];

/// Each of these faults alone and with each later one, with an output that is
/// long enough, one byte short and empty: the first is told.
fn pairs_of(form: Form, damages: &[Damage]) {
    let mut random = Random::new(4_400_000);
    let mut whole = Case::empty(2, 3);
    whole.times[..4].copy_from_slice(&[Some(2), Some(5), Some(3), Some(3)]);
    let size = whole.pack(form).len();
    for (at, &(damage, number, returned)) in damages.iter().enumerate() {
        for (other, ..) in &damages[at..] {
            let mut case = whole;
            // The earlier fault last: n is 16 or 8, and not both.
            other(&mut case);
            damage(&mut case);
            for length in [500, size - 1, 0] {
                let mut output = Output::new(&mut random, length);
                let written = archive::write(form, &case, output.part());
                let fault = Fault { number, returned };
                assert_eq!(written, Ok(Err(fault)), "{length} lent, {case:?}");
                assert!(output.holds(&[]), "{length} lent, {case:?}");
            }
        }
    }
}

#[test]
fn pairs_of_faults() {
    pairs_of(Form::Old, &DAMAGES);
}

/// The wide form has a place for what the old one refuses as 16.
#[test]
fn pairs_of_faults_in_the_wide_form() {
    let refused = |&&(_, number, _): &&Damage| number != 16;
    let damages: Vec<Damage> = DAMAGES.iter().filter(refused).copied().collect();
    pairs_of(Form::Wide, &damages);
}

/// Marks of times, of absent bounds and of bounds beyond n are not refused; the
/// same marks on bounds that are there are.
#[test]
fn marks_that_do_not_count() {
    for seed in 4_500_000..4_502_000 {
        let mut random = Random::new(seed);
        let case = trial(&mut random).case;
        let bytes = case.pack(Form::Old);
        let words = || named(seed, &bytes, 0);
        let mut entries = noisy(&mut random, &trimmed(&case));
        let bounds = case.n * (case.n + 1);
        let counts = |place: usize| place >= START && (place - START) % BOUNDS < bounds;
        for place in 0..ENTRIES {
            let present = counts(place) && entries.present[place] != 0;
            entries.strict[place] = if present { 0 } else { 255 };
        }
        let mut output = Output::new(&mut random, bytes.len());
        let (n, horizon) = (case.n, case.horizon);
        let written = archive::write_entries(Form::Old, n, horizon, &entries, output.part());
        assert_eq!(written, Ok(Ok(bytes.len())), "{}", words());
        assert!(output.holds(&bytes), "other bytes: {}", words());
        let Some(first) = case.bounds().position(Option::is_some) else {
            continue;
        };
        entries.strict = [255; ENTRIES];
        let mut output = Output::new(&mut random, bytes.len());
        let written = archive::write_entries(Form::Old, n, horizon, &entries, output.part());
        let strict = Fault {
            number: 16,
            returned: first,
        };
        assert_eq!(written, Ok(Err(strict)), "{}", words());
        assert!(output.holds(&[]), "other bytes: {}", words());
    }
}

fn compare_damaged_bytes(cases: u64, form: Form, draw: Draw) {
    let mut counts = [0; 15];
    for seed in 4_300_000..4_300_000 + cases {
        let bytes = damage::packed(&mut Random::new(seed), form, draw).bytes;
        let expected = match faults::of_packed(&bytes) {
            Ok(case) => read_as(&case, Ok(bytes.len())),
            Err(fault) => read_as(&Case::empty(0, 0), Err(fault)),
        };
        let reading = archive::read(&bytes).expect("an outcome");
        assert_eq!(reading, expected, "{}", named(seed, &bytes, 0));
        counts[expected.judged.map_or_else(|fault| fault.number, |_| 0)] += 1;
    }
    println!("faults 0 to 8: {counts:?}");
    for number in [0, 1, 2, 4, 5, 6, 7, 8] {
        assert!(counts[number] >= 40, "too few faults {number}: {counts:?}");
    }
}

#[test]
fn damaged_bytes() {
    compare_damaged_bytes(20_000, Form::Old, trial);
}

#[test]
fn damaged_bytes_in_the_wide_form() {
    compare_damaged_bytes(10_000, Form::Wide, any_trial);
}

/// The bits of the wide form, one field after the other: three zero bits, n = 2,
/// N - 1 = 5, the table 2 - / - -1, and of the pairs of the start only the third
/// and the fourth bounded, less than -3 and at most 3.
#[test]
fn bits_of_the_wide_form() {
    let mut case = Case::empty(2, 6);
    (case.times[0], case.times[3]) = (Some(2), Some(-1));
    (case.start[2], case.start[3]) = (Some(less(-3)), Some(most(3)));
    let fields = [
        "000 0010 000101",
        "1 000000000000000010 0 0 1 111111111111111111",
        "0 0 11 111111111111111111101 10 000000000000000000011 0 0",
        "0 0 0 0 0 0",
    ];
    let bytes = packed_bits(&fields.concat());
    assert_eq!(case.pack(Form::Wide), bytes);
    assert_eq!(faults::of_packed(&bytes), Ok(case));
    let mut output = vec![0; bytes.len()];
    let written = archive::write(Form::Wide, &case, &mut output);
    assert_eq!((written, output), (Ok(Ok(bytes.len())), bytes));
}

/// An older reader refuses the wide form by number 2: its first three bits are 0.
#[test]
fn three_zero_bits() {
    for seed in 4_600_000..4_601_000 {
        let case = any_trial(&mut Random::new(seed)).case;
        assert_eq!(case.pack(Form::Wide)[0] >> 5, 0, "seed {seed}");
    }
}

/// Every entry is there: the longest cases have 426 and 1,916 bytes.
#[test]
fn longest_cases() {
    for (form, case, length) in [(Form::Old, full(7), 426), (Form::Wide, longest(), 1916)] {
        let mut output = [0; 2000];
        assert_eq!(archive::write(form, &case, &mut output), Ok(Ok(length)));
        assert_eq!(output[..length], case.pack(form)[..]);
        assert_eq!(output[length..], [0; 2000][length..]);
    }
}
