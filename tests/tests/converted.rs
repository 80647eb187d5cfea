//! Packed cases converted from each form to the other: the archive against the
//! reader and the packer of this package, both written from document 01 and the
//! requests.

use evidence::archive::{self, Answer, Fault};
use evidence::case::{less, most, packed_bits, Bound, Case, Form};
use evidence::checks::{fault_number, named, of_packed, Lent, Output};
use evidence::damage::{self, any_bytes, mutated};
use evidence::faults::{self, fault};
use evidence::longest::{full, longest};
use evidence::random::wide::any_trial;
use evidence::random::{trial, Draw, Random, Trial};
use std::ops::Range;

const FORMS: [Form; 2] = [Form::Old, Form::Wide];

/// A number within a limit, often at it.
fn within(random: &mut Random, limit: i64) -> i64 {
    match random.below(6) {
        0 => random.one_of(&[-limit, -1, 0, limit]),
        _ => random.between(-limit, limit),
    }
}

/// A case of 1 to `most_departures` departures with any entries and without marks.
/// The search on it may be too long.
fn any_case(random: &mut Random, most_departures: usize) -> Case {
    let n = 1 + random.below(most_departures);
    let mut case = Case::empty(n, 1 + random.below(64));
    let part = random.below(7);
    for (place, time) in case.times[..n * n].iter_mut().enumerate() {
        if place % n == place / n || random.chance(part, 6) {
            *time = Some(within(random, 86_400));
        }
    }
    let count = n * (n + 1);
    let bounds = case.start[..count].iter_mut();
    for bound in bounds.chain(&mut case.target[..count]) {
        if random.chance(part, 6) {
            *bound = Some(most(within(random, 1_000_000)));
        }
    }
    case
}

/// The bit at which an entry's field begins, the times before the bounds of the
/// start, and these before those of the target; behind the last entry, the fill.
fn bit_of(form: Form, case: &Case, entry: usize) -> usize {
    let (head, bound) = match form {
        Form::Old => (3 + 6, 1 + 21),
        Form::Wide => (3 + 4 + 6, 1 + 1 + 21),
    };
    let width = |there: bool, width: usize| if there { width } else { 1 };
    let times = case.times[..case.n * case.n].iter();
    let times = times.map(|time| width(time.is_some(), 1 + 18));
    let bounds = case.bounds().map(|entry| width(entry.is_some(), bound));
    head + times.chain(bounds).take(entry).sum::<usize>()
}

/// What the old form would lose of a case: where its field begins.
fn lost(case: &Case) -> Option<usize> {
    let strict = |bound: &Option<Bound>| bound.is_some_and(|bound| bound.strict);
    match case.bounds().position(strict) {
        _ if case.n > 7 => Some(3),
        Some(place) => Some(bit_of(Form::Wide, case, case.n * case.n + place)),
        None => None,
    }
}

/// What an output of some length makes of the bytes that are to be written.
fn with_room(bytes: Vec<u8>, length: usize) -> Result<Vec<u8>, Fault> {
    match length < bytes.len() {
        true => Err(fault(14, bytes.len())),
        false => Ok(bytes),
    }
}

/// What converting a case in the wide form must give, by the widths of its fields.
fn to_old(case: &Case, length: usize) -> Result<Vec<u8>, Fault> {
    match lost(case) {
        Some(place) => Err(fault(16, place)),
        None => with_room(case.pack(Form::Old), length),
    }
}

/// What converting bytes of any kind must give, by the reader of this package.
fn converted(to: Form, bytes: &[u8], length: usize) -> Result<Vec<u8>, Fault> {
    with_room(faults::of_converted(to, bytes)?.pack(to), length)
}

/// Calls the archive with an output of some length, and looks at what it returns
/// and at every byte of the output.
fn check(
    random: &mut Random,
    to: Form,
    bytes: &[u8],
    length: usize,
    expected: &Result<Vec<u8>, Fault>,
) {
    let words = || format!("to {to:?}, {length} lent, bytes {bytes:02X?}");
    let mut output = Output::new(random, length);
    let told = archive::convert(to, bytes, output.part());
    let count = expected.as_ref().map(Vec::len).map_err(|fault| *fault);
    assert_eq!(told, Ok(count), "{}", words());
    let front = expected.as_deref().unwrap_or_default();
    assert!(output.holds(front), "other bytes: {}", words());
}

/// Converts and returns what was written.
fn convert(to: Form, bytes: &[u8]) -> Vec<u8> {
    let mut out = vec![0; 2000];
    let count = archive::convert(to, bytes, &mut out).expect("an outcome");
    out.truncate(count.expect("no fault"));
    out
}

/// To each form, and back from there; the outputs are just long enough or longer. A
/// case that is in the form already is refused.
fn compare_there_and_back(random: &mut Random, case: &Case) {
    for to in FORMS {
        let (from, there) = (case.pack(to.other()), case.pack(to));
        let length = there.len() + random.one_of(&[0, 0, 1, 40]);
        check(random, to, &from, length, &Ok(there.clone()));
        let back = convert(to.other(), &convert(to, &from));
        assert_eq!(back, from, "there and back: to {to:?}, {case:?}");
        check(random, to, &there, length, &Err(fault(2, 0)));
    }
}

/// The verdict on a case in both forms, with the same capacity and workspace: the
/// answer is the same, and the workspace afterwards.
fn same_verdict(random: &mut Random, bytes: [&[u8]; 2], capacity: usize, length: usize) -> Answer {
    let lent = Lent::new(random, length);
    let judged = bytes.map(|bytes| {
        let mut lent = lent.clone();
        let answer = archive::verdict(bytes, capacity, lent.part()).expect("an outcome");
        (answer, lent)
    });
    let words = || format!("Z {capacity}, {length} lent, bytes {bytes:02X?}");
    let [(answer, lent), (again, lent_again)] = &judged;
    assert_eq!(answer, again, "{}", words());
    assert!(lent == lent_again, "other workspaces: {}", words());
    assert_eq!(lent.right_after(answer), Ok(()), "{}", words());
    *answer
}

#[test]
fn there_and_back() {
    let mut counts = [0; 13];
    for seed in 7_000_000..7_005_000 {
        let mut random = Random::new(seed);
        let Trial { case, capacity, .. } = trial(&mut random);
        compare_there_and_back(&mut random, &case);
        let old = case.pack(Form::Old);
        let wide = convert(Form::Wide, &old);
        let length = faults::workspace(case.n, capacity) + random.below(3);
        let answer = same_verdict(&mut random, [&old, &wide], capacity, length);
        counts[fault_number(&answer)] += 1;
    }
    println!("faults 0 to 12: {counts:?}");
    assert!(counts[0] > 3000 && counts[11] > 300, "{counts:?}");
}

#[test]
fn there_and_back_with_any_entries() {
    let mut counts = [0; 8];
    for seed in 7_100_000..7_105_000 {
        let mut random = Random::new(seed);
        let case = any_case(&mut random, 7);
        compare_there_and_back(&mut random, &case);
        counts[case.n] += 1;
    }
    assert!(counts[1..].iter().all(|&count| count > 500), "{counts:?}");
}

/// An output that is empty, too short, one byte short, and just long enough.
#[test]
fn room() {
    for seed in 7_200_000..7_202_000 {
        let mut random = Random::new(seed);
        let case = any_case(&mut random, 7);
        for to in FORMS {
            let (from, there) = (case.pack(to.other()), case.pack(to));
            let size = there.len();
            for length in [0, random.below(size), size - 1, size] {
                let expected = with_room(there.clone(), length);
                check(&mut random, to, &from, length, &expected);
            }
        }
    }
}

/// Wide cases to the old form, many with an output that is too short: 16 where
/// that would lose something, at the bit counted by the widths of the fields, and
/// 14 only after it.
fn compare_lost(seeds: Range<u64>, draw: fn(&mut Random) -> Case) {
    let mut counts = [0; 4];
    for seed in seeds {
        let mut random = Random::new(seed);
        let case = draw(&mut random);
        let bytes = case.pack(Form::Wide);
        for length in [0, random.below(500), 2000] {
            let expected = to_old(&case, length);
            let by_reader = converted(Form::Old, &bytes, length);
            assert_eq!(by_reader, expected, "seed {seed}");
            check(&mut random, Form::Old, &bytes, length, &expected);
        }
        counts[2 * usize::from(case.n > 7) + usize::from(case.marked())] += 1;
    }
    println!("kept, marks, n, n and marks: {counts:?}");
    assert!(counts.iter().all(|&count| count > 300), "{counts:?}");
}

#[test]
fn what_the_old_form_would_lose() {
    compare_lost(7_300_000..7_303_000, |random| any_trial(random).case);
}

/// Any entries, and no bound of them strict, few or half.
#[test]
fn what_the_old_form_would_lose_of_any_entries() {
    compare_lost(7_400_000..7_405_000, |random| {
        let mut case = any_case(random, 15);
        let part = random.one_of(&[0, 1, 1, 2, 20]);
        for bound in case.start.iter_mut().chain(&mut case.target).flatten() {
            bound.strict = random.chance(part, 40);
        }
        case
    });
}

/// How often each fault was told, 0 for none.
type Counts = [usize; 17];

/// Bytes of any kind to both functions, with an output of any length.
fn compare_bytes(random: &mut Random, bytes: &[u8], counts: &mut [Counts; 2]) {
    for (to, counts) in FORMS.into_iter().zip(counts) {
        let length = random.one_of(&[0, 20, 500, 2000]);
        let length = random.below(length + 1);
        let expected = converted(to, bytes, length);
        check(random, to, bytes, length, &expected);
        counts[expected.map_or_else(|fault| fault.number, |_| 0)] += 1;
    }
}

/// Whether each of these faults was told often enough by both functions, but for
/// 16, which there is only on the way back.
fn enough(counts: &[Counts; 2], numbers: &[usize], least: usize) {
    println!("faults 0 to 16: {counts:?}");
    for (to, counts) in FORMS.into_iter().zip(counts) {
        for &number in numbers {
            let told = counts[number];
            let none = number == 16 && to == Form::Wide;
            assert!(told >= least || none, "{told} faults {number} to {to:?}");
        }
    }
}

const SOURCES: [(Form, Draw); 2] = [(Form::Old, trial), (Form::Wide, any_trial)];

#[test]
fn damaged_bytes() {
    let mut counts = [[0; 17]; 2];
    for (form, draw) in SOURCES {
        for seed in 7_500_000..7_507_000 {
            let mut random = Random::new(seed);
            let bytes = damage::packed(&mut random, form, draw).bytes;
            compare_bytes(&mut random, &bytes, &mut counts);
        }
    }
    enough(&counts, &[0, 1, 2, 4, 5, 6, 7, 8, 14, 16], 40);
}

#[test]
fn mutated_bytes() {
    let mut counts = [[0; 17]; 2];
    for (form, draw) in SOURCES {
        for seed in 7_600_000..7_605_000 {
            let mut random = Random::new(seed);
            let bytes = mutated(&mut random, form, draw);
            compare_bytes(&mut random, &bytes, &mut counts);
        }
    }
    enough(&counts, &[0, 1, 2, 4, 5, 6, 7, 8, 14, 16], 20);
}

#[test]
fn arbitrary_bytes() {
    let mut counts = [[0; 17]; 2];
    for (form, most) in [(Form::Old, 600), (Form::Wide, 2100)] {
        for seed in 7_700_000..7_730_000 {
            let mut random = Random::new(seed);
            let bytes = any_bytes(&mut random, form, most);
            compare_bytes(&mut random, &bytes, &mut counts);
        }
    }
    enough(&counts, &[1, 2, 4, 5, 6, 7, 8], 40);
}

/// Damaged calls whose bytes can be converted, many of them with a bad capacity or
/// a workspace that is too short: brute search 2 answers the same.
#[test]
fn verdicts_of_damaged_calls() {
    let mut counts = [0; 13];
    for (form, draw) in SOURCES {
        for seed in 7_800_000..7_803_000 {
            let mut random = Random::new(seed);
            let call = damage::packed(&mut random, form, draw);
            let (capacity, length) = (call.capacity, call.work_length);
            if faults::of_converted(form.other(), &call.bytes).is_err() {
                continue;
            }
            let other = convert(form.other(), &call.bytes);
            let answer = same_verdict(&mut random, [&call.bytes, &other], capacity, length);
            let expected = of_packed(&call.bytes, capacity, length);
            assert_eq!(answer, expected, "{}", named(seed, &other, capacity));
            counts[fault_number(&expected)] += 1;
        }
    }
    println!("faults 0 to 12: {counts:?}");
    for number in [0, 9, 10, 11] {
        assert!(counts[number] >= 40, "too few faults {number}: {counts:?}");
    }
}

/// A case of n departures without a blank in its table, with three bounds in each
/// pattern, the first and the last among them.
fn whole(n: usize) -> Case {
    let mut case = Case::empty(n, 3);
    case.times[..n * n].fill(Some(-7));
    for pattern in [&mut case.start, &mut case.target] {
        for place in [0, 2, last_bound(n)] {
            pattern[place] = Some(most(place as i64 - 5));
        }
    }
    case
}

/// Bytes that a reader refuses, and the fault.
type Refused = (Vec<u8>, Fault);

/// What is done to a case, the entry where it shows, and the fault's number.
type Damage = (fn(&mut Case), usize, usize);

/// Gives a number to a bound that is there.
fn put(bound: &mut Option<Bound>, value: i64) {
    *bound = bound.map(|bound| Bound { value, ..bound });
}

/// Makes a bound that is there strict.
fn make_strict(bound: &mut Option<Bound>) {
    *bound = bound.map(|bound| less(bound.value));
}

/// The last bound of a pattern, and the last of all entries.
fn last_bound(n: usize) -> usize {
    n * (n + 1) - 1
}

fn last_entry(n: usize) -> usize {
    n * n + 2 * n * (n + 1) - 1
}

/// The case with one fault in it.
fn damaged_cases(form: Form, case: &Case) -> Vec<Refused> {
    let n = case.n;
    let damages: [Damage; 4] = [
        (|case| case.times[1] = Some(86_401), 1, 4),
        (|case| case.times[case.n..2 * case.n].fill(None), n, 5),
        (|case| put(&mut case.start[0], 1_000_001), n * n, 6),
        (
            |case| put(&mut case.target[last_bound(case.n)], -1_000_001),
            last_entry(case.n),
            6,
        ),
    ];
    let refused = |(damage, entry, number): Damage| {
        let mut damaged = *case;
        damage(&mut damaged);
        let place = bit_of(form, &damaged, entry);
        (damaged.pack(form), fault(number, place))
    };
    damages.map(refused).to_vec()
}

/// The case's bytes in the other form by their first bits, with n = 0, cut, with a
/// fill bit set, and with a byte more.
fn damaged_bytes_of(form: Form, case: &Case) -> Vec<Refused> {
    let bytes = case.pack(form);
    let last = bytes.len() - 1;
    let (cut, behind) = (bit_of(form, case, last_entry(case.n)), 8 * bytes.len());
    let first = match form {
        Form::Old => bytes[0] & 31,
        Form::Wide => bytes[0] | 32,
    };
    let with = |place: usize, byte: u8| {
        let mut bytes = bytes.clone();
        bytes[place] = byte;
        bytes
    };
    vec![
        (with(0, first), fault(2, 0)),
        (with(0, bytes[0] & 1), fault(2, 0)),
        (Vec::new(), fault(1, 0)),
        (bytes[..last].to_vec(), fault(1, cut)),
        (with(last, bytes[last] | 1), fault(7, behind - 1)),
        ([&bytes[..], &[0]].concat(), fault(8, behind)),
        ([&bytes[..], &[255]].concat(), fault(8, behind)),
    ]
}

/// Each fault of a reader in such a case, and none of them, with an output that is
/// long enough, of one byte and empty: the first in order is told.
fn compare_order(random: &mut Random, form: Form, case: &Case) {
    let to = form.other();
    let refused = [damaged_cases(form, case), damaged_bytes_of(form, case)].concat();
    for length in [0, 1, 2000] {
        for (bytes, fault) in &refused {
            check(random, to, bytes, length, &Err(*fault));
        }
        let expected = match to {
            Form::Old => to_old(case, length),
            Form::Wide => with_room(case.pack(to), length),
        };
        check(random, to, &case.pack(form), length, &expected);
    }
}

/// Pairs of faults: a reader's comes before 16, 16 for n before 16 for a mark, and
/// all of them before 14.
#[test]
fn order_of_faults() {
    let mut random = Random::new(7_900_000);
    compare_order(&mut random, Form::Old, &whole(2));
    let marks: [fn(&mut Case); 4] = [
        |_| (),
        |case| make_strict(&mut case.target[last_bound(case.n)]),
        |case| case.target.iter_mut().for_each(make_strict),
        |case| case.start.iter_mut().for_each(make_strict),
    ];
    for n in [2, 8] {
        for make_marks in marks {
            let mut case = whole(n);
            make_marks(&mut case);
            compare_order(&mut random, Form::Wide, &case);
        }
    }
}

/// Every bound in turn is the only strict one.
#[test]
fn every_mark() {
    let mut random = Random::new(7_910_000);
    for n in 1..=7 {
        let plain = full(n);
        for place in 0..=last_bound(n) {
            let (mut start, mut target) = (plain, plain);
            make_strict(&mut start.start[place]);
            make_strict(&mut target.target[place]);
            let start_bit = 13 + 19 * n * n + 23 * place;
            let target_bit = start_bit + 23 * n * (n + 1);
            for (case, bit) in [(start, start_bit), (target, target_bit)] {
                let bytes = case.pack(Form::Wide);
                check(&mut random, Form::Old, &bytes, 500, &Err(fault(16, bit)));
            }
        }
    }
}

/// The longest cases: seven departures in both forms, and fifteen.
#[test]
fn longest_cases() {
    let mut random = Random::new(7_920_000);
    let (old, wide) = (full(7).pack(Form::Old), full(7).pack(Form::Wide));
    assert_eq!((old.len(), wide.len()), (426, 440));
    check(&mut random, Form::Wide, &old, 440, &Ok(wide.clone()));
    check(&mut random, Form::Old, &wide, 426, &Ok(old));
    let wide = longest().pack(Form::Wide);
    check(&mut random, Form::Old, &wide, 2000, &Err(fault(16, 3)));
}

/// The shortest inputs, and the faults to the wide form and to the old one.
#[test]
fn one_byte() {
    let mut random = Random::new(7_930_000);
    let stated: [(&[u8], Fault, Fault); 4] = [
        (&[], fault(1, 0), fault(1, 0)),
        (&[0x00], fault(2, 0), fault(2, 0)),
        (&[0x02], fault(2, 0), fault(1, 7)),
        (&[0x20], fault(1, 3), fault(2, 0)),
    ];
    for (bytes, to_wide, to_old) in stated {
        check(&mut random, Form::Wide, bytes, 2000, &Err(to_wide));
        check(&mut random, Form::Old, bytes, 2000, &Err(to_old));
    }
}

/// One departure, N = 1, a time of 60, and at most 9 as the only bound: the fields
/// of both forms one after the other.
#[test]
fn bits_of_both_forms() {
    let mut random = Random::new(7_940_000);
    let old = packed_bits("001 000000 1 000000000000111100 0 1 000000000000000001001 0 0");
    let wide = packed_bits("000 0001 000000 1 000000000000111100 0 10 000000000000000001001 0 0");
    check(&mut random, Form::Wide, &old, wide.len(), &Ok(wide.clone()));
    check(&mut random, Form::Old, &wide, old.len(), &Ok(old));
    let strict = packed_bits("000 0001 000000 1 000000000000111100 0 11 000000000000000001001 0 0");
    check(&mut random, Form::Old, &strict, 2000, &Err(fault(16, 33)));
}
