//! The stack that a call takes, as the header states it.

use evidence::archive::{self, Answer, Change, Verdict};
use evidence::case::{most, pair, Case, Form, DEPARTURES};
use evidence::faults::{fault, workspace};
use evidence::longest::{full, longest, start_of_longest};
use evidence::selections::without_start;
use std::thread;

/// What the header names.
const STACK: usize = 1024 * 1024;

/// A round of departures that wait for each other, whose lists do not repeat in a few
/// cycles, and a start that nobody can meet: the search goes on to the horizon.
fn long_search() -> Case {
    let mut case = Case::empty(DEPARTURES, 64);
    for i in 0..DEPARTURES {
        case.times[i * DEPARTURES + (i + 1) % DEPARTURES] = Some(i as i64);
    }
    case.target[pair(DEPARTURES, 1, 0)] = Some(most(0));
    case.target[pair(DEPARTURES, 0, 1)] = Some(most(0));
    case.start[pair(DEPARTURES, 1, 0)] = Some(most(0));
    case.start[pair(DEPARTURES, 0, 1)] = Some(most(-1));
    case
}

/// Every function on the longest case that it takes. Overrunning the stack would end the
/// process.
fn calls() {
    let case = longest();
    let bytes = case.pack(Form::Wide);
    let mut work = vec![0; workspace(case.n, 32)];
    let reached = Answer {
        verdict: Verdict::Reached { cycle: 1 },
        parts: 16,
        start: start_of_longest(),
    };
    assert_eq!(archive::verdict(&bytes, 32, &mut work), Ok(reached));
    assert_eq!(archive::verdict_unpacked(&case, 32, &mut work), Ok(reached));
    let clear = without_start(Verdict::Clear { horizon: 64 });
    let long = archive::verdict_unpacked(&long_search(), 32, &mut work);
    assert_eq!(long, Ok(clear));
    let change = Change {
        row: 1,
        column: 1,
        has: 1,
        time: 0,
    };
    let (n, horizon, mut entries) = (case.n, case.horizon, case.entries());
    let preview = archive::preview(n, horizon, &entries, &change, 32, &mut work);
    assert_eq!(preview, Ok(reached));
    let commit = archive::commit(n, horizon, &mut entries, &change);
    assert_eq!(commit, Ok(Ok(())));
    let ran = archive::run_parts(&case, &reached.start, 64).expect("a known outcome");
    assert_eq!((ran.run.judged, ran.parts), (Ok(()), 16));
    let ran = archive::run(&case, &[0; DEPARTURES], 64).expect("a known outcome");
    assert_eq!(ran.judged, Ok(()));
    let mut out = [0; 1916];
    assert_eq!(archive::write(Form::Wide, &case, &mut out), Ok(Ok(1916)));
    let read = archive::read(&out).expect("a known outcome");
    assert_eq!(read.entries, case.entries());
    let old = full(7).pack(Form::Old);
    let wide = archive::convert(Form::Wide, &old, &mut out);
    assert_eq!(wide, Ok(Ok(440)));
    let back = archive::convert(Form::Old, &out[..440], &mut [0; 426]);
    assert_eq!(back, Ok(Ok(426)));
    let refused = archive::convert(Form::Old, &bytes, &mut out);
    assert_eq!(refused, Ok(Err(fault(16, 3))));
}

#[test]
fn a_call_fits_the_stack_that_the_header_names() {
    let thread = thread::Builder::new().stack_size(STACK);
    let ended = thread.spawn(calls).expect("a thread").join();
    assert!(ended.is_ok(), "a call went wrong, see above");
}
