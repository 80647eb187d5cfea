//! The archive's functions behind safe ones. A product that embeds the archive
//! can copy this file.

use crate::case::{Case, Entries, Form, Times, DEPARTURES, ENTRIES};

/// A fault's number, 1 to 16 but for 12, and what is returned with it.
#[derive(Clone, Copy, Debug, PartialEq, Eq)]
pub struct Fault {
    pub number: usize,
    pub returned: usize,
}

/// What was found out about a case.
#[derive(Clone, Copy, Debug, PartialEq, Eq)]
pub enum Verdict {
    Refused(Fault),
    Reached { cycle: usize },
    Clear { horizon: usize },
    Never,
}

/// A verdict and the start handed back, in parts of a second: how many make a
/// second, and the times. All are 0 unless reached.
#[derive(Clone, Copy, Debug, PartialEq, Eq)]
pub struct Answer {
    pub verdict: Verdict,
    pub parts: usize,
    pub start: Times,
}

/// What was decided about a case, cycle by cycle and without a table of zones.
#[derive(Clone, Copy, Debug, PartialEq, Eq)]
pub enum Decided {
    Refused(Fault),
    Reached { cycle: usize },
    Clear { cycles: usize },
    Never,
    Undecided { cycle: usize },
}

/// A decision and the start handed back, in parts of a second as in an answer.
/// All are 0 unless reached.
#[derive(Clone, Copy, Debug, PartialEq, Eq)]
pub struct Decision {
    pub decided: Decided,
    pub parts: usize,
    pub start: Times,
}

/// A run's fault, if any, and the times of its cycle, 0 if refused.
#[derive(Clone, Copy, Debug, PartialEq, Eq)]
pub struct Run {
    pub judged: Result<(), Fault>,
    pub times: Times,
}

/// A run in parts of a second, and how many make a second, 0 if refused.
#[derive(Clone, Copy, Debug, PartialEq, Eq)]
pub struct RunInParts {
    pub run: Run,
    pub parts: usize,
}

/// A packed case that was read: the bytes read or the fault, and the case, which
/// is empty if refused.
#[derive(Clone, Debug, PartialEq, Eq)]
pub struct Reading {
    pub judged: Result<usize, Fault>,
    pub n: usize,
    pub horizon: usize,
    pub entries: Entries,
}

/// A change of one time of the table. Row and column count from 1. The entry
/// becomes `time`, or blank where `has` is 0.
#[derive(Clone, Copy, Debug, PartialEq, Eq)]
pub struct Change {
    pub row: usize,
    pub column: usize,
    pub has: u8,
    pub time: i64,
}

/// Numbers that stand for no outcome; the archive never returns them.
#[derive(Clone, Copy, Debug, PartialEq, Eq)]
pub struct Unknown {
    pub kind: u32,
    pub fault: usize,
    pub value: usize,
}

// The functions by the header's names, and the names that it gives the linker
// where they are others.
extern "C" {
    #[link_name = "tramcheck_verdict_15"]
    fn tramcheck_verdict(
        bytes: *const u8,
        length: usize,
        capacity: usize,
        work: *mut i32,
        work_length: usize,
        fault: *mut usize,
        value: *mut usize,
        parts: *mut usize,
        start: *mut i64,
    ) -> u32;
    #[link_name = "tramcheck_verdict_unpacked_15"]
    fn tramcheck_verdict_unpacked(
        n: usize,
        horizon: usize,
        present: *const u8,
        strict: *const u8,
        values: *const i64,
        capacity: usize,
        work: *mut i32,
        work_length: usize,
        fault: *mut usize,
        value: *mut usize,
        parts: *mut usize,
        start: *mut i64,
    ) -> u32;
    #[link_name = "tramcheck_decide_15"]
    fn tramcheck_decide(
        n: usize,
        horizon: usize,
        present: *const u8,
        strict: *const u8,
        values: *const i64,
        cycles: usize,
        steps: usize,
        fault: *mut usize,
        value: *mut usize,
        parts: *mut usize,
        start: *mut i64,
    ) -> u32;
    #[link_name = "tramcheck_run_15"]
    fn tramcheck_run(
        n: usize,
        present: *const u8,
        values: *const i64,
        start: *const i64,
        cycle: usize,
        fault: *mut usize,
        value: *mut usize,
        times: *mut i64,
    ) -> u32;
    #[link_name = "tramcheck_run_parts_15"]
    fn tramcheck_run_parts(
        n: usize,
        present: *const u8,
        strict: *const u8,
        values: *const i64,
        start: *const i64,
        cycle: usize,
        fault: *mut usize,
        value: *mut usize,
        parts: *mut usize,
        times: *mut i64,
    ) -> u32;
    #[link_name = "tramcheck_write_15"]
    fn tramcheck_write(
        n: usize,
        horizon: usize,
        present: *const u8,
        strict: *const u8,
        values: *const i64,
        out: *mut u8,
        out_length: usize,
        fault: *mut usize,
        value: *mut usize,
    ) -> u32;
    #[link_name = "tramcheck_write_wide_15"]
    fn tramcheck_write_wide(
        n: usize,
        horizon: usize,
        present: *const u8,
        strict: *const u8,
        values: *const i64,
        out: *mut u8,
        out_length: usize,
        fault: *mut usize,
        value: *mut usize,
    ) -> u32;
    fn tramcheck_to_wide(
        bytes: *const u8,
        length: usize,
        out: *mut u8,
        out_length: usize,
        fault: *mut usize,
        value: *mut usize,
    ) -> u32;
    fn tramcheck_to_old(
        bytes: *const u8,
        length: usize,
        out: *mut u8,
        out_length: usize,
        fault: *mut usize,
        value: *mut usize,
    ) -> u32;
    #[link_name = "tramcheck_read_15"]
    fn tramcheck_read(
        bytes: *const u8,
        length: usize,
        n: *mut usize,
        horizon: *mut usize,
        present: *mut u8,
        strict: *mut u8,
        values: *mut i64,
        fault: *mut usize,
        value: *mut usize,
    ) -> u32;
    #[link_name = "tramcheck_preview_15"]
    fn tramcheck_preview(
        n: usize,
        horizon: usize,
        present: *const u8,
        strict: *const u8,
        values: *const i64,
        row: usize,
        column: usize,
        has: u8,
        time: i64,
        capacity: usize,
        work: *mut i32,
        work_length: usize,
        fault: *mut usize,
        value: *mut usize,
        parts: *mut usize,
        start: *mut i64,
    ) -> u32;
    #[link_name = "tramcheck_commit_15"]
    fn tramcheck_commit(
        n: usize,
        horizon: usize,
        present: *mut u8,
        strict: *const u8,
        values: *mut i64,
        row: usize,
        column: usize,
        has: u8,
        time: i64,
        fault: *mut usize,
        value: *mut usize,
    ) -> u32;
}

/// Where the archive writes its results. Every call writes all that it is given
/// of them; the first contents are numbers that no call may leave behind.
struct Results {
    fault: usize,
    value: usize,
    parts: usize,
    times: Times,
}

impl Results {
    fn new() -> Results {
        Results {
            fault: usize::MAX,
            value: usize::MAX,
            parts: usize::MAX,
            times: [i64::MIN; DEPARTURES],
        }
    }

    /// The verdict that the returned kind and the numbers stand for.
    fn answer(&self, kind: u32) -> Result<Answer, Unknown> {
        let verdict = match (kind, self.fault, self.value) {
            (0, number @ (1..=11 | 15), returned) => Verdict::Refused(Fault { number, returned }),
            (1, 0, cycle) => Verdict::Reached { cycle },
            (2, 0, horizon) => Verdict::Clear { horizon },
            (3, 0, 0) => Verdict::Never,
            (kind, fault, value) => return Err(Unknown { kind, fault, value }),
        };
        Ok(Answer {
            verdict,
            parts: self.parts,
            start: self.times,
        })
    }

    /// The decision that they stand for.
    fn decision(&self, kind: u32) -> Result<Decision, Unknown> {
        let decided = match (kind, self.fault, self.value) {
            (0, number @ 2..=6, returned) => Decided::Refused(Fault { number, returned }),
            (1, 0, cycle) => Decided::Reached { cycle },
            (2, 0, cycles) => Decided::Clear { cycles },
            (3, 0, 0) => Decided::Never,
            (5, 0, cycle) => Decided::Undecided { cycle },
            (kind, fault, value) => return Err(Unknown { kind, fault, value }),
        };
        Ok(Decision {
            decided,
            parts: self.parts,
            start: self.times,
        })
    }

    /// The same for a run, whose cycle is the value where it is accepted.
    fn run(&self, kind: u32, cycle: usize) -> Result<Run, Unknown> {
        let judged = match (kind, self.fault, self.value) {
            (0, number @ (2..=5 | 13), returned) => Err(Fault { number, returned }),
            (1, 0, reached) if reached == cycle => Ok(()),
            (kind, fault, value) => return Err(Unknown { kind, fault, value }),
        };
        let times = self.times;
        Ok(Run { judged, times })
    }

    /// The number of bytes written or read, or the fault.
    fn bytes(&self, kind: u32) -> Result<Result<usize, Fault>, Unknown> {
        match (kind, self.fault, self.value) {
            (0, number @ (1..=8 | 14 | 16), returned) => Ok(Err(Fault { number, returned })),
            (4, 0, count) => Ok(Ok(count)),
            (kind, fault, value) => Err(Unknown { kind, fault, value }),
        }
    }

    /// Whether a change was committed, or the fault.
    fn committed(&self, kind: u32) -> Result<Result<(), Fault>, Unknown> {
        match (kind, self.fault, self.value) {
            (0, number @ (2..=6 | 15), returned) => Ok(Err(Fault { number, returned })),
            (4, 0, 0) => Ok(Ok(())),
            (kind, fault, value) => Err(Unknown { kind, fault, value }),
        }
    }
}

/// The verdict on a packed case of either form, with room for `capacity` zones.
/// `work` must hold 2 * capacity * (n + 1) * (n + 1) numbers; more is allowed.
pub fn verdict(bytes: &[u8], capacity: usize, work: &mut [i32]) -> Result<Answer, Unknown> {
    let mut results = Results::new();
    // Each pointer comes from a slice, an array or a field that lives to the
    // end of the call, and each length is that of its slice.
    let kind = unsafe {
        tramcheck_verdict(
            bytes.as_ptr(),
            bytes.len(),
            capacity,
            work.as_mut_ptr(),
            work.len(),
            &mut results.fault,
            &mut results.value,
            &mut results.parts,
            results.times.as_mut_ptr(),
        )
    };
    results.answer(kind)
}

/// The verdict on an unpacked case.
pub fn verdict_unpacked(case: &Case, capacity: usize, work: &mut [i32]) -> Result<Answer, Unknown> {
    verdict_entries(case.n, case.horizon, &case.entries(), capacity, work)
}

/// The verdict on an unpacked case in the layout that the archive reads.
pub fn verdict_entries(
    n: usize,
    horizon: usize,
    entries: &Entries,
    capacity: usize,
    work: &mut [i32],
) -> Result<Answer, Unknown> {
    let mut results = Results::new();
    // The pointers are good as in `verdict`; each array has 705 places.
    let kind = unsafe {
        tramcheck_verdict_unpacked(
            n,
            horizon,
            entries.present.as_ptr(),
            entries.strict.as_ptr(),
            entries.values.as_ptr(),
            capacity,
            work.as_mut_ptr(),
            work.len(),
            &mut results.fault,
            &mut results.value,
            &mut results.parts,
            results.times.as_mut_ptr(),
        )
    };
    results.answer(kind)
}

/// Decides a case over 1 to 4,096 cycles, with so many steps: columns that may be
/// tried. The case's own horizon is judged and otherwise not used.
pub fn decide(case: &Case, cycles: usize, steps: usize) -> Result<Decision, Unknown> {
    decide_entries(case.n, case.horizon, &case.entries(), cycles, steps)
}

/// The same for a case in the layout that the archive reads.
pub fn decide_entries(
    n: usize,
    horizon: usize,
    entries: &Entries,
    cycles: usize,
    steps: usize,
) -> Result<Decision, Unknown> {
    let mut results = Results::new();
    // The pointers are good as in `verdict`; each array has 705 places.
    let kind = unsafe {
        tramcheck_decide(
            n,
            horizon,
            entries.present.as_ptr(),
            entries.strict.as_ptr(),
            entries.values.as_ptr(),
            cycles,
            steps,
            &mut results.fault,
            &mut results.value,
            &mut results.parts,
            results.times.as_mut_ptr(),
        )
    };
    results.decision(kind)
}

/// The times of cycle `cycle` from the start times `start`, in whole seconds.
pub fn run(case: &Case, start: &Times, cycle: usize) -> Result<Run, Unknown> {
    run_entries(case.n, &case.entries(), start, cycle)
}

/// The same for a case in the layout that the archive reads.
pub fn run_entries(
    n: usize,
    entries: &Entries,
    start: &Times,
    cycle: usize,
) -> Result<Run, Unknown> {
    let mut results = Results::new();
    // The pointers are good as in `verdict`; both lists of times have 15.
    let kind = unsafe {
        tramcheck_run(
            n,
            entries.present.as_ptr(),
            entries.values.as_ptr(),
            start.as_ptr(),
            cycle,
            &mut results.fault,
            &mut results.value,
            results.times.as_mut_ptr(),
        )
    };
    results.run(kind, cycle)
}

/// The same with all times in parts of a second: as many to a second as those
/// of a start that is handed back for the case.
pub fn run_parts(case: &Case, start: &Times, cycle: usize) -> Result<RunInParts, Unknown> {
    run_parts_entries(case.n, &case.entries(), start, cycle)
}

/// The same for a case in the layout that the archive reads.
pub fn run_parts_entries(
    n: usize,
    entries: &Entries,
    start: &Times,
    cycle: usize,
) -> Result<RunInParts, Unknown> {
    let mut results = Results::new();
    // The pointers are good as in `verdict`; both lists of times have 15.
    let kind = unsafe {
        tramcheck_run_parts(
            n,
            entries.present.as_ptr(),
            entries.strict.as_ptr(),
            entries.values.as_ptr(),
            start.as_ptr(),
            cycle,
            &mut results.fault,
            &mut results.value,
            &mut results.parts,
            results.times.as_mut_ptr(),
        )
    };
    let run = results.run(kind, cycle)?;
    let parts = results.parts;
    Ok(RunInParts { run, parts })
}

/// Writes a case in a packed form to the front of `out`: how many bytes, or the
/// fault, 16 where the old form has no place for it. With an `out` of length 0
/// fault 14 tells how many are needed.
pub fn write(form: Form, case: &Case, out: &mut [u8]) -> Result<Result<usize, Fault>, Unknown> {
    write_entries(form, case.n, case.horizon, &case.entries(), out)
}

/// The same for a case in the layout that the archive reads.
pub fn write_entries(
    form: Form,
    n: usize,
    horizon: usize,
    entries: &Entries,
    out: &mut [u8],
) -> Result<Result<usize, Fault>, Unknown> {
    let write = match form {
        Form::Old => tramcheck_write,
        Form::Wide => tramcheck_write_wide,
    };
    let mut results = Results::new();
    // The pointers are good as in `verdict`; each array has 705 places.
    let kind = unsafe {
        write(
            n,
            horizon,
            entries.present.as_ptr(),
            entries.strict.as_ptr(),
            entries.values.as_ptr(),
            out.as_mut_ptr(),
            out.len(),
            &mut results.fault,
            &mut results.value,
        )
    };
    results.bytes(kind)
}

/// Converts a packed case to a form from the other one, to the front of `out`: how
/// many bytes, or the fault, 2 where the case is in this form already, and 16 where
/// the old form has no place for it. With an `out` of length 0 fault 14 tells how
/// many are needed.
pub fn convert(to: Form, bytes: &[u8], out: &mut [u8]) -> Result<Result<usize, Fault>, Unknown> {
    let convert = match to {
        Form::Old => tramcheck_to_old,
        Form::Wide => tramcheck_to_wide,
    };
    let mut results = Results::new();
    // The pointers are good as in `verdict`.
    let kind = unsafe {
        convert(
            bytes.as_ptr(),
            bytes.len(),
            out.as_mut_ptr(),
            out.len(),
            &mut results.fault,
            &mut results.value,
        )
    };
    results.bytes(kind)
}

/// Reads a packed case of either form.
pub fn read(bytes: &[u8]) -> Result<Reading, Unknown> {
    let mut results = Results::new();
    let (mut n, mut horizon) = (usize::MAX, usize::MAX);
    let mut entries = Entries {
        present: [u8::MAX; ENTRIES],
        strict: [u8::MAX; ENTRIES],
        values: [i64::MIN; ENTRIES],
    };
    // The pointers are good as in `verdict`; each array has 705 places.
    let kind = unsafe {
        tramcheck_read(
            bytes.as_ptr(),
            bytes.len(),
            &mut n,
            &mut horizon,
            entries.present.as_mut_ptr(),
            entries.strict.as_mut_ptr(),
            entries.values.as_mut_ptr(),
            &mut results.fault,
            &mut results.value,
        )
    };
    let judged = results.bytes(kind)?;
    Ok(Reading {
        judged,
        n,
        horizon,
        entries,
    })
}

/// The verdict on a copy of an unpacked case with one time changed.
pub fn preview(
    n: usize,
    horizon: usize,
    entries: &Entries,
    change: &Change,
    capacity: usize,
    work: &mut [i32],
) -> Result<Answer, Unknown> {
    let mut results = Results::new();
    // The pointers are good as in `verdict`; each array has 705 places.
    let kind = unsafe {
        tramcheck_preview(
            n,
            horizon,
            entries.present.as_ptr(),
            entries.strict.as_ptr(),
            entries.values.as_ptr(),
            change.row,
            change.column,
            change.has,
            change.time,
            capacity,
            work.as_mut_ptr(),
            work.len(),
            &mut results.fault,
            &mut results.value,
            &mut results.parts,
            results.times.as_mut_ptr(),
        )
    };
    results.answer(kind)
}

/// Changes one time of an unpacked case, or tells the fault and leaves the
/// entries as they were.
pub fn commit(
    n: usize,
    horizon: usize,
    entries: &mut Entries,
    change: &Change,
) -> Result<Result<(), Fault>, Unknown> {
    let mut results = Results::new();
    // The pointers are good as in `verdict`; each array has 705 places.
    let kind = unsafe {
        tramcheck_commit(
            n,
            horizon,
            entries.present.as_mut_ptr(),
            entries.strict.as_ptr(),
            entries.values.as_mut_ptr(),
            change.row,
            change.column,
            change.has,
            change.time,
            &mut results.fault,
            &mut results.value,
        )
    };
    results.committed(kind)
}
