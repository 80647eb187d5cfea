//! The faults, in the order in which they are judged.

use crate::archive::{Change, Fault};
use crate::case::{Bound, Case, Form, Times, DEPARTURES};

/// A fault and what is returned with it.
pub fn fault(number: usize, returned: usize) -> Fault {
    Fault { number, returned }
}

/// Whether a bound is beyond the limit; the mark makes no difference.
fn beyond(bound: Bound) -> bool {
    !(-1_000_000..=1_000_000).contains(&bound.value)
}

/// Reads fields from the bits of a packed case, and keeps the place of the first
/// strict bound.
struct Reader<'a> {
    bytes: &'a [u8],
    place: usize,
    marked: Option<usize>,
}

impl Reader<'_> {
    fn new(bytes: &[u8]) -> Reader<'_> {
        let (place, marked) = (0, None);
        Reader {
            bytes,
            place,
            marked,
        }
    }

    /// The next bit, or none at the end.
    fn bit(&mut self) -> Option<bool> {
        let byte = self.bytes.get(self.place / 8)?;
        let bit = byte << (self.place % 8) & 128 != 0;
        self.place += 1;
        Some(bit)
    }

    /// A number of `width` bits without a sign.
    fn number(&mut self, width: usize) -> Option<i64> {
        let mut number = 0;
        for _ in 0..width {
            number = 2 * number + i64::from(self.bit()?);
        }
        Some(number)
    }

    /// A number of `width` bits in two's complement.
    fn signed(&mut self, width: usize) -> Option<i64> {
        let number = self.number(width)?;
        let half = 1 << (width - 1);
        Some(if number < half {
            number
        } else {
            number - 2 * half
        })
    }

    /// The form and n. Three zero bits begin the wide form.
    fn departures(&mut self) -> Result<(Form, usize), Fault> {
        let old = self.number(3).ok_or(fault(1, 0))?;
        if old > 0 {
            return Ok((Form::Old, old as usize));
        }
        match self.number(4).ok_or(fault(1, 3))? {
            0 => Err(fault(2, 0)),
            n => Ok((Form::Wide, n as usize)),
        }
    }

    /// A presence bit and, if it is 1, a value; they form one field.
    fn entry<T>(&mut self, value: impl Fn(&mut Self) -> Option<T>) -> Result<Option<T>, Fault> {
        let place = self.place;
        let field = match self.bit() {
            Some(true) => value(self).map(Some),
            Some(false) => Some(None),
            None => None,
        };
        field.ok_or(fault(1, place))
    }

    /// What follows the presence bit of a bound: in the wide form a mark first.
    fn bound(&mut self, form: Form) -> Option<Bound> {
        let strict = match form {
            Form::Old => false,
            Form::Wide => self.bit()?,
        };
        let value = self.signed(21)?;
        Some(Bound { value, strict })
    }

    /// The table's times, each judged as it is read, each row after its last.
    fn table(&mut self, case: &mut Case) -> Result<(), Fault> {
        for row in 0..case.n {
            let first = self.place;
            let mut any = false;
            for column in 0..case.n {
                let place = self.place;
                let time = self.entry(|reader| reader.signed(18))?;
                if time.is_some_and(|t| !(-86_400..=86_400).contains(&t)) {
                    return Err(fault(4, place));
                }
                any |= time.is_some();
                case.times[row * case.n + column] = time;
            }
            if !any {
                return Err(fault(5, first));
            }
        }
        Ok(())
    }

    /// One pattern's bounds.
    fn pattern(&mut self, form: Form, bounds: &mut [Option<Bound>]) -> Result<(), Fault> {
        for bound in bounds {
            let place = self.place;
            *bound = self.entry(|reader| reader.bound(form))?;
            if bound.is_some_and(beyond) {
                return Err(fault(6, place));
            }
            if bound.is_some_and(|bound| bound.strict) {
                self.marked = self.marked.or(Some(place));
            }
        }
        Ok(())
    }

    /// The case of a form and n, whose fields were read already.
    fn case(&mut self, form: Form, n: usize) -> Result<Case, Fault> {
        let place = self.place;
        let horizon = self.number(6).ok_or(fault(1, place))? as usize + 1;
        let mut case = Case::empty(n, horizon);
        self.table(&mut case)?;
        let bounds = n * (n + 1);
        self.pattern(form, &mut case.start[..bounds])?;
        self.pattern(form, &mut case.target[..bounds])?;
        self.end()?;
        Ok(case)
    }

    /// The fill up to a whole byte, and that nothing follows.
    fn end(&mut self) -> Result<(), Fault> {
        while !self.place.is_multiple_of(8) {
            let place = self.place;
            if self.bit() == Some(true) {
                return Err(fault(7, place));
            }
        }
        if self.place < 8 * self.bytes.len() {
            return Err(fault(8, self.place));
        }
        Ok(())
    }
}

/// The case that the bytes hold, in either form, or faults 1, 2 and 4 to 8.
pub fn of_packed(bytes: &[u8]) -> Result<Case, Fault> {
    let mut reader = Reader::new(bytes);
    let (form, n) = reader.departures()?;
    reader.case(form, n)
}

/// The case that is to be converted to a form, or the faults of that, but for 14:
/// those of reading, 2 if the bytes are in this form already, and going back to the
/// old form 16, for n over 7 at its field, else for the first strict bound.
pub fn of_converted(to: Form, bytes: &[u8]) -> Result<Case, Fault> {
    let mut reader = Reader::new(bytes);
    let (form, n) = reader.departures()?;
    if form == to {
        return Err(fault(2, 0));
    }
    let case = reader.case(form, n)?;
    match (to, reader.marked) {
        (Form::Old, _) if n > to.departures() => Err(fault(16, 3)),
        (Form::Old, Some(place)) => Err(fault(16, place)),
        _ => Ok(case),
    }
}

/// Faults 4 and 5 of an unpacked table; n is from 1 to 15.
fn of_table(case: &Case) -> Result<(), Fault> {
    for row in 0..case.n {
        for column in 0..case.n {
            if case
                .time(row, column)
                .is_some_and(|t| !(-86_400..=86_400).contains(&t))
            {
                return Err(fault(4, row * case.n + column));
            }
        }
        if (0..case.n).all(|column| case.time(row, column).is_none()) {
            return Err(fault(5, row * case.n));
        }
    }
    Ok(())
}

/// Fault 2 of an unpacked case.
fn of_departures(n: usize) -> Result<(), Fault> {
    match n {
        1..=DEPARTURES => Ok(()),
        _ => Err(fault(2, 0)),
    }
}

/// Faults 3 to 5 of an unpacked case.
fn of_horizon_and_table(case: &Case) -> Result<(), Fault> {
    if !(1..=64).contains(&case.horizon) {
        return Err(fault(3, 0));
    }
    of_table(case)
}

/// Faults 2 to 6 of an unpacked case.
pub fn of_case(case: &Case) -> Result<(), Fault> {
    of_departures(case.n)?;
    of_horizon_and_table(case)?;
    match case.bounds().position(|bound| bound.is_some_and(beyond)) {
        Some(place) => Err(fault(6, place)),
        None => Ok(()),
    }
}

/// The faults of a case that is to be written, but for 14. In the old form n over
/// 7 is 16 right after 2, and bounds are judged one by one, 6 and then 16.
pub fn of_written(form: Form, case: &Case) -> Result<(), Fault> {
    if form == Form::Wide {
        return of_case(case);
    }
    of_departures(case.n)?;
    if case.n > form.departures() {
        return Err(fault(16, 0));
    }
    of_horizon_and_table(case)?;
    for (place, bound) in case.bounds().enumerate() {
        match bound {
            Some(bound) if beyond(*bound) => return Err(fault(6, place)),
            Some(bound) if bound.strict => return Err(fault(16, place)),
            _ => continue,
        }
    }
    Ok(())
}

/// Numbers that the workspace must hold for a good Z.
pub fn workspace(n: usize, capacity: usize) -> usize {
    2 * capacity * (n + 1) * (n + 1)
}

/// Faults 9 and 10 of a call on a case of n departures.
pub fn of_call(n: usize, capacity: usize, work_length: usize) -> Result<(), Fault> {
    if !(1..=4096).contains(&capacity) {
        return Err(fault(9, 0));
    }
    if work_length < workspace(n, capacity) {
        return Err(fault(10, 0));
    }
    Ok(())
}

/// The faults of a decision: the case's own, 2 to 6, then 3 for its cycles.
pub fn of_decision(case: &Case, cycles: usize) -> Result<(), Fault> {
    of_case(case)?;
    match cycles {
        1..=4096 => Ok(()),
        _ => Err(fault(3, 0)),
    }
}

/// The place of the entry that would be changed, or the case's own faults 2 to
/// 6, then 15.
pub fn of_change(case: &Case, change: &Change) -> Result<usize, Fault> {
    of_case(case)?;
    let inside = |line: usize| (1..=case.n).contains(&line);
    if !inside(change.row) || !inside(change.column) {
        return Err(fault(15, 0));
    }
    Ok((change.row - 1) * case.n + change.column - 1)
}

/// The faults of a commit: the same, then 4 of the changed time or 5 of its row.
pub fn of_commit(case: &Case, change: &Change) -> Result<(), Fault> {
    let place = of_change(case, change)?;
    let first = place + 1 - change.column;
    let other = |p: usize| p != place && case.times[p].is_some();
    if change.has != 0 && !(-86_400..=86_400).contains(&change.time) {
        return Err(fault(4, place));
    }
    if change.has == 0 && !(first..first + case.n).any(other) {
        return Err(fault(5, first));
    }
    Ok(())
}

/// The faults of a preview: those of a commit, then 9 and 10.
pub fn of_preview(
    case: &Case,
    change: &Change,
    capacity: usize,
    work_length: usize,
) -> Result<(), Fault> {
    of_commit(case, change)?;
    of_call(case.n, capacity, work_length)
}

/// The faults of a run: 2, 3 for its cycle, 4, 5 and 13.
pub fn of_run(case: &Case, start: &Times, cycle: usize) -> Result<(), Fault> {
    of_departures(case.n)?;
    if cycle > 64 {
        return Err(fault(3, 0));
    }
    of_table(case)?;
    let limit = 1_000_000_000_000;
    match start[..case.n]
        .iter()
        .position(|t| !(-limit..=limit).contains(t))
    {
        Some(departure) => Err(fault(13, departure)),
        None => Ok(()),
    }
}
