//! An unpacked case, the layout in which the archive reads it, and its
//! packing into bytes.

/// The most departures.
pub const DEPARTURES: usize = 15;

/// The most times of a table, and bounds of a pattern.
pub const TIMES: usize = DEPARTURES * DEPARTURES;
pub const BOUNDS: usize = DEPARTURES * (DEPARTURES + 1);

/// Where the entries of start and target begin in the layout that the archive
/// reads, behind those of the table, and how many entries there are.
pub const START: usize = TIMES;
pub const TARGET: usize = START + BOUNDS;
pub const ENTRIES: usize = TARGET + BOUNDS;

/// Times of the departures; those beyond n are 0 wherever they are handed back.
pub type Times = [i64; DEPARTURES];

/// A bound on x(i) - x(j): at most the value, or less than it if strict.
#[derive(Clone, Copy, Debug, PartialEq, Eq)]
pub struct Bound {
    pub value: i64,
    pub strict: bool,
}

/// At most a value.
pub const fn most(value: i64) -> Bound {
    let strict = false;
    Bound { value, strict }
}

/// Less than a value.
pub const fn less(value: i64) -> Bound {
    let strict = true;
    Bound { value, strict }
}

/// A pattern's bounds: pairs i, j from 0 to n, i not j, by i, then j.
pub type Pattern = [Option<Bound>; BOUNDS];

/// The two packed forms.
#[derive(Clone, Copy, Debug, PartialEq, Eq)]
pub enum Form {
    /// For up to 7 departures, without marks.
    Old,
    /// For up to 15 departures, with a mark for each bound.
    Wide,
}

impl Form {
    /// The most departures.
    pub fn departures(self) -> usize {
        match self {
            Form::Old => 7,
            Form::Wide => DEPARTURES,
        }
    }

    /// The form that a case is converted from to get this one.
    pub fn other(self) -> Form {
        match self {
            Form::Old => Form::Wide,
            Form::Wide => Form::Old,
        }
    }
}

/// A case. Entries stand in packed order for this n, from place 0 on; what
/// stands beyond them has no meaning.
#[derive(Clone, Copy, Debug, PartialEq, Eq)]
pub struct Case {
    pub n: usize,
    pub horizon: usize,
    pub times: [Option<i64>; TIMES],
    pub start: Pattern,
    pub target: Pattern,
}

/// A case's entries as the archive reads them. A number other than 0 in
/// `strict` marks a strict bound; it is ignored for times and absent bounds.
#[derive(Clone, Debug, PartialEq, Eq)]
pub struct Entries {
    pub present: [u8; ENTRIES],
    pub strict: [u8; ENTRIES],
    pub values: [i64; ENTRIES],
}

/// The place of the pair i, j in a pattern for n departures.
pub fn pair(n: usize, i: usize, j: usize) -> usize {
    assert!(i != j && i <= n && j <= n, "no pair {i}, {j} for n = {n}");
    i * n + if j < i { j } else { j - 1 }
}

impl Case {
    /// A case without a single time or bound.
    pub fn empty(n: usize, horizon: usize) -> Case {
        Case {
            n,
            horizon,
            times: [None; TIMES],
            start: [None; BOUNDS],
            target: [None; BOUNDS],
        }
    }

    /// A(i, j), rows and columns counted from 0.
    pub fn time(&self, i: usize, j: usize) -> Option<i64> {
        self.times[i * self.n + j]
    }

    /// The bounds that count, those of the start before those of the target. n
    /// must be below 16.
    pub fn bounds(&self) -> impl Iterator<Item = &Option<Bound>> {
        let count = self.n * (self.n + 1);
        self.start[..count].iter().chain(&self.target[..count])
    }

    /// The entries as the archive reads them.
    pub fn entries(&self) -> Entries {
        let mut entries = Entries {
            present: [0; ENTRIES],
            strict: [0; ENTRIES],
            values: [0; ENTRIES],
        };
        let times = self.times.iter().map(|time| time.map(most));
        let bounds = self.start.iter().chain(&self.target).copied();
        for (place, entry) in times.chain(bounds).enumerate() {
            if let Some(Bound { value, strict }) = entry {
                entries.present[place] = 1;
                entries.strict[place] = u8::from(strict);
                entries.values[place] = value;
            }
        }
        entries
    }

    /// Whether a bound that counts is strict.
    pub fn marked(&self) -> bool {
        self.bounds().flatten().any(|bound| bound.strict)
    }

    /// The forms that have a place for the case.
    pub fn forms(&self) -> &'static [Form] {
        if self.n <= Form::Old.departures() && !self.marked() {
            &[Form::Old, Form::Wide]
        } else {
            &[Form::Wide]
        }
    }

    /// The packed case, in a form that has a place for it. N must be from 1 to
    /// 64; a value too wide for its field loses its upper bits.
    pub fn pack(&self, form: Form) -> Vec<u8> {
        assert!(self.forms().contains(&form), "no place: {form:?}, {self:?}");
        let mut writer = Writer::default();
        let (zeros, width) = match form {
            Form::Old => (0, 3),
            Form::Wide => (3, 4),
        };
        writer.number(0, zeros);
        writer.number(self.n as i64, width);
        writer.number(self.horizon as i64 - 1, 6);
        for &time in &self.times[..self.n * self.n] {
            writer.time(time);
        }
        for &bound in self.bounds() {
            writer.bound(form, bound);
        }
        writer.bytes()
    }
}

/// Bits in the order in which they are packed.
#[derive(Default)]
struct Writer {
    bits: Vec<bool>,
}

impl Writer {
    /// The lowest `width` bits of a number, the most significant first.
    fn number(&mut self, value: i64, width: usize) {
        for bit in (0..width).rev() {
            self.bits.push(value >> bit & 1 == 1);
        }
    }

    /// A presence bit and, if it is 1, the value.
    fn time(&mut self, time: Option<i64>) {
        self.bits.push(time.is_some());
        if let Some(value) = time {
            self.number(value, 18);
        }
    }

    /// The same; in the wide form the mark stands before the value.
    fn bound(&mut self, form: Form, bound: Option<Bound>) {
        self.bits.push(bound.is_some());
        if let Some(Bound { value, strict }) = bound {
            if form == Form::Wide {
                self.bits.push(strict);
            }
            self.number(value, 21);
        }
    }

    /// Whole bytes; the fill is of zero bits.
    fn bytes(&self) -> Vec<u8> {
        let mut bytes = vec![0; self.bits.len().div_ceil(8)];
        for (place, _) in self.bits.iter().enumerate().filter(|(_, &bit)| bit) {
            bytes[place / 8] |= 128 >> (place % 8);
        }
        bytes
    }
}

/// The bytes of bits that are written out, with the fill; blanks are left out.
pub fn packed_bits(written: &str) -> Vec<u8> {
    let bits = written.bytes().filter(|&bit| bit != b' ');
    let bits = bits.map(|bit| bit == b'1').collect();
    Writer { bits }.bytes()
}
