//! Grading another firm's table (document 02, A5; SPEC 17): what a call is
//! given, what it answers, the rules of it on top of the run over fractions, and
//! what a reader may rely on where the rod was an unused one.

use crate::bar::Bar;
use crate::call::{self, hex, Entry};
use crate::fraction::Fraction;
use crate::layout::{PAIR_BYTES, ROW_BYTES, STATE_BYTES};
use crate::rules::{self, Row};
use std::fmt;

pub const TOLERANCE: i64 = 1_000_000_000_000;

/// What a call is given; `rows` is the table.
#[derive(Clone)]
pub struct Call {
    pub sheet: Vec<u8>,
    pub state: Vec<u8>,
    pub pairs: Vec<u8>,
    pub rows: Vec<u8>,
    pub tolerance: i64,
}

/// What the row holds before a call, and no call may leave.
pub const UNWRITTEN: u64 = 0x5a5a_5a5a_5a5a_5a5a;

/// The answer (number + 256 × place), and the row that is named, from 1, or 0.
#[derive(Clone, Copy, Debug, PartialEq, Eq)]
pub struct Outcome {
    pub answer: u64,
    pub row: u64,
}

impl Outcome {
    pub fn number(&self) -> u64 {
        self.answer % 256
    }

    pub fn place(&self) -> u64 {
        self.answer / 256
    }
}

impl Call {
    /// How many pairs the list has.
    pub fn len(&self) -> usize {
        self.pairs.len() / PAIR_BYTES
    }

    pub fn is_empty(&self) -> bool {
        self.len() == 0
    }

    /// The run of the first pairs, on buffers that fit.
    pub fn run(&self, pairs: usize) -> call::Call {
        call::Call {
            entry: Entry::Run,
            sheet: self.sheet.clone(),
            state: self.state.clone(),
            pairs: self.pairs[..PAIR_BYTES * pairs].to_vec(),
            rows: vec![0; ROW_BYTES * pairs],
            next: vec![0; STATE_BYTES],
            trial: Vec::new(),
        }
    }

    /// The run of the whole list, whatever its length.
    pub fn whole_run(&self) -> call::Call {
        call::Call { pairs: self.pairs.clone(), ..self.run(self.len()) }
    }
}

impl fmt::Display for Call {
    fn fmt(&self, f: &mut fmt::Formatter) -> fmt::Result {
        let Call { sheet, state, pairs, rows, tolerance } = self;
        writeln!(f, "grading with tolerance {tolerance}")?;
        for (name, bytes) in [("sheet", sheet), ("state", state), ("pairs", pairs), ("rows", rows)] {
            writeln!(f, "{name:6} {} bytes {}", bytes.len(), hex(bytes))?;
        }
        Ok(())
    }
}

impl fmt::Display for Outcome {
    fn fmt(&self, f: &mut fmt::Formatter) -> fmt::Result {
        writeln!(f, "number {} place {} row {}", self.number(), self.place(), self.row)
    }
}

// ---- the versions ----

pub type Version = fn(&Call) -> Outcome;

/// What is held against the rules, as `crate::VERSIONS` for the other calls.
pub const VERSIONS: &[(&str, Version)] = &[
    ("plain", plain),
    #[cfg(feature = "library")]
    ("library", crate::library::grade_call),
];

/// The call by the quick version in 64 bits.
pub fn plain(call: &Call) -> Outcome {
    let Call { sheet, state, pairs, rows, tolerance } = call;
    let mut row = UNWRITTEN;
    let answer = crate::plain::grade(sheet, state, pairs, rows, *tolerance, &mut row);
    Outcome { answer, row }
}

/// The call by the rules.
pub fn rules(call: &Call) -> Outcome {
    match verdict(call) {
        Ok(row) => Outcome { answer: 0, row },
        Err(answer) => Outcome { answer, row: 0 },
    }
}

/// What the rules ask of a call. Panics where a version answers something else.
pub fn agreed(call: &Call) -> Outcome {
    let wanted = rules(call);
    for (name, version) in VERSIONS {
        let got = version(call);
        assert!(got == wanted, "{name} differs from the rules\n{call}wanted: {wanted}got:    {got}");
    }
    wanted
}

// ---- the rules ----

/// The row that is named, or 0; else number + 256 × place.
fn verdict(call: &Call) -> Result<u64, u64> {
    // The run's own numbers go first, those of its last pair too. It lends no buffer that could be too short.
    let run = rules::call(&call.whole_run());
    if run.answer != 0 {
        return Err(run.answer);
    }
    // 16: the row bytes match the pairs in number
    if call.rows.len() != ROW_BYTES * call.len() {
        return Err(16);
    }
    // 17: the tolerance
    if !(0..=TOLERANCE).contains(&call.tolerance) {
        return Err(17);
    }
    let stress = |row: &[u8]| Fraction::from(Row::read(row).stress);
    let within = |(theirs, ours)| (&stress(theirs) - &stress(ours)).abs() <= Fraction::from(call.tolerance);
    let first = call.rows.chunks(ROW_BYTES).zip(run.rows.chunks(ROW_BYTES)).position(|both| !within(both));
    Ok(first.map_or(0, |at| at as u64 + 1))
}

// ---- what a reader may rely on ----

/// A row of a table, beside ours and the bar's.
#[derive(Clone, Debug)]
pub struct Beside {
    pub theirs: i64,
    pub ours: Row,
    /// The stress of the bar without rounding.
    pub exact: Fraction,
    /// Our yielded rows from the unused rod on, up to this one and with it.
    pub k: i64,
}

/// The rows of a table for a rod that began unused, all pairs being accepted; `history` is what it went through before
/// the call, and is empty where the rod is still unused.
pub fn beside(call: &Call, history: &[u8]) -> Vec<Beside> {
    let sheet = rules::read_sheet(&call.sheet).unwrap();
    let mut bar = Bar::new(&sheet);
    let mut k = rules::read_state(&call.state).unwrap().k;
    history.chunks(PAIR_BYTES).for_each(|pair| bar.feed(&rules::read_pair(pair).unwrap()));
    let ours = rules::call(&call.whole_run()).rows;
    let mut all = Vec::new();
    for (i, pair) in call.pairs.chunks(PAIR_BYTES).enumerate() {
        let row = |rows: &[u8]| Row::read(&rows[ROW_BYTES * i..]);
        let (theirs, ours) = (row(&call.rows).stress, row(&ours));
        bar.feed(&rules::read_pair(pair).unwrap());
        k += ours.yielded as i64;
        all.push(Beside { theirs, ours, exact: bar.stress.clone(), k });
    }
    all
}

impl Beside {
    /// How far their stress is from the exact one.
    pub fn error(&self) -> Fraction {
        (&Fraction::from(self.theirs) - &self.exact).abs()
    }

    /// How far ours is.
    pub fn rounding(&self) -> Fraction {
        (&Fraction::from(self.ours.stress) - &self.exact).abs()
    }
}

/// Whether a reader may rely on a verdict: the rows before the named one, or all of them where none is, lie at most
/// d + k from their exact stresses, and the named one farther than d − k.
pub fn holds(rows: &[Beside], tolerance: i64, named: u64) -> Result<(), &'static str> {
    let before = if named == 0 { rows.len() } else { named as usize - 1 };
    if rows[..before].iter().any(|row| row.error() > Fraction::from(tolerance + row.k)) {
        return Err("a row that is no further than d + k off");
    }
    match rows.get(before) {
        Some(row) if row.error() <= Fraction::from(tolerance - row.k) => {
            Err("a named row that is further than d - k off")
        }
        _ => Ok(()),
    }
}
