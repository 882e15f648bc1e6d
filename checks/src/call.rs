//! A call of the library: what it is given and what it leaves.

use std::fmt;

/// The number that was taken out of the list: no entry answers it (SPEC 8.7).
pub const WITHDRAWN: u64 = 11;

#[derive(Clone, Copy, Debug, PartialEq, Eq)]
pub enum Entry {
    /// A whole run.
    Run,
    /// A single pair.
    Pair,
    /// The forecast tangent of a state.
    Forecast,
    /// Making an unused rod.
    Unused,
    /// A trial of a single pair.
    Trial,
    /// The keeping of a trial.
    Keep,
}

/// The bytes of every buffer before the call. A forecast lends no buffer; an
/// unused rod is made in `next`, which has 37 bytes then. A trial fills `trial`,
/// and a keeping, which has no sheet, pairs and rows, reads it: it has 75 bytes
/// then, and no other call is lent it.
#[derive(Clone)]
pub struct Call {
    pub entry: Entry,
    pub sheet: Vec<u8>,
    pub state: Vec<u8>,
    pub pairs: Vec<u8>,
    pub rows: Vec<u8>,
    pub next: Vec<u8>,
    pub trial: Vec<u8>,
}

/// The answer (number + 256 × place, or × tangent for a forecast) and the
/// bytes of every lent buffer after the call; the state's too, which none writes.
#[derive(Clone, PartialEq, Eq)]
pub struct Outcome {
    pub answer: u64,
    pub state: Vec<u8>,
    pub rows: Vec<u8>,
    pub next: Vec<u8>,
    pub trial: Vec<u8>,
}

impl Call {
    /// The keeping of a trial by a rod that is in this state.
    pub fn keeping(trial: &[u8], state: &[u8], next: Vec<u8>) -> Call {
        let (sheet, pairs, rows) = (Vec::new(), Vec::new(), Vec::new());
        Call { entry: Entry::Keep, sheet, state: state.to_vec(), pairs, rows, next, trial: trial.to_vec() }
    }
}

impl Outcome {
    pub fn number(&self) -> u64 {
        self.answer % 256
    }

    pub fn place(&self) -> u64 {
        self.answer / 256
    }

    /// The accepted pairs of a run, a single pair or a trial, read off number and place.
    pub fn accepted(&self, pairs: &[u8]) -> usize {
        match self.number() {
            0 => pairs.len() / 6,
            8..=10 => self.place() as usize - 1,
            _ => 0,
        }
    }
}

pub fn hex(bytes: &[u8]) -> String {
    bytes.iter().map(|byte| format!("{byte:02x}")).collect()
}

impl fmt::Display for Call {
    fn fmt(&self, f: &mut fmt::Formatter) -> fmt::Result {
        writeln!(f, "call   {:?}", self.entry)?;
        for (name, bytes) in [
            ("sheet", &self.sheet),
            ("state", &self.state),
            ("pairs", &self.pairs),
            ("rows", &self.rows),
            ("next", &self.next),
            ("trial", &self.trial),
        ] {
            writeln!(f, "{name:6} {} bytes {}", bytes.len(), hex(bytes))?;
        }
        Ok(())
    }
}

impl fmt::Display for Outcome {
    fn fmt(&self, f: &mut fmt::Formatter) -> fmt::Result {
        writeln!(f, "number {} place {}", self.number(), self.place())?;
        writeln!(f, "state  {}", hex(&self.state))?;
        writeln!(f, "rows   {}", hex(&self.rows))?;
        writeln!(f, "next   {}", hex(&self.next))?;
        writeln!(f, "trial  {}", hex(&self.trial))
    }
}

/// What differs between the outcome that the rules ask for and another one, or nothing.
pub fn difference(wanted: &Outcome, got: &Outcome) -> Option<String> {
    if wanted == got {
        return None;
    }
    let place = |a: &[u8], b: &[u8]| a.iter().zip(b).position(|(a, b)| a != b);
    Some(format!(
        "answers equal: {}; first other byte of rows: {:?}; of next: {:?}; of trial: {:?}; of state: {:?}\n\
         wanted:\n{wanted}got:\n{got}",
        wanted.answer == got.answer,
        place(&wanted.rows, &got.rows),
        place(&wanted.next, &got.next),
        place(&wanted.trial, &got.trial),
        place(&wanted.state, &got.state),
    ))
}

/// The call with the shortest list of pairs, from the front, that still shows `fault`.
pub fn shortest(call: &Call, fault: impl Fn(&Call) -> bool) -> Call {
    let prefix = |pairs: usize| Call { pairs: call.pairs[..6 * pairs].to_vec(), ..call.clone() };
    (0..call.pairs.len() / 6).map(prefix).find(|shorter| fault(shorter)).unwrap_or_else(|| call.clone())
}

/// The call by the quick version in 64 bits.
pub fn plain(call: &Call) -> Outcome {
    let Call { entry, sheet, state, pairs, mut rows, mut next, mut trial } = call.clone();
    let answer = match entry {
        Entry::Run => crate::plain::run(&sheet, &state, &pairs, &mut rows, &mut next),
        Entry::Pair => crate::plain::pair(&sheet, &state, &pairs, &mut rows, &mut next),
        Entry::Forecast => crate::plain::forecast(&sheet, &state),
        Entry::Unused => crate::plain::unused(&sheet, next.first_chunk_mut().unwrap()),
        Entry::Trial => {
            let trial = trial.first_chunk_mut().unwrap();
            crate::plain::trial(&sheet, &state, &pairs, &mut rows, &mut next, trial)
        }
        Entry::Keep => crate::plain::keep(trial.first_chunk().unwrap(), &state, &mut next),
    };
    Outcome { answer, state, rows, next, trial }
}
