//! Lists of calls on one sheet, from its unused rod (SPEC 11): single pairs,
//! runs, trials and keepings. At every stop the state is held against the bar
//! without rounding, which is fed the history, and against counts of it.

use crate::bar::Bar;
use crate::branch;
use crate::call::{difference, hex, Call, Entry, Outcome};
use crate::fraction::Fraction;
use crate::layout::{PAIR_BYTES, ROW_BYTES, STATE_BYTES};
use crate::rules::{self, Law, Row, Sheet, State};
use crate::trial::TRIAL_BYTES;
use crate::Version;

/// What is asked for, or a text that says what fails.
pub type Held<T> = Result<T, String>;

// ---- the history ----

/// A history: the bar that was fed it, its pairs, its rows that are marked as yielded, and E times plastic strain in
/// the last of its rows.
#[derive(Clone)]
struct History<'a> {
    sheet: &'a Sheet,
    bar: Bar<'a>,
    pairs: Vec<u8>,
    yielded: i64,
    plastic: i64,
}

impl History<'_> {
    fn len(&self) -> usize {
        self.pairs.len() / PAIR_BYTES
    }

    /// One accepted pair more, with its row.
    fn add(&mut self, pair: &[u8], row: &Row) -> Result<(), &'static str> {
        holds(pair.len() == PAIR_BYTES, "an accepted pair has six bytes")?;
        self.bar.feed(&rules::read_pair(pair).map_err(|_| "an accepted pair passes 8")?);
        self.pairs.extend(pair);
        self.yielded += row.yielded as i64;
        holds(row.yielded == (row.branch != 0), "a row is marked as yielded exactly where its branch isn't 0")?;
        let goes_so = branch::goes_with(self.sheet.law as i64, row.branch, row.plastic - self.plastic);
        holds(goes_so, "the branch is the way that plastic strain goes")?;
        self.plastic = row.plastic;
        Ok(())
    }

    /// All that demand 3 says of a state where this history leads, or what of it fails.
    fn stop(&self, bytes: &[u8]) -> Result<State, &'static str> {
        let state = rules::read_state(bytes).map_err(|_| "the state passes 4 and 5")?;
        let (first, second) = (Fraction::from(state.first), Fraction::from(state.second));
        let Bar { stress, first: exact_first, second: exact_second, .. } = &self.bar;
        rules::state_fits(self.sheet, &state).map_err(|_| "the state passes 6")?;
        holds(state.k == self.yielded, "k is the number of rows marked as yielded")?;
        holds(state.n == self.len() as i64, "n is the number of accepted pairs")?;
        self.within_k(&Fraction::from(state.stress), stress, "stress")?;
        self.within_k(&plastic(self.sheet, &state), &self.bar.plastic(), "E times plastic strain")?;
        let tension = &self.sheet.tension;
        match self.sheet.law {
            Law::Kinematic => self.within_k(&first, exact_first, "X")?,
            _ => self.within_k(&tension.limit(&first), &tension.limit(exact_first), "T at the first abscissa")?,
        }
        if let Some(side) = &self.sheet.compression {
            self.within_k(&side.limit(&second), &side.limit(exact_second), "T at the second abscissa")?;
        }
        Ok(state)
    }

    /// The same of a state behind the pair of this row, and that the two agree.
    fn stop_with_row(&self, bytes: &[u8], row: &Row) -> Result<State, &'static str> {
        let state = self.stop(bytes)?;
        holds(row.yielded == state.yielded, "row and state have the same yielded bit")?;
        holds(row.stress == state.stress, "row and state have the same stress")?;
        let plastic = plastic(self.sheet, &state);
        holds(Fraction::from(row.plastic) == plastic, "row and state have the same plastic strain")?;
        Ok(state)
    }

    fn within_k(&self, stored: &Fraction, exact: &Fraction, what: &'static str) -> Result<(), &'static str> {
        holds((stored - exact).abs() <= Fraction::from(self.yielded), what)
    }
}

fn holds(what_is_so: bool, what: &'static str) -> Result<(), &'static str> {
    if what_is_so {
        Ok(())
    } else {
        Err(what)
    }
}

fn plastic(sheet: &Sheet, state: &State) -> Fraction {
    sheet.plastic(&Fraction::from(state.strain), &Fraction::from(state.temperature), &Fraction::from(state.stress))
}

// ---- the list ----

/// A trial as its maker has it: the answer, what it handed back for a keeping, its pair, and its row if it was accepted.
#[derive(Clone)]
pub struct Tried {
    pub answer: u64,
    pub trial: Vec<u8>,
    pub pair: Vec<u8>,
    pub row: Option<Row>,
}

impl Tried {
    fn of(given: &Call, outcome: &Outcome) -> Tried {
        let row = (outcome.answer == 0).then(|| Row::read(&outcome.rows));
        Tried { answer: outcome.answer, trial: outcome.trial.clone(), pair: given.pairs.clone(), row }
    }
}

/// A list of calls, walked to its end.
pub struct List<'a> {
    version: Version,
    /// What every call is compared with, in every byte, where there is one.
    model: Option<Version>,
    sheet_bytes: &'a [u8],
    history: History<'a>,
    /// The state that the next call is given.
    pub state: Vec<u8>,
    pub seen: Seen,
}

/// What a list has met.
#[derive(Debug, Default)]
pub struct Seen {
    pub stops: usize,
    pub yielded: usize,
    /// Stops whose stress is further than half of k, k at least 4, from the bar's.
    pub far: usize,
    /// Stops whose stress is further than nine tenths of k from the bar's.
    pub very_far: usize,
    /// Pairs at another temperature than before, on a sheet with points, and those of them that yielded.
    pub heated: usize,
    pub heated_yielded: usize,
    /// Calls by entry and number.
    pub numbers: [[usize; 16]; 6],
}

impl Seen {
    pub fn of(&self, entry: Entry) -> &[usize; 16] {
        &self.numbers[entry as usize]
    }

    pub fn add(&mut self, other: &Seen) {
        self.stops += other.stops;
        self.yielded += other.yielded;
        self.far += other.far;
        self.very_far += other.very_far;
        self.heated += other.heated;
        self.heated_yielded += other.heated_yielded;
        for (all, more) in self.numbers.iter_mut().flatten().zip(other.numbers.iter().flatten()) {
            *all += more;
        }
    }

    fn meet(&mut self, state: &State, history: &History) {
        let (k, stress) = (history.yielded, Fraction::from(state.stress));
        let error = (&stress - &history.bar.stress).abs();
        self.stops += 1;
        self.yielded += state.yielded as usize;
        self.far += (k >= 4 && error > Fraction::ratio(k, 2)) as usize;
        self.very_far += (k > 0 && error > Fraction::ratio(9 * k, 10)) as usize;
    }
}

impl<'a> List<'a> {
    pub fn new(version: Version, model: Option<Version>, sheet_bytes: &'a [u8], sheet: &'a Sheet) -> Held<List<'a>> {
        let history = History { sheet, bar: Bar::new(sheet), pairs: Vec::new(), yielded: 0, plastic: 0 };
        let (state, seen) = (Vec::new(), Seen::default());
        let mut list = List { version, model, sheet_bytes, history, state, seen };
        let outcome = list.left_by(&list.given(Entry::Unused, &[], 0, STATE_BYTES))?;
        list.demand(holds(outcome.answer == 0, "the sheet passes"))?;
        list.state = outcome.next;
        list.stop()?;
        Ok(list)
    }

    /// How many pairs the history has.
    pub fn len(&self) -> usize {
        self.history.len()
    }

    pub fn is_empty(&self) -> bool {
        self.len() == 0
    }

    /// A run or a single pair: its accepted pairs, read off number and place, go to the history.
    pub fn carry(&mut self, entry: Entry, pairs: &[u8], rows: usize, next: usize) -> Held<()> {
        let given = self.given(entry, pairs, rows, next);
        let outcome = self.left_by(&given)?;
        let after = if next == STATE_BYTES { &outcome.next } else { &outcome.state };
        let accepted = outcome.accepted(pairs);
        let rows = outcome.rows.chunks(ROW_BYTES).map(Row::read);
        for (i, (pair, row)) in pairs.chunks(PAIR_BYTES).zip(rows).take(accepted).enumerate() {
            let last = i + 1 == accepted;
            let state = if last { after.clone() } else { self.state_inside(&given, i + 1)? };
            self.accept(pair, &row, state)?;
        }
        self.demand(holds(*after == self.state, "a call that accepts no pair keeps the state"))
    }

    /// A trial: it moves nothing on, and what an accepted one foretells lies within k of the bar that is fed its pair
    /// too, k counting its row.
    pub fn trial(&mut self, pair: &[u8], row: usize, next: usize) -> Held<Tried> {
        let given = self.given(Entry::Trial, pair, row, next);
        let outcome = self.left_by(&given)?;
        let tried = Tried::of(&given, &outcome);
        if let Some(row) = &tried.row {
            let mut ahead = self.history.clone();
            self.demand(ahead.add(pair, row))?;
            self.demand(ahead.stop_with_row(&outcome.next, row))?;
        }
        self.state = outcome.state;
        self.stop()?;
        Ok(tried)
    }

    /// A trial on the list's sheet, but from any state that passes there: no call of the list.
    pub fn stray_trial(&mut self, state: &[u8], pair: &[u8]) -> Held<Tried> {
        let given = Call { state: state.to_vec(), ..self.given(Entry::Trial, pair, ROW_BYTES, STATE_BYTES) };
        let outcome = self.left_by(&given)?;
        Ok(Tried::of(&given, &outcome))
    }

    /// A keeping, by the list's state; its number. An accepted one adds the trial's pair and row to the history.
    pub fn keep(&mut self, tried: &Tried, next: usize) -> Held<u64> {
        let given = Call::keeping(&tried.trial, &self.state, vec![0xee; next]);
        let outcome = self.left_by(&given)?;
        match (outcome.answer, &tried.row) {
            (0, Some(row)) => self.accept(&tried.pair, row, outcome.next)?,
            (12 | 15, _) => {
                self.demand(holds(outcome.next == given.next, "a refused keeping writes no byte"))?;
                self.state = outcome.state;
                self.stop()?;
            }
            _ => self.demand(Err("an accepted trial is kept, or the number is 12 or 15"))?,
        }
        Ok(outcome.answer)
    }

    fn given(&self, entry: Entry, pairs: &[u8], rows: usize, next: usize) -> Call {
        let (sheet, state, pairs) = (self.sheet_bytes.to_vec(), self.state.clone(), pairs.to_vec());
        let (rows, next, trial) = (vec![0xee; rows], vec![0xee; next], vec![0xee; TRIAL_BYTES]);
        Call { entry, sheet, state, pairs, rows, next, trial }
    }

    /// What the version leaves, as the model does; its number is counted.
    fn left_by(&mut self, given: &Call) -> Held<Outcome> {
        let outcome = (self.version)(given);
        if let Some(text) = self.model.and_then(|model| difference(&model(given), &outcome)) {
            return Err(format!("{given}{text}"));
        }
        self.seen.numbers[given.entry as usize][outcome.number() as usize] += 1;
        self.demand(holds(!matches!(outcome.number(), 1..=6 | 13), "no call meets 1 to 6 or 13"))?;
        Ok(outcome)
    }

    /// The state at a stop inside a run: what a run of the pairs up to there leaves (SPEC 11.6).
    fn state_inside(&self, call: &Call, pairs: usize) -> Held<Vec<u8>> {
        let shorter = Call {
            entry: Entry::Run,
            pairs: call.pairs[..PAIR_BYTES * pairs].to_vec(),
            rows: vec![0xee; ROW_BYTES * pairs],
            next: vec![0xee; STATE_BYTES],
            ..call.clone()
        };
        let outcome = (self.version)(&shorter);
        self.demand(holds(outcome.answer == 0, "a run that ends at a stop is accepted"))?;
        Ok(outcome.next)
    }

    /// A pair of the history more, and the stop behind it.
    fn accept(&mut self, pair: &[u8], row: &Row, state: Vec<u8>) -> Held<()> {
        let before = self.history.bar.temperature.clone();
        let added = self.history.add(pair, row);
        self.demand(added)?;
        let stored = self.demand(self.history.stop_with_row(&state, row))?;
        let heated = !self.history.sheet.points.is_empty() && self.history.bar.temperature != before;
        self.seen.heated += heated as usize;
        self.seen.heated_yielded += (heated && row.yielded) as usize;
        self.seen.meet(&stored, &self.history);
        self.state = state;
        Ok(())
    }

    /// The stop where the list is.
    fn stop(&self) -> Held<()> {
        self.demand(self.history.stop(&self.state))?;
        Ok(())
    }

    /// What holds, or a text with the bytes that show what doesn't.
    fn demand<T>(&self, what: Result<T, &'static str>) -> Held<T> {
        what.map_err(|what| {
            let (sheet, pairs, state) = (hex(self.sheet_bytes), hex(&self.history.pairs), hex(&self.state));
            let k = self.history.yielded;
            format!("fails: {what}\nsheet   {sheet}\nhistory {pairs}\nstate   {state}\nk       {k}")
        })
    }
}
