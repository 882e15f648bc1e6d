//! What the branch of a row (document 02, A6; SPEC 7.7) has to do with what
//! stands beside it: the yielded bit, plastic strain, the trial stress, and the
//! variables before and behind the pair. The trial is worked out here, in whole
//! numbers, and no version's own branch is asked.

use crate::call::{Call, Entry, Outcome};
use crate::layout::{self, PAIR_BYTES, ROW_BYTES, STATE_BYTES};
use crate::plain;
use crate::rules::Row;
use crate::steer::{Rod, Steel};

/// An accepted pair and the row that a version has for it.
pub struct Accepted {
    pub law: i64,
    pub before: Rod,
    pub after: Rod,
    /// The pair's own change of strain, and what it comes to without the thermal strain.
    pub change: i64,
    pub mechanical: i64,
    pub trial: i64,
    /// The least and the greatest whole stress within the limits before the pair.
    pub limits: (i64, i64),
    /// E times plastic strain before the pair.
    pub plastic: i64,
    pub row: Row,
}

impl Accepted {
    fn new(steel: &Steel, state: &[u8], pair: &[u8], next: &[u8], row: Row) -> Accepted {
        let [_, change, temperature] = layout::read(&layout::PAIR, pair);
        let (before, after) = (Rod::read(state), Rod::read(next));
        let thermal = steel.thermal(before.temperature);
        let mechanical = change - (steel.thermal(temperature) - thermal);
        let trial = before.stress + steel.e * mechanical;
        let limits = steel.limits(before.first, before.second);
        let plastic = steel.e * (before.strain - thermal) - before.stress;
        Accepted { law: steel.law, before, after, change, mechanical, trial, limits, plastic, row }
    }

    /// What E times plastic strain has grown by, as it is stored.
    pub fn growth(&self) -> i64 {
        self.row.plastic - self.plastic
    }
}

/// The accepted pairs of a run, a single pair or a trial, with the rows of an outcome; of any other call none. The
/// states on the way are the quick version's.
pub fn accepted(call: &Call, outcome: &Outcome) -> Vec<Accepted> {
    if !matches!(call.entry, Entry::Run | Entry::Pair | Entry::Trial) {
        return Vec::new();
    }
    let count = outcome.accepted(&call.pairs);
    let pairs = call.pairs.chunks(PAIR_BYTES).take(count);
    let mut state = call.state.clone();
    let mut all = Vec::new();
    for (pair, row) in pairs.zip(outcome.rows.chunks(ROW_BYTES)) {
        let (mut own, mut next) = ([0; ROW_BYTES], vec![0; STATE_BYTES]);
        plain::pair(&call.sheet, &state, pair, &mut own, &mut next);
        all.push(Accepted::new(&Steel::read(&call.sheet), &state, pair, &next, Row::read(row)));
        state = next;
    }
    all
}

/// The branch of a sign: tension above 0, compression below.
pub fn of_sign(value: i64) -> i64 {
    match value {
        0 => 0,
        1.. => 1,
        _ => 2,
    }
}

/// Whether a branch can stand in a row whose E times plastic strain has grown by so much. Under law 2 every flow shows
/// there; under the others a flow of less than a grain can be lost in the roundings of abscissa and stress.
pub fn goes_with(law: i64, branch: i64, growth: i64) -> bool {
    (0..=2).contains(&branch) && (of_sign(growth) == branch || growth == 0 && branch != 0 && law != 2)
}

/// All that the branch has to do with what stands beside it, or what of it fails.
pub fn holds(pair: &Accepted) -> Result<(), &'static str> {
    let Accepted { law, before, after, trial, row, .. } = pair;
    if row.yielded != (row.branch != 0) {
        return Err("a row is marked as yielded exactly where its branch isn't 0");
    }
    if !goes_with(*law, row.branch, pair.growth()) {
        return Err("the branch is the way that plastic strain goes");
    }
    let moved = (after.first - before.first, after.second - before.second);
    if row.branch == 0 {
        let stays = moved == (0, 0) && after.stress == *trial;
        return if stays { Ok(()) } else { Err("an elastic row moves no variable and ends at the trial stress") };
    }
    match law {
        2 if of_sign(trial - before.first) != row.branch => {
            Err("under law 2 it is the side of the old centre on which the trial lies")
        }
        3 if (of_sign(moved.0), of_sign(moved.1)) != (2 - row.branch, row.branch - 1) => {
            Err("under law 3 it is the side whose abscissa has grown, and the other side's stays")
        }
        0 | 1 if of_sign(*trial) != row.branch || moved.0 <= 0 => {
            Err("under laws 0 and 1 it is the sign of the trial, and the abscissa has grown")
        }
        _ => Ok(()),
    }
}
