//! Tables to grade, as other firms send them: around our own rows, with stresses
//! that are off by just what is allowed or a grain more, and with anything beside
//! the stress; lists with a pair that is to be refused, and calls with damage of
//! every kind. Nothing here says what a call has to answer.

use crate::bundle;
use crate::call;
use crate::generate::{self, flowing_pair, pair, with_field};
use crate::grade::{beside, Beside, Call, TOLERANCE};
use crate::layout::{self, PAIR_BYTES, ROW_BYTES, SHEET_BYTES, STATE_BYTES};
use crate::plain;
use crate::random::Random;

/// Where the stress stands among the fields of a row.
const STRESS_FIELD: usize = 3;
/// The ends of a stress field, which lie beyond every stress of ours.
pub const LEAST: i64 = -(1 << 47);
pub const GREATEST: i64 = (1 << 47) - 1;

// ---- a table ----

/// Our own rows of a list, by the quick version; zeros from a refused pair on.
pub fn our_rows(call: &Call) -> Vec<u8> {
    let call::Call { mut rows, mut next, .. } = call.whole_run();
    plain::run(&call.sheet, &call.state, &call.pairs, &mut rows, &mut next);
    rows
}

pub fn stress(rows: &[u8], at: usize) -> i64 {
    layout::read(&layout::ROW, &rows[ROW_BYTES * at..])[STRESS_FIELD]
}

/// Gives the table a stress at a row, from 0; all that stands beside it stays.
pub fn set_stress(call: &mut Call, at: usize, theirs: i64) {
    with_field(&layout::ROW, &mut call.rows, ROW_BYTES * at, STRESS_FIELD, theirs);
}

fn tolerance(random: &mut Random) -> i64 {
    let any = random.range(0, TOLERANCE);
    let small = random.spread(0, TOLERANCE);
    random.pick(&[0, 0, 1, 2, small, small, small, any, TOLERANCE])
}

fn side(random: &mut Random) -> i64 {
    random.pick(&[-1, 1])
}

/// A stress that is to be within d of ours, often by the last grain.
fn within(random: &mut Random, ours: i64, d: i64) -> i64 {
    let any = random.range(-d, d);
    ours + random.pick(&[0, any, any, -d, d])
}

/// A stress that isn't to be within d of ours: a grain beyond it, far, alike in its lowest bits, or of the other sign.
fn beyond(random: &mut Random, ours: i64, d: i64) -> i64 {
    let theirs = match random.below(9) {
        0..=3 => ours + side(random) * (d + 1),
        4 => ours + side(random) * (d + 1 + random.spread(0, GREATEST)),
        5 => ours + side(random) * (1 << random.range(31, 46)),
        6 => ours + if ours < 0 { 1 << 47 } else { -(1 << 47) },
        7 => -ours,
        _ => random.pick(&[LEAST, LEAST + 1, GREATEST]),
    };
    theirs.clamp(LEAST, GREATEST)
}

/// Whatever another firm's solver has beside the stress: what we have, nothing, all bits, or any.
fn beside_the_stress(random: &mut Random, ours: &[u8]) -> Vec<u8> {
    match random.below(4) {
        0 => ours.to_vec(),
        1 => vec![0; ours.len()],
        2 => vec![0xff; ours.len()],
        _ => random.bytes(ours.len()),
    }
}

/// A table for the list and a tolerance: none, one or some of its rows are off.
pub fn fill(random: &mut Random, call: &mut Call) {
    let ours = our_rows(call);
    call.tolerance = tolerance(random);
    call.rows = beside_the_stress(random, &ours);
    let one = random.below(call.len() as u64 + 1) as usize;
    let percent = random.pick(&[0, 0, 0, 30, 100]);
    for at in 0..call.len() {
        let far = at == one || random.chance(percent);
        let choose = if far { beyond } else { within };
        let theirs = choose(random, stress(&ours, at), call.tolerance);
        set_stress(call, at, theirs);
    }
}

/// A call whose sheet, state, table and tolerance pass. A quarter of the lists has a pair that is to be refused.
pub fn valid(random: &mut Random) -> Call {
    let call::Call { sheet, state, pairs, .. } = generate::valid(random);
    let mut call = Call { sheet, state, pairs, rows: Vec::new(), tolerance: 0 };
    fill(random, &mut call);
    call
}

/// A table that makes the most of d: each stress is off by d, mostly on the side where the exact one isn't. One of them
/// is off by a grain more, where the exact one is: none, any, or the one where ours is furthest from it.
fn fill_around(random: &mut Random, call: &mut Call, rows: &[Beside]) {
    call.tolerance = random.pick(&[0, 1, 3, 20, 1_000]);
    let any = random.below(rows.len() as u64 + 1) as usize;
    let furthest = (0..rows.len()).max_by_key(|&at| rows[at].rounding()).unwrap_or(0);
    let far = random.pick(&[rows.len(), any, furthest, furthest]);
    for (at, row) in rows.iter().enumerate() {
        let ours = row.ours.stress;
        let away = if row.exact > ours.into() { -1 } else { 1 };
        let theirs = match random.below(4) {
            _ if at == far => ours - away * (call.tolerance + 1),
            0 | 1 => ours + away * call.tolerance,
            2 => ours - away * call.tolerance,
            _ => within(random, ours, call.tolerance),
        };
        set_stress(call, at, theirs);
    }
}

/// A list on a rod that began unused, a table around our rows of it, and the pairs that the rod went through before, so
/// many if they all pass.
pub fn list(random: &mut Random, law: i64, history: usize) -> (Call, Vec<u8>) {
    let sheet = if random.chance(70) { generate::small_sheet } else { generate::sheet_of_law }(random, law);
    let state = generate::unused_state(&sheet);
    let few = random.range(1, 3);
    let count = history + random.pick(&[few, few, 6, 14]) as usize;
    let choose = random.pick(&[pair, flowing_pair, flowing_pair, flowing_pair]);
    let pairs = generate::pairs_by(random, choose, &sheet, &state, count, None);
    let whole = Call { sheet, state, pairs, rows: Vec::new(), tolerance: 0 };
    // A pair that leaves a range ends the list before it.
    let accepted = call::plain(&whole.whole_run()).accepted(&whole.pairs);
    let before = history.min(accepted);
    let state = call::plain(&whole.run(before)).next;
    let (past, pairs) = whole.pairs[..PAIR_BYTES * accepted].split_at(PAIR_BYTES * before);
    let mut call = Call { state, pairs: pairs.to_vec(), ..whole.clone() };
    if random.chance(35) {
        fill(random, &mut call);
    } else {
        call.rows = our_rows(&call);
        let rows = beside(&call, past);
        fill_around(random, &mut call, &rows);
    }
    (call, past.to_vec())
}

// ---- a list whose pairs can be refused one by one ----

/// How many pairs the list of `heat` has.
pub const PAIRS: usize = 7;

/// An unused rod of the board's steel over a heat, in which it flows both ways; the table is our own, the tolerance 0.
pub fn heat(law: i64, points: bool) -> Call {
    let sheet = bundle::plate(law, points).sheet;
    let state = generate::unused_state(&sheet);
    let pairs: [(i64, i64); PAIRS] = [
        (700_000, 200),
        (800_001, 200),
        (-400_000, 260),
        (-2_999_999, 251),
        (0, 251),
        (3_100_007, 180),
        (-3_700_000, 300),
    ];
    let pair = |&(change, temperature): &(i64, i64)| layout::write(&layout::PAIR, [0, change, temperature]);
    let mut call = Call { sheet, state, pairs: pairs.iter().flat_map(pair).collect(), rows: Vec::new(), tolerance: 0 };
    call.rows = our_rows(&call);
    call
}

/// The numbers that a pair can be refused with.
pub const PAIRS_OWN: [u64; 3] = [8, 9, 10];

/// Makes the pair at a place, from 1, one that is refused with this number.
pub fn refuse(call: &mut Call, place: usize, number: u64) {
    let at = PAIR_BYTES * (place - 1);
    match number {
        8 => with_field(&layout::PAIR, &mut call.pairs, at, 0, 1),
        9 => with_field(&layout::PAIR, &mut call.pairs, at, 1, 200_000_000),
        10 => with_field(&layout::STATE, &mut call.state, 0, 8, u32::MAX as i64 - (place as i64 - 1)),
        _ => unreachable!("no pair is refused with {number}"),
    }
}

// ---- damage ----

pub const TOLERANCE_ENDS: [i64; 14] = [
    i64::MIN,
    -TOLERANCE - 1,
    -TOLERANCE,
    -(1 << 32),
    -1,
    0,
    1,
    TOLERANCE - 1,
    TOLERANCE,
    TOLERANCE + 1,
    1 << 40,
    1 << 48,
    (1 << 62) + TOLERANCE,
    i64::MAX,
];

/// Damages sheet, state or list, the table's length or its bits, or the tolerance.
pub fn damage(random: &mut Random, call: &mut Call) {
    match random.below(10) {
        0..=4 => damage_run(random, call),
        5 | 6 => {
            let length = other_length(random, call.rows.len());
            call.rows.resize(length, 0);
        }
        7 | 8 => call.tolerance = if random.chance(90) { random.pick(&TOLERANCE_ENDS) } else { random.draw() as i64 },
        _ if call.rows.is_empty() => {}
        _ => {
            let bit = random.below(8 * call.rows.len() as u64) as usize;
            call.rows[bit / 8] ^= 0x80 >> (bit % 8);
        }
    }
}

/// A length beside one: by a byte, a part of a row, a row or two, or none at all.
fn other_length(random: &mut Random, length: usize) -> usize {
    let by = random.pick(&[1, 1, PAIR_BYTES, ROW_BYTES - 1, ROW_BYTES, ROW_BYTES, ROW_BYTES + 1, 2 * ROW_BYTES]);
    match random.below(5) {
        0 | 1 => length + by,
        2 | 3 => length.saturating_sub(by),
        _ => 0,
    }
}

/// Damages sheet, state or list as those of a run are, if none of them has another length already.
fn damage_run(random: &mut Random, call: &mut Call) {
    let mut run = call.whole_run();
    let whole = run.sheet.len() >= SHEET_BYTES && layout::sheet_length(&run.sheet) == run.sheet.len();
    if whole && run.state.len() == STATE_BYTES && run.pairs.len().is_multiple_of(PAIR_BYTES) {
        generate::damage(random, &mut run);
    }
    (call.sheet, call.state, call.pairs) = (run.sheet, run.state, run.pairs);
}
