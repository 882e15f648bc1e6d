//! Calls to try: sheets, states and pairs that pass, the ends of every range,
//! damaged fields, random bytes, and buffers of wrong lengths.
//!
//! The quick version steers: from the state reached so far a pair is chosen
//! that stays elastic, flows, or meets a limit, a segment's start, a point of
//! the expansion or the end of a range exactly. Nothing here says what a call
//! has to answer.

use crate::call::{Call, Entry};
use crate::layout::{self, Field, PAIR_BYTES, POINT_BYTES, ROW_BYTES, SEGMENT_BYTES, SHEET_BYTES, STATE_BYTES};
use crate::plain;
use crate::random::Random;
use crate::rules;
use crate::steer::{Piece, Rod, Steel};
use crate::trial::TRIAL_BYTES;

const STRAIN: i64 = 100_000_000;
const STRESS: i64 = 100_000_000_000_000;
const ABSCISSA: i64 = 100_000_000_000_000_000;
const COLDEST: i64 = -2_000;
const WARMEST: i64 = 20_000;

// ---- sheets ----

/// A modulus: small ones, those that divide a yield in grains, and any.
fn modulus(random: &mut Random) -> i64 {
    match random.below(8) {
        0 | 1 => random.range(1, 10),
        2 | 3 => random.pick(&[200_000, 100_000, 400_000, 1_000, 64, 50, 20, 210_000]),
        4 | 5 => random.spread(1, 400_000),
        6 => random.range(1, 400_000),
        _ => random.pick(&[1, 399_999, 400_000]),
    }
}

/// A yield, in 10⁻³ MPa: mostly one that strains within the range can reach,
/// often a multiple of the modulus, so that a whole strain meets a limit exactly.
fn yield_field(random: &mut Random, modulus: i64) -> i64 {
    match random.below(10) {
        0 => random.range(1, 10_000_000),
        1 => random.pick(&[1, 2, 10_000_000]),
        2..=4 => (random.range(1, 50) * modulus).min(10_000_000),
        _ => random.spread(1, (50 * modulus).min(10_000_000)),
    }
}

/// Segments that pass, each tangent not above the one before it.
fn segments(random: &mut Random, modulus: i64, count: usize) -> Vec<[i64; 2]> {
    let mut greatest = modulus - 1;
    let mut segments = Vec::new();
    for i in 0..count {
        let length = match random.below(10) {
            _ if i + 1 == count => 0,
            0 => random.range(1, STRAIN),
            1 => random.pick(&[1, 2, STRAIN]),
            _ => random.spread(1, 5_000_000),
        };
        let tangent = match random.below(8) {
            0 | 1 => greatest,
            2 => 0,
            3 => (greatest - 1).max(0),
            4 => random.spread(0, greatest.max(1)).min(greatest),
            _ => random.range(greatest / 4, greatest),
        };
        greatest = tangent;
        segments.push([length, tangent]);
    }
    segments
}

/// Temperatures that rise, for this many points: one tenth apart, near the reference, up to both ends of the range,
/// or any.
fn rising_temperatures(random: &mut Random, reference: i64, count: i64) -> Vec<i64> {
    let mut all: Vec<i64> = match random.below(5) {
        0 => {
            let near = (reference + random.range(-count, 1)).clamp(COLDEST, WARMEST + 1 - count);
            let first = random.pick(&[near, near, near, COLDEST, WARMEST + 1 - count]);
            (first..first + count).collect()
        }
        1 => (0..count).map(|i| COLDEST + (WARMEST - COLDEST) * i / (count - 1).max(1)).collect(),
        2 | 3 => {
            let first = (reference + random.range(-60, 20)).clamp(COLDEST, WARMEST - 200);
            (0..count).map(|i| first + 25 * i + random.range(0, 24)).collect()
        }
        _ => (0..count).map(|_| random.range(COLDEST, WARMEST)).collect(),
    };
    if random.chance(10) {
        all[0] = COLDEST;
    }
    if random.chance(10) {
        *all.last_mut().unwrap() = WARMEST;
    }
    all.sort();
    all.dedup();
    all
}

/// Points that pass, from one to eight: coefficients that rise, fall, stay, go up and down, or leap from end to end.
fn points(random: &mut Random, reference: i64) -> Vec<[i64; 3]> {
    let count = random.range(1, 8);
    let temperatures = rising_temperatures(random, reference, count);
    let (shape, high, odd) = (random.below(6), random.pick(&[10_000, 10_000, 2_000, 30]), random.range(0, 1));
    let mut coefficients: Vec<i64> = temperatures.iter().map(|_| random.range(0, high)).collect();
    match shape {
        0 => coefficients.sort(),
        1 | 2 => {
            coefficients.sort();
            coefficients.reverse();
        }
        3 => coefficients.fill(high),
        4 => coefficients = (odd..odd + temperatures.len() as i64).map(|i| 10_000 * (i % 2)).collect(),
        _ => {}
    }
    temperatures.into_iter().zip(coefficients).map(|(temperature, coefficient)| [temperature, 0, coefficient]).collect()
}

/// The bytes of a sheet from its fields, whatever they are.
pub fn sheet_bytes(head: [i64; 10], segments: &[[i64; 2]], points: &[[i64; 3]]) -> Vec<u8> {
    let mut bytes = layout::write(&layout::SHEET, head);
    for &segment in segments {
        bytes.extend(layout::write(&layout::SEGMENT, segment));
    }
    for &point in points {
        bytes.extend(layout::write(&layout::POINT, point));
    }
    bytes
}

/// A sheet that passes.
pub fn sheet(random: &mut Random) -> Vec<u8> {
    let law = random.below(4) as i64;
    sheet_of_law(random, law)
}

pub fn sheet_of_law(random: &mut Random, law: i64) -> Vec<u8> {
    let e = modulus(random);
    let (tension_yield, compression_yield) = (yield_field(random, e), yield_field(random, e));
    sheet_with(random, law, e, tension_yield, compression_yield)
}

/// A sheet of a modulus from 1 to 10 and of the smallest yields.
pub fn small_sheet(random: &mut Random, law: i64) -> Vec<u8> {
    let (tension_yield, compression_yield) = (random.range(1, 3), random.range(1, 3));
    let e = random.range(1, 10);
    sheet_with(random, law, e, tension_yield, compression_yield)
}

/// A sheet that passes and has this many points or more.
pub fn sheet_with_points(random: &mut Random, least: i64) -> Vec<u8> {
    loop {
        let sheet = sheet(random);
        if layout::read(&layout::SHEET, &sheet)[9] >= least {
            return sheet;
        }
    }
}

/// A sheet that passes, with this modulus and these yields; the other fields are random. Half have points.
fn sheet_with(random: &mut Random, law: i64, e: i64, tension_yield: i64, compression_yield: i64) -> Vec<u8> {
    let tensions = if law == 1 { random.range(1, 7) } else { 1 };
    let compressions = (law == 3) as i64;
    let expansion = match random.below(5) {
        0 => random.pick(&[0, 1, 10_000]),
        1 => random.range(0, 10_000),
        2 => 1_200,
        _ => random.spread(0, 10_000),
    };
    let reference = match random.below(4) {
        0 => random.pick(&[-2_000, 20_000]),
        1 => random.range(-2_000, 20_000),
        _ => 200,
    };
    let compression_yield = if law == 3 { compression_yield } else { 0 };
    let mut all = segments(random, e, tensions as usize);
    all.extend(segments(random, e, compressions as usize));
    let points = if random.chance(50) { points(random, reference) } else { Vec::new() };
    let expansion = if points.is_empty() { expansion } else { 0 };
    let count = points.len() as i64;
    let head = [law, tensions, compressions, e, expansion, reference, tension_yield, compression_yield, 0, count];
    sheet_bytes(head, &all, &points)
}

// ---- states ----

/// The start of a segment of the curve that lies ahead of an abscissa.
fn start_ahead(random: &mut Random, curve: &[Piece], abscissa: i64) -> Option<i64> {
    let ahead: Vec<i64> = curve.iter().map(|piece| piece.start).filter(|&start| start > abscissa).collect();
    (!ahead.is_empty()).then(|| random.pick(&ahead))
}

fn abscissa(random: &mut Random, curve: &[Piece]) -> i64 {
    let least = curve[0].start;
    let start = start_ahead(random, curve, least).unwrap_or(least);
    match random.below(10) {
        0 => least,
        1 => random.range(least, ABSCISSA),
        2 => ABSCISSA - random.spread(0, ABSCISSA - least),
        3 => ABSCISSA - random.spread(0, STRESS),
        4 | 5 => (start + random.range(-2, 2)).max(least),
        6 => least + random.spread(0, 1_000_000_000),
        7 => random.range(least, start),
        _ => random.spread(least, ABSCISSA),
    }
}

/// A state that passes on this sheet, reachable or not.
pub fn any_state(random: &mut Random, steel: &Steel) -> Vec<u8> {
    let first = match steel.law {
        2 => {
            let far = random.range(0, STRESS);
            let near = random.spread(0, STRESS);
            random.pick(&[-1, 1]) * random.pick(&[STRESS, far, near])
        }
        _ => abscissa(random, &steel.tension),
    };
    let second = if steel.law == 3 { abscissa(random, &steel.compression) } else { 0 };
    let (lowest, highest) = steel.limits(first, second);
    let (lower, upper) = (lowest.max(-STRESS), highest.min(STRESS));
    let inside = random.range(lower, upper);
    let stress = match random.below(6) {
        0 => lower,
        1 => upper,
        2 => random.spread(lower, upper),
        3 => {
            // a whole number of nanos away from a limit or, past it, from a segment's start
            let start = start_ahead(random, &steel.tension, first).filter(|_| steel.law < 2).unwrap_or(first);
            (inside + (highest + (start - first) - inside) % steel.e).min(upper)
        }
        _ => inside,
    };
    let strain = match random.below(6) {
        0 => random.pick(&[-STRAIN, STRAIN]),
        1 => random.range(-STRAIN, STRAIN),
        _ => random.pick(&[-1, 1]) * random.spread(0, STRAIN),
    };
    let n = match random.below(6) {
        0 => u32::MAX as i64 - random.range(0, 3),
        1 => random.range(0, u32::MAX as i64),
        _ => random.spread(0, u32::MAX as i64),
    };
    let some = random.range(0, n);
    let k = random.pick(&[0, n, some, 1]).min(n);
    let yielded = (k >= 1 && random.chance(60)) as i64;
    let temperature = temperature(random, steel, steel.reference);
    layout::write(&layout::STATE, [steel.law, yielded, 0, strain, temperature, stress, first, second, n, k])
}

pub fn unused_state(sheet: &[u8]) -> Vec<u8> {
    let mut state = [0; STATE_BYTES];
    plain::unused(sheet, &mut state);
    state.to_vec()
}

// ---- pairs ----

/// A temperature; where the sheet has points, often one of theirs, one beside it, between two, or beyond an end.
fn temperature(random: &mut Random, steel: &Steel, now: i64) -> i64 {
    let wanted = match (random.below(12), &steel.points[..]) {
        (0, _) => random.range(COLDEST, WARMEST),
        (1, _) => random.pick(&[COLDEST, WARMEST]),
        (2 | 3, points @ [first, .., last]) => {
            let between = random.range(first.0, last.0);
            let point = random.pick(points).0;
            random.pick(&[point, point, point - 1, point + 1, between, between, first.0 - 20, last.0 + 20])
        }
        (2, [only]) => only.0 + random.range(-1, 1),
        (2..=4, _) => now + random.range(-30, 30),
        _ => now,
    };
    wanted.clamp(COLDEST, WARMEST)
}

/// A pair that is to be accepted, from this state.
pub fn pair(random: &mut Random, steel: &Steel, rod: &Rod) -> [i64; 3] {
    let (lower, upper) = steel.limits(rod.first, rod.second);
    let temperature = temperature(random, steel, rod.temperature);
    let e = steel.e;
    // how far past the limit: from a grain to what half the strain range gives
    let past = random.spread(0, e * STRAIN / 2);
    let start = start_ahead(random, &steel.tension, rod.first).filter(|_| steel.law < 2);
    let wanted = match (random.below(16), start) {
        // a segment's start: |s| = start − A + T(A), mostly on the side where the stress is
        (0..=4, Some(start)) if random.chance(80) == (rod.stress >= 0) => upper + (start - rod.first),
        (0..=4, Some(start)) => lower - (start - rod.first),
        (0..=3, _) => random.range(lower, upper),
        (5..=8, _) => upper + past,
        (9..=12, _) => lower - past,
        (13, _) => upper,
        (14, _) => lower,
        _ => rod.stress,
    };
    let thermal = steel.thermal(temperature) - steel.thermal(rod.temperature);
    let nudge = random.pick(&[0, 0, 0, 0, 1, -1]);
    let change = (wanted.saturating_sub(rod.stress)).div_euclid(e).saturating_add(thermal + nudge);
    let mut change = change.clamp(-STRAIN - rod.strain, STRAIN - rod.strain);
    if random.chance(2) {
        change = random.pick(&[-STRAIN, STRAIN, 0]) - rod.strain;
    }
    [0, change, temperature]
}

/// A pair that flows, on either side, by little or much; one in ten at another temperature.
pub fn flowing_pair(random: &mut Random, steel: &Steel, rod: &Rod) -> [i64; 3] {
    let (lower, upper) = steel.limits(rod.first, rod.second);
    let e = steel.e;
    let near = random.range(-40, 40);
    let warmer = temperature(random, steel, (rod.temperature + near).clamp(COLDEST, WARMEST));
    let thermal = steel.thermal(warmer) - steel.thermal(rod.temperature);
    // only where the strain can make up for the heat
    let heats = random.chance(10) && (rod.strain + thermal).abs() < STRAIN / 2;
    let (temperature, thermal) = if heats { (warmer, thermal) } else { (rod.temperature, 0) };
    // as far as the strain allows, either way
    let strain = rod.strain + thermal;
    let (highest, lowest) = ((STRAIN - strain) * e + rod.stress, (-STRAIN - strain) * e + rod.stress);
    // mostly by little, so that the limits stay within reach of the strain
    let way = if random.chance(2) { STRAIN / 4 } else { random.pick(&[1, 2, 100, 10_000]) };
    let past = random.range(1, e * way);
    let up = if random.chance(90) { rod.stress <= 0 } else { random.chance(50) };
    let wanted = if up && highest > upper || lowest >= lower { upper + past } else { lower - past };
    let change = (wanted.clamp(lowest, highest) - rod.stress).div_euclid(e) + thermal + up as i64;
    [0, change.clamp(-STRAIN - rod.strain, STRAIN - rod.strain), temperature]
}

/// A pair that is to be refused with 8 or 9, from this state.
pub fn bad_pair(random: &mut Random, rod: &Rod) -> [i64; 3] {
    let change = random.range(-1_000, 1_000);
    match random.below(7) {
        0 => [random.range(1, 7), change, rod.temperature],
        1 => [0, random.pick(&[200_000_001, -200_000_001, (1 << 28) - 1, -(1 << 28)]), rod.temperature],
        2 => [0, change, random.pick(&[-2_001, 20_001, -32_768, 32_767])],
        3 => [0, STRAIN + 1 - rod.strain, rod.temperature],
        4 => [0, -STRAIN - 1 - rod.strain, rod.temperature],
        5 => {
            let over = random.spread(1, STRAIN);
            [0, if rod.strain > 0 { STRAIN + over } else { -STRAIN - over } - rod.strain, rod.temperature]
        }
        _ => [random.draw() as i64, random.draw() as i64, random.draw() as i64],
    }
}

/// Pairs one after another from a state; `bad` is the place of one that is to be refused.
pub fn pairs(random: &mut Random, sheet: &[u8], state: &[u8], count: usize, bad: Option<usize>) -> Vec<u8> {
    pairs_by(random, pair, sheet, state, count, bad)
}

pub type NextPair = fn(&mut Random, &Steel, &Rod) -> [i64; 3];

/// Pairs, each chosen by `choose` from the state reached before it.
pub fn pairs_by(
    random: &mut Random,
    choose: NextPair,
    sheet: &[u8],
    state: &[u8],
    count: usize,
    bad: Option<usize>,
) -> Vec<u8> {
    let steel = Steel::read(sheet);
    let mut state = state.to_vec();
    let mut bytes = Vec::new();
    for i in 0..count {
        let rod = Rod::read(&state);
        let values = if bad == Some(i) { bad_pair(random, &rod) } else { choose(random, &steel, &rod) };
        let new = layout::write(&layout::PAIR, values);
        let (mut row, mut next) = ([0; ROW_BYTES], vec![0; STATE_BYTES]);
        plain::pair(sheet, &state, &new, &mut row, &mut next);
        state = next;
        bytes.extend(new);
    }
    bytes
}

/// A state that some pairs lead to from the unused rod.
pub fn reached_state(random: &mut Random, sheet: &[u8]) -> Vec<u8> {
    let state = unused_state(sheet);
    let count = random.range(1, 12) as usize;
    let pairs = pairs(random, sheet, &state, count, None);
    let (mut rows, mut next) = (vec![0; ROW_BYTES * count], vec![0; STATE_BYTES]);
    plain::run(sheet, &state, &pairs, &mut rows, &mut next);
    next
}

/// A state that passes on a sheet: of the unused rod, one that pairs lead to, or any.
pub fn state(random: &mut Random, sheet: &[u8]) -> Vec<u8> {
    match random.below(4) {
        0 => unused_state(sheet),
        1 => reached_state(random, sheet),
        _ => any_state(random, &Steel::read(sheet)),
    }
}

// ---- calls ----

/// A call on buffers that fit, the bytes of rows and next state random.
pub fn with_buffers(random: &mut Random, entry: Entry, sheet: Vec<u8>, state: Vec<u8>, pairs: Vec<u8>) -> Call {
    let spare = if random.chance(40) { random.below(40) as usize } else { 0 };
    let rows = random.bytes(pairs.len() / PAIR_BYTES * ROW_BYTES + spare);
    let next = random.bytes(STATE_BYTES);
    Call { entry, sheet, state, pairs, rows, next, trial: vec![0xee; TRIAL_BYTES] }
}

/// A call of any entry on a sheet and a state that pass. Of the runs a quarter
/// holds a pair that is to be refused.
pub fn valid(random: &mut Random) -> Call {
    let sheet = sheet(random);
    let state = state(random, &sheet);
    match random.below(20) {
        0 => return with_buffers(random, Entry::Forecast, sheet, state, Vec::new()),
        1 => return with_buffers(random, Entry::Unused, sheet, state, Vec::new()),
        _ => {}
    }
    let count = match random.below(10) {
        0 => 0,
        1..=3 => 1,
        4..=8 => random.range(2, 12),
        _ => random.range(13, 40),
    } as usize;
    let bad = (count > 0 && random.chance(25)).then(|| random.below(count as u64) as usize);
    let pairs = pairs(random, &sheet, &state, count, bad);
    let entry = if count == 1 && random.chance(60) { Entry::Pair } else { Entry::Run };
    with_buffers(random, entry, sheet, state, pairs)
}

/// Gives a lent buffer or the list another length.
pub fn wrong_lengths(random: &mut Random, call: &mut Call) {
    if call.entry == Entry::Unused {
        call.entry = Entry::Run;
    }
    if random.chance(50) {
        let less = random.pick(&[1, 2, ROW_BYTES, call.rows.len()]).min(call.rows.len());
        call.rows.truncate(call.rows.len() - less);
    }
    if random.chance(50) {
        let length = random.pick(&[0, 1, STATE_BYTES - 1, STATE_BYTES + 1, 2 * STATE_BYTES, 3]);
        call.next = random.bytes(length);
    }
    if random.chance(25) {
        let length = random.pick(&[0, 1, 5, 7, 11, 12, 13, call.pairs.len() + 1]);
        call.pairs.resize(length, 0);
    }
}

/// Damages sheet, state or list by a field, a bit, a byte or a length.
pub fn damage(random: &mut Random, call: &mut Call) {
    let points = layout::read(&layout::SHEET, &call.sheet)[9];
    match random.below(14) {
        12 if points >= 1 => {
            let at = point_at(&call.sheet, random.below(points as u64) as i64);
            set_field(random, &layout::POINT, &POINT_ENDS, &mut call.sheet, at);
        }
        13 if points >= 2 => {
            let way = random.pick(&POINT_DAMAGES);
            damage_points(random, &mut call.sheet, way);
        }
        0..=2 => {
            set_field(random, &layout::SHEET, &SHEET_ENDS, &mut call.sheet, 0);
            if random.chance(30) {
                mend_length(&mut call.sheet);
            }
        }
        3 => damage_segment(random, &mut call.sheet),
        4..=6 => set_field(random, &layout::STATE, &STATE_ENDS, &mut call.state, 0),
        7 => near_the_sheet(random, call),
        8 if !call.pairs.is_empty() => {
            let at = PAIR_BYTES * random.below((call.pairs.len() / PAIR_BYTES) as u64) as usize;
            set_field(random, &layout::PAIR, &PAIR_ENDS, &mut call.pairs, at);
        }
        9 | 10 => damage_byte(random, call),
        _ => damage_length(random, call),
    }
}

/// A segment's field at an end of its range, or its tangent near E or near what it was.
fn damage_segment(random: &mut Random, sheet: &mut [u8]) {
    let count = (points_at(sheet) - SHEET_BYTES) / SEGMENT_BYTES;
    let at = SHEET_BYTES + SEGMENT_BYTES * random.below(count as u64) as usize;
    let e = layout::read(&layout::SHEET, sheet)[3];
    if random.chance(50) {
        let [length, tangent] = layout::read(&layout::SEGMENT, &sheet[at..]);
        let tangent = random.pick(&[e - 1, e, e + 1, tangent + 1, tangent - 1, 0]);
        put(sheet, at, layout::write(&layout::SEGMENT, [length, tangent]));
    } else {
        set_field(random, &layout::SEGMENT, &SEGMENT_ENDS, sheet, at);
    }
}

/// Sheet, state or list.
fn any_buffer<'a>(random: &mut Random, call: &'a mut Call) -> &'a mut Vec<u8> {
    match random.below(3) {
        0 => &mut call.sheet,
        1 => &mut call.state,
        _ => &mut call.pairs,
    }
}

/// A bit or a whole byte.
fn damage_byte(random: &mut Random, call: &mut Call) {
    let bytes = any_buffer(random, call);
    if !bytes.is_empty() {
        let at = random.below(bytes.len() as u64) as usize;
        bytes[at] ^= if random.chance(70) { 1 << random.below(8) } else { random.draw() as u8 };
    }
}

fn damage_length(random: &mut Random, call: &mut Call) {
    let bytes = any_buffer(random, call);
    let length = match random.below(3) {
        0 => random.below(bytes.len() as u64 + 1) as usize,
        1 => bytes.len() + random.pick(&[1, 6, 3, 4]),
        _ => bytes.len().saturating_sub(random.pick(&[1, 6, 3, 4])),
    };
    bytes.resize(length, random.draw() as u8);
}

/// Where the points of a sheet begin, by its counts.
pub fn points_at(sheet: &[u8]) -> usize {
    layout::sheet_length(sheet) - POINT_BYTES * layout::read(&layout::SHEET, sheet)[9] as usize
}

/// Where a point begins, by the sheet's counts and its place from 0.
fn point_at(sheet: &[u8], place: i64) -> usize {
    points_at(sheet) + POINT_BYTES * place as usize
}

/// Gives a sheet the length that its counts ask for.
pub fn mend_length(sheet: &mut Vec<u8>) {
    sheet.resize(layout::sheet_length(sheet), 0);
}

/// A way to damage the points of a sheet that passes otherwise.
#[derive(Clone, Copy, Debug, PartialEq, Eq)]
pub enum PointDamage {
    /// The sheet ends before its points or within one, or has one too few or too many.
    Length,
    /// c is another one, and the sheet isn't.
    Count,
    /// c is 9 to 15, and there are as many points; their temperatures rise, stay or fall.
    NinePoints,
    SingleNumber,
    HeaderZeroBits,
    Temperature,
    Coefficient,
    PointZeroBits,
    Equal,
    Falling,
    /// Falling, with a tangent that breaks its rule.
    FallingAndTangent,
    /// Falling, with a field out of its range.
    FallingAndField,
    /// Equal, with a wrong length.
    EqualAndLength,
}

pub const POINT_DAMAGES: [PointDamage; 13] = [
    PointDamage::Length,
    PointDamage::Count,
    PointDamage::NinePoints,
    PointDamage::SingleNumber,
    PointDamage::HeaderZeroBits,
    PointDamage::Temperature,
    PointDamage::Coefficient,
    PointDamage::PointZeroBits,
    PointDamage::Equal,
    PointDamage::Falling,
    PointDamage::FallingAndTangent,
    PointDamage::FallingAndField,
    PointDamage::EqualAndLength,
];

/// Those that put a field out of its range and leave the temperatures as they are.
const FIELD_DAMAGES: [PointDamage; 4] =
    [PointDamage::Coefficient, PointDamage::PointZeroBits, PointDamage::SingleNumber, PointDamage::HeaderZeroBits];

/// Damages a sheet that passes and has two points or more.
pub fn damage_points(random: &mut Random, sheet: &mut Vec<u8>, way: PointDamage) {
    let [.., e, _, _, _, _, _, count] = layout::read(&layout::SHEET, sheet);
    // mostly the first or the last point
    let any = random.range(0, count - 1);
    let at = point_at(sheet, random.pick(&[0, count - 1, any]));
    // the second of two neighbours, mostly of the first two or the last two
    let any = random.range(1, count - 1);
    let second = random.pick(&[1, count - 1, any]);
    match way {
        PointDamage::Length => other_points_length(random, sheet),
        PointDamage::Count => with_field(&layout::SHEET, sheet, 0, 9, (count + random.range(1, 15)) % 16),
        PointDamage::NinePoints => nine_points(random, sheet),
        PointDamage::SingleNumber => {
            with_field(&layout::SHEET, sheet, 0, 4, random.pick(&[1, 1_200, 10_000, 10_001, FULL]))
        }
        PointDamage::HeaderZeroBits => with_field(&layout::SHEET, sheet, 0, 8, random.range(1, 3)),
        PointDamage::Temperature => {
            with_field(&layout::POINT, sheet, at, 0, random.pick(&[-32_768, COLDEST - 1, WARMEST + 1, 32_767]))
        }
        PointDamage::Coefficient => with_field(&layout::POINT, sheet, at, 2, random.pick(&[10_001, FULL])),
        PointDamage::PointZeroBits => with_field(&layout::POINT, sheet, at, 1, random.range(1, 3)),
        PointDamage::Equal => equal_temperatures(sheet, second),
        PointDamage::Falling => falling_temperatures(random, sheet, second),
        PointDamage::FallingAndTangent => {
            damage_points(random, sheet, PointDamage::Falling);
            with_field(&layout::SEGMENT, sheet, SHEET_BYTES, 1, random.pick(&[e, e + 1, FULL]));
        }
        PointDamage::FallingAndField => {
            damage_points(random, sheet, PointDamage::Falling);
            let field = random.pick(&FIELD_DAMAGES);
            damage_points(random, sheet, field);
        }
        PointDamage::EqualAndLength => {
            damage_points(random, sheet, PointDamage::Equal);
            damage_points(random, sheet, PointDamage::Length);
        }
    }
}

/// The length without the points, or with one too few or too many, or ending within one.
fn other_points_length(random: &mut Random, sheet: &mut Vec<u8>) {
    let fewer = sheet.len() - POINT_BYTES;
    let lengths = [points_at(sheet), fewer, fewer + 1, fewer + 2, fewer + 3, fewer + 5, fewer + 8];
    sheet.resize(random.pick(&lengths), 0);
}

/// Nine to fifteen points in the place of the sheet's own.
fn nine_points(random: &mut Random, sheet: &mut Vec<u8>) {
    let count = random.range(9, 15);
    sheet.truncate(points_at(sheet));
    with_field(&layout::SHEET, sheet, 0, 9, count);
    let step = random.pick(&[100, 100, 0, -100]);
    for i in 0..count {
        sheet.extend(layout::write(&layout::POINT, [step * i, 0, 1_200]));
    }
}

fn point_temperature(sheet: &[u8], place: i64) -> i64 {
    layout::read(&layout::POINT, &sheet[point_at(sheet, place)..])[0]
}

fn set_point_temperature(sheet: &mut [u8], place: i64, temperature: i64) {
    let at = point_at(sheet, place);
    with_field(&layout::POINT, sheet, at, 0, temperature);
}

/// A point gets the temperature of the one before it.
fn equal_temperatures(sheet: &mut [u8], second: i64) {
    let before = point_temperature(sheet, second - 1);
    set_point_temperature(sheet, second, before);
}

/// Two neighbours are exchanged, or come a tenth apart, the warmer first.
fn falling_temperatures(random: &mut Random, sheet: &mut [u8], second: i64) {
    let (before, after) = (point_temperature(sheet, second - 1), point_temperature(sheet, second));
    set_point_temperature(sheet, second - 1, after);
    set_point_temperature(sheet, second, if random.chance(50) { before } else { after - 1 });
}

/// A state near what the sheet allows: its law, a yield, a limit, or the second variable.
fn near_the_sheet(random: &mut Random, call: &mut Call) {
    if rules::read_sheet(&call.sheet).is_err() || rules::read_state(&call.state).is_err() {
        return;
    }
    let (steel, rod) = (Steel::read(&call.sheet), Rod::read(&call.state));
    let (lower, upper) = steel.limits(rod.first, rod.second);
    let mut values = layout::read(&layout::STATE, &call.state);
    match random.below(5) {
        0 => values[0] = random.range(0, 3),
        1 => values[5] = random.pick(&[lower - 1, lower, upper, upper + 1]).clamp(-STRESS, STRESS),
        2 => values[6] = steel.tension[0].start + random.range(-1, 1),
        3 => values[7] = steel.compression.first().map_or(0, |piece| piece.start) + random.range(-1, 1),
        _ => values[7] = random.pick(&[1, -1, i64::MIN, i64::MAX, ABSCISSA]),
    }
    call.state = layout::write(&layout::STATE, values);
}

/// Buffers of random bytes, some with lengths that fit.
pub fn random_bytes(random: &mut Random) -> Call {
    let entry = random.pick(&[Entry::Run, Entry::Pair, Entry::Forecast, Entry::Unused]);
    let length = random.below(160) as usize;
    let mut sheet = random.bytes(length);
    if random.chance(60) {
        sheet = random.bytes(SHEET_BYTES + SEGMENT_BYTES + 15 * POINT_BYTES);
        sheet[0] = 0x08 | sheet[0] & 0xc0;
        mend_length(&mut sheet);
    }
    let length = if random.chance(70) { STATE_BYTES } else { random.below(80) as usize };
    let state = random.bytes(length);
    let length = random.below(40) as usize * if random.chance(70) { PAIR_BYTES } else { 1 };
    let pairs = random.bytes(length);
    let rows = random.below(700) as usize;
    let rows = random.bytes(rows);
    let next = if entry == Entry::Unused || random.chance(70) { STATE_BYTES } else { random.below(80) as usize };
    let next = random.bytes(next);
    Call { entry, sheet, state, pairs, rows, next, trial: vec![0xee; TRIAL_BYTES] }
}

// ---- the ends of the ranges ----

const FULL: i64 = -1;

/// For each field the ends of its range, what lies beside them, and the ends of the field.
pub const SHEET_ENDS: [&[i64]; 10] = [
    &[0, 1, 2, 3],
    &[0, 1, 2, 3, 4, 5, 6, 7],
    &[0, 1, 2, 3, 4, 5, 6, 7],
    &[0, 1, 2, 399_999, 400_000, 400_001, FULL],
    &[0, 1, 9_999, 10_000, 10_001, FULL],
    &[-32_768, -2_001, -2_000, -1_999, 0, 19_999, 20_000, 20_001, 32_767],
    &[0, 1, 2, 9_999_999, 10_000_000, 10_000_001, FULL],
    &[0, 1, 2, 9_999_999, 10_000_000, 10_000_001, FULL],
    &[0, 1, 2, FULL],
    &[0, 1, 2, 3, 4, 5, 6, 7, 8, 9, 10, 11, 12, 13, 14, 15],
];

pub const SEGMENT_ENDS: [&[i64]; 2] =
    [&[0, 1, 2, 99_999_999, STRAIN, STRAIN + 1, FULL], &[0, 1, 2, 399_999, 400_000, 400_001, FULL]];

pub const POINT_ENDS: [&[i64]; 3] = [
    &[-32_768, -2_001, -2_000, -1_999, 0, 19_999, 20_000, 20_001, 32_767],
    &[0, 1, 2, FULL],
    &[0, 1, 9_999, 10_000, 10_001, FULL],
];

pub const STATE_ENDS: [&[i64]; 10] = [
    &[0, 1, 2, 3],
    &[0, 1],
    &[0, 1, 2, 4, 8, 16, FULL],
    &[-1 << 31, -STRAIN - 1, -STRAIN, 0, STRAIN, STRAIN + 1, (1 << 31) - 1],
    &[-32_768, -2_001, -2_000, 0, 20_000, 20_001, 32_767],
    &[-1 << 47, -STRESS - 1, -STRESS, -1, 0, 1, STRESS, STRESS + 1, (1 << 47) - 1],
    &[i64::MIN, -STRESS - 1, -STRESS, -1, 0, 1, STRESS, STRESS + 1, ABSCISSA, ABSCISSA + 1, i64::MAX],
    &[i64::MIN, -ABSCISSA, -1, 0, 1, STRESS, ABSCISSA, ABSCISSA + 1, i64::MAX],
    &[0, 1, 2, (1 << 32) - 2, (1 << 32) - 1],
    &[0, 1, 2, (1 << 32) - 2, (1 << 32) - 1],
];

pub const PAIR_ENDS: [&[i64]; 3] = [
    &[0, 1, 2, 4, FULL],
    &[
        -1 << 28,
        -200_000_001,
        -200_000_000,
        -STRAIN - 1,
        -STRAIN,
        0,
        STRAIN,
        STRAIN + 1,
        200_000_000,
        200_000_001,
        (1 << 28) - 1,
    ],
    &[-32_768, -2_001, -2_000, 0, 20_000, 20_001, 32_767],
];

fn put(bytes: &mut [u8], at: usize, field: Vec<u8>) {
    bytes[at..at + field.len()].copy_from_slice(&field);
}

/// Sets a field to an end of its range or to any value.
fn set_field<const N: usize>(
    random: &mut Random,
    layout: &[Field; N],
    ends: &[&[i64]; N],
    bytes: &mut [u8],
    at: usize,
) {
    let field = random.below(N as u64) as usize;
    let value = if random.chance(75) { random.pick(ends[field]) } else { random.draw() as i64 };
    with_field(layout, bytes, at, field, value);
}

/// Sets one field of a layout that begins at byte `at`.
pub fn with_field<const N: usize>(layout: &[Field; N], bytes: &mut [u8], at: usize, field: usize, value: i64) {
    let mut values = layout::read(layout, &bytes[at..]);
    values[field] = value;
    put(bytes, at, layout::write(layout, values));
}
