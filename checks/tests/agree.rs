//! Calls by the rules over fractions, by the quick version and by the library:
//! number, place and every byte of every buffer are the same.

use checks::call::{difference, shortest, Call, Entry, WITHDRAWN};
use checks::fraction::Fraction;
use checks::generate::{self, PointDamage};
use checks::layout::{self, Field, PAIR_BYTES, POINT_BYTES, SEGMENT_BYTES, SHEET_BYTES, STATE_BYTES};
use checks::random::Random;
use checks::rules::{self, Flow, Law};
use checks::VERSIONS;

const VALID: usize = 400_000;
const DAMAGED: usize = 300_000;
const RANDOM: usize = 100_000;
const WRONG_LENGTHS: usize = 100_000;
const _: () = assert!(VALID + DAMAGED + RANDOM + WRONG_LENGTHS >= 300_000);

const ENTRIES: [Entry; 5] = [Entry::Run, Entry::Pair, Entry::Forecast, Entry::Unused, Entry::Trial];

/// How often each number was answered, by entry.
#[derive(Default)]
struct Tally {
    numbers: [[usize; 14]; 5],
}

impl Tally {
    /// Compares the versions on a call, and counts its number.
    fn compare(&mut self, call: &Call) {
        let wanted = rules::call(call);
        for (name, version) in VERSIONS {
            if difference(&wanted, &version(call)).is_some() {
                let call = shortest(call, |call| rules::call(call) != version(call));
                let text = difference(&rules::call(&call), &version(&call)).unwrap();
                panic!("{name} differs from the rules\n{call}{text}");
            }
        }
        self.numbers[call.entry as usize][wanted.number() as usize] += 1;
    }

    /// The same by every entry; a single pair and a trial get the first of the list.
    fn compare_by_every_entry(&mut self, call: &Call) {
        for entry in ENTRIES {
            let one = entry == Entry::Pair || entry == Entry::Trial;
            let pairs = if one { &call.pairs[..PAIR_BYTES] } else { &call.pairs };
            self.compare(&Call { entry, pairs: pairs.to_vec(), ..call.clone() });
        }
    }

    fn of(&self, entry: Entry) -> &[usize; 14] {
        &self.numbers[entry as usize]
    }

    /// Each of these numbers was answered by that entry, at least so often; the one that was taken out never.
    fn assert_seen(&self, entry: Entry, numbers: &[usize], least: usize) {
        for &number in numbers {
            assert!(self.of(entry)[number] >= least, "{entry:?} answered {number} seldom: {:?}", self.numbers);
        }
        assert_eq!(self.of(entry)[WITHDRAWN as usize], 0);
    }
}

#[test]
fn valid_calls() {
    let mut random = Random::new(100);
    let mut tally = Tally::default();
    let mut seen = Seen::default();
    for i in 0..VALID {
        let call = generate::valid(&mut random);
        tally.compare(&call);
        if i % 5 == 0 {
            seen.walk(&call);
        }
    }
    tally.assert_seen(Entry::Run, &[0, 8, 9, 10], VALID / 100);
    tally.assert_seen(Entry::Pair, &[0, 8, 9, 10], VALID / 1_000);
    tally.assert_seen(Entry::Forecast, &[0], VALID / 100);
    tally.assert_seen(Entry::Unused, &[0], VALID / 100);
    if std::env::var_os("CHECKS_PRINT").is_some() {
        println!("{:?}\n{seen:#?}", tally.numbers);
    }
    seen.assert_all();
}

#[test]
fn damaged_calls() {
    let mut random = Random::new(101);
    let mut tally = Tally::default();
    for _ in 0..DAMAGED {
        let mut call = generate::valid(&mut random);
        generate::damage(&mut random, &mut call);
        if random.chance(10) {
            generate::wrong_lengths(&mut random, &mut call);
        }
        tally.compare(&call);
    }
    let each = [1, 2, 3, 4, 5, 6, 7, 8, 9, 10, 12, 13];
    tally.assert_seen(Entry::Run, &each, 200);
    tally.assert_seen(Entry::Pair, &each, 20);
    tally.assert_seen(Entry::Forecast, &[0, 1, 2, 3, 4, 5, 6, 13], 20);
    tally.assert_seen(Entry::Unused, &[0, 1, 2, 3, 13], 20);
}

/// Each way to damage the points, by every entry, with a state and buffers that pass, and with ones that don't: the
/// number is the sheet's all the same.
#[test]
fn damaged_points() {
    const ROUNDS: usize = 300;
    let mut random = Random::new(110);
    let mut tally = Tally::default();
    for way in generate::POINT_DAMAGES {
        let number = match way {
            PointDamage::Length | PointDamage::Count | PointDamage::EqualAndLength => 1,
            PointDamage::FallingAndTangent => 3,
            PointDamage::Equal | PointDamage::Falling => 13,
            _ => 2,
        };
        for _ in 0..ROUNDS {
            let mut call = call_with_damaged_points(&mut random, way);
            for entry in ENTRIES {
                call.entry = entry;
                let other_lengths = entry != Entry::Unused && random.chance(15);
                if other_lengths {
                    call.rows.truncate(3);
                }
                call.next = random.bytes(STATE_BYTES + other_lengths as usize);
                assert_sheet_refused(&call, number, way);
                tally.compare(&call);
            }
        }
    }
    for entry in ENTRIES {
        tally.assert_seen(entry, &[1, 2, 3, 13], ROUNDS);
        assert_eq!(tally.of(entry)[13], 2 * ROUNDS);
    }
}

/// A sheet whose points are damaged, and sometimes a state or a list that is: what is wrong behind the sheet's numbers
/// has no say.
fn call_with_damaged_points(random: &mut Random, way: PointDamage) -> Call {
    let mut sheet = generate::sheet_with_points(random, 2);
    let mut state = generate::unused_state(&sheet);
    let mut pairs = generate::pairs(random, &sheet, &state, 1, None);
    generate::damage_points(random, &mut sheet, way);
    match random.below(8) {
        0 => state.truncate(36),
        1 => state[0] ^= 0x01,
        2 => pairs.push(0),
        3 => pairs[0] |= 0xe0,
        _ => {}
    }
    generate::with_buffers(random, Entry::Run, sheet, state, pairs)
}

/// By the rules the call gets this number with place 0, no row is written, and a state's place gets zeros.
fn assert_sheet_refused(call: &Call, number: u64, way: PointDamage) {
    let outcome = rules::call(call);
    assert_eq!(outcome.answer, number, "{way:?}\n{call}");
    assert_eq!(outcome.rows, call.rows);
    let untouched = call.entry == Entry::Forecast || call.next.len() != STATE_BYTES;
    let left = if untouched { &call.next[..] } else { &[0; STATE_BYTES] };
    assert_eq!(outcome.next, left);
}

/// Sheets with each number of points, at every temperature on a point, beside it, half-way between two and beyond both
/// ends, from the unused rod.
#[test]
fn every_point_is_met() {
    let mut random = Random::new(111);
    let mut tally = Tally::default();
    let mut sheets = [0; 9];
    for _ in 0..1_000 {
        let sheet = generate::sheet_with_points(&mut random, 1);
        let points = rules::read_sheet(&sheet).unwrap().points;
        sheets[points.len()] += 1;
        let mut temperatures = vec![-2_000, 20_000];
        for point in &points {
            temperatures.extend([point.temperature - 1, point.temperature, point.temperature + 1]);
        }
        for two in points.windows(2) {
            temperatures.push((two[0].temperature + two[1].temperature) / 2);
            temperatures.push(random.range(two[0].temperature, two[1].temperature));
        }
        for temperature in temperatures {
            // Strain that goes with the heat, as far as it may, leaves a stress that shows each nano.
            let steel = checks::steer::Steel::read(&sheet);
            let change = steel.thermal(temperature).clamp(-100_000_000, 100_000_000) + random.range(-1, 1);
            let pair = layout::write(&layout::PAIR, [0, change, temperature]);
            let state = generate::unused_state(&sheet);
            let call = generate::with_buffers(&mut random, Entry::Pair, sheet.clone(), state, pair);
            tally.compare(&call);
        }
    }
    assert!(sheets[1..].iter().all(|&count| count >= 30), "{sheets:?}");
    tally.assert_seen(Entry::Pair, &[0], 10_000);
    // a tenth beside a point at an end of the range
    tally.assert_seen(Entry::Pair, &[8], 100);
}

#[test]
fn random_calls() {
    let mut random = Random::new(102);
    let mut tally = Tally::default();
    for _ in 0..RANDOM {
        let mut call = generate::random_bytes(&mut random);
        // A sheet that passes, and then a state that does, lead past the first refusals.
        if random.chance(60) {
            call.sheet = generate::sheet(&mut random);
        }
        if random.chance(30) {
            call.state = generate::unused_state(&call.sheet);
        }
        tally.compare(&call);
    }
    tally.assert_seen(Entry::Run, &[1, 2, 4, 5, 7, 8, 12], 10);
}

#[test]
fn wrong_lengths() {
    let mut random = Random::new(103);
    let mut tally = Tally::default();
    for _ in 0..WRONG_LENGTHS {
        let mut call = generate::valid(&mut random);
        generate::wrong_lengths(&mut random, &mut call);
        tally.compare(&call);
    }
    tally.assert_seen(Entry::Run, &[0, 7, 12], 1_000);
    tally.assert_seen(Entry::Pair, &[7, 12], 1_000);
}

/// Every field of sheet, segment, point, state and pair at each end of its
/// range and beside it, on calls of every law that are accepted otherwise.
#[test]
fn ends_of_every_range() {
    let mut random = Random::new(104);
    let mut tally = Tally::default();
    for round in 0..40 {
        let sheet = generate::sheet_of_law(&mut random, round % 4);
        let state =
            if round < 20 { generate::unused_state(&sheet) } else { generate::reached_state(&mut random, &sheet) };
        let pairs = generate::pairs(&mut random, &sheet, &state, 3, None);
        let call = generate::with_buffers(&mut random, Entry::Run, sheet, state, pairs);
        tally.compare(&call);
        for mut call in with_sheet_ends(&call) {
            tally.compare_by_every_entry(&call);
            // With its length mended the sheet passes 1, and the fields are seen.
            generate::mend_length(&mut call.sheet);
            tally.compare_by_every_entry(&call);
        }
        let others = [with_segment_ends(&call), with_point_ends(&call), with_state_ends(&call), with_pair_ends(&call)];
        for call in others.iter().flatten() {
            tally.compare_by_every_entry(call);
        }
    }
    let each = [0, 1, 2, 3, 5, 6, 8, 9, 13];
    tally.assert_seen(Entry::Run, &each, 20);
    tally.assert_seen(Entry::Trial, &each, 20);
}

type Buffer = fn(&mut Call) -> &mut Vec<u8>;

/// The call with each field of a layout at each of its ends, in a buffer from byte `at` on.
fn with_ends<const N: usize>(
    call: &Call,
    buffer: Buffer,
    at: usize,
    layout: &[Field; N],
    ends: &[&[i64]; N],
) -> Vec<Call> {
    let mut calls = Vec::new();
    for (field, ends) in ends.iter().enumerate() {
        for &end in *ends {
            let mut call = call.clone();
            generate::with_field(layout, buffer(&mut call), at, field, end);
            calls.push(call);
        }
    }
    calls
}

fn with_sheet_ends(call: &Call) -> Vec<Call> {
    with_ends(call, |call| &mut call.sheet, 0, &layout::SHEET, &generate::SHEET_ENDS)
}

/// The ends of a segment's fields, and both fields at E and beside it.
fn with_segment_ends(call: &Call) -> Vec<Call> {
    let e = layout::read(&layout::SHEET, &call.sheet)[3];
    let near_e = [e - 1, e, e + 1];
    let sheet: Buffer = |call| &mut call.sheet;
    let each = |at| {
        let mut calls = with_ends(call, sheet, at, &layout::SEGMENT, &generate::SEGMENT_ENDS);
        calls.extend(with_ends(call, sheet, at, &layout::SEGMENT, &[&near_e; 2]));
        calls
    };
    (SHEET_BYTES..generate::points_at(&call.sheet)).step_by(SEGMENT_BYTES).flat_map(each).collect()
}

fn with_point_ends(call: &Call) -> Vec<Call> {
    let each = |at| with_ends(call, |call| &mut call.sheet, at, &layout::POINT, &generate::POINT_ENDS);
    (generate::points_at(&call.sheet)..call.sheet.len()).step_by(POINT_BYTES).flat_map(each).collect()
}

fn with_state_ends(call: &Call) -> Vec<Call> {
    with_ends(call, |call| &mut call.state, 0, &layout::STATE, &generate::STATE_ENDS)
}

fn with_pair_ends(call: &Call) -> Vec<Call> {
    let each = |at| with_ends(call, |call| &mut call.pairs, at, &layout::PAIR, &generate::PAIR_ENDS);
    (0..call.pairs.len()).step_by(PAIR_BYTES).flat_map(each).collect()
}

/// Runs of 4,096 pairs, and lists a byte or a pair longer.
#[test]
fn long_runs() {
    let mut random = Random::new(105);
    let mut tally = Tally::default();
    for law in 0..4 {
        for round in 0..3 {
            let sheet = generate::sheet_of_law(&mut random, law);
            let state = generate::unused_state(&sheet);
            let bad = Some(random.below(4_096) as usize).filter(|_| round == 2);
            let pairs = generate::pairs(&mut random, &sheet, &state, 4_096, bad);
            let call = generate::with_buffers(&mut random, Entry::Run, sheet, state, pairs);
            tally.compare(&call);
            for more in [1, 5, 6, 7, 12] {
                let mut call = call.clone();
                call.pairs.resize(call.pairs.len() + more, 0);
                call.rows.resize(call.rows.len() + 64, 0xee);
                tally.compare(&call);
            }
            let mut call = call;
            call.rows.truncate(16 * 4_096 - 1);
            tally.compare(&call);
        }
    }
    tally.assert_seen(Entry::Run, &[0, 7, 12], 4);
}

/// Empty buffers in every combination.
#[test]
fn empty_buffers() {
    let mut random = Random::new(106);
    let mut tally = Tally::default();
    for _ in 0..50 {
        let call = generate::valid(&mut random);
        for empty in 0..32 {
            let unless = |bit: usize, bytes: &Vec<u8>| if empty >> bit & 1 == 1 { Vec::new() } else { bytes.clone() };
            for entry in [Entry::Run, Entry::Pair, Entry::Forecast, Entry::Trial] {
                tally.compare(&Call {
                    entry,
                    sheet: unless(0, &call.sheet),
                    state: unless(1, &call.state),
                    pairs: unless(2, &call.pairs),
                    rows: unless(3, &call.rows),
                    next: unless(4, &call.next),
                    trial: call.trial.clone(),
                });
            }
        }
    }
    tally.assert_seen(Entry::Run, &[0, 1, 4, 12], 10);
}

/// The library against the quick version alone, over many more calls.
#[cfg(feature = "library")]
#[test]
fn many_quick_calls() {
    let mut random = Random::new(107);
    for i in 0..600_000 {
        let mut call = generate::valid(&mut random);
        if i % 4 == 0 {
            generate::damage(&mut random, &mut call);
        }
        let (wanted, got) = (checks::call::plain(&call), checks::library::call(&call));
        if let Some(text) = difference(&wanted, &got) {
            panic!("the library differs from the quick version\n{call}{text}");
        }
    }
}

/// What the pairs of the valid calls met, so that no case is missed unnoticed.
#[derive(Debug, Default)]
struct Seen {
    pairs: usize,
    accepted: usize,
    /// By law: elastic, tension, compression.
    flows: [[usize; 3]; 4],
    /// By law: trials that meet a limit exactly.
    at_limit: [usize; 4],
    /// New abscissas that are the start of a segment behind the first.
    at_start: usize,
    /// Flows into each segment of law 1.
    segments: [usize; 7],
    /// Pairs that change the temperature and flow.
    thermal: usize,
    /// Flows whose exact abscissa or centre isn't whole.
    rounded: usize,
    /// 10 by stress, centre, abscissa, n.
    ranges: [usize; 4],
    /// Calls by the number of the sheet's points: run or single pair, forecast, unused rod.
    counts: [[usize; 3]; 9],
    /// Accepted pairs at another temperature than before, on sheets with points.
    points: PointsSeen,
}

/// New temperatures, by where they lie.
#[derive(Debug, Default)]
struct PointsSeen {
    below: usize,
    above: usize,
    /// At a point, and a tenth beside one.
    at: usize,
    beside: usize,
    /// Between two points whose coefficients rise, fall, are one.
    between: [usize; 3],
    /// Between two points where the line isn't whole: rising, falling.
    rounded: [usize; 2],
    /// Between two neighbours of which one has coefficient 0 and the other 10,000.
    steepest: usize,
    flows: usize,
}

impl PointsSeen {
    fn meet(&mut self, points: &[rules::Point], temperature: i64, flow: Flow) {
        let (Some(first), Some(last)) = (points.first(), points.last()) else { return };
        self.flows += (flow != Flow::None) as usize;
        self.below += (temperature < first.temperature) as usize;
        self.above += (temperature > last.temperature) as usize;
        self.at += points.iter().any(|point| point.temperature == temperature) as usize;
        self.beside += points.iter().any(|point| (point.temperature - temperature).abs() == 1) as usize;
        let inside = |two: &&[rules::Point]| two[0].temperature < temperature && temperature < two[1].temperature;
        let Some(two) = points.windows(2).find(inside) else { return };
        let rise = two[1].coefficient - two[0].coefficient;
        let whole = rules::line(&two[0], &two[1], &Fraction::from(temperature)).whole().is_some();
        self.between[if rise > 0 { 0 } else { 1 + (rise == 0) as usize }] += 1;
        self.rounded[(rise < 0) as usize] += !whole as usize;
        self.steepest += (rise.abs() == 10_000) as usize;
    }

    fn all(&self) -> bool {
        let PointsSeen { below, above, at, beside, between, rounded, steepest, flows } = self;
        let counts = [below, above, at, beside, steepest, flows];
        counts.into_iter().chain(between).chain(rounded).all(|&count| count >= 300)
    }
}

impl Seen {
    fn walk(&mut self, call: &Call) {
        let sheet = rules::read_sheet(&call.sheet).unwrap();
        let counts = &mut self.counts[sheet.points.len()];
        match call.entry {
            Entry::Forecast => counts[1] += 1,
            Entry::Unused => counts[2] += 1,
            _ => counts[0] += 1,
        }
        if call.entry == Entry::Forecast || call.entry == Entry::Unused {
            return;
        }
        let mut state = rules::read_state(&call.state).unwrap();
        let law = sheet.law as usize;
        for bytes in call.pairs.chunks(PAIR_BYTES) {
            self.pairs += 1;
            let Ok(pair) = rules::read_pair(bytes) else { return };
            let old = state.numbers();
            let (before, after) = (Fraction::from(state.temperature), Fraction::from(pair.temperature));
            let trial = sheet.trial(&old.stress, &Fraction::from(pair.change), &before, &after);
            let (exact, flow) = rules::solution(&sheet, &old, &trial);
            let stored = rules::rounded(&sheet, &old, (&exact, flow));
            match rules::step(&sheet, &state, &pair) {
                Ok((new, _)) => {
                    self.accepted += 1;
                    self.flows[law][flow as usize] += 1;
                    self.thermal += (flow != Flow::None && state.temperature != pair.temperature) as usize;
                    self.rounded += (flow != Flow::None && exact != stored) as usize;
                    self.meet(&sheet, &old, &trial, flow, &stored);
                    if state.temperature != pair.temperature {
                        self.points.meet(&sheet.points, pair.temperature, flow);
                    }
                    state = new;
                }
                Err(10) => return self.leave(&sheet, &state, &stored),
                Err(_) => return,
            }
        }
    }

    /// 10: which of the ranges would be left.
    fn leave(&mut self, sheet: &rules::Sheet, state: &rules::State, stored: &rules::Numbers) {
        let beyond = |value: &Fraction, end: i64| value.abs() > Fraction::from(end);
        self.ranges[0] += beyond(&stored.stress, rules::STRESS) as usize;
        let first = if sheet.law == Law::Kinematic { rules::STRESS } else { rules::ABSCISSA };
        let which = if sheet.law == Law::Kinematic { 1 } else { 2 };
        self.ranges[which] += beyond(&stored.first, first) as usize;
        self.ranges[2] += beyond(&stored.second, rules::ABSCISSA) as usize;
        self.ranges[3] += (state.n == rules::COUNT) as usize;
    }

    fn meet(&mut self, sheet: &rules::Sheet, old: &rules::Numbers, trial: &Fraction, flow: Flow, new: &rules::Numbers) {
        let law = sheet.law as usize;
        let exactly = match sheet.law {
            Law::Line | Law::Curve => trial.abs() == sheet.tension.limit(&old.first),
            Law::Kinematic => (trial - &old.first).abs() == sheet.tension.yield_stress,
            Law::Asymmetric => {
                let compression = sheet.compression.as_ref().unwrap().limit(&old.second);
                *trial == sheet.tension.limit(&old.first) || -trial == compression
            }
        };
        self.at_limit[law] += exactly as usize;
        if sheet.law == Law::Curve && flow != Flow::None {
            let at = sheet.tension.segments.iter().rposition(|segment| segment.start <= new.first).unwrap();
            self.segments[at] += 1;
            self.at_start += (at > 0 && sheet.tension.segments[at].start == new.first) as usize;
        }
    }

    fn assert_all(&self) {
        assert!(self.accepted * 10 >= self.pairs * 6, "{self:#?}");
        for law in 0..4 {
            assert!(self.flows[law].iter().all(|&count| count >= 1_000), "{self:#?}");
            assert!(self.at_limit[law] >= 500, "{self:#?}");
        }
        assert!(self.segments.iter().all(|&count| count >= 200), "{self:#?}");
        assert!(self.at_start >= 1_000 && self.thermal >= 5_000 && self.rounded >= 5_000, "{self:#?}");
        assert!(self.ranges.iter().all(|&count| count >= 100), "{self:#?}");
        assert!(self.counts.iter().flatten().all(|&count| count >= 50), "{self:#?}");
        assert!(self.points.all(), "{self:#?}");
    }
}

#[test]
fn a_state_of_any_length() {
    let mut random = Random::new(108);
    let mut tally = Tally::default();
    let sheet = generate::sheet(&mut random);
    for length in 0..=2 * STATE_BYTES {
        let mut state = generate::unused_state(&sheet);
        state.resize(length, 0);
        let call = generate::with_buffers(&mut random, Entry::Run, sheet.clone(), state, Vec::new());
        tally.compare(&call);
        tally.compare(&Call { entry: Entry::Forecast, ..call });
    }
    assert_eq!(tally.of(Entry::Run)[4], 2 * STATE_BYTES);
    assert_eq!(tally.of(Entry::Forecast)[4], 2 * STATE_BYTES);
}

#[test]
fn a_sheet_of_any_length() {
    let mut random = Random::new(109);
    let mut tally = Tally::default();
    let mut compare = |counts: u8, points: Option<i64>, length: Option<usize>| {
        let mut sheet = generate::sheet(&mut random);
        if let Some(points) = points {
            generate::with_field(&layout::SHEET, &mut sheet, 0, 9, points);
        }
        sheet[0] = counts;
        let length = length.unwrap_or(layout::sheet_length(&sheet) + random.below(3) as usize - 1);
        sheet.resize(length, 0);
        let state = random.bytes(STATE_BYTES);
        let call = generate::with_buffers(&mut random, Entry::Unused, sheet, state, Vec::new());
        tally.compare(&call);
    };
    for counts in 0..=255 {
        for length in 0..=160 {
            compare(counts, None, Some(length));
        }
        // The length that all three counts give, and a byte less or more.
        for points in 0..16 {
            compare(counts, Some(points), None);
        }
    }
    tally.assert_seen(Entry::Unused, &[1, 2], 100);
}
