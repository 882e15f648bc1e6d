//! Gradings (SPEC 17) by the rules over fractions, by the quick version and by
//! the library: number, place and row are the same, and nothing but the row is
//! written; and of an unused rod a verdict means what a reader may rely on.

use checks::call;
use checks::fraction::Fraction;
use checks::generate::{self, unused_state, with_field};
use checks::grade::{self, agreed, beside, holds, Beside, Call, Outcome, TOLERANCE, VERSIONS};
use checks::layout::{self, PAIR_BYTES, ROW_BYTES, SHEET, STATE, STATE_BYTES};
use checks::log;
use checks::random::Random;
use checks::rules::{self, Row};
use checks::table::{self, heat, set_stress, stress, GREATEST, LEAST, PAIRS, PAIRS_OWN};

const VALID: usize = 100_000;
const DAMAGED: usize = 70_000;
const RANDOM: usize = 40_000;
const _: () = assert!(VALID + DAMAGED + RANDOM >= 200_000);

/// How often each number was answered.
#[derive(Debug, Default)]
struct Tally {
    numbers: [usize; 18],
}

impl Tally {
    /// Compares the versions on a call, and counts its number.
    fn compare(&mut self, call: &Call) -> Outcome {
        let outcome = agreed(call);
        self.numbers[outcome.number() as usize] += 1;
        outcome
    }

    /// Each of these numbers was answered at least so often, and those that no grading has never.
    fn assert_seen(&self, numbers: &[usize], least: usize) {
        for &number in numbers {
            assert!(self.numbers[number] >= least, "{number} was answered seldom: {self:?}");
        }
        assert!([11, 12, 14, 15].iter().all(|&number| self.numbers[number] == 0), "{self:?}");
        if std::env::var_os("CHECKS_PRINT").is_some() {
            println!("{self:?}");
        }
    }
}

/// Every version answers the call with this number and place, and so names no row.
fn refuses(call: &Call, number: u64, place: usize) {
    let outcome = agreed(call);
    assert_eq!((outcome.number(), outcome.place(), outcome.row), (number, place as u64, 0), "{call}");
}

/// Every version names this row, from 1; with 0 the table is accepted.
fn names(call: &Call, row: usize) {
    assert_eq!(agreed(call), Outcome { answer: 0, row: row as u64 }, "{call}");
}

/// The heats of every law, with points and without.
fn heats() -> Vec<Call> {
    (0..8).map(|i| heat(i / 2, i % 2 == 1)).collect()
}

/// The table with one stress off by so much, at a row from 1.
fn off(call: &Call, row: usize, by: i64) -> Call {
    let mut call = call.clone();
    let ours = stress(&call.rows, row - 1);
    set_stress(&mut call, row - 1, ours + by);
    call
}

// ---- by trial ----

/// What the verdicts met, so that no case is missed unnoticed.
#[derive(Debug, Default)]
struct Seen {
    /// By law, without and with points: accepted, and with a row that was named.
    accepted: [[usize; 2]; 4],
    named: [[usize; 2]; 4],
    /// Tables of three rows or more of which the first was named, one in between, and the last.
    places: [usize; 3],
    /// Verdicts on a rod that was used before, and on one that yielded in the list.
    used: usize,
    yielded: usize,
    /// Accepted tables with a stress by the last grain off, and tables named for a single grain.
    last_grain: usize,
    one_grain: usize,
}

impl Seen {
    fn meet(&mut self, call: &Call, outcome: &Outcome) {
        let [law, .., points] = layout::read(&SHEET, &call.sheet);
        let verdicts = if outcome.row == 0 { &mut self.accepted } else { &mut self.named };
        verdicts[law as usize][(points > 0) as usize] += 1;
        let (row, count) = (outcome.row as usize, call.len());
        if row > 0 && count >= 3 {
            self.places[(row > 1) as usize + (row == count) as usize] += 1;
        }
        let run = rules::call(&call.whole_run());
        let [.., n, _] = layout::read(&STATE, &call.state);
        self.used += (n > 0) as usize;
        self.yielded += run.rows.chunks(ROW_BYTES).any(|row| Row::read(row).yielded) as usize;
        let away = |at: usize| (stress(&call.rows, at) - stress(&run.rows, at)).abs();
        self.last_grain += (row == 0 && (0..count).any(|at| away(at) == call.tolerance)) as usize;
        self.one_grain += (row > 0 && away(row - 1) == call.tolerance + 1) as usize;
    }

    fn assert_all(&self) {
        let verdicts = self.accepted.iter().chain(&self.named).flatten();
        assert!(verdicts.copied().all(|count| count >= 1_000), "{self:?}");
        let others = self.places.into_iter().chain([self.used, self.yielded, self.last_grain, self.one_grain]);
        assert!(others.min().unwrap() >= 1_000, "{self:?}");
    }
}

/// Sheets, states, tables and tolerances that pass: accepted tables, rows that are named, and each number of a pair.
#[test]
fn valid_gradings() {
    let mut random = Random::new(800);
    let (mut tally, mut seen) = (Tally::default(), Seen::default());
    for i in 0..VALID {
        let call = table::valid(&mut random);
        let outcome = tally.compare(&call);
        if outcome.answer == 0 && i % 2 == 0 {
            seen.meet(&call, &outcome);
        }
    }
    tally.assert_seen(&[0, 8, 9, 10], VALID / 100);
    if std::env::var_os("CHECKS_PRINT").is_some() {
        println!("{seen:?}");
    }
    seen.assert_all();
}

/// Damage to sheet, state, list, table and tolerance, one or two at a time: each number of a grading.
#[test]
fn damaged_gradings() {
    let mut random = Random::new(801);
    let mut tally = Tally::default();
    for _ in 0..DAMAGED {
        let mut call = table::valid(&mut random);
        table::damage(&mut random, &mut call);
        if random.chance(40) {
            table::damage(&mut random, &mut call);
        }
        tally.compare(&call);
    }
    tally.assert_seen(&[0, 1, 2, 3, 4, 5, 6, 7, 8, 9, 10, 13, 16, 17], 200);
}

/// Random bytes for each of the buffers, and buffers that pass beside them.
#[test]
fn random_gradings() {
    let mut random = Random::new(802);
    let mut tally = Tally::default();
    for _ in 0..RANDOM {
        let call::Call { mut sheet, mut state, mut pairs, mut rows, .. } = generate::random_bytes(&mut random);
        if random.chance(80) {
            sheet = generate::sheet(&mut random);
        }
        let passes = rules::read_sheet(&sheet).is_ok();
        if passes && random.chance(80) {
            state = unused_state(&sheet);
            let count = random.below(4) as usize;
            pairs = if random.chance(80) { generate::pairs(&mut random, &sheet, &state, count, None) } else { pairs };
        }
        if random.chance(70) {
            rows.resize(pairs.len() / PAIR_BYTES * ROW_BYTES, 0);
        }
        let tolerance = if random.chance(70) { random.range(0, TOLERANCE) } else { random.draw() as i64 };
        tally.compare(&Call { sheet, state, pairs, rows, tolerance });
    }
    tally.assert_seen(&[0, 1, 2, 4, 5, 7, 8, 16, 17], 100);
}

// ---- the verdict ----

/// The board's third row, worked by hand: 201 MPa, and then −202.98 MPa.
#[test]
fn worked_by_hand() {
    let sheet = log::line(0);
    let state = unused_state(&sheet);
    let pairs = [1_500_000, -3_000_000].map(|change| layout::write(&layout::PAIR, [0, change, 200])).concat();
    let grading = |first: i64, second: i64, tolerance: i64| {
        let row = |stress: i64| layout::write(&layout::ROW, [0, 0, 0, stress, 0]);
        let (sheet, state, pairs) = (sheet.clone(), state.clone(), pairs.clone());
        Call { sheet, state, pairs, rows: [row(first), row(second)].concat(), tolerance }
    };
    let (first, second) = (201_000_000_000, -202_980_000_000);
    names(&grading(first, second, 0), 0);
    names(&grading(first + 1, second, 0), 1);
    names(&grading(first, second - 1, 0), 2);
    names(&grading(first + 5, second - 5, 5), 0);
    names(&grading(first - 5, second + 6, 5), 2);
    names(&grading(first, -second, 5), 2);
    names(&grading(first + TOLERANCE, second - TOLERANCE, TOLERANCE), 0);
    names(&grading(first - TOLERANCE - 1, second, TOLERANCE), 1);
}

/// What examples/grade.c prints: the verdicts, and k at each row. In the last two rows ours is rounded.
#[test]
fn as_in_the_example() {
    let changes = [800_000, 400_001, -2_100_003, 600_000, 2_000_011, -2_200_000];
    let theirs =
        [160_000_000_000, 200_400_002_000, -200_592_007_960, -80_592_007_960, 201_780_189_800, -202_144_586_000];
    let pairs = changes.map(|change| layout::write(&layout::PAIR, [0, change, 200])).concat();
    let rows = theirs.map(|stress| layout::write(&layout::ROW, [1, 2, 5, stress, -5])).concat();
    let sheet = log::line(0);
    let mut call = Call { state: unused_state(&sheet), sheet, pairs, rows, tolerance: 10 };
    names(&call, 0);
    let beside = beside(&call, &[]);
    assert_eq!(beside.iter().map(|row| row.k).collect::<Vec<_>>(), [0, 1, 2, 2, 3, 4]);
    assert_eq!(beside.iter().filter(|row| row.rounding().is_positive()).count(), 2);
    set_stress(&mut call, 3, -80_592_007_900);
    names(&call, 4);
    refuses(&Call { rows: call.rows[..5 * ROW_BYTES].to_vec(), ..call.clone() }, 16, 0);
    with_field(&layout::PAIR, &mut call.pairs, 5 * PAIR_BYTES, 1, 150_000_000);
    refuses(&call, 9, 6);
}

/// A stress that is off by exactly d is within it, and one that is off by a grain more isn't: at each row, either way.
#[test]
fn at_the_tolerance_and_a_grain_beyond() {
    for call in heats() {
        for tolerance in [0, 1, 2, 1_000, (1 << 32) - 1, 1 << 32, TOLERANCE - 1, TOLERANCE] {
            let call = Call { tolerance, ..call.clone() };
            for row in 1..=PAIRS {
                for side in [-1, 1] {
                    names(&off(&call, row, side * tolerance), 0);
                    names(&off(&call, row, side * (tolerance + 1)), row);
                }
            }
        }
    }
}

/// Of two rows that differ, and of all, the first is named, however far each of them is off.
#[test]
fn the_first_of_two() {
    let mut random = Random::new(803);
    for call in heats() {
        let call = Call { tolerance: 10, ..call };
        for first in 1..PAIRS {
            for second in first + 1..=PAIRS {
                for (by, more) in [(11, 11), (-11, 1 << 40), (1 << 40, -11)] {
                    names(&off(&off(&call, first, by), second, more), first);
                }
            }
            let all = (first..=PAIRS).fold(call.clone(), |call, row| off(&call, row, random.pick(&[-11, 11, 500])));
            names(&all, first);
        }
    }
}

/// A rod that stands still at a stress, and a table that has another one there.
fn standing(ours: i64, theirs: i64, tolerance: i64) -> Call {
    // E 400,000, the greatest yield, and a tangent that lets stress reach the end of its range.
    let sheet = generate::sheet_bytes([0, 1, 0, 400_000, 0, 200, 10_000_000, 0, 0, 0], &[[0, 399_999]], &[]);
    let state = layout::write(&STATE, [0, 0, 0, 0, 200, ours, 101_000_000_000_000, 0, 0, 0]);
    let pairs = layout::write(&layout::PAIR, [0, 0, 200]);
    Call { sheet, state, pairs, rows: layout::write(&layout::ROW, [0, 0, 0, theirs, 0]), tolerance }
}

/// Stresses at the ends of 48 bits, or as far from ours as a bit goes, against ours of either sign and at the ends of
/// its range: what is beyond the tolerance is named, however the difference would wrap.
#[test]
fn ends_of_48_bits() {
    const STRESS: i64 = rules::STRESS;
    let mut named = 0;
    for ours in [-STRESS, 1 - STRESS, -TOLERANCE, -1, 0, 1, TOLERANCE, STRESS - 1, STRESS] {
        let bits = (0..=47).flat_map(|bit| [ours - (1 << bit), ours + (1 << bit)]);
        let ends = [LEAST, LEAST + 1, GREATEST - 1, GREATEST, -STRESS, STRESS, -ours, ours];
        let by_d = [ours - TOLERANCE - 1, ours - TOLERANCE, ours + TOLERANCE, ours + TOLERANCE + 1];
        for theirs in bits.chain(ends).chain(by_d).filter(|theirs| (LEAST..=GREATEST).contains(theirs)) {
            for tolerance in [0, 1, (1 << 31) - 1, TOLERANCE] {
                let far = (theirs as i128 - ours as i128).unsigned_abs() > tolerance as u128;
                names(&standing(ours, theirs, tolerance), far as usize);
                named += far as usize;
            }
        }
        for theirs in [LEAST, GREATEST] {
            names(&standing(ours, theirs, TOLERANCE), 1);
        }
    }
    assert!(named > 2_000, "{named}");
}

/// Every bit of every row turned over: those beside the stress make no difference, one of the stress does where it
/// weighs more than the tolerance.
#[test]
fn every_bit_of_the_table() {
    for call in heats() {
        for bit in 0..8 * call.rows.len() {
            let (row, at) = (bit / (8 * ROW_BYTES) + 1, bit % (8 * ROW_BYTES));
            let mut turned = call.clone();
            turned.rows[bit / 8] ^= 0x80 >> (bit % 8);
            // yielded 1, branch 3, tangent 20, then the stress
            let is_stress = (24..72).contains(&at);
            let turned = Call { tolerance: if is_stress { 1 << 20 } else { 0 }, ..turned };
            names(&turned, if is_stress && 71 - at > 20 { row } else { 0 });
        }
    }
}

/// All bits beside the stress, in every row: no difference to an accepted table or to the row that is named.
#[test]
fn anything_beside_the_stress() {
    let mut random = Random::new(804);
    for call in heats() {
        for filling in [0x00, 0xff, 0x55, 0xaa] {
            let mut filled = Call { rows: vec![filling; call.rows.len()], ..call.clone() };
            (0..PAIRS).for_each(|at| set_stress(&mut filled, at, stress(&call.rows, at)));
            names(&filled, 0);
            let row = random.range(1, PAIRS as i64) as usize;
            names(&off(&filled, row, 1), row);
        }
    }
}

/// Each yielded bit with each of the eight numbers that a branch's three bits hold, in every row at once and in one of
/// them alone: no difference either.
#[test]
fn every_yielded_bit_and_branch() {
    let mut random = Random::new(806);
    for call in heats() {
        for first in 0..16 {
            let (yielded, branch) = (first >> 3, first & 7);
            let row = random.range(1, PAIRS as i64) as usize;
            for at in [0..PAIRS, row - 1..row] {
                let mut other = call.clone();
                for at in at {
                    let values =
                        [yielded, branch, random.range(0, 0xf_ffff), stress(&call.rows, at), random.draw() as i64];
                    other.rows[ROW_BYTES * at..][..ROW_BYTES].copy_from_slice(&layout::write(&layout::ROW, values));
                }
                names(&other, 0);
                names(&off(&other, row, random.pick(&[-1, 1])), row);
            }
        }
    }
}

/// A verdict, or a refusal, is the same whatever stands beside the stresses: tables that pass and damaged calls, each
/// beside itself with other bits there.
#[test]
fn the_stress_alone() {
    let mut random = Random::new(807);
    let (mut tally, mut named, mut branches) = (Tally::default(), 0, [0; 8]);
    for i in 0..20_000 {
        let mut call = table::valid(&mut random);
        if i % 4 == 0 {
            table::damage(&mut random, &mut call);
        }
        let mut other = Call { rows: random.bytes(call.rows.len()), ..call.clone() };
        for at in 0..call.rows.len() / ROW_BYTES {
            set_stress(&mut other, at, stress(&call.rows, at));
            branches[Row::read(&other.rows[ROW_BYTES * at..]).branch as usize] += 1;
        }
        let outcome = tally.compare(&call);
        assert_eq!(tally.compare(&other), outcome, "{call}{other}");
        named += (outcome.row > 0) as usize;
    }
    tally.assert_seen(&[0, 8, 9, 10, 16, 17], 100);
    assert!(named > 5_000 && branches.iter().all(|&count| count > 5_000), "{named} {branches:?}");
}

/// Each version's own rows pass its own grading with tolerance 0; with a grain more or less in one of them that row is
/// named.
#[test]
fn own_rows_are_accepted() {
    let mut random = Random::new(805);
    let mut accepted = 0;
    for ((name, version), (same, run)) in VERSIONS.iter().zip(checks::VERSIONS) {
        assert_eq!(name, same);
        for _ in 0..20_000 {
            let call = Call { tolerance: 0, ..table::valid(&mut random) };
            let own = run(&call.whole_run());
            let call = Call { rows: own.rows, ..call };
            assert_eq!(version(&call), Outcome { answer: own.answer, row: 0 }, "{name}\n{call}");
            if own.answer != 0 || call.is_empty() {
                continue;
            }
            accepted += 1;
            let row = random.range(1, call.len() as i64) as usize;
            let grain = off(&call, row, random.pick(&[-1, 1]));
            assert_eq!(version(&grain), Outcome { answer: 0, row: row as u64 }, "{name}\n{grain}");
        }
    }
    assert!(accepted > 10_000, "{accepted}");
}

/// As many pairs as a run takes: any row can be named, the last one too; a pair more is 7.
#[test]
fn the_longest_list() {
    for law in [0, 3] {
        let heat = heat(law, law == 3);
        let still = layout::write(&layout::PAIR, [0, 0, 300]);
        let mut call = Call { pairs: [heat.pairs, still.repeat(rules::PAIRS - PAIRS)].concat(), ..heat };
        call.rows = table::our_rows(&call);
        names(&call, 0);
        for row in [1, 2, 255, 256, 257, 4_095, 4_096] {
            names(&off(&call, row, 1), row);
        }
        let mut late = call.clone();
        table::refuse(&mut late, rules::PAIRS, 9);
        refuses(&off(&late, 1, 1), 9, rules::PAIRS);
        call.pairs.extend(&still);
        refuses(&call, 7, 0);
        call.rows.extend([0; ROW_BYTES]);
        refuses(&call, 7, 0);
    }
}

// ---- who is refused, and with what ----

/// No row for no pair is accepted; any row byte is 16, and a tolerance beyond its range 17.
#[test]
fn empty_lists() {
    for call in heats() {
        for tolerance in [0, 5, TOLERANCE] {
            let empty = Call { pairs: Vec::new(), rows: Vec::new(), tolerance, ..call.clone() };
            names(&empty, 0);
            for bytes in [1, 6, 15, 16, 17, 32] {
                refuses(&Call { rows: vec![0; bytes], ..empty.clone() }, 16, 0);
                refuses(&Call { rows: vec![0; bytes], tolerance: -1, ..empty.clone() }, 16, 0);
            }
            refuses(&Call { tolerance: -1, ..empty.clone() }, 17, 0);
            refuses(&Call { tolerance: TOLERANCE + 1, ..empty.clone() }, 17, 0);
            for bytes in 1..PAIR_BYTES {
                refuses(&Call { pairs: vec![0; bytes], ..empty.clone() }, 7, 0);
            }
        }
    }
}

/// 16 for every length but 16 bytes a pair: a byte too many or too few, a row too many or too few, none.
#[test]
fn tables_of_each_length() {
    for call in heats() {
        for length in 0..=ROW_BYTES * (PAIRS + 3) {
            let mut call = call.clone();
            call.rows.resize(length, 0);
            if length == ROW_BYTES * PAIRS {
                names(&call, 0);
            } else {
                refuses(&call, 16, 0);
                refuses(&Call { tolerance: i64::MIN, ..call }, 16, 0);
            }
        }
    }
}

/// 17 for every tolerance but 0 to 10¹²; those pass, and are as great as all their bits say.
#[test]
fn ends_of_the_tolerance() {
    let mut passed = 0;
    for call in heats() {
        for tolerance in table::TOLERANCE_ENDS {
            let same = Call { tolerance, ..call.clone() };
            let other = off(&same, 3, -1);
            if (0..=TOLERANCE).contains(&tolerance) {
                names(&same, 0);
                names(&other, if tolerance == 0 { 3 } else { 0 });
                passed += 1;
            } else {
                refuses(&same, 17, 0);
                refuses(&other, 17, 0);
            }
        }
    }
    assert_eq!(passed, 4 * 8);
}

/// A pair that is refused at any place goes before a row that differs, however early, before 16 and before 17.
#[test]
fn a_refused_pair_before_any_verdict() {
    for call in heats() {
        for place in 1..=PAIRS {
            for number in PAIRS_OWN {
                let mut refused = call.clone();
                table::refuse(&mut refused, place, number);
                refuses(&refused, number, place);
                for row in 1..=PAIRS {
                    refuses(&off(&refused, row, 1_000), number, place);
                }
                refuses(&Call { tolerance: -1, ..refused.clone() }, number, place);
                for length in [0, 1, ROW_BYTES * (place - 1), ROW_BYTES * place, ROW_BYTES * PAIRS + 1] {
                    let mut short = refused.clone();
                    short.rows.resize(length, 0);
                    refuses(&short, number, place);
                    refuses(&Call { tolerance: TOLERANCE + 1, ..short }, number, place);
                }
            }
        }
    }
}

/// Of two refused pairs the first one's number and place, whatever the table has.
#[test]
fn the_first_refused_pair() {
    for call in heats() {
        for (first, second) in [(1, 2), (1, PAIRS), (3, 5), (PAIRS - 1, PAIRS)] {
            for number in [8, 9] {
                for later in [8, 9] {
                    let mut call = off(&call, 1, 7);
                    table::refuse(&mut call, second, later);
                    table::refuse(&mut call, first, number);
                    refuses(&call, number, first);
                }
            }
        }
    }
}

/// Sheets of a heat that are refused, and the number of each.
fn refused_sheets(call: &Call) -> Vec<(Vec<u8>, u64)> {
    let set = |field: usize, value: i64| {
        let mut sheet = call.sheet.clone();
        with_field(&SHEET, &mut sheet, 0, field, value);
        sheet
    };
    let mut tangent = call.sheet.clone();
    with_field(&layout::SEGMENT, &mut tangent, layout::SHEET_BYTES, 1, 200_000);
    let plain = set(9, 0)[..generate::points_at(&call.sheet)].to_vec();
    let equal = log::with_points(plain, &[(100, 1_200), (100, 1_200)]);
    let short = call.sheet[..call.sheet.len() - 1].to_vec();
    vec![(Vec::new(), 1), (short, 1), (set(3, 0), 2), (tangent, 3), (equal, 13)]
}

/// States of a heat that are refused, and the number of each.
fn refused_states(call: &Call) -> Vec<(Vec<u8>, u64)> {
    let set = |field: usize, value: i64| {
        let mut state = call.state.clone();
        with_field(&STATE, &mut state, 0, field, value);
        state
    };
    let [law, ..] = layout::read(&STATE, &call.state);
    let long = [&call.state[..], &[0]].concat();
    vec![(Vec::new(), 4), (call.state[..36].to_vec(), 4), (long, 4), (set(2, 1), 5), (set(0, (law + 1) % 4), 6)]
}

/// The numbers of sheet, state and list, in this order, go before those of a pair, 16 and 17.
#[test]
fn the_run_before_16_and_17() {
    for call in heats() {
        let all_wrong = |number: u64, wrong: &Call| {
            let mut pair = wrong.clone();
            if pair.state.len() == STATE_BYTES {
                table::refuse(&mut pair, 1, 10);
            }
            table::refuse(&mut pair, 2, 8);
            for call in [wrong, &pair] {
                refuses(call, number, 0);
                refuses(&off(call, 1, 1), number, 0);
                refuses(&Call { rows: vec![0; 3], ..call.clone() }, number, 0);
                refuses(&Call { rows: vec![0; 3], tolerance: -1, ..call.clone() }, number, 0);
                refuses(&Call { tolerance: TOLERANCE + 1, ..call.clone() }, number, 0);
            }
        };
        for (sheet, number) in refused_sheets(&call) {
            all_wrong(number, &Call { sheet: sheet.clone(), ..call.clone() });
            all_wrong(number, &Call { sheet, state: vec![0; 5], ..call.clone() });
        }
        for (state, number) in refused_states(&call) {
            all_wrong(number, &Call { state: state.clone(), ..call.clone() });
            let pairs = [&call.pairs[..], &[0]].concat();
            all_wrong(number, &Call { state, pairs, ..call.clone() });
        }
        all_wrong(7, &Call { pairs: call.pairs[..6 * PAIRS - 1].to_vec(), ..call.clone() });
        all_wrong(7, &Call { pairs: [&call.pairs[..], &[0]].concat(), ..call.clone() });
    }
}

// ---- what a reader may rely on ----

/// How near verdicts came to what is promised of them.
#[derive(Debug, Default)]
struct Nearness {
    accepted: usize,
    named: usize,
    /// Accepted rows further than d from the exact stress, and further than d and three quarters of k.
    beyond_d: usize,
    near_d_plus_k: usize,
    /// Named rows within d of the exact stress, and, but for the grain that they are off by beyond d, within d less
    /// three quarters of k.
    inside_d: usize,
    near_d_minus_k: usize,
    /// Named rows of which d − k is below 0.
    negative: usize,
}

impl Nearness {
    fn meet(&mut self, rows: &[Beside], tolerance: i64, named: u64) {
        let before = if named == 0 { rows.len() } else { named as usize - 1 };
        let part = |k: i64| Fraction::ratio(3 * k, 4);
        for row in &rows[..before] {
            self.accepted += 1;
            self.beyond_d += (row.error() > tolerance.into()) as usize;
            self.near_d_plus_k += (row.k > 0 && row.error() > &Fraction::from(tolerance) + &part(row.k)) as usize;
        }
        if let Some(row) = rows.get(before) {
            self.named += 1;
            self.inside_d += (row.error() <= tolerance.into()) as usize;
            self.near_d_minus_k += (row.k > 0 && row.error() <= &Fraction::from(tolerance + 1) - &part(row.k)) as usize;
            self.negative += (row.k > tolerance) as usize;
        }
    }

    /// Verdicts of each kind were met, and at least so many of them near what is promised.
    fn assert_near(&self, least: usize) {
        if std::env::var_os("CHECKS_PRINT").is_some() {
            println!("{self:?}");
        }
        assert!(
            [self.accepted, self.named, self.beyond_d, self.negative].iter().all(|&count| count >= 500),
            "{self:?}"
        );
        let near = [self.near_d_plus_k, self.inside_d, self.near_d_minus_k];
        assert!(near.iter().all(|&count| count >= least), "{self:?}");
    }
}

/// Over the bar, of every version's verdict: rows before the named one lie at most d + k from their exact stresses, and
/// that one lies farther than d − k; k is what a run up to the row, by the same version, has in its state.
fn relied_on(seed: u64, lists: i64, longest_history: i64) -> Nearness {
    let mut random = Random::new(seed);
    let mut near = Nearness::default();
    for i in 0..lists {
        let history = random.range(0, longest_history) as usize;
        let (call, past) = table::list(&mut random, i % 4, history);
        let rows = beside(&call, &past);
        for ((name, version), (_, run)) in VERSIONS.iter().zip(checks::VERSIONS) {
            let outcome = version(&call);
            assert_eq!(outcome, grade::rules(&call), "{name}\n{call}");
            if let Err(text) = holds(&rows, call.tolerance, outcome.row) {
                panic!("{name} fails: {text}\n{call}{outcome}");
            }
            let upto = if outcome.row == 0 { call.len() } else { outcome.row as usize };
            let [.., k] = layout::read(&STATE, &run(&call.run(upto)).next);
            assert_eq!(k, rows[..upto].last().map_or(k, |row| row.k), "{name}: another k\n{call}");
            near.meet(&rows, call.tolerance, outcome.row);
        }
    }
    near
}

#[test]
fn relied_on_for_unused_rods() {
    relied_on(810, 8_000, 0).assert_near(40);
}

/// The same for rods on their way from an unused start: k counts from there.
#[test]
fn relied_on_for_rods_with_a_history() {
    relied_on(811, 4_000, 8).assert_near(2);
}

/// The heats flow both ways under each law, so that the tests above have yielded rows before them and elastic ones.
#[test]
fn the_heats_flow() {
    for call in heats() {
        let rows = beside(&call, &[]);
        let yielded: Vec<bool> = rows.iter().map(|row| row.ours.yielded).collect();
        assert_eq!(yielded, [false, true, false, true, false, true, true], "{call}");
        assert!(rows[1].ours.stress > 0 && rows[3].ours.stress < 0 && rows.last().unwrap().k == 4);
    }
}
