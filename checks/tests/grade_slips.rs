//! The comparison of gradings finds what a hurried version would do: each wrong
//! one here differs from the rules on one of 20,000 calls such as the library
//! gets, and the right ones don't. Those that name a row wrongly are found too by
//! what a reader may rely on, where nothing else is looked at; and so is a k that
//! is counted wrongly.

use checks::generate::unused_state;
use checks::grade::{self, beside, holds, Beside, Call, Outcome, Version, TOLERANCE, UNWRITTEN};
use checks::layout::{self, PAIR_BYTES, ROW_BYTES};
use checks::log;
use checks::random::Random;
use checks::rules::{self, State};
use checks::table::{self, heat, set_stress, PAIRS, PAIRS_OWN};

const CALLS: usize = 20_000;
const LISTS: i64 = 2_000;

/// Whether a version differs from the rules on one of the calls: tables that pass, damaged calls, and heats with a pair
/// that is to be refused.
fn is_found(version: Version) -> bool {
    let mut random = Random::new(820);
    (0..CALLS).any(|i| {
        let mut call = if i % 4 == 0 { refused_late(&mut random) } else { table::valid(&mut random) };
        if i % 4 == 1 {
            table::damage(&mut random, &mut call);
            table::damage(&mut random, &mut call);
        }
        version(&call) != grade::rules(&call)
    })
}

/// A heat with a pair that is to be refused, mostly behind a row that is off, and sometimes with a table or a tolerance
/// that doesn't pass.
fn refused_late(random: &mut Random) -> Call {
    let mut call = heat(random.range(0, 3), random.chance(50));
    table::fill(random, &mut call);
    let place = random.range(1, PAIRS as i64) as usize;
    if random.chance(80) {
        table::refuse(&mut call, place, random.pick(&PAIRS_OWN));
    }
    if random.chance(30) {
        let length = random.pick(&[0, ROW_BYTES * (place - 1), call.rows.len() - 1, call.rows.len() + ROW_BYTES]);
        call.rows.resize(length, 0);
    }
    if random.chance(30) {
        call.tolerance = random.pick(&table::TOLERANCE_ENDS);
    }
    call
}

// ---- the verdict ----

/// A row as the table has it, and ours: yielded, branch, tangent, stress and plastic.
type Fields = [i64; 5];
type Both = (Fields, Fields);

/// The first rows of the table beside ours.
fn both(call: &Call, count: usize) -> Vec<Both> {
    let ours = rules::call(&call.run(count)).rows;
    let fields = |row: &[u8]| layout::read(&layout::ROW, row);
    call.rows.chunks(ROW_BYTES).zip(ours.chunks(ROW_BYTES)).map(|(a, b)| (fields(a), fields(b))).collect()
}

/// The rules' outcome, but where there is a verdict with the row, from 0, that `name` finds with this tolerance.
fn naming(call: &Call, name: impl Fn(&[Both], i64) -> Option<usize>) -> Outcome {
    let outcome = grade::rules(call);
    if outcome.answer != 0 {
        return outcome;
    }
    let row = name(&both(call, call.len()), call.tolerance);
    Outcome { row: row.map_or(0, |at| at as u64 + 1), ..outcome }
}

/// The same with the first row of which `is_off` says so.
fn first_where(call: &Call, is_off: impl Fn(&Fields, &Fields, i64) -> bool) -> Outcome {
    naming(call, |rows, d| rows.iter().position(|(theirs, ours)| is_off(theirs, ours, d)))
}

/// The same by the stresses alone, theirs and ours.
fn by_stress(call: &Call, is_off: impl Fn(i64, i64, i64) -> bool) -> Outcome {
    first_where(call, |theirs, ours, d| is_off(theirs[3], ours[3], d))
}

fn is_off((theirs, ours): &Both, d: i64) -> bool {
    (theirs[3] - ours[3]).abs() > d
}

/// Not a slip: the rules' own condition, to show that the others are found for what differs.
fn names_by_the_rules(call: &Call) -> Outcome {
    by_stress(call, |theirs, ours, d| (theirs - ours).abs() > d)
}

/// Not a slip either: ours is within 10¹⁴ and theirs within 2⁴⁷, so that they are never nearly 2⁴⁸ apart, and where the
/// difference wraps in 48 bits it stays beyond every tolerance.
fn wraps_in_48_bits(call: &Call) -> Outcome {
    by_stress(call, |theirs, ours, d| (theirs.wrapping_sub(ours) << 16 >> 16).abs() > d)
}

/// The magnitude is taken in 48 bits too, where that of the least number is negative.
fn wraps_the_magnitude(call: &Call) -> Outcome {
    by_stress(call, |theirs, ours, d| ((theirs.wrapping_sub(ours)) << 16).wrapping_abs() > d << 16)
}

fn wraps_in_32_bits(call: &Call) -> Outcome {
    by_stress(call, |theirs, ours, d| (theirs.wrapping_sub(ours) as i32 as i64).abs() > d)
}

fn wraps_in_40_bits(call: &Call) -> Outcome {
    by_stress(call, |theirs, ours, d| (theirs.wrapping_sub(ours) << 24 >> 24).abs() > d)
}

fn reads_an_unsigned_stress(call: &Call) -> Outcome {
    by_stress(call, |theirs, ours, d| ((theirs & 0xffff_ffff_ffff) - ours).abs() > d)
}

fn less_for_at_most(call: &Call) -> Outcome {
    by_stress(call, |theirs, ours, d| (theirs - ours).abs() >= d)
}

fn a_grain_more(call: &Call) -> Outcome {
    by_stress(call, |theirs, ours, d| (theirs - ours).abs() > d + 1)
}

fn looks_above_only(call: &Call) -> Outcome {
    by_stress(call, |theirs, ours, d| theirs - ours > d)
}

fn looks_below_only(call: &Call) -> Outcome {
    by_stress(call, |theirs, ours, d| ours - theirs > d)
}

fn compares_magnitudes(call: &Call) -> Outcome {
    by_stress(call, |theirs, ours, d| (theirs.abs() - ours.abs()).abs() > d)
}

/// d counts in 10⁻³ MPa, as stresses do in a section.
fn cuts_the_stresses(call: &Call) -> Outcome {
    by_stress(call, |theirs, ours, d| (theirs / 1_000_000 - ours / 1_000_000).abs() > d / 1_000_000)
}

/// A stress that no rod of ours can have.
fn refuses_a_stress_beyond_ours(call: &Call) -> Outcome {
    by_stress(call, |theirs, ours, d| (theirs - ours).abs() > d || theirs.abs() > rules::STRESS)
}

/// The first row of which a field beside the stress is another one is named too.
fn with_field_too(call: &Call, field: usize) -> Outcome {
    first_where(call, |theirs, ours, d| (theirs[3] - ours[3]).abs() > d || theirs[field] != ours[field])
}

fn compares_the_yielded_bit(call: &Call) -> Outcome {
    with_field_too(call, 0)
}

fn compares_the_branch(call: &Call) -> Outcome {
    with_field_too(call, 1)
}

/// A table that was made before rows had a branch.
fn wants_the_zero_bits(call: &Call) -> Outcome {
    first_where(call, |theirs, ours, d| (theirs[3] - ours[3]).abs() > d || theirs[1] != 0)
}

fn wants_a_branch(call: &Call) -> Outcome {
    first_where(call, |theirs, ours, d| (theirs[3] - ours[3]).abs() > d || theirs[1] > 2)
}

fn wants_a_branch_that_goes_with_yielded(call: &Call) -> Outcome {
    first_where(call, |theirs, ours, d| (theirs[3] - ours[3]).abs() > d || (theirs[0] == 1) != (theirs[1] != 0))
}

/// A row of another branch isn't held against ours.
fn compares_where_the_branches_agree(call: &Call) -> Outcome {
    first_where(call, |theirs, ours, d| theirs[1] == ours[1] && (theirs[3] - ours[3]).abs() > d)
}

fn compares_the_tangent(call: &Call) -> Outcome {
    with_field_too(call, 2)
}

fn compares_the_plastic_strain(call: &Call) -> Outcome {
    first_where(call, |theirs, ours, d| (theirs[3] - ours[3]).abs() > d || (theirs[4] - ours[4]).abs() > d)
}

fn reads_the_stress_a_byte_late(call: &Call) -> Outcome {
    first_where(call, |theirs, ours, d| {
        let late = (theirs[3] << 8 | (theirs[4] >> 48 & 0xff)) << 16 >> 16;
        (late - ours[3]).abs() > d
    })
}

fn the_last_that_differs(call: &Call) -> Outcome {
    naming(call, |rows, d| rows.iter().rposition(|row| is_off(row, d)))
}

fn the_furthest(call: &Call) -> Outcome {
    let away = |(theirs, ours): &Both| (theirs[3] - ours[3]).abs();
    naming(call, |rows, d| (0..rows.len()).filter(|&at| is_off(&rows[at], d)).max_by_key(|&at| away(&rows[at])))
}

fn looks_at_the_first_row_only(call: &Call) -> Outcome {
    naming(call, |rows, d| rows.iter().take(1).position(|row| is_off(row, d)))
}

fn looks_at_the_last_row_only(call: &Call) -> Outcome {
    naming(call, |rows, d| rows.len().checked_sub(1).filter(|&at| is_off(&rows[at], d)))
}

fn forgets_the_last_row(call: &Call) -> Outcome {
    naming(call, |rows, d| rows.iter().take(rows.len().saturating_sub(1)).position(|row| is_off(row, d)))
}

/// All differences together have the tolerance.
fn sums_the_differences(call: &Call) -> Outcome {
    naming(call, |rows, d| {
        let mut sum = 0;
        rows.iter().position(|(theirs, ours)| {
            sum += (theirs[3] - ours[3]).abs();
            sum > d
        })
    })
}

/// The tolerance grows by `grains` for each row of ours that yielded, up to the row.
fn with_k(call: &Call, grains: i64) -> Outcome {
    naming(call, |rows, d| {
        let mut k = 0;
        rows.iter().position(|row| {
            k += row.1[0];
            is_off(row, d + grains * k)
        })
    })
}

/// The exact stress is what counts, so what we are off ourselves is allowed for.
fn allows_k_more(call: &Call) -> Outcome {
    with_k(call, 1)
}

fn allows_k_less(call: &Call) -> Outcome {
    with_k(call, -1)
}

/// Each row is held against ours of the pair before.
fn is_a_row_late(call: &Call) -> Outcome {
    let before = layout::read(&layout::STATE, &call.state).get(5).copied();
    naming(call, |rows, d| {
        let ours = before.into_iter().chain(rows.iter().map(|(_, ours)| ours[3]));
        rows.iter().zip(ours).position(|((theirs, _), ours)| (theirs[3] - ours).abs() > d)
    })
}

/// Our rod goes on from their stress.
fn goes_on_from_their_stress(call: &Call) -> Outcome {
    naming(call, |rows, d| {
        let sheet = rules::read_sheet(&call.sheet).unwrap();
        let mut state = rules::read_state(&call.state).unwrap();
        rows.iter().zip(call.pairs.chunks(PAIR_BYTES)).position(|((theirs, _), pair)| {
            let Ok((next, row)) = rules::step(&sheet, &state, &rules::read_pair(pair).unwrap()) else { return true };
            state = State { stress: theirs[3], ..next };
            (theirs[3] - row.stress).abs() > d
        })
    })
}

/// The rules' outcome, but what `change` makes of it where a row is named.
fn where_named(call: &Call, change: impl Fn(&mut Outcome)) -> Outcome {
    let mut outcome = grade::rules(call);
    if outcome.row != 0 {
        change(&mut outcome);
    }
    outcome
}

fn row_from_0(call: &Call) -> Outcome {
    where_named(call, |outcome| outcome.row -= 1)
}

fn the_row_behind(call: &Call) -> Outcome {
    where_named(call, |outcome| outcome.row += 1)
}

fn accepts_everything(call: &Call) -> Outcome {
    where_named(call, |outcome| outcome.row = 0)
}

/// The verdict stands in the answer too.
fn the_row_as_place(call: &Call) -> Outcome {
    where_named(call, |outcome| outcome.answer = 256 * outcome.row)
}

fn row_in_3_bits(call: &Call) -> Outcome {
    where_named(call, |outcome| outcome.row &= 7)
}

// ---- who is refused, and with what ----

fn other_length(call: &Call) -> bool {
    call.rows.len() != ROW_BYTES * call.len()
}

fn other_tolerance(call: &Call) -> bool {
    !(0..=TOLERANCE).contains(&call.tolerance)
}

/// The answer is changed where `condition` holds of the rules' outcome, and then no row is named.
fn answering(call: &Call, condition: impl Fn(&Outcome) -> bool, answer: impl Fn(&Outcome) -> u64) -> Outcome {
    let outcome = grade::rules(call);
    if condition(&outcome) {
        return Outcome { answer: answer(&outcome), row: 0 };
    }
    outcome
}

fn sixteen_before_the_run(call: &Call) -> Outcome {
    answering(call, |_| other_length(call), |_| 16)
}

fn seventeen_before_the_run(call: &Call) -> Outcome {
    answering(call, |_| other_tolerance(call), |_| 17)
}

fn sixteen_before_7(call: &Call) -> Outcome {
    answering(call, |outcome| outcome.answer == 7 && other_length(call), |_| 16)
}

fn sixteen_before_a_pair(call: &Call) -> Outcome {
    answering(call, |outcome| outcome.place() > 0 && other_length(call), |_| 16)
}

fn seventeen_before_a_pair(call: &Call) -> Outcome {
    answering(call, |outcome| outcome.place() > 0 && other_tolerance(call), |_| 17)
}

fn seventeen_before_16(call: &Call) -> Outcome {
    answering(call, |outcome| outcome.answer == 16 && other_tolerance(call), |_| 17)
}

/// A row that differs is named as soon as it is met.
fn names_before_a_later_refusal(call: &Call) -> Outcome {
    let outcome = grade::rules(call);
    if outcome.place() == 0 || other_length(call) || other_tolerance(call) {
        return outcome;
    }
    let rows = both(call, outcome.place() as usize - 1);
    match rows.iter().position(|row| is_off(row, call.tolerance)) {
        Some(at) => Outcome { answer: 0, row: at as u64 + 1 },
        None => outcome,
    }
}

/// Refused as ever, but a row that differs before the refused pair is named beside it.
fn names_beside_a_refusal(call: &Call) -> Outcome {
    let Outcome { row, .. } = names_before_a_later_refusal(call);
    Outcome { row, ..grade::rules(call) }
}

/// There is no row of ours from the refused pair on, so the first of those differs.
fn names_the_refused_pair(call: &Call) -> Outcome {
    let outcome = grade::rules(call);
    if outcome.place() > 0 && !other_length(call) && !other_tolerance(call) {
        return Outcome { answer: 0, row: outcome.place() };
    }
    outcome
}

/// What is accepted before the refused pair is enough for a verdict.
fn grades_what_was_accepted(call: &Call) -> Outcome {
    let before = (grade::rules(call).place() as usize).saturating_sub(1);
    answering(call, |outcome| before > 0 && outcome.place() > 0, |_| 0)
}

fn place_1_with_16(call: &Call) -> Outcome {
    answering(call, |outcome| outcome.answer == 16, |_| 16 + 256)
}

/// The place of the first pair without a row.
fn a_place_with_16(call: &Call) -> Outcome {
    let place = call.rows.len() / ROW_BYTES + 1;
    answering(call, |outcome| outcome.answer == 16, |_| 16 + 256 * place as u64)
}

fn place_1_with_17(call: &Call) -> Outcome {
    answering(call, |outcome| outcome.answer == 17, |_| 17 + 256)
}

fn no_place(call: &Call) -> Outcome {
    answering(call, |outcome| outcome.place() > 0, Outcome::number)
}

fn place_from_0(call: &Call) -> Outcome {
    answering(call, |outcome| outcome.place() > 0, |outcome| outcome.answer - 256)
}

/// As a run answers for a buffer that is too short.
fn twelve_for_16(call: &Call) -> Outcome {
    answering(call, |outcome| outcome.answer == 16, |_| 12)
}

/// A row's other length is a list's.
fn seven_for_16(call: &Call) -> Outcome {
    answering(call, |outcome| outcome.answer == 16, |_| 7)
}

fn refuses_an_empty_list(call: &Call) -> Outcome {
    answering(call, |outcome| outcome.answer == 0 && call.is_empty(), |_| 16)
}

/// A table of another length is refused where `condition` says so, and else taken as far as it goes.
fn sixteen_where(call: &Call, condition: impl Fn(usize, usize) -> bool) -> Outcome {
    let outcome = grade::rules(call);
    let wanted = ROW_BYTES * call.len();
    if outcome.answer != 16 || condition(call.rows.len(), wanted) {
        return outcome;
    }
    let mut rows = rules::call(&call.whole_run()).rows;
    let given = call.rows.len().min(wanted) / ROW_BYTES * ROW_BYTES;
    rows[..given].copy_from_slice(&call.rows[..given]);
    grade::rules(&Call { rows, ..call.clone() })
}

fn takes_a_longer_table(call: &Call) -> Outcome {
    sixteen_where(call, |given, wanted| given < wanted)
}

fn takes_a_shorter_table(call: &Call) -> Outcome {
    sixteen_where(call, |given, wanted| given > wanted)
}

fn takes_bytes_behind_the_last_row(call: &Call) -> Outcome {
    sixteen_where(call, |given, wanted| given / ROW_BYTES != wanted / ROW_BYTES)
}

fn takes_any_whole_rows(call: &Call) -> Outcome {
    sixteen_where(call, |given, _| !given.is_multiple_of(ROW_BYTES))
}

fn refuses_the_greatest_tolerance(call: &Call) -> Outcome {
    answering(call, |outcome| outcome.answer == 0 && call.tolerance == TOLERANCE, |_| 17)
}

fn refuses_tolerance_0(call: &Call) -> Outcome {
    answering(call, |outcome| outcome.answer == 0 && call.tolerance == 0, |_| 17)
}

/// The rules' outcome with another tolerance, where 17 is answered.
fn mending(call: &Call, tolerance: i64) -> Outcome {
    let outcome = grade::rules(call);
    if outcome.answer == 17 {
        return grade::rules(&Call { tolerance, ..call.clone() });
    }
    outcome
}

fn takes_any_great_tolerance(call: &Call) -> Outcome {
    mending(call, call.tolerance.min(TOLERANCE))
}

fn takes_a_negative_tolerance(call: &Call) -> Outcome {
    mending(call, call.tolerance.saturating_abs())
}

fn tolerance_of_48_bits(call: &Call) -> Outcome {
    mending(call, call.tolerance << 16 >> 16)
}

fn tolerance_of_32_bits(call: &Call) -> Outcome {
    let outcome = grade::rules(call);
    if outcome.answer == 0 {
        return grade::rules(&Call { tolerance: call.tolerance & 0xffff_ffff, ..call.clone() });
    }
    outcome
}

// ---- what is written ----

fn leaves_the_row_on_a_refusal(call: &Call) -> Outcome {
    let outcome = grade::rules(call);
    if outcome.answer != 0 {
        return Outcome { row: UNWRITTEN, ..outcome };
    }
    outcome
}

fn leaves_the_row_of_an_accepted_table(call: &Call) -> Outcome {
    let outcome = grade::rules(call);
    if outcome == (Outcome { answer: 0, row: 0 }) {
        return Outcome { row: UNWRITTEN, ..outcome };
    }
    outcome
}

fn the_place_as_row(call: &Call) -> Outcome {
    let outcome = grade::rules(call);
    if outcome.place() > 0 {
        return Outcome { row: outcome.place(), ..outcome };
    }
    outcome
}

fn the_number_of_rows_where_accepted(call: &Call) -> Outcome {
    let outcome = grade::rules(call);
    if outcome == (Outcome { answer: 0, row: 0 }) {
        return Outcome { row: call.len() as u64, ..outcome };
    }
    outcome
}

// ---- all of them ----

/// Those that tell a reader of an unused rod what isn't so.
const ABOUT_THE_READER: [(&str, Version); 20] = [
    ("< for <=", less_for_at_most),
    ("a grain more", a_grain_more),
    ("only what is above", looks_above_only),
    ("only what is below", looks_below_only),
    ("magnitudes", compares_magnitudes),
    ("stresses in 10⁻³ MPa", cuts_the_stresses),
    ("an unsigned stress", reads_an_unsigned_stress),
    ("a difference of 32 bits", wraps_in_32_bits),
    ("a difference of 40 bits", wraps_in_40_bits),
    ("the stress a byte late", reads_the_stress_a_byte_late),
    ("the last row that differs", the_last_that_differs),
    ("the row that is furthest off", the_furthest),
    ("the first row only", looks_at_the_first_row_only),
    ("the last row only", looks_at_the_last_row_only),
    ("not the last row", forgets_the_last_row),
    ("a row late", is_a_row_late),
    ("goes on from their stress", goes_on_from_their_stress),
    ("a row from 0", row_from_0),
    ("the row behind", the_row_behind),
    ("everything is accepted", accepts_everything),
];

const OTHERS: [(&str, Version); 47] = [
    ("a magnitude of 48 bits", wraps_the_magnitude),
    ("a stress beyond ours", refuses_a_stress_beyond_ours),
    ("the yielded bit", compares_the_yielded_bit),
    ("the branch", compares_the_branch),
    ("the zero bits", wants_the_zero_bits),
    ("a branch", wants_a_branch),
    ("a branch that goes with yielded", wants_a_branch_that_goes_with_yielded),
    ("only where the branches agree", compares_where_the_branches_agree),
    ("the tangent", compares_the_tangent),
    ("the plastic strain", compares_the_plastic_strain),
    ("the differences together", sums_the_differences),
    ("k more", allows_k_more),
    ("k less", allows_k_less),
    ("the row as place", the_row_as_place),
    ("a row of 3 bits", row_in_3_bits),
    ("16 before the run's numbers", sixteen_before_the_run),
    ("17 before the run's numbers", seventeen_before_the_run),
    ("16 before 7", sixteen_before_7),
    ("16 before a refused pair", sixteen_before_a_pair),
    ("17 before a refused pair", seventeen_before_a_pair),
    ("17 before 16", seventeen_before_16),
    ("a verdict before a later refusal", names_before_a_later_refusal),
    ("a row beside a refusal", names_beside_a_refusal),
    ("the refused pair's row", names_the_refused_pair),
    ("what was accepted before a refusal", grades_what_was_accepted),
    ("place 1 with 16", place_1_with_16),
    ("a place with 16", a_place_with_16),
    ("place 1 with 17", place_1_with_17),
    ("no place", no_place),
    ("a place from 0", place_from_0),
    ("12 for 16", twelve_for_16),
    ("7 for 16", seven_for_16),
    ("an empty list is refused", refuses_an_empty_list),
    ("a longer table", takes_a_longer_table),
    ("a shorter table", takes_a_shorter_table),
    ("bytes behind the last row", takes_bytes_behind_the_last_row),
    ("any whole rows", takes_any_whole_rows),
    ("the greatest tolerance is refused", refuses_the_greatest_tolerance),
    ("tolerance 0 is refused", refuses_tolerance_0),
    ("any great tolerance", takes_any_great_tolerance),
    ("a negative tolerance", takes_a_negative_tolerance),
    ("a tolerance of 48 bits", tolerance_of_48_bits),
    ("a tolerance of 32 bits", tolerance_of_32_bits),
    ("the row is left on a refusal", leaves_the_row_on_a_refusal),
    ("the row is left where accepted", leaves_the_row_of_an_accepted_table),
    ("the place as row", the_place_as_row),
    ("the number of rows", the_number_of_rows_where_accepted),
];

const RIGHT: [(&str, Version); 3] =
    [("plain", grade::plain), ("by the rules", names_by_the_rules), ("in 48 bits", wraps_in_48_bits)];

#[test]
fn without_a_slip_nothing_is_found() {
    for (name, right) in RIGHT {
        assert!(!is_found(right), "{name}: is found");
        assert!(!misleads(right, up_to_the_row), "{name}: misleads a reader");
    }
}

#[test]
fn each_slip_is_found() {
    for (name, slip) in ABOUT_THE_READER.into_iter().chain(OTHERS) {
        assert!(is_found(slip), "{name}: isn't found");
    }
}

#[test]
fn each_slip_about_the_reader_misleads() {
    for (name, slip) in ABOUT_THE_READER {
        assert!(misleads(slip, up_to_the_row), "{name}: a reader may rely on it");
    }
}

// ---- k ----

/// A way to count k at each row.
type Count = fn(&mut [Beside]);

/// As it is promised.
fn up_to_the_row(_: &mut [Beside]) {}

/// Without the row itself.
fn before_the_row(rows: &mut [Beside]) {
    rows.iter_mut().for_each(|row| row.k -= row.ours.yielded as i64);
}

/// Nothing was ever rounded.
fn never(rows: &mut [Beside]) {
    rows.iter_mut().for_each(|row| row.k = 0);
}

/// With all rows behind it.
fn in_the_whole_run(rows: &mut [Beside]) {
    let all = rows.last().map_or(0, |row| row.k);
    rows.iter_mut().for_each(|row| row.k = all);
}

/// Whether what a reader may rely on, k being counted so, fails of a version in one of the lists.
fn misleads(version: Version, count: Count) -> bool {
    let mut random = Random::new(821);
    (0..LISTS).any(|i| {
        let (call, _) = table::list(&mut random, i % 4, 0);
        let mut rows = beside(&call, &[]);
        count(&mut rows);
        let row = version(&call).row.min(rows.len() as u64);
        holds(&rows, call.tolerance, row).is_err()
    })
}

/// Whether k, counted so, is at every row what a run up to there has in its state.
fn is_the_states(call: &Call, count: Count) -> bool {
    let mut rows = beside(call, &[]);
    count(&mut rows);
    rows.iter().enumerate().all(|(at, row)| {
        let state = rules::read_state(&rules::call(&call.run(at + 1)).next).unwrap();
        row.k == state.k
    })
}

/// The rules' own verdicts mislead whoever counts too few rows. A k of the whole run claims less, and so never fails,
/// but it isn't what the state says, which no other count is either.
#[test]
fn each_wrong_count_is_found() {
    assert!(misleads(grade::rules, before_the_row));
    assert!(misleads(grade::rules, never));
    assert!(!misleads(grade::rules, in_the_whole_run));
    for call in (0..8).map(|i| heat(i / 2, i % 2 == 1)) {
        assert!(is_the_states(&call, up_to_the_row));
        for count in [before_the_row as Count, never, in_the_whole_run] {
            assert!(!is_the_states(&call, count), "{call}");
        }
    }
}

/// What the k of the whole run would overlook, worked by hand: the first row is elastic, so that ours is exact, and
/// theirs is four grains off with d = 3. Whoever accepts it misleads the reader, whom d + 0 is promised, though the
/// second row yields and d + 1 would hold. Nor is d − 1 all that can be said of the row that is named.
#[test]
fn a_k_of_the_whole_run_overlooks() {
    let sheet = log::line(0);
    let state = unused_state(&sheet);
    let pairs = [500_000, 1_000_000].map(|change| layout::write(&layout::PAIR, [0, change, 200])).concat();
    let mut call = Call { sheet, state, pairs, rows: Vec::new(), tolerance: 3 };
    call.rows = table::our_rows(&call);
    set_stress(&mut call, 0, 100_000_000_000 + 4);
    let rows = beside(&call, &[]);
    assert_eq!([rows[0].k, rows[1].k], [0, 1]);
    let mut whole = rows.clone();
    in_the_whole_run(&mut whole);

    // A version that allows a grain more.
    assert_eq!((grade::rules(&call).row, a_grain_more(&call).row), (1, 0));
    assert!(holds(&rows, 3, 1).is_ok() && holds(&whole, 3, 1).is_ok());
    assert!(holds(&rows, 3, 0).is_err() && holds(&whole, 3, 0).is_ok());

    // A version that names a row by its last allowed grain.
    set_stress(&mut call, 0, 100_000_000_000 + 3);
    assert_eq!((grade::rules(&call).row, less_for_at_most(&call).row), (0, 1));
    let rows = beside(&call, &[]);
    let mut whole = rows.clone();
    in_the_whole_run(&mut whole);
    assert!(holds(&rows, 3, 1).is_err() && holds(&whole, 3, 1).is_ok());
}
