//! The board (SPEC 13): every row, by the rules, by the quick version and by the
//! library. Beside it some thermal strains by points, worked by hand.

use checks::agreed;
use checks::call::{Call, Entry, Outcome};
use checks::fraction::Fraction;
use checks::generate::sheet_bytes;
use checks::layout;
use checks::log::{line, steel, with_points};
use checks::rules::{self, Row};

/// A run from the unused rod: what it leaves, the same by every version.
fn run(sheet: &[u8], changes: &[(i64, i64)]) -> (Outcome, Vec<Row>, Vec<u8>) {
    let unused = Call {
        entry: Entry::Unused,
        sheet: sheet.to_vec(),
        state: Vec::new(),
        pairs: Vec::new(),
        rows: Vec::new(),
        next: vec![0xee; 37],
        trial: Vec::new(),
    };
    let state = agreed(&unused).next;
    let pairs =
        changes.iter().flat_map(|&(change, temperature)| layout::write(&layout::PAIR, [0, change, temperature]));
    let call = Call {
        entry: Entry::Run,
        sheet: sheet.to_vec(),
        state: state.clone(),
        pairs: pairs.collect(),
        rows: vec![0xee; 16 * changes.len()],
        next: vec![0xee; 37],
        trial: Vec::new(),
    };
    let outcome = agreed(&call);
    let rows = outcome.rows.chunks(16).take(outcome.accepted(&call.pairs)).map(Row::read).collect();
    (outcome, rows, state)
}

/// The stresses of an accepted run at the reference temperature.
fn stresses(sheet: &[u8], changes: &[i64]) -> Vec<(i64, bool)> {
    let changes: Vec<(i64, i64)> = changes.iter().map(|&change| (change, 200)).collect();
    let (outcome, rows, _) = run(sheet, &changes);
    assert_eq!(outcome.answer, 0);
    rows.iter().map(|row| (row.stress, row.yielded)).collect()
}

#[test]
fn isotropic_line() {
    assert_eq!(stresses(&line(0), &[1_000_000]), [(200_000_000_000, false)]);
    assert_eq!(stresses(&line(0), &[1_000_001]), [(200_000_002_000, true)]);
    assert_eq!(stresses(&line(0), &[1_500_000, -3_000_000]), [(201_000_000_000, true), (-202_980_000_000, true)]);
}

#[test]
fn third_row_as_printed() {
    let (_, rows, _) = run(&line(0), &[(1_500_000, 200), (-3_000_000, 200)]);
    let row = |branch, stress, plastic| Row { yielded: true, branch, tangent: 2_000, stress, plastic };
    assert_eq!(rows, [row(1, 201_000_000_000, 99_000_000_000), row(2, -202_980_000_000, -97_020_000_000)]);
}

#[test]
fn kinematic() {
    assert_eq!(stresses(&line(2), &[1_500_000, -3_000_000]), [(201_000_000_000, true), (-201_000_000_000, true)]);
}

#[test]
fn asymmetric() {
    let sheet = steel(3, 250_000, &[[0, 2_000], [0, 2_000]]);
    assert_eq!(stresses(&sheet, &[1_500_000, -3_000_000])[1], (-251_490_000_000, true));
}

#[test]
fn heated() {
    let (outcome, rows, _) = run(&line(0), &[(0, 300)]);
    assert_eq!((outcome.answer, rows[0].stress), (0, -24_000_000_000));
}

#[test]
fn curve() {
    let sheet = steel(1, 0, &[[500_000, 20_000], [0, 2_000]]);
    for (change, stress) in [(1_500_000, 210_000_000_000), (2_000_000, 211_000_000_000)] {
        let (outcome, rows, _) = run(&sheet, &[(change, 200)]);
        assert_eq!((outcome.answer, rows[0].stress, rows[0].tangent), (0, stress, 2_000));
    }
}

#[test]
fn two_thirds_of_a_grain() {
    let sheet = sheet_bytes([0, 1, 0, 3, 1_200, 200, 1, 0, 0, 0], &[[0, 1]], &[]);
    assert_eq!(stresses(&sheet, &[333_334]), [(1_000_000, true)]);
    let sheet = rules::read_sheet(&sheet).unwrap();
    let exact = rules::solution(&sheet, &rules::unused(&sheet).numbers(), &Fraction::from(3 * 333_334));
    assert_eq!(exact.0.stress, Fraction::ratio(3_000_002, 3));
}

#[test]
fn empty_list() {
    let (outcome, rows, old) = run(&line(0), &[]);
    assert_eq!((outcome.answer, rows.len(), outcome.next), (0, 0, old));
}

#[test]
fn ends_of_the_strain_change() {
    assert_eq!(run(&line(0), &[(200_000_000, 200)]).0.answer, 9 + 256);
    assert_eq!(run(&line(0), &[(200_000_001, 200)]).0.answer, 8 + 256);
}

/// The strain change that is the thermal strain leaves no stress: coefficient times (temperature − 200).
#[test]
fn expansion_by_points() {
    let sheet = with_points(line(0), &[(500, 1_100), (1_000, 1_300), (1_500, 1_250)]);
    for (temperature, coefficient) in [
        (-2_000, 1_100),
        (200, 1_100),
        (499, 1_100),
        (500, 1_100),
        (501, 1_100), // 1100 2/5
        (750, 1_200), // half-way
        (751, 1_200), // 1200 2/5
        (999, 1_299), // 1299 3/5
        (1_000, 1_300),
        (1_001, 1_299), // 1299 9/10
        (1_010, 1_299), // whole
        (1_499, 1_250), // 1250 1/10
        (1_500, 1_250),
        (1_501, 1_250),
        (20_000, 1_250),
    ] {
        let (outcome, rows, _) = run(&sheet, &[(coefficient * (temperature - 200), temperature)]);
        assert_eq!((outcome.answer, rows[0].stress, rows[0].plastic), (0, 0, 0), "at {temperature}");
    }
}

/// A falling line: 1499 29/30 is 1499, not 1500.
#[test]
fn rounded_down_on_a_falling_line() {
    let sheet = with_points(line(0), &[(200, 1_500), (3_200, 1_400)]);
    let (outcome, rows, _) = run(&sheet, &[(0, 201)]);
    assert_eq!((outcome.answer, rows[0].stress), (0, -200_000 * 1_499));
}

/// From one temperature to another the coefficient of each is taken: 1300 × 800 − 1100 × 300 nano.
#[test]
fn each_temperature_has_its_own_coefficient() {
    let sheet = with_points(line(0), &[(500, 1_100), (1_000, 1_300), (1_500, 1_250)]);
    let (outcome, rows, _) = run(&sheet, &[(330_000, 500), (710_001, 1_000), (0, 200)]);
    let stresses: Vec<i64> = rows.iter().map(|row| row.stress).collect();
    // the last would be 208,000,200,000 without its limit
    assert_eq!((outcome.answer, stresses), (0, vec![0, 200_000, 200_080_002_000]));
}

#[test]
fn points_that_do_not_rise() {
    for second in [500, 499] {
        let sheet = with_points(line(0), &[(500, 1_100), (second, 1_300)]);
        assert_eq!(run(&sheet, &[(0, 200)]).0.answer, 13);
    }
}
