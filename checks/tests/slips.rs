//! The checks find what the papers warn of: each wrong step and each sham run
//! that they name, and some near misses, played by a wrong version, differs
//! from the rules on one of 20,000 calls such as the library gets.

use checks::call::{Call, Entry, Outcome};
use checks::fraction::Fraction;
use checks::generate::{self, POINT_DAMAGES};
use checks::layout::{self, PAIR_BYTES, POINT_BYTES, ROW_BYTES};
use checks::random::Random;
use checks::rules::{self, Flow, Law, Numbers, Pair, Point, Row, Sheet, Side, State};

const CALLS: usize = 20_000;

/// Whether a version differs from the rules on one of the calls.
fn is_found(version: impl Fn(&Call) -> Outcome) -> bool {
    let mut random = Random::new(400);
    (0..CALLS).any(|_| {
        let call = generate::valid(&mut random);
        version(&call) != rules::call(&call)
    })
}

/// Whether a version differs from the rules on one of the calls whose sheet has damaged points.
fn is_found_by_damage(version: impl Fn(&Call) -> Outcome) -> bool {
    let mut random = Random::new(401);
    (0..CALLS).any(|_| {
        let mut call = generate::valid(&mut random);
        let way = random.pick(&POINT_DAMAGES);
        if layout::read(&layout::SHEET, &call.sheet)[9] < 2 {
            return false;
        }
        generate::damage_points(&mut random, &mut call.sheet, way);
        if random.chance(20) {
            call.state.pop();
        }
        version(&call) != rules::call(&call)
    })
}

// ---- slips of one pair ----

#[derive(Clone, Copy, Debug, PartialEq)]
enum Slip {
    None,
    FlowAtEquality,
    NegativeStressDown,
    OtherDivisorBehindTheFirstSegment,
    RiseOfTheSegmentBeforeLeftOut,
    RiseCarriedTwice,
    RiseByTheModulus,
    RiseAddedBeforeTheSegmentIsLeft,
    SideByTheStrainChange,
    AbscissaDown,
    StressUp,
    LimitAtTheExactAbscissa,
    LimitRoundedBeforeTheFlow,
    CentreUp,
    SegmentHoldsItsEnd,
    TangentOfTheOldSegment,
    RangeBeforeStrain,
    ThermalStrainForgotten,
    CoefficientUp,
    CoefficientUpOnAFallingLine,
    CoefficientOfThePointBefore,
    CoefficientNotRounded,
    ThermalStrainRounded,
    ExtrapolatedBelow,
    ExtrapolatedAbove,
    CoefficientAtTheOldTemperature,
    SingleNumberBesidePoints,
    ChangeByTheNewCoefficient,
}

const SLIPS: [Slip; 27] = [
    Slip::FlowAtEquality,
    Slip::NegativeStressDown,
    Slip::OtherDivisorBehindTheFirstSegment,
    Slip::RiseOfTheSegmentBeforeLeftOut,
    Slip::RiseCarriedTwice,
    Slip::RiseByTheModulus,
    Slip::RiseAddedBeforeTheSegmentIsLeft,
    Slip::SideByTheStrainChange,
    Slip::AbscissaDown,
    Slip::StressUp,
    Slip::LimitAtTheExactAbscissa,
    Slip::LimitRoundedBeforeTheFlow,
    Slip::CentreUp,
    Slip::SegmentHoldsItsEnd,
    Slip::TangentOfTheOldSegment,
    Slip::RangeBeforeStrain,
    Slip::ThermalStrainForgotten,
    Slip::CoefficientUp,
    Slip::CoefficientUpOnAFallingLine,
    Slip::CoefficientOfThePointBefore,
    Slip::CoefficientNotRounded,
    Slip::ThermalStrainRounded,
    Slip::ExtrapolatedBelow,
    Slip::ExtrapolatedAbove,
    Slip::CoefficientAtTheOldTemperature,
    Slip::SingleNumberBesidePoints,
    Slip::ChangeByTheNewCoefficient,
];

/// The coefficient at a temperature, with a slip.
fn coefficient(slip: Slip, sheet: &Sheet, temperature: i64) -> Fraction {
    let at = Fraction::from(temperature);
    let points = &sheet.points;
    if points.is_empty() || slip == Slip::SingleNumberBesidePoints {
        return Fraction::from(sheet.expansion);
    }
    // The line of the two points whose stretch holds the temperature, or the one nearest to it.
    let above = points.iter().position(|point| temperature <= point.temperature).unwrap_or(points.len());
    let below = above == 0;
    let beyond = below || above == points.len();
    let extrapolated = if below { Slip::ExtrapolatedBelow } else { Slip::ExtrapolatedAbove };
    if points.len() == 1 || beyond && slip != extrapolated {
        return Fraction::from(points[above.min(points.len() - 1)].coefficient);
    }
    let two: &[Point] = &points[above.clamp(1, points.len() - 1) - 1..][..2];
    let falls = two[1].coefficient < two[0].coefficient;
    let exact = rules::line(&two[0], &two[1], &at);
    match slip {
        Slip::CoefficientUp => exact.ceiling(),
        Slip::CoefficientUpOnAFallingLine if falls => exact.ceiling(),
        Slip::CoefficientOfThePointBefore if two[1].temperature == temperature => Fraction::from(two[0].coefficient),
        Slip::CoefficientNotRounded | Slip::ThermalStrainRounded => exact,
        _ => exact.floor(),
    }
}

/// Thermal strain, with a slip.
fn thermal(slip: Slip, sheet: &Sheet, temperature: i64) -> Fraction {
    let above = Fraction::from(temperature - sheet.reference);
    let strain = &coefficient(slip, sheet, temperature) * &above;
    if slip == Slip::CoefficientNotRounded {
        return strain;
    }
    strain.floor()
}

/// Thermal strain behind a pair, with a slip.
fn thermal_behind(slip: Slip, sheet: &Sheet, state: &State, pair: &Pair) -> Fraction {
    let tenths = |from: i64| Fraction::from(pair.temperature - from);
    match slip {
        Slip::ThermalStrainForgotten => thermal(slip, sheet, state.temperature),
        Slip::CoefficientAtTheOldTemperature => &coefficient(slip, sheet, state.temperature) * &tenths(sheet.reference),
        Slip::ChangeByTheNewCoefficient => {
            let change = &coefficient(slip, sheet, pair.temperature) * &tenths(state.temperature);
            &thermal(slip, sheet, state.temperature) + &change
        }
        _ => thermal(slip, sheet, pair.temperature),
    }
}

/// Whether 10 doesn't apply.
fn in_range(sheet: &Sheet, state: &State, stored: &Numbers) -> bool {
    let within = |value: &Fraction, end: i64| value.abs() <= Fraction::from(end);
    let variables = if sheet.law == Law::Kinematic { rules::STRESS } else { rules::ABSCISSA };
    within(&stored.stress, rules::STRESS)
        && within(&stored.first, variables)
        && within(&stored.second, variables)
        && state.n < rules::COUNT
}

/// One pair, computed with a slip; without one as the rules have it.
fn step(slip: Slip, sheet: &Sheet, state: &State, pair: &Pair) -> Result<(State, Row), u64> {
    let strain = state.strain + pair.change;
    let leaves = strain.abs() > rules::STRAIN;
    if leaves && slip != Slip::RangeBeforeStrain {
        return Err(9);
    }
    let old = state.numbers();
    let whole = |value: i64| Fraction::from(value);
    let thermal_change = &thermal_behind(slip, sheet, state, pair) - &thermal(slip, sheet, state.temperature);
    let trial = &old.stress + &(&whole(sheet.modulus) * &(&whole(pair.change) - &thermal_change));
    let (stored, flow, tangent) = flowed(slip, sheet, &old, &trial, pair.change);
    if !in_range(sheet, state, &stored) {
        return Err(10);
    }
    if leaves {
        return Err(9);
    }
    let yielded = flow != Flow::None;
    let load = &whole(sheet.modulus) * &(&whole(strain) - &thermal(slip, sheet, pair.temperature));
    // An unrounded coefficient may leave a part of a grain.
    let cut = |value: &Fraction| value.floor().whole().unwrap();
    let stress = cut(&stored.stress);
    let row = Row { yielded, branch: flow as i64, tangent, stress, plastic: cut(&(&load - &stored.stress)) };
    let (first, second) = (cut(&stored.first), cut(&stored.second));
    let (temperature, n, k) = (pair.temperature, state.n + 1, state.k + yielded as i64);
    Ok((State { law: state.law, yielded, strain, temperature, stress, first, second, n, k }, row))
}

/// The stored numbers, what flowed, and the tangent.
fn flowed(slip: Slip, sheet: &Sheet, old: &Numbers, trial: &Fraction, change: i64) -> (Numbers, Flow, i64) {
    let passes = |value: &Fraction, limit: &Fraction| value > limit || (slip == Slip::FlowAtEquality && value == limit);
    let elastic = (Numbers { stress: trial.clone(), ..old.clone() }, Flow::None, sheet.modulus);
    let one = Fraction::from(1);
    if sheet.law == Law::Kinematic {
        let offset = trial - &old.first;
        let radius = &sheet.tension.yield_stress;
        if !passes(&offset.abs(), radius) {
            return elastic;
        }
        let tangent = sheet.tension.segments[0].tangent;
        let shift = &(&offset.abs() - radius) * &Fraction::ratio(tangent, sheet.modulus);
        let shift = if slip == Slip::CentreUp { shift.ceiling() } else { shift.floor() };
        let first = &old.first + &(&offset.sign() * &shift);
        let stress = &first + &(&offset.sign() * radius);
        let flow = if offset.is_negative() { Flow::Compression } else { Flow::Tension };
        return (Numbers { stress, first, second: old.second.clone() }, flow, tangent);
    }
    let pull = |side: &Side, abscissa: &Fraction, sign: &Fraction| {
        let magnitude = trial * sign;
        let limit = limit(slip, sheet, side, abscissa);
        if !passes(&magnitude, &limit) {
            return None;
        }
        let limit = if slip == Slip::LimitRoundedBeforeTheFlow { limit.ceiling() } else { limit };
        let exact = abscissa + &(&magnitude - &limit);
        let new = if slip == Slip::AbscissaDown { exact.floor() } else { exact.ceiling() };
        let at = if slip == Slip::LimitAtTheExactAbscissa { exact } else { new.clone() };
        let limit = self::limit(slip, sheet, side, &at);
        let stress = match slip {
            Slip::StressUp => sign * &limit.ceiling(),
            Slip::NegativeStressDown => (sign * &limit).floor(),
            _ => sign * &limit.floor(),
        };
        let tangent = match slip {
            Slip::TangentOfTheOldSegment => side.segment(abscissa).tangent,
            Slip::SegmentHoldsItsEnd => {
                side.segments.iter().rev().find(|s| s.start < new).unwrap_or(&side.segments[0]).tangent
            }
            _ => side.segment(&new).tangent,
        };
        Some((stress, new, tangent))
    };
    if sheet.law == Law::Asymmetric {
        let (up, down) = match slip {
            Slip::SideByTheStrainChange => (change > 0, change < 0),
            _ => (true, true),
        };
        if let Some((stress, first, tangent)) = pull(&sheet.tension, &old.first, &one).filter(|_| up) {
            return (Numbers { stress, first, second: old.second.clone() }, Flow::Tension, tangent);
        }
        let compression = sheet.compression.as_ref().unwrap();
        if let Some((stress, second, tangent)) = pull(compression, &old.second, &-&one).filter(|_| down) {
            return (Numbers { stress, first: old.first.clone(), second }, Flow::Compression, tangent);
        }
        return elastic;
    }
    let flow = if trial.is_negative() { Flow::Compression } else { Flow::Tension };
    match pull(&sheet.tension, &old.first, &trial.sign()) {
        Some((stress, first, tangent)) => (Numbers { stress, first, second: old.second.clone() }, flow, tangent),
        None => elastic,
    }
}

/// T, with a slip.
fn limit(slip: Slip, sheet: &Sheet, side: &Side, abscissa: &Fraction) -> Fraction {
    let i = side.segments.iter().rposition(|segment| segment.start <= *abscissa).expect("below the yield");
    let (before, here) = (&side.segments[i.saturating_sub(1)], &side.segments[i]);
    let height = match slip {
        Slip::RiseOfTheSegmentBeforeLeftOut => before.height.clone(),
        Slip::RiseCarriedTwice => &here.height + &(&here.height - &before.height),
        Slip::RiseByTheModulus => here.start.clone(),
        Slip::RiseAddedBeforeTheSegmentIsLeft => side.segments.get(i + 1).unwrap_or(here).height.clone(),
        _ => here.height.clone(),
    };
    // the divisor of the hardening modulus
    let other = slip == Slip::OtherDivisorBehindTheFirstSegment && i > 0;
    let divisor = if other { sheet.modulus - here.tangent } else { sheet.modulus };
    &height + &(&(abscissa - &here.start) * &Fraction::ratio(here.tangent, divisor))
}

/// A run or a single pair with a slip in each step; the other calls as the rules have them.
fn with_slip(slip: Slip, call: &Call) -> Outcome {
    let mut outcome = rules::call(call);
    if call.entry == Entry::Forecast || call.entry == Entry::Unused {
        return outcome;
    }
    let sheet = rules::read_sheet(&call.sheet).unwrap();
    let mut state = rules::read_state(&call.state).unwrap();
    (outcome.answer, outcome.rows) = (0, call.rows.clone());
    for (i, bytes) in call.pairs.chunks(PAIR_BYTES).enumerate() {
        match rules::read_pair(bytes).and_then(|pair| step(slip, &sheet, &state, &pair)) {
            Ok((new, row)) => {
                state = new;
                outcome.rows[ROW_BYTES * i..ROW_BYTES * (i + 1)].copy_from_slice(&row.bytes());
            }
            Err(number) => {
                outcome.answer = number + 256 * (i as u64 + 1);
                break;
            }
        }
    }
    outcome.next = state.bytes();
    outcome
}

#[test]
fn without_a_slip_nothing_is_found() {
    assert!(!is_found(|call| with_slip(Slip::None, call)));
}

#[test]
fn each_slip_is_found() {
    for slip in SLIPS {
        assert!(is_found(|call| with_slip(slip, call)), "{slip:?} isn't found");
    }
}

// ---- shams of a whole run ----

/// Every row is the first pair's.
fn copies_the_first_row(call: &Call) -> Outcome {
    let mut outcome = rules::call(call);
    let rows = outcome.accepted(&call.pairs);
    for i in 1..rows {
        outcome.rows.copy_within(..ROW_BYTES, ROW_BYTES * i);
    }
    outcome
}

fn returns_the_old_state(call: &Call) -> Outcome {
    let mut outcome = rules::call(call);
    if call.entry != Entry::Unused {
        outcome.next = call.state.clone();
    }
    outcome
}

fn reports_a_k_of_its_own(call: &Call) -> Outcome {
    let mut outcome = rules::call(call);
    let mut values = layout::read(&layout::STATE, &outcome.next);
    values[9] = values[8];
    outcome.next = layout::write(&layout::STATE, values);
    outcome
}

fn stops_with_10_at_pair_1(call: &Call) -> Outcome {
    if call.pairs.is_empty() {
        return rules::call(call);
    }
    Outcome { answer: 10 + 256, rows: call.rows.clone(), next: call.state.clone(), ..rules::call(call) }
}

fn writes_a_constant_row(call: &Call) -> Outcome {
    let mut outcome = rules::call(call);
    let written = ROW_BYTES * outcome.accepted(&call.pairs);
    outcome.rows[..written].fill(0);
    outcome
}

fn turns_every_sheet_away(call: &Call) -> Outcome {
    Outcome { answer: 2, rows: call.rows.clone(), next: vec![0; call.next.len()], ..rules::call(call) }
}

fn clears_the_rows_behind(call: &Call) -> Outcome {
    let mut outcome = rules::call(call);
    let written = ROW_BYTES * outcome.accepted(&call.pairs);
    outcome.rows[written..].fill(0);
    outcome
}

#[test]
fn each_sham_is_found() {
    assert!(is_found(copies_the_first_row));
    assert!(is_found(returns_the_old_state));
    assert!(is_found(reports_a_k_of_its_own));
    assert!(is_found(stops_with_10_at_pair_1));
    assert!(is_found(writes_a_constant_row));
    assert!(is_found(turns_every_sheet_away));
    assert!(is_found(clears_the_rows_behind));
}

// ---- slips about the sheet ----

/// The temperatures of a sheet that passes 1.
fn temperatures(sheet: &[u8]) -> Vec<i64> {
    let points = &sheet[generate::points_at(sheet)..];
    points.chunks(POINT_BYTES).map(|bytes| layout::read(&layout::POINT, bytes)[0]).collect()
}

fn rise(sheet: &[u8]) -> bool {
    temperatures(sheet).windows(2).all(|two| two[0] < two[1])
}

/// The rules' outcome, but with the number 13 where `condition` says so.
fn with_13(call: &Call, condition: impl Fn(u64) -> bool) -> Outcome {
    let outcome = rules::call(call);
    if condition(outcome.answer) && !rise(&call.sheet) {
        return Outcome { answer: 13, ..outcome };
    }
    outcome
}

fn refuses_13_before_3(call: &Call) -> Outcome {
    with_13(call, |number| number == 3)
}

fn refuses_13_before_2(call: &Call) -> Outcome {
    with_13(call, |number| number == 2)
}

/// The state's length is looked at before the points.
fn refuses_13_behind_4(call: &Call) -> Outcome {
    let outcome = rules::call(call);
    if outcome.answer == 13 && call.entry != Entry::Unused && call.state.len() != 37 {
        return Outcome { answer: 4, ..outcome };
    }
    outcome
}

/// Points at one temperature pass, and the first of them holds.
fn accepts_equal_temperatures(call: &Call) -> Outcome {
    let outcome = rules::call(call);
    if outcome.answer != 13 {
        return outcome;
    }
    let at = generate::points_at(&call.sheet);
    let (head, points) = call.sheet.split_at(at);
    let mut points: Vec<&[u8]> = points.chunks(POINT_BYTES).collect();
    points.dedup_by_key(|bytes| layout::read(&layout::POINT, bytes)[0]);
    let mut sheet = [head, &points.concat()].concat();
    generate::with_field(&layout::SHEET, &mut sheet, 0, 9, points.len() as i64);
    rules::call(&Call { sheet, ..call.clone() })
}

/// Only the first two points and the last two are compared.
fn looks_at_the_ends_only(call: &Call) -> Outcome {
    let outcome = rules::call(call);
    if outcome.answer != 13 {
        return outcome;
    }
    match temperatures(&call.sheet)[..] {
        [first, second, .., before, last] if first < second && before < last => Outcome { answer: 0, ..outcome },
        _ => outcome,
    }
}

/// What a refusal leaves goes by `number <= 6`.
fn leaves_the_old_state_on_13(call: &Call) -> Outcome {
    let mut outcome = rules::call(call);
    if outcome.answer == 13 && outcome.next.len() == call.state.len() {
        outcome.next = call.state.clone();
    }
    outcome
}

/// Of a sheet that is refused with 2 a field is taken for another value.
fn accepts_where(call: &Call, field: usize, value: i64) -> Outcome {
    let outcome = rules::call(call);
    if outcome.answer != 2 {
        return outcome;
    }
    let mut call = call.clone();
    generate::with_field(&layout::SHEET, &mut call.sheet, 0, field, value);
    rules::call(&call)
}

/// The single number may stand beside points.
fn accepts_a_single_number_beside_points(call: &Call) -> Outcome {
    accepts_where(call, 4, 0)
}

fn ignores_the_zero_bits_of_the_header(call: &Call) -> Outcome {
    accepts_where(call, 8, 0)
}

/// A sheet of nine points or more is taken with its first eight.
fn accepts_nine_points(call: &Call) -> Outcome {
    let outcome = rules::call(call);
    if outcome.answer != 2 || layout::read(&layout::SHEET, &call.sheet)[9] <= 8 {
        return outcome;
    }
    let mut sheet = call.sheet.clone();
    generate::with_field(&layout::SHEET, &mut sheet, 0, 9, 8);
    generate::mend_length(&mut sheet);
    rules::call(&Call { sheet, ..call.clone() })
}

/// The length without the points.
fn forgets_the_points_in_the_length(call: &Call) -> Outcome {
    let outcome = rules::call(call);
    let points = layout::read(&layout::SHEET, &call.sheet)[9] as usize;
    if outcome.answer == 1 && call.sheet.len() == layout::sheet_length(&call.sheet) - POINT_BYTES * points {
        return Outcome { answer: 0, ..outcome };
    }
    outcome
}

/// The quick version, which has no slip and shares no code with the rules, isn't found.
#[test]
fn without_a_slip_the_damage_finds_nothing() {
    assert!(!is_found_by_damage(checks::call::plain));
}

#[test]
fn each_slip_about_the_points_is_found() {
    assert!(is_found_by_damage(refuses_13_before_3));
    assert!(is_found_by_damage(refuses_13_before_2));
    assert!(is_found_by_damage(refuses_13_behind_4));
    assert!(is_found_by_damage(accepts_equal_temperatures));
    assert!(is_found_by_damage(looks_at_the_ends_only));
    assert!(is_found_by_damage(leaves_the_old_state_on_13));
    assert!(is_found_by_damage(accepts_a_single_number_beside_points));
    assert!(is_found_by_damage(ignores_the_zero_bits_of_the_header));
    assert!(is_found_by_damage(accepts_nine_points));
    assert!(is_found_by_damage(forgets_the_points_in_the_length));
}
