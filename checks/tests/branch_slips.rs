//! A wrong branch is found: each wrong way to name it differs from the rules on
//! one of 20,000 calls such as the library gets, breaks what the branch has to do
//! with what stands beside it, where no other version is asked, and breaks what
//! lists of calls look at. The right ways do none of that.

use checks::branch::{self, accepted, of_sign, Accepted};
use checks::call::{self, Call, Outcome};
use checks::generate::{self, with_field};
use checks::layout::{self, ROW_BYTES};
use checks::random::Random;
use checks::rules;
use checks::solver;
use checks::Version;

const CALLS: usize = 20_000;
const SHEETS: i64 = 400;

/// Where the branch stands among the fields of a row.
const BRANCH_FIELD: usize = 1;

fn is_any(version: Version, fault: impl Fn(&Call, &Outcome) -> bool) -> bool {
    let mut random = Random::new(910);
    (0..CALLS).any(|_| {
        let call = generate::valid(&mut random);
        fault(&call, &version(&call))
    })
}

/// Whether a version differs from the rules on one of the calls.
fn is_found(version: Version) -> bool {
    is_any(version, |call, outcome| *outcome != rules::call(call))
}

/// Whether one of a version's rows doesn't go with what stands beside its branch.
fn contradicts_itself(version: Version) -> bool {
    is_any(version, |call, outcome| accepted(call, outcome).iter().any(|pair| branch::holds(pair).is_err()))
}

/// Whether lists of single pairs, runs, trials and keepings find a version, by what holds at each of their stops.
fn breaks_a_list(version: Version) -> bool {
    let mut random = Random::new(911);
    (0..SHEETS).any(|i| {
        let sheet = generate::sheet_of_law(&mut random, i % 4);
        solver::lists(&mut random, version, None, &sheet, 40).is_err()
    })
}

// ---- ways to name it ----

/// The rules' outcome, but with the branch that `name` gives each pair; `last` is the one that it gave the pair before.
fn naming(call: &Call, name: impl Fn(&Accepted, i64) -> i64) -> Outcome {
    let mut outcome = rules::call(call);
    let mut last = 0;
    for (i, pair) in accepted(call, &outcome).iter().enumerate() {
        last = name(pair, last);
        with_field(&layout::ROW, &mut outcome.rows, ROW_BYTES * i, BRANCH_FIELD, last);
    }
    outcome
}

/// The same of the pairs that yielded; the others are elastic.
fn naming_flows(call: &Call, name: impl Fn(&Accepted) -> i64) -> Outcome {
    naming(call, |pair, _| if pair.row.yielded { name(pair) } else { 0 })
}

fn of_the_strain_change(call: &Call) -> Outcome {
    naming_flows(call, |pair| of_sign(pair.change))
}

/// With compression where the strain stays.
fn of_the_strain_change_or_compression(call: &Call) -> Outcome {
    naming_flows(call, |pair| if pair.change > 0 { 1 } else { 2 })
}

fn of_the_new_stress(call: &Call) -> Outcome {
    naming_flows(call, |pair| of_sign(pair.row.stress))
}

fn of_the_trial(call: &Call) -> Outcome {
    naming_flows(call, |pair| of_sign(pair.trial))
}

fn of_the_old_stress(call: &Call) -> Outcome {
    naming_flows(call, |pair| of_sign(pair.before.stress))
}

/// A flat segment leaves the stress where it was.
fn of_the_stress_change(call: &Call) -> Outcome {
    naming_flows(call, |pair| of_sign(pair.row.stress - pair.before.stress))
}

/// Heat presses, cold pulls.
fn of_the_temperature(call: &Call) -> Outcome {
    naming_flows(call, |pair| if pair.after.temperature > pair.before.temperature { 2 } else { 1 })
}

/// The sign of plastic strain, and not of its change.
fn of_all_plastic_strain(call: &Call) -> Outcome {
    naming_flows(call, |pair| of_sign(pair.row.plastic))
}

/// What little the roundings take up is no flow here.
fn of_the_plastic_strain_as_stored(call: &Call) -> Outcome {
    naming_flows(call, |pair| of_sign(pair.growth()))
}

/// Which way the centre lies, under law 2.
fn of_the_old_centre(call: &Call) -> Outcome {
    naming_flows(call, |pair| of_sign(if pair.law == 2 { pair.before.first } else { pair.trial }))
}

/// Law 3 has a first variable too, and whatever doesn't move it is elastic.
fn of_the_first_variable(call: &Call) -> Outcome {
    naming_flows(call, |pair| match pair.law {
        3 => of_sign(pair.after.first - pair.before.first),
        _ => pair.row.branch,
    })
}

fn tension_where_nothing_flowed(call: &Call) -> Outcome {
    naming(call, |pair, _| if pair.row.yielded { pair.row.branch } else { 1 })
}

/// The last whole stress within a limit counts as passed.
fn of_a_limit_that_is_met(call: &Call) -> Outcome {
    naming(call, |pair, _| match pair.row.branch {
        0 if pair.trial == pair.limits.1 => 1,
        0 if pair.trial == pair.limits.0 => 2,
        branch => branch,
    })
}

fn kept_on_an_elastic_row(call: &Call) -> Outcome {
    naming(call, |pair, last| if pair.row.yielded { pair.row.branch } else { last })
}

fn exchanged(call: &Call) -> Outcome {
    naming_flows(call, |pair| 3 - pair.row.branch)
}

fn always_tension(call: &Call) -> Outcome {
    naming_flows(call, |_| 1)
}

fn always_compression(call: &Call) -> Outcome {
    naming_flows(call, |_| 2)
}

/// As rows were before.
fn zero_bits(call: &Call) -> Outcome {
    naming(call, |_, _| 0)
}

/// In bits 1 and 2 of the row, and not in 2 and 3.
fn a_bit_higher(call: &Call) -> Outcome {
    naming_flows(call, |pair| 2 * pair.row.branch)
}

/// The yielded bit stands a second time in front of it.
fn with_the_yielded_bit(call: &Call) -> Outcome {
    naming_flows(call, |pair| 4 | pair.row.branch)
}

/// Compression as −1.
fn as_a_sign(call: &Call) -> Outcome {
    naming_flows(call, |pair| if pair.row.branch == 1 { 1 } else { -1 })
}

/// The branch of the pair behind it, and of the last one its own.
fn of_the_pair_behind(call: &Call) -> Outcome {
    let mut outcome = rules::call(call);
    let all: Vec<i64> = accepted(call, &outcome).iter().map(|pair| pair.row.branch).collect();
    for (i, branch) in all.iter().skip(1).enumerate() {
        with_field(&layout::ROW, &mut outcome.rows, ROW_BYTES * i, BRANCH_FIELD, *branch);
    }
    outcome
}

/// Only the last row of a list has one.
fn in_the_last_row_only(call: &Call) -> Outcome {
    let mut outcome = rules::call(call);
    let count = accepted(call, &outcome).len();
    for i in 1..count {
        with_field(&layout::ROW, &mut outcome.rows, ROW_BYTES * (i - 1), BRANCH_FIELD, 0);
    }
    outcome
}

fn not_in_the_first_row(call: &Call) -> Outcome {
    let mut outcome = rules::call(call);
    if !accepted(call, &outcome).is_empty() {
        with_field(&layout::ROW, &mut outcome.rows, 0, BRANCH_FIELD, 0);
    }
    outcome
}

const WRONG: [(&str, Version); 24] = [
    ("the strain change's", of_the_strain_change),
    ("the strain change's, or compression", of_the_strain_change_or_compression),
    ("the new stress's", of_the_new_stress),
    ("the trial's", of_the_trial),
    ("the old stress's", of_the_old_stress),
    ("the stress change's", of_the_stress_change),
    ("the temperature's", of_the_temperature),
    ("all plastic strain's", of_all_plastic_strain),
    ("the stored plastic strain's", of_the_plastic_strain_as_stored),
    ("the old centre's", of_the_old_centre),
    ("the first variable's", of_the_first_variable),
    ("1 where nothing flowed", tension_where_nothing_flowed),
    ("a limit that is met", of_a_limit_that_is_met),
    ("kept on an elastic row", kept_on_an_elastic_row),
    ("exchanged", exchanged),
    ("always 1", always_tension),
    ("always 2", always_compression),
    ("zero bits", zero_bits),
    ("a bit higher", a_bit_higher),
    ("with the yielded bit", with_the_yielded_bit),
    ("-1 for compression", as_a_sign),
    ("the pair's behind it", of_the_pair_behind),
    ("in the last row only", in_the_last_row_only),
    ("not in the first row", not_in_the_first_row),
];

// ---- right ways ----

/// The old stress lies within the limits, so that a trial passes one only by mechanical strain of its own sign.
fn of_the_mechanical_strain_change(call: &Call) -> Outcome {
    naming_flows(call, |pair| of_sign(pair.mechanical))
}

/// A centre doesn't overtake the trial, so that under law 2 the new one has it on the same side.
fn of_the_new_centre(call: &Call) -> Outcome {
    naming_flows(call, |pair| of_sign(if pair.law == 2 { pair.trial - pair.after.first } else { pair.trial }))
}

/// Under law 2 the stress ends one radius from the new centre, on the side that flowed.
fn of_the_stress_beside_the_new_centre(call: &Call) -> Outcome {
    naming_flows(call, |pair| of_sign(pair.row.stress - if pair.law == 2 { pair.after.first } else { 0 }))
}

const RIGHT: [(&str, Version); 4] = [
    ("plain", call::plain),
    ("the mechanical strain change's", of_the_mechanical_strain_change),
    ("by the new centre", of_the_new_centre),
    ("by the stress beside the new centre", of_the_stress_beside_the_new_centre),
];

#[test]
fn without_a_slip_nothing_is_found() {
    for (name, right) in RIGHT {
        assert!(!is_found(right), "{name}: is found");
        assert!(!contradicts_itself(right), "{name}: contradicts itself");
        assert!(!breaks_a_list(right), "{name}: breaks a list");
    }
}

#[test]
fn each_slip_is_found() {
    for (name, slip) in WRONG {
        assert!(is_found(slip), "{name}: isn't found");
    }
}

#[test]
fn each_slip_contradicts_itself() {
    for (name, slip) in WRONG {
        assert!(contradicts_itself(slip), "{name}: goes with what stands beside it");
    }
}

#[test]
fn each_slip_breaks_a_list() {
    for (name, slip) in WRONG {
        assert!(breaks_a_list(slip), "{name}: breaks no list");
    }
}
