//! The comparison of trials and keepings finds what a hurried version would do:
//! each wrong one here differs from the rules on one of 20,000 calls such as the
//! library gets, and the right ones don't. Those that break demand 3 are found by
//! lists of calls too, where nothing but demand 3 is looked at.

use checks::call::{self, difference, Call, Entry, Outcome};
use checks::generate::{self, with_field};
use checks::layout::{self, PAIR_BYTES, STATE_BYTES};
use checks::random::Random;
use checks::rules;
use checks::solver::{self, OFFERS};
use checks::trial::NEXT_AT;
use checks::Version;

const CALLS: usize = 20_000;
const SHEETS: i64 = 400;

/// Whether a version differs from the rules on one of the calls: trials that pass, that are damaged or lent other
/// lengths, and everything that can be offered to a keeping.
fn is_found(version: Version) -> bool {
    let mut random = Random::new(730);
    (0..CALLS).any(|i| {
        let mut call = solver::trial(&mut random);
        match i % 8 {
            0 => {}
            1 => generate::damage(&mut random, &mut call),
            2 => generate::wrong_lengths(&mut random, &mut call),
            _ => {
                let offer = random.pick(&OFFERS);
                call = solver::keeping(&mut random, offer);
            }
        }
        difference(&rules::call(&call), &version(&call)).is_some()
    })
}

/// Whether demand 3 fails of a version in one of the lists.
fn breaks_demand_3(version: Version) -> bool {
    let mut random = Random::new(731);
    (0..SHEETS).any(|i| {
        let sheet = generate::sheet_of_law(&mut random, i % 4);
        solver::lists(&mut random, version, None, &sheet, 40).is_err()
    })
}

// ---- trials ----

/// The rules' outcome of the call, but what `change` makes of a trial's.
fn trying(call: &Call, change: impl Fn(&mut Outcome)) -> Outcome {
    let mut outcome = rules::call(call);
    if call.entry == Entry::Trial {
        change(&mut outcome);
    }
    outcome
}

/// The same, but of an accepted trial's alone.
fn trying_accepted(call: &Call, change: impl Fn(&mut Outcome)) -> Outcome {
    trying(call, |outcome| {
        if outcome.answer == 0 {
            change(outcome);
        }
    })
}

/// The same, but of a refused trial's alone.
fn trying_refused(call: &Call, change: impl Fn(&mut Outcome)) -> Outcome {
    trying(call, |outcome| {
        if outcome.answer != 0 {
            change(outcome);
        }
    })
}

fn hands_its_next_state_on(call: &Call) -> Outcome {
    trying_accepted(call, |outcome| outcome.state = outcome.next.clone())
}

fn starts_from_its_next_state(call: &Call) -> Outcome {
    trying_accepted(call, |outcome| outcome.trial.copy_within(NEXT_AT.., 1))
}

/// The trial holds the old state where the next one belongs.
fn has_the_old_state_for_the_next(call: &Call) -> Outcome {
    trying_accepted(call, |outcome| outcome.trial.copy_within(1..NEXT_AT, NEXT_AT))
}

/// n is left for the keeping to count.
fn leaves_n_to_the_keeping(call: &Call) -> Outcome {
    trying_accepted(call, |outcome| {
        let [.., n, _] = layout::read(&layout::STATE, &outcome.next);
        with_field(&layout::STATE, &mut outcome.next, 0, 8, n - 1);
        outcome.trial[NEXT_AT..].copy_from_slice(&outcome.next);
    })
}

fn leaves_the_buffers_to_the_keeping(call: &Call) -> Outcome {
    trying_accepted(call, |outcome| (outcome.rows, outcome.next) = (call.rows.clone(), call.next.clone()))
}

fn leaves_a_refused_trial_unwritten(call: &Call) -> Outcome {
    trying_refused(call, |outcome| outcome.trial = call.trial.clone())
}

/// A refused trial has number 0.
fn forgets_the_number(call: &Call) -> Outcome {
    trying_refused(call, |outcome| outcome.trial[0] = 0)
}

/// Behind the number of a refused pair stands the state that it was refused from, twice.
fn fills_a_refused_trial(call: &Call) -> Outcome {
    trying_refused(call, |outcome| {
        if outcome.place() == 1 {
            outcome.trial[1..NEXT_AT].copy_from_slice(&call.state);
            outcome.trial[NEXT_AT..].copy_from_slice(&call.state);
        }
    })
}

fn has_no_place(call: &Call) -> Outcome {
    trying(call, |outcome| outcome.answer = outcome.number())
}

/// `next` isn't written on any refusal.
fn leaves_next_on_a_refusal(call: &Call) -> Outcome {
    trying_refused(call, |outcome| outcome.next = call.next.clone())
}

/// A trial holds its next state, so a buffer of another length is fine.
fn does_without_the_next_buffer(call: &Call) -> Outcome {
    let other = Call { next: vec![0; STATE_BYTES], ..call.clone() };
    trying(call, |outcome| {
        if outcome.answer == 12 {
            *outcome = Outcome { next: call.next.clone(), ..rules::call(&other) };
        }
    })
}

/// Of a longer list the first pair is tried.
fn tries_the_first_pair_of_a_list(call: &Call) -> Outcome {
    trying(call, |outcome| {
        if outcome.answer == 7 && call.pairs.len() >= PAIR_BYTES {
            *outcome = rules::call(&Call { pairs: call.pairs[..PAIR_BYTES].to_vec(), ..call.clone() });
        }
    })
}

fn decides_12_before_7(call: &Call) -> Outcome {
    trying(call, |outcome| {
        if outcome.answer == 7 && call.next.len() != STATE_BYTES {
            (outcome.answer, outcome.trial[0]) = (12, 12);
        }
    })
}

// ---- keepings ----

/// A keeping by 12, and then by what `stands` says of trial and state; trials as the rules have them.
fn keeping(call: &Call, stands: impl Fn(&[u8], &[u8]) -> bool) -> Outcome {
    let mut outcome = rules::call(call);
    if call.entry == Entry::Keep && call.next.len() == STATE_BYTES {
        let stands = stands(&call.trial, &call.state);
        outcome.answer = if stands { 0 } else { 15 };
        outcome.next = if stands { call.trial[NEXT_AT..].to_vec() } else { call.next.clone() };
    }
    outcome
}

/// Not a slip: the rules' own conditions, to show that the others are found for what differs.
fn keeps_by_the_rules(call: &Call) -> Outcome {
    keeping(call, |trial, state| trial[0] == 0 && trial[1..NEXT_AT] == *state)
}

fn looks_at_the_number_only(call: &Call) -> Outcome {
    keeping(call, |trial, _| trial[0] == 0)
}

fn keeps_a_refused_trial(call: &Call) -> Outcome {
    keeping(call, |trial, state| trial[0] != 0 || trial[1..NEXT_AT] == *state)
}

fn forgets_to_look_at_the_number(call: &Call) -> Outcome {
    keeping(call, |trial, state| trial[1..NEXT_AT] == *state)
}

/// The numbers of the list are below 16.
fn looks_at_four_bits_of_the_number(call: &Call) -> Outcome {
    keeping(call, |trial, state| trial[0] & 15 == 0 && trial[1..NEXT_AT] == *state)
}

/// Whether a trial stands by some bytes of the state alone.
fn by_part(call: &Call, part: std::ops::Range<usize>) -> Outcome {
    keeping(call, |trial, state| {
        let start = &trial[1..NEXT_AT];
        trial[0] == 0 && state.len() == STATE_BYTES && start[part.clone()] == state[part.clone()]
    })
}

fn compares_without_the_counts(call: &Call) -> Outcome {
    by_part(call, 0..29)
}

fn compares_without_k(call: &Call) -> Outcome {
    by_part(call, 0..33)
}

fn compares_the_counts_only(call: &Call) -> Outcome {
    by_part(call, 29..37)
}

fn compares_without_the_first_byte(call: &Call) -> Outcome {
    by_part(call, 1..37)
}

fn compares_without_the_last_byte(call: &Call) -> Outcome {
    by_part(call, 0..36)
}

fn compares_strain_and_stress(call: &Call) -> Outcome {
    keeping(call, |trial, state| {
        trial[0] == 0 && state.len() == STATE_BYTES && trial[2..6] == state[1..5] && trial[8..14] == state[7..13]
    })
}

/// A state that is longer is looked at as far as the start goes.
fn compares_the_front_of_a_longer_state(call: &Call) -> Outcome {
    keeping(call, |trial, state| trial[0] == 0 && state.starts_with(&trial[1..NEXT_AT]))
}

/// A state that is shorter is looked at as far as it goes.
fn compares_as_much_as_there_is(call: &Call) -> Outcome {
    keeping(call, |trial, state| trial[0] == 0 && trial[1..NEXT_AT].starts_with(state))
}

/// A trial that was kept may be kept again.
fn keeps_again(call: &Call) -> Outcome {
    keeping(call, |trial, state| trial[0] == 0 && (trial[1..NEXT_AT] == *state || trial[NEXT_AT..] == *state))
}

fn keeps_from_the_next_state_only(call: &Call) -> Outcome {
    keeping(call, |trial, state| trial[0] == 0 && trial[NEXT_AT..] == *state)
}

/// Only what is a state is kept, so that bytes which no trial wrote get 15.
fn reads_the_next_state(call: &Call) -> Outcome {
    keeping(call, |trial, state| {
        trial[0] == 0 && trial[1..NEXT_AT] == *state && rules::read_state(&trial[NEXT_AT..]).is_ok()
    })
}

/// The rules' outcome of the call, but what `change` makes of a keeping's.
fn keeping_then(call: &Call, change: impl Fn(&mut Outcome)) -> Outcome {
    let mut outcome = rules::call(call);
    if call.entry == Entry::Keep {
        change(&mut outcome);
    }
    outcome
}

/// The same, where the keeping has this number.
fn where_kept_with(call: &Call, number: u64, change: impl Fn(&mut Outcome)) -> Outcome {
    keeping_then(call, |outcome| {
        if outcome.answer == number {
            change(outcome);
        }
    })
}

fn writes_the_next_state_on_15(call: &Call) -> Outcome {
    where_kept_with(call, 15, |outcome| outcome.next = call.trial[NEXT_AT..].to_vec())
}

fn writes_the_old_state_on_15(call: &Call) -> Outcome {
    where_kept_with(call, 15, |outcome| outcome.next = call.trial[1..NEXT_AT].to_vec())
}

fn writes_zeros_on_15(call: &Call) -> Outcome {
    where_kept_with(call, 15, |outcome| outcome.next.fill(0))
}

/// As much of the next state as there is room for.
fn writes_on_12(call: &Call) -> Outcome {
    where_kept_with(call, 12, |outcome| {
        let room = outcome.next.len().min(STATE_BYTES);
        outcome.next[..room].copy_from_slice(&call.trial[NEXT_AT..][..room]);
    })
}

fn counts_a_kept_pair_twice(call: &Call) -> Outcome {
    where_kept_with(call, 0, |outcome| {
        let [.., n, _] = layout::read(&layout::STATE, &outcome.next);
        with_field(&layout::STATE, &mut outcome.next, 0, 8, n + 1);
    })
}

/// n grows by one, and k too where the trial yielded.
fn counts_a_kept_row_twice(call: &Call) -> Outcome {
    where_kept_with(call, 0, |outcome| {
        let [_, yielded, .., n, k] = layout::read(&layout::STATE, &outcome.next);
        with_field(&layout::STATE, &mut outcome.next, 0, 8, n + 1);
        with_field(&layout::STATE, &mut outcome.next, 0, 9, k + yielded);
    })
}

fn hands_the_old_state_back(call: &Call) -> Outcome {
    where_kept_with(call, 0, |outcome| outcome.next = call.state.clone())
}

fn leaves_next_as_it_was(call: &Call) -> Outcome {
    where_kept_with(call, 0, |outcome| outcome.next = call.next.clone())
}

/// The trial can't be kept a second time by anybody.
fn uses_the_trial_up(call: &Call) -> Outcome {
    where_kept_with(call, 0, |outcome| outcome.trial[0] = 15)
}

/// The card itself is written.
fn writes_the_state(call: &Call) -> Outcome {
    where_kept_with(call, 0, |outcome| outcome.state = outcome.next.clone())
}

fn decides_15_before_12(call: &Call) -> Outcome {
    where_kept_with(call, 12, |outcome| {
        if call.trial[0] != 0 || call.trial[1..NEXT_AT] != call.state {
            outcome.answer = 15;
        }
    })
}

fn answers_4_for_another_length(call: &Call) -> Outcome {
    where_kept_with(call, 15, |outcome| {
        if call.state.len() != STATE_BYTES {
            outcome.answer = 4;
        }
    })
}

fn answers_12_for_another_length(call: &Call) -> Outcome {
    where_kept_with(call, 15, |outcome| {
        if call.state.len() != STATE_BYTES {
            outcome.answer = 12;
        }
    })
}

/// A refused trial's own number is answered once more.
fn answers_the_trials_number(call: &Call) -> Outcome {
    where_kept_with(call, 15, |outcome| {
        if call.trial[0] != 0 {
            outcome.answer = call.trial[0].into();
        }
    })
}

fn answers_a_place(call: &Call) -> Outcome {
    where_kept_with(call, 15, |outcome| outcome.answer = 15 + 256)
}

// ---- all of them ----

/// Those that leave a rod where its history doesn't lead, or foretell so.
const ABOUT_THE_ROD: [(&str, Version); 15] = [
    ("a trial hands its next state on", hands_its_next_state_on),
    ("a trial's next state is the old one", has_the_old_state_for_the_next),
    ("a trial leaves n to the keeping", leaves_n_to_the_keeping),
    ("a trial leaves row and next to the keeping", leaves_the_buffers_to_the_keeping),
    ("a keeping looks at the number only", looks_at_the_number_only),
    ("a refused trial is kept", keeps_a_refused_trial),
    ("a state without its counts", compares_without_the_counts),
    ("the counts only", compares_the_counts_only),
    ("strain and stress only", compares_strain_and_stress),
    ("a trial is kept again", keeps_again),
    ("the next state is written on 15", writes_the_next_state_on_15),
    ("a kept pair counts twice", counts_a_kept_pair_twice),
    ("a kept row counts twice", counts_a_kept_row_twice),
    ("the old state is handed back", hands_the_old_state_back),
    ("next stays as it was", leaves_next_as_it_was),
];

const OTHERS: [(&str, Version); 28] = [
    ("a trial's start is its next state", starts_from_its_next_state),
    ("a refused trial isn't written", leaves_a_refused_trial_unwritten),
    ("a refused trial has number 0", forgets_the_number),
    ("a refused trial isn't zeros", fills_a_refused_trial),
    ("a trial has no place", has_no_place),
    ("a refused trial leaves next", leaves_next_on_a_refusal),
    ("a trial does without the next buffer", does_without_the_next_buffer),
    ("a trial takes a longer list", tries_the_first_pair_of_a_list),
    ("a trial decides 12 before 7", decides_12_before_7),
    ("the number isn't looked at", forgets_to_look_at_the_number),
    ("four bits of the number", looks_at_four_bits_of_the_number),
    ("a state without k", compares_without_k),
    ("a state without its first byte", compares_without_the_first_byte),
    ("a state without its last byte", compares_without_the_last_byte),
    ("the front of a longer state", compares_the_front_of_a_longer_state),
    ("as much of a state as there is", compares_as_much_as_there_is),
    ("a trial is kept from its next state", keeps_from_the_next_state_only),
    ("the next state is read", reads_the_next_state),
    ("the old state is written on 15", writes_the_old_state_on_15),
    ("zeros are written on 15", writes_zeros_on_15),
    ("a buffer is written on 12", writes_on_12),
    ("a trial is used up", uses_the_trial_up),
    ("the state is written", writes_the_state),
    ("15 before 12", decides_15_before_12),
    ("4 for a state of another length", answers_4_for_another_length),
    ("12 for a state of another length", answers_12_for_another_length),
    ("the trial's own number", answers_the_trials_number),
    ("a place", answers_a_place),
];

#[test]
fn without_a_slip_nothing_is_found() {
    for right in [call::plain, keeps_by_the_rules] {
        assert!(!is_found(right));
        assert!(!breaks_demand_3(right));
    }
}

#[test]
fn each_slip_is_found() {
    for (name, slip) in ABOUT_THE_ROD.into_iter().chain(OTHERS) {
        assert!(is_found(slip), "{name}: isn't found");
    }
}

#[test]
fn each_slip_about_the_rod_breaks_demand_3() {
    for (name, slip) in ABOUT_THE_ROD {
        assert!(breaks_demand_3(slip), "{name}: demand 3 holds");
    }
}
