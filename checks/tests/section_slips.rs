//! The comparison of sections finds what a hurried version would do: each
//! wrong one here differs from the rules on one of 20,000 calls such as the
//! library gets, and the right one doesn't.

use checks::bundle::{self, plate, RODS_OWN};
use checks::layout;
use checks::random::Random;
use checks::rules::{self, Number, Pair, State};
use checks::section::{self, difference, Call, Outcome, Version, CURVATURE, MEAN, RODS, UNWRITTEN};

const CALLS: usize = 20_000;

/// Whether a version differs from the rules on one of the calls: plates with two rods that are to be refused, damaged
/// sections, and ones that pass.
fn is_found(version: Version) -> bool {
    let mut random = Random::new(600);
    (0..CALLS).any(|i| {
        let mut call = if i % 4 == 0 { two_refused(&mut random) } else { bundle::valid(&mut random) };
        if i % 4 == 1 {
            bundle::damage(&mut random, &mut call);
        }
        difference(&section::rules(&call), &version(&call)).is_some()
    })
}

/// A plate with two rods that are to be refused, and sometimes with a member, or a sheet, that is.
fn two_refused(random: &mut Random) -> Call {
    let mut call = plate(random.range(0, 3), random.chance(50));
    for _ in 0..2 {
        let place = random.range(1, RODS as i64) as usize;
        bundle::refuse(&mut call, place, random.pick(&RODS_OWN));
    }
    match random.below(8) {
        0 => call.members[RODS - 1].area = 0,
        1 => (call.members[RODS - 1].offset, call.sheet[1]) = (1_001, 0xff),
        2 => call.temperature += 1 << 16,
        3 => call.mean = (1 << 29) - 400 * 1_000_000,
        _ => {}
    }
    if call.mean > 0 {
        // changes that in 29 bits are small
        call.curvature = 1_000_000;
        call.members.iter_mut().for_each(|member| member.offset = 400);
    }
    call
}

// ---- who is refused ----

/// Each rod's next state, or its own number; nothing where sheet or section are refused.
fn each(call: &Call) -> Vec<Result<State, Number>> {
    let refused = !section::in_range(call);
    let Some(sheet) = rules::read_sheet(&call.sheet).ok().filter(|_| !refused) else {
        return Vec::new();
    };
    call.members.iter().map(|member| section::next(&sheet, call, member)).collect()
}

/// A refused rod, counted from 0, and its number.
type Refused = (usize, Number);

/// The rules' outcome, but where a rod is refused with what `choose` takes of all the refused ones.
fn choosing(call: &Call, choose: fn(&[Refused]) -> Refused) -> Outcome {
    let outcome = section::rules(call);
    if outcome.place() == 0 {
        return outcome;
    }
    let numbers: Vec<Refused> =
        each(call).iter().enumerate().filter_map(|(at, rod)| Some((at, *rod.as_ref().err()?))).collect();
    let (at, number) = choose(&numbers);
    Outcome { answer: number + 256 * (at as u64 + 1), ..outcome }
}

fn the_highest_refused_rod(call: &Call) -> Outcome {
    choosing(call, |refused| *refused.last().unwrap())
}

fn the_least_number_of_all_rods(call: &Call) -> Outcome {
    choosing(call, |refused| *refused.iter().min_by_key(|(_, number)| *number).unwrap())
}

/// All states are judged before the first rod is given its change.
fn states_before_changes(call: &Call) -> Outcome {
    choosing(call, |refused| *refused.iter().find(|(_, number)| *number <= 6).unwrap_or(&refused[0]))
}

/// The change and the temperature are looked at before the state.
fn change_before_state(call: &Call) -> Outcome {
    let outcome = section::rules(call);
    let cold = !rules::TEMPERATURES.contains(&call.temperature);
    let looked_at = &call.members[..outcome.place() as usize];
    let beyond = |member| cold || section::change(call, member).abs() > MEAN;
    match looked_at.iter().position(beyond) {
        Some(at) => Outcome { answer: 8 + 256 * (at as u64 + 1), ..outcome },
        None => outcome,
    }
}

/// The answer is changed where `condition` holds of the rules' outcome.
fn answering(call: &Call, condition: impl Fn(&Outcome) -> bool, answer: impl Fn(&Outcome) -> u64) -> Outcome {
    let outcome = section::rules(call);
    if condition(&outcome) {
        return Outcome { answer: answer(&outcome), ..outcome };
    }
    outcome
}

fn place_from_zero(call: &Call) -> Outcome {
    answering(call, |outcome| outcome.place() > 0, |outcome| outcome.answer - 256)
}

fn no_place(call: &Call) -> Outcome {
    answering(call, |_| true, Outcome::number)
}

fn a_place_for_14(call: &Call) -> Outcome {
    let bad =
        call.members.iter().position(|m| !section::AREAS.contains(&m.area) || !section::OFFSETS.contains(&m.offset));
    answering(call, |outcome| outcome.answer == 14, |_| 14 + 256 * bad.map_or(0, |at| at as u64 + 1))
}

fn temperature_as_14(call: &Call) -> Outcome {
    let cold = !rules::TEMPERATURES.contains(&call.temperature);
    answering(call, |outcome| outcome.number() == 8 && cold, |_| 14)
}

fn change_as_14(call: &Call) -> Outcome {
    let cold = !rules::TEMPERATURES.contains(&call.temperature);
    answering(call, |outcome| outcome.number() == 8 && !cold, |_| 14)
}

fn fourteen_before_the_sheet(call: &Call) -> Outcome {
    answering(call, |outcome| outcome.answer != 0 && !section::in_range(call), |_| 14)
}

/// Areas and offsets are looked at rod by rod, with the rest of each.
fn fourteen_among_the_rods(call: &Call) -> Outcome {
    let outcome = section::rules(call);
    let bad = |count: &usize| !section::in_range(&Call { members: call.members[..*count].to_vec(), ..call.clone() });
    match (1..=call.members.len()).find(bad) {
        Some(count) if outcome.answer == 14 && count > 1 => {
            let before = section::rules(&Call { members: call.members[..count - 1].to_vec(), ..call.clone() });
            Outcome { answer: if before.answer == 0 { 14 } else { before.answer }, ..outcome }
        }
        _ => outcome,
    }
}

/// 14 isn't given where the one thing wrong is what `mend` mends.
fn without_14(call: &Call, mend: fn(&mut Call)) -> Outcome {
    let mut mended = call.clone();
    mend(&mut mended);
    let in_range = section::in_range(&mended);
    answering(call, |outcome| outcome.answer == 14 && in_range, |_| section::rules(&mended).answer)
}

fn takes_33_rods(call: &Call) -> Outcome {
    without_14(call, |call| call.members.truncate(if call.members.len() == 33 { 32 } else { 100 }))
}

fn takes_no_rods(call: &Call) -> Outcome {
    let fine = (-MEAN..=MEAN).contains(&call.mean) && (-CURVATURE..=CURVATURE).contains(&call.curvature);
    answering(call, |outcome| outcome.answer == 14 && call.members.is_empty() && fine, |_| 0)
}

fn takes_any_mean(call: &Call) -> Outcome {
    without_14(call, |call| call.mean = call.mean.clamp(-MEAN, MEAN))
}

fn takes_any_curvature(call: &Call) -> Outcome {
    without_14(call, |call| call.curvature = call.curvature.clamp(-CURVATURE, CURVATURE))
}

fn takes_no_area(call: &Call) -> Outcome {
    without_14(call, |call| call.members.iter_mut().for_each(|member| member.area = member.area.max(1)))
}

fn takes_any_negative_offset(call: &Call) -> Outcome {
    without_14(call, |call| call.members.iter_mut().for_each(|member| member.offset = member.offset.max(-1_000)))
}

// ---- what a refusal leaves ----

/// The rods move one by one, until one is refused.
fn moves_before_a_later_refusal(call: &Call) -> Outcome {
    let mut outcome = section::rules(call);
    let before = (outcome.place() as usize).saturating_sub(1);
    for (member, state) in outcome.members.iter_mut().zip(each(call)).take(before) {
        member.state = state.unwrap().bytes().try_into().unwrap();
    }
    outcome
}

/// Only the rods that are refused stay.
fn moves_all_that_can(call: &Call) -> Outcome {
    let mut outcome = section::rules(call);
    for (member, state) in outcome.members.iter_mut().zip(each(call)) {
        if let Ok(state) = state {
            member.state = state.bytes().try_into().unwrap();
        }
    }
    outcome
}

/// The refused rod's state is made zeros, as a single pair hands them back on 5 and 6.
fn clears_the_refused_state(call: &Call) -> Outcome {
    let mut outcome = section::rules(call);
    if outcome.place() != 0 && outcome.number() <= 6 {
        let at = outcome.place() as usize - 1;
        outcome.members[at].state.fill(0);
    }
    outcome
}

fn clears_the_padding(call: &Call) -> Outcome {
    let mut outcome = section::rules(call);
    outcome.members.iter_mut().for_each(|member| member.padding = [0; 3]);
    outcome
}

fn leaves_the_sums_unwritten(call: &Call) -> Outcome {
    let outcome = section::rules(call);
    if outcome.answer == 0 {
        return outcome;
    }
    Outcome { force: UNWRITTEN, moment: UNWRITTEN, ..outcome }
}

/// On a refusal, the sums of the rods before the refused one.
fn leaves_the_sums_so_far(call: &Call) -> Outcome {
    let outcome = section::rules(call);
    let before = (outcome.place() as usize).saturating_sub(1);
    if before == 0 {
        return outcome;
    }
    let so_far = section::rules(&Call { members: call.members[..before].to_vec(), ..call.clone() });
    Outcome { force: so_far.force, moment: so_far.moment, ..outcome }
}

// ---- what a rod is given ----

/// The outcome of another call, areas and offsets being this one's; a refusal leaves this one's members.
fn as_if(call: &Call, other: Call) -> Outcome {
    let mut outcome = section::rules(&other);
    if outcome.answer != 0 {
        return Outcome { members: call.members.clone(), ..outcome };
    }
    for (member, given) in outcome.members.iter_mut().zip(&call.members) {
        (member.area, member.offset) = (given.area, given.offset);
    }
    outcome
}

fn temperature_in_16_bits(call: &Call) -> Outcome {
    as_if(call, Call { temperature: call.temperature as i16 as i64, ..call.clone() })
}

/// Each change is packed into a pair's 29 bits before it is looked at.
fn change_in_29_bits(call: &Call) -> Outcome {
    let outcome = section::rules(call);
    if outcome.number() != 8 || !rules::TEMPERATURES.contains(&call.temperature) {
        return outcome;
    }
    let sheet = rules::read_sheet(&call.sheet).unwrap();
    let own = |member: &section::Member| {
        let state = rules::read_state(&member.state)?;
        rules::state_fits(&sheet, &state)?;
        let pair = layout::write(&layout::PAIR, [0, section::change(call, member), call.temperature]);
        let pair: Pair = rules::read_pair(&pair)?;
        rules::step(&sheet, &state, &pair)
    };
    let refused = call.members.iter().zip(1..).find_map(|(member, place)| Some((own(member).err()?, place)));
    Outcome { answer: refused.map_or(0, |(number, place)| number + 256 * place), ..outcome }
}

fn mean_alone(call: &Call) -> Outcome {
    let curvature = if section::in_range(call) { 0 } else { call.curvature };
    as_if(call, Call { curvature, ..call.clone() })
}

fn offset_without_sign(call: &Call) -> Outcome {
    let mut other = call.clone();
    other.members.iter_mut().for_each(|member| member.offset = member.offset.saturating_abs());
    as_if(call, other)
}

fn moves_nothing(call: &Call) -> Outcome {
    let outcome = section::rules(call);
    let mut members = call.members.clone();
    if outcome.answer == 0 {
        members.iter_mut().for_each(|member| member.padding = [0; 3]);
    }
    Outcome { members, ..outcome }
}

fn moves_the_first_rod_only(call: &Call) -> Outcome {
    let mut outcome = section::rules(call);
    if outcome.answer == 0 {
        for (member, given) in outcome.members.iter_mut().zip(&call.members).skip(1) {
            member.state = given.state;
        }
    }
    outcome
}

// ---- the sums ----

/// A rod of an accepted call: its stress before and after, in grains, its area and its offset.
struct Pulling {
    before: i64,
    stress: i64,
    area: i64,
    offset: i64,
}

/// The rules' outcome, but with the force and the moment that `sum` makes of an accepted call.
fn summing(call: &Call, sum: fn(&[Pulling]) -> (i64, i64)) -> Outcome {
    let outcome = section::rules(call);
    if outcome.answer != 0 {
        return outcome;
    }
    let stress = |state: &[u8]| rules::read_state(state).unwrap().stress;
    let rod = |(new, old): (&section::Member, &section::Member)| Pulling {
        before: stress(&old.state),
        stress: stress(&new.state),
        area: new.area as i64,
        offset: new.offset,
    };
    let rods: Vec<Pulling> = outcome.members.iter().zip(&call.members).map(rod).collect();
    let (force, moment) = sum(&rods);
    Outcome { force, moment, ..outcome }
}

/// Both sums of these products, in 10⁻³ N.
fn sums(rods: &[Pulling], product: impl Fn(&Pulling) -> i64) -> (i64, i64) {
    (rods.iter().map(&product).sum(), rods.iter().map(|rod| product(rod) * rod.offset).sum())
}

fn cut(rod: &Pulling) -> i64 {
    rod.stress / 1_000_000
}

/// Not a slip: the rules' own sums, to show that the others are found for what differs.
fn right_sums(call: &Call) -> Outcome {
    summing(call, |rods| sums(rods, |rod| cut(rod) * rod.area))
}

fn floor_of_the_stress(call: &Call) -> Outcome {
    summing(call, |rods| sums(rods, |rod| rod.stress.div_euclid(1_000_000) * rod.area))
}

fn nearest_stress(call: &Call) -> Outcome {
    summing(call, |rods| sums(rods, |rod| (rod.stress + 500_000 * rod.stress.signum()) / 1_000_000 * rod.area))
}

/// The products are cut, and not the stresses.
fn cut_behind_the_area(call: &Call) -> Outcome {
    summing(call, |rods| sums(rods, |rod| (rod.stress as i128 * rod.area as i128 / 1_000_000) as i64))
}

/// The sum is cut, and not each stress.
fn cut_of_the_sum(call: &Call) -> Outcome {
    summing(call, |rods| {
        let exact = |rod: &Pulling| rod.stress as i128 * rod.area as i128;
        let force = rods.iter().map(exact).sum::<i128>() / 1_000_000;
        let moment = rods.iter().map(|rod| exact(rod) * rod.offset as i128).sum::<i128>() / 1_000_000;
        (force as i64, moment as i64)
    })
}

fn sum_of_stresses_times_sum_of_areas(call: &Call) -> Outcome {
    summing(call, |rods| {
        let (stresses, areas): (i64, i64) = (rods.iter().map(cut).sum(), rods.iter().map(|rod| rod.area).sum());
        let arms: i64 = rods.iter().map(|rod| rod.area * rod.offset).sum();
        (stresses.wrapping_mul(areas), stresses.wrapping_mul(arms))
    })
}

fn stress_before_the_call(call: &Call) -> Outcome {
    summing(call, |rods| sums(rods, |rod| rod.before / 1_000_000 * rod.area))
}

fn moment_without_area(call: &Call) -> Outcome {
    summing(call, |rods| (sums(rods, |rod| cut(rod) * rod.area).0, rods.iter().map(|rod| cut(rod) * rod.offset).sum()))
}

fn moment_without_signs(call: &Call) -> Outcome {
    summing(call, |rods| {
        let force = sums(rods, |rod| cut(rod) * rod.area).0;
        (force, rods.iter().map(|rod| cut(rod) * rod.area * rod.offset.abs()).sum())
    })
}

fn moment_about_the_first_rod(call: &Call) -> Outcome {
    summing(call, |rods| {
        let (force, moment) = sums(rods, |rod| cut(rod) * rod.area);
        (force, moment.wrapping_sub(force.wrapping_mul(rods[0].offset)))
    })
}

// ---- all of them ----

const SLIPS: [(&str, Version); 38] = [
    ("the highest refused rod", the_highest_refused_rod),
    ("the least number of all rods", the_least_number_of_all_rods),
    ("states before changes", states_before_changes),
    ("the change before the state", change_before_state),
    ("the place from zero", place_from_zero),
    ("no place", no_place),
    ("a place for 14", a_place_for_14),
    ("14 for the temperature", temperature_as_14),
    ("14 for a rod's change", change_as_14),
    ("14 before the sheet", fourteen_before_the_sheet),
    ("14 among the rods", fourteen_among_the_rods),
    ("33 rods pass", takes_33_rods),
    ("no rods pass", takes_no_rods),
    ("any mean passes", takes_any_mean),
    ("any curvature passes", takes_any_curvature),
    ("no area passes", takes_no_area),
    ("any negative offset passes", takes_any_negative_offset),
    ("rods move before a later one is refused", moves_before_a_later_refusal),
    ("all rods move that can", moves_all_that_can),
    ("the refused state is cleared", clears_the_refused_state),
    ("the padding is cleared", clears_the_padding),
    ("the sums aren't written", leaves_the_sums_unwritten),
    ("the sums so far are written", leaves_the_sums_so_far),
    ("the temperature in 16 bits", temperature_in_16_bits),
    ("the change in 29 bits", change_in_29_bits),
    ("the mean alone", mean_alone),
    ("the offset without its sign", offset_without_sign),
    ("nothing moves", moves_nothing),
    ("the first rod moves only", moves_the_first_rod_only),
    ("the floor of a stress", floor_of_the_stress),
    ("the nearest stress", nearest_stress),
    ("cut behind the area", cut_behind_the_area),
    ("cut of the sum", cut_of_the_sum),
    ("a sum of stresses times a sum of areas", sum_of_stresses_times_sum_of_areas),
    ("the stress before the call", stress_before_the_call),
    ("the moment without the area", moment_without_area),
    ("the moment without signs", moment_without_signs),
    ("the moment about the first rod", moment_about_the_first_rod),
];

#[test]
fn without_a_slip_nothing_is_found() {
    assert!(!is_found(right_sums));
    assert!(!is_found(section::plain));
    assert!(!is_found(|call| choosing(call, |refused| refused[0])));
}

#[test]
fn each_slip_is_found() {
    for (name, slip) in SLIPS {
        assert!(is_found(slip), "{name}: isn't found");
    }
}
