//! A section, which is a rod bundle tied to one plate (document 02, A2; SPEC 15):
//! what a call is given, what it leaves, and the rules of it over fractions.

use crate::fraction::Fraction;
use crate::layout::STATE_BYTES;
use crate::rules::{self, Number, Pair, Sheet, State};
use std::fmt;

pub const RODS: usize = 32;
pub const AREAS: std::ops::RangeInclusive<u64> = 1..=1_000_000;
pub const OFFSETS: std::ops::RangeInclusive<i64> = -1_000..=1_000;
pub const MEAN: i64 = 200_000_000;
pub const CURVATURE: i64 = 1_000_000;
/// What a stress is cut to, 10⁻³ MPa, in grains.
pub const STRESS_UNIT: i64 = 1_000_000;

/// A rod of a section, as `struct tie_rod_member` lies in memory; the padding has a name, so that it can be looked at.
#[repr(C)]
#[derive(Clone, Copy, Debug, PartialEq, Eq)]
pub struct Member {
    /// In mm².
    pub area: u64,
    /// In mm, from where the plate's mean strain is taken.
    pub offset: i64,
    pub state: [u8; STATE_BYTES],
    pub padding: [u8; 3],
}

const _: () = assert!(std::mem::size_of::<Member>() == 56 && std::mem::align_of::<Member>() == 8);
const _: () = assert!(std::mem::offset_of!(Member, offset) == 8 && std::mem::offset_of!(Member, state) == 16);

/// What a call is given.
#[derive(Clone)]
pub struct Call {
    pub sheet: Vec<u8>,
    pub members: Vec<Member>,
    pub mean: i64,
    pub curvature: i64,
    pub temperature: i64,
}

/// What force and moment hold before a call, and no call may leave.
pub const UNWRITTEN: i64 = 0x5a5a_5a5a_5a5a_5a5a;

/// The answer (number + 256 × place), force and moment, and all members after the call.
#[derive(Clone, PartialEq, Eq)]
pub struct Outcome {
    pub answer: u64,
    pub force: i64,
    pub moment: i64,
    pub members: Vec<Member>,
}

impl Outcome {
    pub fn number(&self) -> u64 {
        self.answer % 256
    }

    pub fn place(&self) -> u64 {
        self.answer / 256
    }

    /// Without the padding where the call was accepted: it means nothing, and only a refusal has to leave it.
    fn without_padding(mut self) -> Outcome {
        if self.answer == 0 {
            self.members.iter_mut().for_each(|member| member.padding = [0; 3]);
        }
        self
    }
}

impl fmt::Display for Call {
    fn fmt(&self, f: &mut fmt::Formatter) -> fmt::Result {
        let Call { sheet, members, mean, curvature, temperature } = self;
        writeln!(f, "section of {} rods, mean {mean} curvature {curvature} temperature {temperature}", members.len())?;
        writeln!(f, "sheet  {} bytes {}", sheet.len(), crate::call::hex(sheet))?;
        write_members(f, members)
    }
}

impl fmt::Display for Outcome {
    fn fmt(&self, f: &mut fmt::Formatter) -> fmt::Result {
        writeln!(f, "number {} place {} force {} moment {}", self.number(), self.place(), self.force, self.moment)?;
        write_members(f, &self.members)
    }
}

fn write_members(f: &mut fmt::Formatter, members: &[Member]) -> fmt::Result {
    for (i, Member { area, offset, state, padding }) in members.iter().enumerate() {
        let (state, padding) = (crate::call::hex(state), crate::call::hex(padding));
        writeln!(f, "rod {:2} area {area} offset {offset} state {state} padding {padding}", i + 1)?;
    }
    Ok(())
}

/// What differs between the outcome that the rules ask for and another one, or nothing.
pub fn difference(wanted: &Outcome, got: &Outcome) -> Option<String> {
    if wanted == got {
        return None;
    }
    let rod = wanted.members.iter().zip(&got.members).position(|(a, b)| a != b);
    Some(format!(
        "answers equal: {}; forces: {}; moments: {}; first other rod: {:?}\nwanted:\n{wanted}got:\n{got}",
        wanted.answer == got.answer,
        wanted.force == got.force,
        wanted.moment == got.moment,
        rod.map(|i| i + 1),
    ))
}

// ---- the versions ----

pub type Version = fn(&Call) -> Outcome;

/// What is held against the rules, as `crate::VERSIONS` for the other calls.
pub const VERSIONS: &[(&str, Version)] = &[
    ("plain", plain),
    #[cfg(feature = "library")]
    ("library", library),
];

/// The call by the quick version in 64 bits.
pub fn plain(call: &Call) -> Outcome {
    let Call { sheet, mean, curvature, temperature, .. } = call;
    let mut members = call.members.clone();
    let (mut force, mut moment) = (UNWRITTEN, UNWRITTEN);
    let answer = crate::plain::section(sheet, &mut members, *mean, *curvature, *temperature, &mut force, &mut moment);
    Outcome { answer, force, moment, members }.without_padding()
}

/// The call by the library.
#[cfg(feature = "library")]
pub fn library(call: &Call) -> Outcome {
    crate::library::section_call(call).without_padding()
}

/// The call by the rules.
pub fn rules(call: &Call) -> Outcome {
    match moved(call) {
        Ok(Moved { members, force, moment }) => {
            let whole = |sum: Fraction| sum.whole().expect("a sum is whole and fits 64 bits");
            Outcome { answer: 0, force: whole(force), moment: whole(moment), members }.without_padding()
        }
        Err((number, place)) => {
            Outcome { answer: number + 256 * place, force: 0, moment: 0, members: call.members.clone() }
        }
    }
}

// ---- the rules ----

struct Moved {
    members: Vec<Member>,
    force: Fraction,
    moment: Fraction,
}

/// All rods moved, or the number with its place, which only a rod's own number has.
fn moved(call: &Call) -> Result<Moved, (Number, u64)> {
    let sheet = rules::read_sheet(&call.sheet).map_err(|number| (number, 0))?;
    if !in_range(call) {
        return Err((14, 0));
    }
    let mut moved = Moved { members: Vec::new(), force: Fraction::zero(), moment: Fraction::zero() };
    for (member, place) in call.members.iter().zip(1..) {
        let state = next(&sheet, call, member).map_err(|number| (number, place))?;
        let product = &cut(state.stress) * &Fraction::from(member.area as i64);
        moved.force = &moved.force + &product;
        moved.moment = &moved.moment + &(&product * &Fraction::from(member.offset));
        moved.members.push(Member { state: state.bytes().try_into().unwrap(), ..*member });
    }
    Ok(moved)
}

/// 14: the rod count, every area and offset, mean strain and curvature.
pub fn in_range(call: &Call) -> bool {
    (1..=RODS).contains(&call.members.len())
        && call.members.iter().all(|member| AREAS.contains(&member.area) && OFFSETS.contains(&member.offset))
        && (-MEAN..=MEAN).contains(&call.mean)
        && (-CURVATURE..=CURVATURE).contains(&call.curvature)
}

/// The strain change of a rod: mean + curvature × offset.
pub fn change(call: &Call, member: &Member) -> i64 {
    call.mean + call.curvature * member.offset
}

/// The rod's next state, as a lone rod has it behind this pair, or its own number.
pub fn next(sheet: &Sheet, call: &Call, member: &Member) -> Result<State, Number> {
    let state = rules::read_state(&member.state)?;
    rules::state_fits(sheet, &state)?;
    let pair = Pair { change: change(call, member), temperature: call.temperature };
    // 8: the temperature, or a change beyond a pair's range
    let changes = -rules::STRAIN_CHANGE..=rules::STRAIN_CHANGE;
    if !changes.contains(&pair.change) || !rules::TEMPERATURES.contains(&pair.temperature) {
        return Err(8);
    }
    rules::step(sheet, &state, &pair).map(|(state, _)| state)
}

/// A stress in whole 10⁻³ MPa, rounded toward zero.
pub fn cut(stress: i64) -> Fraction {
    let exact = Fraction::ratio(stress, STRESS_UNIT);
    &exact.sign() * &exact.abs().floor()
}

#[cfg(test)]
mod tests {
    use super::*;

    #[test]
    fn cut_toward_zero() {
        for (grains, thousandths) in [(0, 0), (999_999, 0), (1_000_000, 1), (1_999_999, 1)] {
            assert_eq!(cut(grains), Fraction::from(thousandths));
            assert_eq!(cut(-grains), Fraction::from(-thousandths));
        }
    }
}
