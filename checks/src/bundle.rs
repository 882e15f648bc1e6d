//! Sections to try: rods of one sheet on a plate that all of them follow, a
//! rod that is to be refused among them, and calls with damage of every kind.
//! Nothing here says what a call has to answer.

use crate::call::{self, Entry};
use crate::generate::{self, flowing_pair, pair, unused_state, with_field};
use crate::layout;
use crate::log;
use crate::random::Random;
use crate::section::{self, Call, Member, CURVATURE, MEAN, RODS};
use crate::steer::{Rod, Steel};

// ---- rods on a plate ----

fn count(random: &mut Random) -> usize {
    match random.below(8) {
        0 => 1,
        1 => 2,
        2..=5 => random.range(3, 8) as usize,
        6 => random.range(9, 31) as usize,
        _ => RODS,
    }
}

fn area(random: &mut Random) -> u64 {
    let any = random.range(1, 1_000_000);
    let small = random.spread(1, 1_000_000);
    random.pick(&[1, 1_000_000, any, small, small]) as u64
}

fn offset(random: &mut Random) -> i64 {
    let any = random.range(-1_000, 1_000);
    let near = random.pick(&[-1, 1]) * random.spread(0, 1_000);
    random.pick(&[-1_000, 0, 1_000, any, any, near, near])
}

fn member(random: &mut Random, state: Vec<u8>) -> Member {
    let padding = random.bytes(3).try_into().unwrap();
    Member { area: area(random), offset: offset(random), state: state.try_into().unwrap(), padding }
}

/// Rods of a sheet that passes: all unused, all reached by pairs of their own, any that pass, or some of each.
pub fn members(random: &mut Random, sheet: &[u8], count: usize) -> Vec<Member> {
    let kinds = random.below(5);
    let rod = |random: &mut Random| {
        let kind = if kinds < 3 { kinds } else { random.below(3) };
        let state = match kind {
            0 => unused_state(sheet),
            1 => generate::reached_state(random, sheet),
            _ => generate::any_state(random, &Steel::read(sheet)),
        };
        member(random, state)
    };
    (0..count).map(|_| rod(random)).collect()
}

/// What the plate does next: one of the rods is aimed at a limit, a segment's start or a point as a lone rod would be,
/// and the others get what the bending makes of it. The place of that rod, from 0.
pub fn aim(random: &mut Random, call: &mut Call) -> usize {
    let leader = random.below(call.members.len() as u64) as usize;
    let Member { offset, state, .. } = call.members[leader];
    let choose = random.pick(&[pair, flowing_pair]);
    let [_, change, temperature] = choose(random, &Steel::read(&call.sheet), &Rod::read(&state));
    let slight = random.pick(&[-1, 1]) * random.spread(0, CURVATURE);
    let any = random.range(-CURVATURE, CURVATURE);
    let mut curvature = random.pick(&[0, slight, slight, slight, any, -CURVATURE, CURVATURE]);
    if random.chance(80) {
        // so far that the mean can make up for it
        curvature %= MEAN / offset.abs().max(1) + 1;
    }
    (call.curvature, call.temperature) = (curvature, temperature);
    call.mean = (change - curvature * offset).clamp(-MEAN, MEAN);
    leader
}

/// Each rod that is refused gets the state and the offset of the one that the call was aimed at.
fn mend(call: &mut Call, leader: usize) {
    let Member { offset, state, .. } = call.members[leader];
    for _ in 0..call.members.len() {
        let place = section::plain(call).place() as usize;
        if place == 0 || place == leader + 1 {
            return;
        }
        let member = &mut call.members[place - 1];
        (member.offset, member.state) = (offset, state);
    }
}

/// A call whose sheet, members and changes pass; most are accepted, the others refused for a rod.
pub fn valid(random: &mut Random) -> Call {
    let sheet = generate::sheet(random);
    let count = count(random);
    let members = members(random, &sheet, count);
    let mut call = Call { sheet, members, mean: 0, curvature: 0, temperature: 0 };
    let leader = aim(random, &mut call);
    if random.chance(75) {
        mend(&mut call, leader);
    }
    if random.chance(15) {
        let late = random.below(call.members.len() as u64) as usize;
        spoil(random, &mut call, late);
    }
    call
}

/// A rod's state at an end of its strain or of its count, of any law, or with a bit turned over.
fn spoil(random: &mut Random, call: &mut Call, at: usize) {
    let state = &mut call.members[at].state;
    let bits = random.below(8 * state.len() as u64) as usize;
    match random.below(4) {
        0 => with_field(&layout::STATE, state, 0, 3, random.pick(&[-100_000_000, 100_000_000])),
        1 => with_field(&layout::STATE, state, 0, 8, u32::MAX as i64),
        2 => with_field(&layout::STATE, state, 0, 0, random.below(4) as i64),
        _ => state[bits / 8] ^= 0x80 >> (bits % 8),
    }
}

// ---- a plate whose rods can be refused one by one ----

/// As many unused rods of the board's steel as a section holds, each at another offset within 400 mm, bent so far
/// that one at 1,000 mm would leave a pair's range; the call is accepted.
pub fn plate(law: i64, points: bool) -> Call {
    let mut sheet = match law {
        1 => log::steel(1, 0, &[[40_000_000, 20_000], [0, 2_000]]),
        3 => log::steel(3, 250_000, &[[0, 2_000], [0, 2_000]]),
        _ => log::line(law),
    };
    if points {
        sheet = log::with_points(sheet, &[(150, 1_190), (230, 1_210), (300, 1_207)]);
    }
    let state: [u8; 37] = unused_state(&sheet).try_into().unwrap();
    let member = |i: i64| Member {
        area: 500 + 13 * i as u64,
        offset: 25 * i - 400 + (i >= 16) as i64,
        state,
        padding: [i as u8, 0xee, !(i as u8)],
    };
    Call { sheet, members: (0..RODS as i64).map(member).collect(), mean: -7, curvature: 200_001, temperature: 251 }
}

/// The numbers that a rod of its own can be refused with.
pub const RODS_OWN: [u64; 5] = [5, 6, 8, 9, 10];

/// Makes the rod at a place, from 1, of a plate one that is refused with this number.
pub fn refuse(call: &mut Call, place: usize, number: u64) {
    let up = section::change(call, &call.members[place - 1]) >= 0;
    let member = &mut call.members[place - 1];
    let law = layout::read(&layout::STATE, &member.state)[0];
    let mut set = |field: usize, value: i64| with_field(&layout::STATE, &mut member.state, 0, field, value);
    match number {
        5 => set(2, 1),
        6 => set(0, (law + 1) % 4),
        8 => member.offset = if place.is_multiple_of(2) { 1_000 } else { -1_000 },
        9 => set(3, if up { 100_000_000 } else { -100_000_000 }),
        10 => set(8, u32::MAX as i64),
        _ => unreachable!("no rod is refused with {number} alone"),
    }
}

// ---- damage ----

pub const AREA_ENDS: [u64; 8] = [0, 1, 2, 999_999, 1_000_000, 1_000_001, 1 << 63, u64::MAX];
pub const OFFSET_ENDS: [i64; 9] = [i64::MIN, -1_001, -1_000, -999, 0, 999, 1_000, 1_001, i64::MAX];
pub const MEAN_ENDS: [i64; 9] = [i64::MIN, -MEAN - 1, -MEAN, -MEAN + 1, 0, MEAN - 1, MEAN, MEAN + 1, i64::MAX];
pub const CURVATURE_ENDS: [i64; 9] =
    [i64::MIN, -CURVATURE - 1, -CURVATURE, 1 - CURVATURE, 0, CURVATURE - 1, CURVATURE, CURVATURE + 1, i64::MAX];
/// The ends of a temperature and of 64 bits, and what lies a whole number of 16 or 32 bits beside one that passes.
pub const TEMPERATURE_ENDS: [i64; 16] = [
    i64::MIN,
    (1 << 32) - 200,
    200 - (1 << 32),
    200 - (1 << 16),
    -32_768,
    -2_001,
    -2_000,
    -1_999,
    19_999,
    20_000,
    20_001,
    32_767,
    200 + (1 << 16),
    200 + (1 << 32),
    200 + (1 << 48),
    i64::MAX,
];

/// Damages sheet, count, a member or what the plate does.
pub fn damage(random: &mut Random, call: &mut Call) {
    match random.below(10) {
        _ if call.members.is_empty() => {}
        0..=2 => damage_bytes(random, call),
        3 => {
            let count = random.pick(&[0, 0, RODS + 1, RODS + 1, RODS + 2, 2 * RODS]);
            let more = call.members[0];
            call.members.resize(count, more);
        }
        4 | 5 => {
            let at = random.below(call.members.len() as u64) as usize;
            match random.below(2) {
                0 => call.members[at].area = random.pick(&AREA_ENDS),
                _ => call.members[at].offset = random.pick(&OFFSET_ENDS),
            }
        }
        6 => call.mean = end_or_any(random, &MEAN_ENDS),
        7 => call.curvature = end_or_any(random, &CURVATURE_ENDS),
        8 => call.temperature = end_or_any(random, &TEMPERATURE_ENDS),
        _ => {
            let at = random.below(call.members.len() as u64) as usize;
            spoil(random, call, at);
        }
    }
}

fn end_or_any(random: &mut Random, ends: &[i64]) -> i64 {
    if random.chance(80) {
        return random.pick(ends);
    }
    random.draw() as i64
}

/// Damages the sheet or the state of a rod as those of the other calls are.
fn damage_bytes(random: &mut Random, call: &mut Call) {
    let at = random.below(call.members.len() as u64) as usize;
    let state = call.members[at].state;
    let mut one = call::Call {
        entry: Entry::Run,
        sheet: call.sheet.clone(),
        state: state.to_vec(),
        pairs: Vec::new(),
        rows: Vec::new(),
        next: Vec::new(),
        trial: Vec::new(),
    };
    generate::damage(random, &mut one);
    call.sheet = one.sheet;
    call.members[at].state = one.state.try_into().unwrap_or(state);
}
