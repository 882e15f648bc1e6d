//! Sections by the rules over fractions, by the quick version and by the
//! library: number, place, force, moment and every byte of every member are
//! the same; and each rod of a section is where a lone rod is.

use checks::bar::Bar;
use checks::bundle::{self, plate, RODS_OWN};
use checks::fraction::Fraction;
use checks::generate::{self, unused_state};
use checks::layout::{self, STATE_BYTES};
use checks::log;
use checks::random::Random;
use checks::rules::{self, Row, Sheet, State};
use checks::section::{self, difference, Call, Member, Outcome, Version, CURVATURE, MEAN, RODS, VERSIONS};

const VALID: usize = 60_000;
const DAMAGED: usize = 60_000;

/// How often each number was answered, and how often behind the first rod.
#[derive(Debug, Default)]
struct Tally {
    numbers: [usize; 15],
    late: [usize; 15],
}

impl Tally {
    /// Compares the versions on a call, and counts its number.
    fn compare(&mut self, call: &Call) -> Outcome {
        let wanted = section::rules(call);
        for (name, version) in VERSIONS {
            if let Some(text) = difference(&wanted, &version(call)) {
                panic!("{name} differs from the rules\n{call}{text}");
            }
        }
        self.numbers[wanted.number() as usize] += 1;
        self.late[wanted.number() as usize] += (wanted.place() > 1) as usize;
        wanted
    }

    /// The same where the answer is known beforehand; what a refusal leaves is.
    fn answers(&mut self, call: &Call, number: u64, place: usize) {
        let outcome = self.compare(call);
        assert_eq!((outcome.number(), outcome.place()), (number, place as u64), "{call}{outcome}");
        if number != 0 {
            assert!((outcome.force, outcome.moment) == (0, 0) && outcome.members == call.members);
        }
    }

    /// Each of these numbers was answered at least so often.
    fn assert_seen(&self, numbers: &[usize], least: usize) {
        for &number in numbers {
            assert!(self.numbers[number] >= least, "{number} was answered seldom: {self:?}");
        }
        assert!([4, 7, 11, 12].iter().all(|&number| self.numbers[number] == 0), "{self:?}");
    }

    fn assert_seen_late(&self, numbers: &[u64], least: usize) {
        for &number in numbers {
            assert!(self.late[number as usize] >= least, "{number} was seldom a late rod's: {self:?}");
        }
    }
}

/// The plates of every law, with points and without.
fn plates() -> Vec<Call> {
    (0..8).map(|i| plate(i / 2, i % 2 == 1)).collect()
}

// ---- by trial ----

/// What the accepted calls met, so that no case is missed unnoticed.
#[derive(Debug, Default)]
struct Seen {
    /// By law, without and with points.
    laws: [[usize; 2]; 4],
    /// By the number of rods, from 1.
    counts: [usize; RODS],
    /// Rods whose cut stress isn't its floor.
    cut: usize,
    /// Rods that yielded, and calls in which some rods did and others didn't.
    yielded: usize,
    some_yielded: usize,
    bent: usize,
}

impl Seen {
    fn meet(&mut self, call: &Call, outcome: &Outcome) {
        let sheet = rules::read_sheet(&call.sheet).unwrap();
        self.laws[sheet.law as usize][!sheet.points.is_empty() as usize] += 1;
        self.counts[call.members.len() - 1] += 1;
        let states: Vec<State> = outcome.members.iter().map(|m| rules::read_state(&m.state).unwrap()).collect();
        self.cut += states.iter().filter(|state| state.stress < 0 && state.stress % 1_000_000 != 0).count();
        let yielded = states.iter().filter(|state| state.yielded).count();
        self.yielded += yielded;
        self.some_yielded += (yielded > 0 && yielded < states.len()) as usize;
        let changes: Vec<i64> = call.members.iter().map(|member| section::change(call, member)).collect();
        self.bent += changes.iter().any(|change| *change != changes[0]) as usize;
    }

    fn assert_all(&self) {
        assert!(self.laws.iter().flatten().all(|&count| count >= 1_000), "{self:?}");
        assert!(self.counts.iter().all(|&count| count >= 50), "{self:?}");
        assert!([self.cut, self.yielded, self.some_yielded, self.bent].iter().all(|&count| count >= 5_000), "{self:?}");
    }
}

/// Sheets, rods and changes that pass: accepted ones, and each of a rod's own numbers, also behind other rods.
#[test]
fn valid_sections() {
    let mut random = Random::new(500);
    let (mut tally, mut seen) = (Tally::default(), Seen::default());
    for _ in 0..VALID {
        let call = bundle::valid(&mut random);
        let outcome = tally.compare(&call);
        if outcome.answer == 0 {
            seen.meet(&call, &outcome);
        }
    }
    if std::env::var_os("CHECKS_PRINT").is_some() {
        println!("{tally:?}\n{seen:?}");
    }
    tally.assert_seen(&[0], VALID / 3);
    tally.assert_seen_late(&RODS_OWN, 200);
    seen.assert_all();
}

/// Damage to sheet, count, member and change, one or two at a time: each number of a section.
#[test]
fn damaged_sections() {
    let mut random = Random::new(501);
    let mut tally = Tally::default();
    for _ in 0..DAMAGED {
        let mut call = bundle::valid(&mut random);
        bundle::damage(&mut random, &mut call);
        if random.chance(30) && layout::sheet_length(&call.sheet) == call.sheet.len() {
            bundle::damage(&mut random, &mut call);
        }
        tally.compare(&call);
    }
    if std::env::var_os("CHECKS_PRINT").is_some() {
        println!("{tally:?}");
    }
    tally.assert_seen(&[0, 1, 2, 3, 5, 6, 8, 9, 10, 13, 14], 100);
    tally.assert_seen_late(&RODS_OWN, 100);
}

/// Sheets of random bytes, and members of random bytes, more than a section holds among them.
#[test]
fn random_sections() {
    let mut random = Random::new(502);
    let mut tally = Tally::default();
    for i in 0..60_000 {
        let mut sheet = generate::random_bytes(&mut random).sheet;
        if i % 4 != 0 {
            sheet = generate::sheet(&mut random);
        }
        let count = random.below(40) as usize;
        let member = |random: &mut Random| Member {
            area: if random.chance(98) { random.below(1_000_001) } else { random.draw() },
            offset: random.range(-1_000, 1_000),
            state: random.bytes(STATE_BYTES).try_into().unwrap(),
            padding: [1, 2, 3],
        };
        let members = (0..count).map(|_| member(&mut random)).collect();
        let (mean, curvature) = (random.range(-MEAN, MEAN), random.range(-CURVATURE, CURVATURE));
        let mut call = Call { sheet, members, mean, curvature, temperature: random.range(-2_010, 20_010) };
        if i % 8 == 7 && count > 0 {
            call.members[0].state = unused_state(&call.sheet).try_into().unwrap();
        }
        tally.compare(&call);
    }
    tally.assert_seen(&[1, 2, 5, 8, 9, 14], 100);
}

// ---- the ends of every range ----

/// Every count up to 70, and some that are as many in their lowest bits as a section holds: 14 for all but 1 to 32.
#[test]
fn every_count() {
    let mut tally = Tally::default();
    for call in plates() {
        for count in (0..=70).chain([255, 256, 257, 288, 65_536, 65_537]) {
            let mut call = call.clone();
            call.members = call.members.iter().cycle().take(count).copied().collect();
            tally.answers(&call, if (1..=RODS).contains(&count) { 0 } else { 14 }, 0);
        }
    }
}

/// Each end of area and offset and what lies beside it, at every place; an offset that passes may bend its rod too far.
#[test]
fn ends_of_area_and_offset() {
    let mut tally = Tally::default();
    for call in plates() {
        for place in 1..=RODS {
            for area in bundle::AREA_ENDS {
                let mut call = call.clone();
                call.members[place - 1].area = area;
                tally.answers(&call, if (1..=1_000_000).contains(&area) { 0 } else { 14 }, 0);
            }
            for offset in bundle::OFFSET_ENDS {
                let mut call = call.clone();
                call.members[place - 1].offset = offset;
                call.curvature = 99_000;
                tally.answers(&call, if (-1_000..=1_000).contains(&offset) { 0 } else { 14 }, 0);
            }
        }
    }
}

/// Each end of mean, curvature and temperature, and what lies beside it or is the same in fewer bits. One rod stands
/// at offset 0, so that the curvature has no say in its change, and the strain makes room for the mean.
#[test]
fn ends_of_mean_curvature_and_temperature() {
    let mut tally = Tally::default();
    for call in plates() {
        let lone = Call { members: vec![Member { offset: 0, ..call.members[0] }], ..call.clone() };
        for mean in bundle::MEAN_ENDS {
            let mut call = Call { mean, ..lone.clone() };
            let strain = if mean > 0 { -100_000_000 } else { 100_000_000 };
            generate::with_field(&layout::STATE, &mut call.members[0].state, 0, 3, strain);
            tally.answers(&call, if (-MEAN..=MEAN).contains(&mean) { 0 } else { 14 }, 0);
        }
        for curvature in bundle::CURVATURE_ENDS {
            let call = Call { curvature, ..lone.clone() };
            tally.answers(&call, if (-CURVATURE..=CURVATURE).contains(&curvature) { 0 } else { 14 }, 0);
        }
        for temperature in bundle::TEMPERATURE_ENDS {
            let passes = (-2_000..=20_000).contains(&temperature);
            let call = Call { temperature, ..call.clone() };
            tally.answers(&call, if passes { 0 } else { 8 }, !passes as usize);
            let (mean, curvature) = (i64::MIN, i64::MAX);
            tally.answers(&Call { mean, curvature, ..call }, 14, 0);
        }
    }
}

/// mean + curvature × offset at an end of a pair's range, and one nano beyond it, for a rod at each place; the others
/// stand at offset 0, and every rod's strain makes room for its change.
#[test]
fn change_at_the_ends_of_a_pair() {
    let mut tally = Tally::default();
    for call in plates() {
        for place in 1..=RODS {
            for (curvature, offset) in [(190_000, 1_000), (-190_000, 1_000), (1_000_000, 193), (-7, -1_000)] {
                for change in [MEAN, MEAN + 1, -MEAN, -MEAN - 1] {
                    let mut call = Call { mean: change - curvature * offset, curvature, ..call.clone() };
                    call.members.iter_mut().for_each(|member| member.offset = 0);
                    call.members[place - 1].offset = offset;
                    for i in 0..RODS {
                        let room = -section::change(&call, &call.members[i]).clamp(-MEAN, MEAN) / 2;
                        generate::with_field(&layout::STATE, &mut call.members[i].state, 0, 3, room);
                    }
                    match (call.mean.abs() <= MEAN, change.abs() <= MEAN) {
                        (false, _) => tally.answers(&call, 14, 0),
                        (true, true) => tally.answers(&call, 0, 0),
                        (true, false) => tally.answers(&call, 8, place),
                    }
                }
            }
        }
    }
    tally.assert_seen(&[0, 8, 14], 500);
}

/// Changes beyond a pair's range that in 29 bits would be small ones: 8 all the same.
#[test]
fn change_that_would_wrap() {
    let mut tally = Tally::default();
    for call in plates() {
        for small in [-100, 0, 100] {
            let mut call = Call { curvature: 1_000_000, mean: (1 << 29) + small - 500_000_000, ..call.clone() };
            call.members.iter_mut().for_each(|member| member.offset = 0);
            call.members[6].offset = 500;
            for member in &mut call.members {
                generate::with_field(&layout::STATE, &mut member.state, 0, 3, -call.mean);
            }
            assert_eq!(section::change(&call, &call.members[6]), (1 << 29) + small);
            tally.answers(&call, 8, 7);
        }
    }
}

// ---- who is refused, and with what ----

/// At each place a rod with each of its own numbers, while all before it pass: that number, that place, and nothing
/// has moved.
#[test]
fn each_number_at_each_place() {
    let mut tally = Tally::default();
    for call in plates() {
        tally.answers(&call, 0, 0);
        for place in 1..=RODS {
            for number in RODS_OWN {
                let mut call = call.clone();
                bundle::refuse(&mut call, place, number);
                tally.answers(&call, number, place);
            }
        }
    }
}

/// Of two refused rods the lower one's number, whatever the two numbers are.
#[test]
fn the_lowest_refused_rod() {
    let mut tally = Tally::default();
    let mut random = Random::new(503);
    for call in plates() {
        for (low, high) in [(1, 2), (1, 32), (2, 31), (5, 9), (16, 17), (31, 32)] {
            for first in RODS_OWN {
                for second in RODS_OWN {
                    let mut call = call.clone();
                    bundle::refuse(&mut call, high, second);
                    bundle::refuse(&mut call, low, first);
                    let between = random.range(low as i64 + 1, high as i64) as usize;
                    bundle::refuse(&mut call, between, random.pick(&[6, 8]));
                    tally.answers(&call, first, low);
                }
            }
        }
    }
}

/// One rod that meets several numbers gets the first of 5, 6, 8, 9 and 10; a temperature outside its range is the
/// first rod's 8, unless that rod's state is refused.
#[test]
fn the_order_within_a_rod() {
    let mut tally = Tally::default();
    for call in plates() {
        for mask in 1..32 {
            let mut call = call.clone();
            let numbers: Vec<u64> = (0..5).filter(|bit| mask >> bit & 1 == 1).map(|bit| RODS_OWN[bit]).collect();
            for &number in numbers.iter().rev() {
                bundle::refuse(&mut call, 20, number);
            }
            tally.answers(&call, numbers[0], 20);
        }
        for temperature in [-2_001, 20_001, 65_536 + 200, i64::MIN] {
            let hot = Call { temperature, ..call.clone() };
            for number in RODS_OWN {
                let mut first = hot.clone();
                bundle::refuse(&mut first, 1, number);
                tally.answers(&first, number.min(8), 1);
                let mut second = hot.clone();
                bundle::refuse(&mut second, 2, number);
                tally.answers(&second, 8, 1);
            }
        }
    }
}

/// 14 for any member, however late, comes before an earlier rod's own number.
#[test]
fn fourteen_before_the_rods() {
    let mut tally = Tally::default();
    for call in plates() {
        for number in RODS_OWN {
            for late in [2, 16, 32] {
                let mut refused = call.clone();
                bundle::refuse(&mut refused, 1, number);
                let mut area = refused.clone();
                area.members[late - 1].area = 0;
                let mut offset = refused.clone();
                offset.members[late - 1].offset = 1_001;
                let mut count = refused.clone();
                count.members.push(count.members[1]);
                let mean = Call { mean: MEAN + 1, ..refused.clone() };
                let curvature = Call { curvature: -CURVATURE - 1, ..refused };
                for call in [area, offset, count, mean, curvature] {
                    tally.answers(&call, 14, 0);
                }
            }
        }
    }
}

/// 1, 2, 3 and 13 come before 14 and before the rods' numbers, with place 0.
#[test]
fn the_sheet_before_all() {
    let mut tally = Tally::default();
    for call in plates() {
        let set = |field: usize, value: i64| {
            let mut sheet = call.sheet.clone();
            generate::with_field(&layout::SHEET, &mut sheet, 0, field, value);
            sheet
        };
        let mut tangent = call.sheet.clone();
        generate::with_field(&layout::SEGMENT, &mut tangent, layout::SHEET_BYTES, 1, 200_000);
        let plain = set(9, 0)[..generate::points_at(&call.sheet)].to_vec();
        let equal = log::with_points(plain, &[(100, 1_200), (100, 1_200)]);
        let short = call.sheet[..call.sheet.len() - 1].to_vec();
        for (sheet, number) in [(Vec::new(), 1), (short, 1), (set(3, 0), 2), (tangent, 3), (equal, 13)] {
            let refused = Call { sheet, ..call.clone() };
            tally.answers(&refused, number, 0);
            tally.answers(&Call { members: Vec::new(), ..refused.clone() }, number, 0);
            tally.answers(&Call { mean: i64::MAX, temperature: i64::MIN, ..refused.clone() }, number, 0);
            for own in RODS_OWN {
                let mut rod = refused.clone();
                bundle::refuse(&mut rod, 3, own);
                tally.answers(&rod, number, 0);
                rod.members[30].area = 0;
                tally.answers(&rod, number, 0);
            }
        }
    }
}

/// Every bit of a state turned over, at an early, a middle and the last place.
#[test]
fn every_bit_of_a_state() {
    let mut tally = Tally::default();
    for call in plates() {
        for place in [1, 7, 32] {
            for bit in 0..8 * STATE_BYTES {
                let mut call = call.clone();
                call.members[place - 1].state[bit / 8] ^= 0x80 >> (bit % 8);
                tally.compare(&call);
            }
        }
    }
    tally.assert_seen(&[0, 5, 6, 9], 10);
}

// ---- force and moment ----

/// Rods that stand at these stresses, in grains, with area and offset, on a plate that keeps still.
fn standing(rods: &[(i64, u64, i64)]) -> Call {
    // E 400,000, the greatest yield, and a tangent that lets stress reach the end of its range.
    let sheet = generate::sheet_bytes([0, 1, 0, 400_000, 0, 200, 10_000_000, 0, 0, 0], &[[0, 399_999]], &[]);
    let member = |&(stress, area, offset): &(i64, u64, i64)| {
        let values = [0, 0, 0, 0, 200, stress, 101_000_000_000_000, 0, 0, 0];
        let state = layout::write(&layout::STATE, values).try_into().unwrap();
        Member { area, offset, state, padding: [0; 3] }
    };
    Call { sheet, members: rods.iter().map(member).collect(), mean: 0, curvature: 0, temperature: 200 }
}

fn assert_sums(call: &Call, force: i64, moment: i64) {
    let outcome = Tally::default().compare(call);
    assert_eq!((outcome.answer, outcome.force, outcome.moment), (0, force, moment), "{call}{outcome}");
}

/// Worked by hand: each stress is cut by itself, toward zero, before it meets its area, and a negative one isn't
/// rounded down.
#[test]
fn sums_by_hand() {
    assert_sums(&standing(&[(1_999_999, 7, 10)]), 7, 70);
    assert_sums(&standing(&[(-1_999_999, 7, 10)]), -7, -70);
    assert_sums(&standing(&[(-999_999, 1_000_000, 1_000)]), 0, 0);
    assert_sums(&standing(&[(-1, 1_000_000, -1_000), (1, 1_000_000, 1_000)]), 0, 0);
    assert_sums(&standing(&[(999_999, 3, 5), (999_999, 3, 5)]), 0, 0);
    assert_sums(&standing(&[(2_000_000, 3, -5), (-3_000_001, 11, -7)]), 6 - 33, -30 + 231);
    assert_sums(&standing(&[(200_000_000_000, 314, 150), (-200_000_000_000, 314, -150)]), 0, 2 * 62_800_000 * 150);
    // The board's third row as two rods, pulled and then pushed: 201 MPa and −202.98 MPa.
    let sheet = log::line(0);
    let state: [u8; STATE_BYTES] = unused_state(&sheet).try_into().unwrap();
    let rod = |area, offset| Member { area, offset, state, padding: [0; 3] };
    let mut call =
        Call { sheet, members: vec![rod(100, -40), rod(50, 60)], mean: 1_500_000, curvature: 0, temperature: 200 };
    assert_sums(&call, 201_000 * 150, 201_000 * (-40 * 100 + 60 * 50));
    call.members = section::rules(&call).members;
    call.mean = -3_000_000;
    assert_sums(&call, -202_980 * 150, -202_980 * (-40 * 100 + 60 * 50));
}

/// As many rods as there can be, of the greatest area, at the greatest offset and the greatest stress: the sums fit.
#[test]
fn sums_at_their_greatest() {
    const STRESS: i64 = rules::STRESS;
    let all = |rod: fn(usize) -> (i64, u64, i64)| standing(&(0..RODS).map(rod).collect::<Vec<_>>());
    let side = |i: usize| if i.is_multiple_of(2) { 1 } else { -1 };
    let (force, moment) = (3_200_000_000_000_000, 3_200_000_000_000_000_000);
    assert_sums(&all(|_| (STRESS, 1_000_000, 1_000)), force, moment);
    assert_sums(&all(|_| (-STRESS, 1_000_000, 1_000)), -force, -moment);
    assert_sums(&all(|_| (STRESS, 1_000_000, -1_000)), force, -moment);
    assert_sums(&all(|_| (-STRESS, 1_000_000, -1_000)), -force, moment);
    let call = standing(&(0..RODS).map(|i| (side(i) * STRESS, 1_000_000, side(i) * 1_000)).collect::<Vec<_>>());
    assert_sums(&call, 0, moment);
    let call = standing(&(0..RODS).map(|i| (side(i) * STRESS, 1_000_000, 1_000)).collect::<Vec<_>>());
    assert_sums(&call, 0, 0);
}

/// The same from unused rods: strain and heat of one call take every rod up to the end of a stress's range, and one
/// nano more is refused with 10.
#[test]
fn greatest_sums_from_unused_rods() {
    let sheet = generate::sheet_bytes([0, 1, 0, 400_000, 10_000, 20_000, 10_000_000, 0, 0, 0], &[[0, 399_999]], &[]);
    let state = unused_state(&sheet).try_into().unwrap();
    let member = Member { area: 1_000_000, offset: 1_000, state, padding: [0; 3] };
    let mut call = Call { sheet, members: vec![member; RODS], mean: 0, curvature: 0, temperature: -2_000 };
    let stress = |call: &Call| rules::read_state(&section::rules(call).members[31].state).unwrap().stress;
    // The least mean whose stress is beyond the range, found by halving; every one below it is accepted.
    let (mut accepted, mut refused) = (0, 100_000_000);
    while refused - accepted > 1 {
        let mean = (accepted + refused) / 2;
        call.mean = mean;
        if section::rules(&call).answer == 0 {
            accepted = mean;
        } else {
            refused = mean;
        }
    }
    call.mean = refused;
    Tally::default().answers(&call, 10, 1);
    call.mean = accepted;
    assert!(stress(&call) > rules::STRESS - 400_000, "{}", stress(&call));
    let product = stress(&call) / 1_000_000 * 1_000_000;
    assert_sums(&call, 32 * product, 32 * product * 1_000);
}

// ---- each rod is where a lone rod is ----

type LonePair = fn(&[u8], &[u8], &[u8], &mut [u8], &mut [u8]) -> u64;

/// The versions of a section, each with its own single pair.
const WITH_LONE_RODS: &[(Version, LonePair)] = &[
    (section::plain, checks::plain::pair),
    #[cfg(feature = "library")]
    (section::library, checks::library::pair),
];

/// A list of section calls on one sheet, and beside it a lone rod and a bar without rounding for each rod.
struct Walk<'a> {
    version: Version,
    lone_pair: LonePair,
    members: Vec<Member>,
    lone: Vec<Vec<u8>>,
    bars: Vec<Bar<'a>>,
    tally: Tally,
}

impl<'a> Walk<'a> {
    fn new((version, lone_pair): (Version, LonePair), sheet: &'a Sheet, members: Vec<Member>) -> Walk<'a> {
        let lone = members.iter().map(|member| member.state.to_vec()).collect();
        let bars = members.iter().map(|_| Bar::new(sheet)).collect();
        Walk { version, lone_pair, members, lone, bars, tally: Tally::default() }
    }

    /// One lone rod over the pair that a call gives it: the answer, its next state and its row's stress. A change that
    /// no pair can hold has no answer.
    fn lone(&self, call: &Call, rod: usize) -> Option<(u64, Vec<u8>, i64)> {
        let change = section::change(call, &self.members[rod]);
        let pair = layout::write(&layout::PAIR, [0, change, call.temperature]);
        if layout::read(&layout::PAIR, &pair) != [0, change, call.temperature] {
            return None;
        }
        let (mut row, mut next) = ([0; 16], vec![0; STATE_BYTES]);
        let answer = (self.lone_pair)(&call.sheet, &self.lone[rod], &pair, &mut row, &mut next);
        Some((answer, next, Row::read(&row).stress))
    }

    fn call(&mut self, call: &Call) {
        let outcome = (self.version)(call);
        self.tally.numbers[outcome.number() as usize] += 1;
        self.tally.late[outcome.number() as usize] += (outcome.place() > 1) as usize;
        match (outcome.number(), outcome.place() as usize) {
            (0, _) => self.accepted(call, &outcome),
            (14, place) => assert!(place == 0 && !section::in_range(call)),
            (number, place) => {
                for rod in 0..place - 1 {
                    assert_eq!(self.lone(call, rod).unwrap().0, 0, "rod {rod} passes by itself\n{call}");
                }
                let lone = self.lone(call, place - 1).map_or(8, |(answer, ..)| answer % 256);
                assert_eq!(lone, number, "a lone rod's own number\n{call}");
            }
        }
        if outcome.number() != 0 {
            assert_eq!(outcome.members, call.members, "a refused call moves nothing\n{call}");
        }
        self.members = outcome.members;
        for (member, lone) in self.members.iter().zip(&self.lone) {
            assert_eq!(member.state, lone[..], "a rod isn't where a lone rod is\n{call}");
        }
    }

    /// Each lone rod takes its pair, and each bar is fed it.
    fn accepted(&mut self, call: &Call, outcome: &Outcome) {
        let (mut force, mut moment) = (0i128, 0i128);
        for rod in 0..self.members.len() {
            let (answer, next, stress) = self.lone(call, rod).unwrap();
            assert_eq!(answer, 0, "a lone rod is refused\n{call}");
            let product = (stress / 1_000_000) as i128 * self.members[rod].area as i128;
            force += product;
            moment += product * self.members[rod].offset as i128;
            self.lone[rod] = next;
            let pair = rules::Pair { change: section::change(call, &call.members[rod]), temperature: call.temperature };
            self.bars[rod].feed(&pair);
            let k = rules::read_state(&self.lone[rod]).unwrap().k;
            let error = (&Fraction::from(stress) - &self.bars[rod].stress).abs();
            assert!(error <= Fraction::from(k), "the stress of rod {rod} is further than {k} grains away\n{call}");
        }
        assert_eq!((outcome.force as i128, outcome.moment as i128), (force, moment), "{call}");
    }
}

/// Unused rods on a plate, few enough to bend far or as many as a section holds.
fn unused_members(random: &mut Random, sheet: &[u8]) -> Vec<Member> {
    let count = random.pick(&[1, 2, 3, 5, 8, RODS]);
    let widest = random.pick(&[0, 3, 100, 1_000]);
    let state = unused_state(sheet).try_into().unwrap();
    let member = |random: &mut Random| Member {
        area: random.range(1, 1_000_000) as u64,
        offset: random.range(-widest, widest),
        state,
        padding: [0; 3],
    };
    (0..count).map(|_| member(random)).collect()
}

/// Calls that a plate would meet, with every fifth or so refused: a change too great for one rod or for a section.
fn next_call(random: &mut Random, sheet: &[u8], members: &[Member]) -> Call {
    let mut call = Call { sheet: sheet.to_vec(), members: members.to_vec(), mean: 0, curvature: 0, temperature: 0 };
    bundle::aim(random, &mut call);
    let widest = members.iter().map(|member| member.offset.abs()).max().unwrap().max(1);
    if random.chance(80) {
        call.curvature = (call.curvature % (2_000_000 / widest)).clamp(-CURVATURE, CURVATURE);
    }
    match random.below(20) {
        0 => call.mean = random.pick(&[MEAN + 1, -MEAN - 1, MEAN, -MEAN]),
        1 => call.curvature = random.pick(&[CURVATURE + 1, -CURVATURE - 1, CURVATURE, -CURVATURE]),
        2 => call.temperature = random.pick(&[-2_001, 20_001, 32_767]),
        _ => {}
    }
    call
}

/// Lists of section calls on one sheet from unused rods, refused ones among them: behind each call every rod is, byte
/// for byte, where a lone rod is behind the single pairs (mean + curvature × offset, temperature) of the accepted
/// calls, its stress within k grains of the bar's; a refusal is the lowest refused lone rod's.
#[test]
fn lists_of_calls_and_lone_rods() {
    let (mut accepted, mut late) = (0, 0);
    for &version in WITH_LONE_RODS {
        let mut random = Random::new(504);
        for round in 0..600 {
            let law = round % 4;
            let bytes = if round / 4 % 2 == 0 {
                generate::sheet_of_law(&mut random, law)
            } else {
                generate::small_sheet(&mut random, law)
            };
            let sheet = rules::read_sheet(&bytes).unwrap();
            let members = unused_members(&mut random, &bytes);
            let mut walk = Walk::new(version, &sheet, members);
            for _ in 0..25 {
                let call = next_call(&mut random, &bytes, &walk.members);
                walk.call(&call);
            }
            accepted += walk.tally.numbers[0];
            late += walk.tally.late.iter().sum::<usize>();
        }
        if std::env::var_os("CHECKS_PRINT").is_some() {
            println!("{accepted} accepted, {late} refused for a late rod");
        }
    }
    assert!(accepted >= 8_000 * WITH_LONE_RODS.len() && late >= 300 * WITH_LONE_RODS.len(), "{accepted} {late}");
}
