//! Demand 3 (SPEC 11.8, 11.9) over lists of single pairs and runs on one sheet:
//! from the unused rod on, all lies within k grains of the bar without rounding
//! at every stop, k being counted over the rows.

use checks::call::{Entry, WITHDRAWN};
use checks::generate::{self, flowing_pair, pair};
use checks::list::{Held, List, Seen};
use checks::random::Random;
use checks::rules;
use checks::{Version, VERSIONS};

/// Calls until the history has `length` pairs, runs of up to `longest` pairs
/// among them; a fifth of the calls is refused at once or at a pair.
fn history(
    random: &mut Random,
    version: Version,
    sheet_bytes: &[u8],
    length: usize,
    longest: i64,
    flowing: bool,
) -> Held<Seen> {
    let sheet = rules::read_sheet(sheet_bytes).unwrap();
    let mut list = List::new(version, None, sheet_bytes, &sheet)?;
    let mut idle = 0;
    while list.len() < length && idle < 20 {
        let before = list.len();
        let left = (length - before) as i64;
        let count = random.range(0, longest.min(left)) as usize;
        let choose = if flowing { flowing_pair } else { pair };
        let bad = random.chance(10).then(|| random.below(count as u64 + 1) as usize);
        let pairs = generate::pairs_by(random, choose, sheet_bytes, &list.state, count, bad);
        match random.below(12) {
            0 => list.carry(Entry::Run, &pairs, 16 * count, random.pick(&[0, 36, 38])),
            1 if count > 0 => list.carry(Entry::Run, &pairs, 16 * count - 1, 37),
            2 => list.carry(Entry::Run, &[&pairs[..], &[0]].concat(), 16 * count + 16, 37),
            3 if count != 1 => list.carry(Entry::Pair, &pairs, 16 * count, 37),
            4..=6 if count > 0 => list.carry(Entry::Pair, &pairs[..6], 16, 37),
            _ => list.carry(Entry::Run, &pairs, 16 * count + random.pick(&[0, 0, 5]), 37),
        }?;
        idle = if list.len() == before { idle + 1 } else { 0 };
    }
    Ok(list.seen)
}

/// Histories of each law by each version; what they met, all together.
fn histories(seed: u64, rounds: usize, length: usize, longest: i64) -> Seen {
    let mut all = Seen::default();
    for (_, version) in VERSIONS {
        let mut random = Random::new(seed);
        for round in 0..rounds {
            let law = (round % 4) as i64;
            let sheet = if round / 4 % 2 == 0 {
                generate::small_sheet(&mut random, law)
            } else {
                generate::sheet_of_law(&mut random, law)
            };
            let seen = history(&mut random, *version, &sheet, length, longest, round / 8 % 3 != 0);
            all.add(&seen.unwrap_or_else(|text| panic!("{text}")));
        }
    }
    if std::env::var_os("CHECKS_PRINT").is_some() {
        println!("{all:?}");
    }
    assert!(all.yielded * 3 >= all.stops, "few flows: {all:?}");
    assert!(all.heated * 50 >= all.stops && all.heated_yielded * 3 >= all.heated, "few heats: {all:?}");
    let numbers = all.of(Entry::Run);
    assert!([0, 7, 8, 9, 12].iter().all(|&number| numbers[number] > 0), "{all:?}");
    assert!([Entry::Run, Entry::Pair].iter().all(|&entry| all.of(entry)[WITHDRAWN as usize] == 0), "{all:?}");
    all
}

#[test]
fn short_histories() {
    let seen = histories(300, 12_000, 24, 8);
    assert!(seen.far > 100 && seen.very_far > 100, "the bound is never near: {seen:?}");
}

#[test]
fn histories_of_300_pairs() {
    histories(301, 240, 300, 60);
}

#[test]
fn histories_of_2000_pairs() {
    histories(302, 32, 2_000, 300);
}

/// The whole history in one run, each stop inside it.
#[test]
fn runs_of_2000_pairs() {
    for (_, version) in VERSIONS {
        let mut random = Random::new(303);
        let mut yielded = 0;
        for law in 0..4 {
            let sheet = generate::small_sheet(&mut random, law);
            let state = generate::unused_state(&sheet);
            let pairs = generate::pairs_by(&mut random, flowing_pair, &sheet, &state, 2_000, None);
            let seen = one_run(*version, &sheet, &pairs).unwrap_or_else(|text| panic!("{text}"));
            assert_eq!(seen.stops, 2_000);
            yielded += seen.yielded;
        }
        assert!(yielded > 4_000, "few flows: {yielded}");
    }
}

fn one_run(version: Version, sheet_bytes: &[u8], pairs: &[u8]) -> Held<Seen> {
    let sheet = rules::read_sheet(sheet_bytes).unwrap();
    let mut list = List::new(version, None, sheet_bytes, &sheet)?;
    list.carry(Entry::Run, pairs, 16 * pairs.len() / 6, 37)?;
    Ok(list.seen)
}
