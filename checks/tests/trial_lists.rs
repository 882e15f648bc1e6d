//! Demand 3 over lists of single pairs, runs, trials and keepings (SPEC 11, 16):
//! every call is as the rules have it, byte for byte, and at every stop, behind
//! trials and refused keepings too, all lies within k grains of the bar without
//! rounding, k and n being counted over what was kept.

use checks::call::Entry;
use checks::generate;
use checks::random::Random;
use checks::rules;
use checks::solver::{self, Kind, Met};
use checks::{Version, VERSIONS};

/// Lists of each law by each version, two on a sheet; what they met, all together.
fn lists(seed: u64, sheets: i64, steps: usize) -> Met {
    let mut all = Met::default();
    for (name, version) in VERSIONS {
        let mut random = Random::new(seed);
        for i in 0..sheets {
            let small = i / 4 % 2 == 0;
            let sheet = if small { generate::small_sheet } else { generate::sheet_of_law }(&mut random, i % 4);
            let met = solver::lists(&mut random, *version, Some(rules::call as Version), &sheet, steps);
            all.add(&met.unwrap_or_else(|text| panic!("{name}\n{text}")));
        }
    }
    if std::env::var_os("CHECKS_PRINT").is_some() {
        println!("{all:?}");
    }
    all
}

/// Each kind of keeping was met with each number that it can get, at least so often.
fn assert_met(met: &Met, least: usize) {
    for kind in [Kind::Newest, Kind::Older, Kind::Foreign] {
        assert!(met.of(kind).iter().all(|&count| count >= least), "{kind:?}: {met:?}");
    }
    for kind in [Kind::KeptBefore, Kind::Refused, Kind::Damaged] {
        let [kept, twelve, fifteen] = met.of(kind);
        assert!(kept == 0 && twelve >= least && fifteen >= least, "{kind:?}: {met:?}");
    }
    assert!(met.counts_alone >= least, "{met:?}");
}

fn assert_numbers(met: &Met, entry: Entry, numbers: &[usize], least: usize) {
    for &number in numbers {
        assert!(met.seen.of(entry)[number] >= least, "{entry:?} answered {number} seldom: {met:?}");
    }
}

#[test]
fn short_lists() {
    let met = lists(720, 5_000, 40);
    assert_met(&met, 100);
    assert_numbers(&met, Entry::Trial, &[0, 7, 8, 9, 12], 100);
    assert_numbers(&met, Entry::Run, &[0, 8, 9, 12], 100);
    assert_numbers(&met, Entry::Pair, &[0, 8, 9], 100);
    let seen = &met.seen;
    assert!(seen.yielded * 3 >= seen.stops && seen.heated * 50 >= seen.stops, "few flows or heats: {met:?}");
    assert!(seen.far > 20 && seen.very_far > 100, "the bound is never near: {met:?}");
}

#[test]
fn long_lists() {
    let met = lists(721, 40, 600);
    assert_numbers(&met, Entry::Keep, &[0, 12, 15], 1_000);
    assert_eq!(met.of(Kind::KeptBefore)[0], 0);
}
