//! The branch of a row (document 02, A6; SPEC 7.7) by the rules, by the quick
//! version and by the library: histories worked by hand, in which strain change,
//! trial stress and new stress each name another branch, and over random calls
//! what the branch has to do with all that stands beside it.

use checks::branch::{self, accepted, of_sign, Accepted};
use checks::call::{Call, Entry};
use checks::fraction::Fraction;
use checks::generate::{self, flowing_pair, sheet_bytes, unused_state};
use checks::layout::{self, PAIR_BYTES, ROW_BYTES};
use checks::log::{line, samples, soft, steel, walk};
use checks::random::Random;
use checks::rules::{self, Row};
use checks::table::{heat, PAIRS};
use checks::{agreed, Version, VERSIONS};

const CALLS: usize = 60_000;
const HISTORIES: i64 = 400;

const ELASTIC: i64 = 0;
const TENSION: i64 = 1;
const COMPRESSION: i64 = 2;

// ---- by hand ----

/// A change of strain in nano, and the new temperature.
type Change = (i64, i64);

fn pair_bytes(changes: &[Change]) -> Vec<u8> {
    changes.iter().flat_map(|&(change, temperature)| layout::write(&layout::PAIR, [0, change, temperature])).collect()
}

/// The rows of an accepted list, in bytes and the same by every version: by a run, by single pairs, and by trials, each
/// from the state that the pairs before it lead to.
fn row_bytes(sheet: &[u8], pairs: &[u8]) -> Vec<u8> {
    let mut random = Random::new(900);
    let unused = unused_state(sheet);
    let mut left = |entry: Entry, state: &[u8], pairs: &[u8]| {
        let mut call = generate::with_buffers(&mut random, entry, sheet.to_vec(), state.to_vec(), pairs.to_vec());
        call.rows.truncate(ROW_BYTES * pairs.len() / PAIR_BYTES);
        let outcome = agreed(&call);
        assert_eq!(outcome.answer, 0, "{call}");
        outcome
    };
    let rows = left(Entry::Run, &unused, pairs).rows;
    let mut state = unused;
    for (pair, row) in pairs.chunks(PAIR_BYTES).zip(rows.chunks(ROW_BYTES)) {
        let single = left(Entry::Pair, &state, pair);
        let tried = left(Entry::Trial, &state, pair);
        assert!(single.rows == row && tried.rows == row);
        state = single.next;
    }
    rows
}

fn rows(sheet: &[u8], changes: &[Change]) -> Vec<Row> {
    row_bytes(sheet, &pair_bytes(changes)).chunks(ROW_BYTES).map(Row::read).collect()
}

fn branches(sheet: &[u8], changes: &[Change]) -> Vec<i64> {
    rows(sheet, changes).iter().map(|row| row.branch).collect()
}

/// A flow of the soft steel; stress and E times plastic strain in MPa.
fn soft_flow(branch: i64, stress: i64, plastic: i64) -> Row {
    const MPA: i64 = 1_000_000_000;
    Row { yielded: true, branch, tangent: 100_000, stress: stress * MPA, plastic: plastic * MPA }
}

/// Pressed by 4,000,000 nano: the trial is −800 MPa, 600 beyond the radius, so the centre moves to −300 and the stress
/// is −500. Pulled by 2,400,000: the trial is −500 + 480 = −20, which is 280 above the centre and 80 beyond the radius,
/// so the centre moves up to −260 and the stress is −60. Plastic strain grew by −20 + 60 = 40: that is tension, though
/// trial and new stress are negative.
#[test]
fn tension_that_ends_at_a_negative_stress() {
    let rows = rows(&soft(), &[(-4_000_000, 200), (2_400_000, 200)]);
    assert_eq!(rows, [soft_flow(COMPRESSION, -500, -300), soft_flow(TENSION, -60, -260)]);
}

/// The same the other way round.
#[test]
fn compression_that_ends_at_a_positive_stress() {
    let rows = rows(&soft(), &[(4_000_000, 200), (-2_400_000, 200)]);
    assert_eq!(rows, [soft_flow(TENSION, 500, 300), soft_flow(COMPRESSION, 60, 260)]);
}

/// The 2,400,000 nano of before come from the cold: 210 degrees make 2,520,000, and the rod is pressed by 120,000
/// meanwhile. So it flows in tension against the sign of strain change, trial, new stress and plastic strain.
#[test]
fn tension_against_every_sign() {
    let rows = rows(&soft(), &[(-4_000_000, 200), (-120_000, -1_900)]);
    assert_eq!(rows, [soft_flow(COMPRESSION, -500, -300), soft_flow(TENSION, -60, -260)]);
}

/// The same the other way round, by heat.
#[test]
fn compression_against_every_sign() {
    let rows = rows(&soft(), &[(4_000_000, 200), (120_000, 2_300)]);
    assert_eq!(rows, [soft_flow(TENSION, 500, 300), soft_flow(COMPRESSION, 60, 260)]);
}

/// A sheet of each law on the board's steel, and what 460 MPa beyond an unused rod come to in tension and compression,
/// in tenths of a MPa. Line: 200 and a hundredth of 260. Curve: 200, a tenth of the first segment's 100, and a hundredth
/// of the 160 behind it. Law 3's other side: 250 and a hundredth of 210.
fn each_law() -> [(Vec<u8>, i64, i64); 4] {
    [
        (line(0), 2_026, -2_026),
        (steel(1, 0, &[[500_000, 20_000], [0, 2_000]]), 2_116, -2_116),
        (line(2), 2_026, -2_026),
        (steel(3, 250_000, &[[0, 2_000], [0, 2_000]]), 2_026, -2_521),
    ]
}

/// Of tenths of a MPa.
fn flow(branch: i64, stress: i64, trial: i64) -> Row {
    const TENTH: i64 = 100_000_000;
    Row { yielded: true, branch, tangent: 2_000, stress: stress * TENTH, plastic: (trial - stress) * TENTH }
}

/// Stretched by 100,000 nano while 200 degrees of heat make 2,400,000: the trial is −460 MPa.
#[test]
fn compression_of_a_rod_that_is_stretched() {
    for (sheet, _, stress) in each_law() {
        assert_eq!(rows(&sheet, &[(100_000, 2_200)]), [flow(COMPRESSION, stress, -4_600)]);
    }
}

/// Pressed by 100,000 nano while it cools by 200 degrees: the trial is 460 MPa.
#[test]
fn tension_of_a_rod_that_is_pressed() {
    for (sheet, stress, _) in each_law() {
        assert_eq!(rows(&sheet, &[(-100_000, -1_800)]), [flow(TENSION, stress, 4_600)]);
    }
}

/// Held fast, a rod flows by heat alone; stretched with the heat it doesn't flow at all.
#[test]
fn flows_without_a_strain_change_and_none_with_one() {
    for (sheet, ..) in each_law() {
        assert_eq!(branches(&sheet, &[(0, 2_200), (0, -1_800)]), [COMPRESSION, TENSION]);
        assert_eq!(branches(&sheet, &[(2_400_000, 2_200), (-4_800_000, -1_800)]), [ELASTIC, ELASTIC]);
    }
}

/// A limit that is met isn't passed; a nano more flows, and back inside the row is elastic again, whatever flowed last.
#[test]
fn at_a_limit_and_a_nano_beyond() {
    let elastic = |stress| Row { yielded: false, branch: ELASTIC, tangent: 200_000, stress, plastic: 0 };
    for law in [0, 2] {
        let sheet = line(law);
        assert_eq!(rows(&sheet, &[(1_000_000, 200)]), [elastic(200_000_000_000)]);
        assert_eq!(rows(&sheet, &[(-1_000_000, 200)]), [elastic(-200_000_000_000)]);
        assert_eq!(branches(&sheet, &[(1_000_001, 200), (-1, 200), (0, 200)]), [TENSION, ELASTIC, ELASTIC]);
        assert_eq!(branches(&sheet, &[(-1_000_001, 200), (1, 200), (0, 200)]), [COMPRESSION, ELASTIC, ELASTIC]);
    }
}

/// E 3, tangent 2, yield 1,000,000 grains. The first trial is 1,000,005, the abscissa too, and T there 1,000,003 1/3.
/// The second one, 1,000,003 − 3 · 666,669 = −1,000,004, is beyond it, and the exact solution is T = 1,000,003 7/9 at
/// 1,000,005 2/3: plastic strain falls, by 2/9 of a grain. Stored are the abscissa 1,000,006 and T there, 1,000,004:
/// the stress comes to the trial, and E times plastic strain stays 2.
#[test]
fn a_flow_that_the_roundings_take_up() {
    let sheet = sheet_bytes([0, 1, 0, 3, 1_200, 200, 1, 0, 0, 0], &[[0, 2]], &[]);
    let row = |branch, stress| Row { yielded: true, branch, tangent: 2, stress, plastic: 2 };
    assert_eq!(
        rows(&sheet, &[(333_335, 200), (-666_669, 200)]),
        [row(TENSION, 1_000_003), row(COMPRESSION, -1_000_004)]
    );

    let sheet = rules::read_sheet(&sheet).unwrap();
    let whole = |value: i64| Fraction::from(value);
    let old = rules::Numbers { stress: whole(1_000_003), first: whole(1_000_005), second: whole(0) };
    let trial = whole(-1_000_004);
    let (exact, _) = rules::solution(&sheet, &old, &trial);
    assert_eq!(&trial - &exact.stress, Fraction::ratio(-2, 9));
}

/// The first byte of a row: yielded, then the branch in three bits, then the four highest of the tangent, which is
/// 100,000 = 0x186a0 or, elastic, 200,000 = 0x30d40.
#[test]
fn the_first_byte() {
    let changes = [(500_000, 200), (3_500_000, 200), (-1, 200), (-4_000_000, 200)];
    let rows = row_bytes(&soft(), &pair_bytes(&changes));
    assert_eq!([rows[0], rows[16], rows[32], rows[48]], [0x03, 0x91, 0x03, 0xa1]);
}

/// Every law over a heat, with points and without.
#[test]
fn over_a_heat() {
    for i in 0..8 {
        let call = heat(i / 2, i % 2 == 1);
        let rows = row_bytes(&call.sheet, &call.pairs);
        let branches: Vec<i64> = rows.chunks(ROW_BYTES).map(|row| Row::read(row).branch).collect();
        assert_eq!(branches, [ELASTIC, TENSION, ELASTIC, COMPRESSION, ELASTIC, TENSION, COMPRESSION], "{call}");
        assert_eq!(branches.len(), PAIRS);
    }
}

/// The rules' text of the two sample logs whose stress would name another branch, by hand. The stored texts are the
/// rules', and run.sh holds what the log program prints to them.
#[test]
fn as_printed() {
    let printed = |name: &str| walk(&samples().iter().find(|log| log.name == name).expect(name).bytes);
    let text = "pair stress plastic tangent yielded branch\n\
                1 -500000000000 -300000000000 100000 1 2\n\
                2 -60000000000 -260000000000 100000 1 1\n\
                end 2\n";
    assert_eq!(printed("logs/law_2_tension_ends_negative"), text);
    let text = "pair stress plastic tangent yielded branch\n\
                1 500000000000 300000000000 100000 1 1\n\
                2 60000000000 260000000000 100000 1 2\n\
                end 2\n";
    assert_eq!(printed("logs/law_2_compression_ends_positive"), text);
}

// ---- over random calls ----

/// What the pairs met, so that no case is missed unnoticed.
#[derive(Debug, Default)]
struct Seen {
    /// By law: elastic, tension, compression.
    branches: [[usize; 3]; 4],
    /// By law: flows against the sign of the strain change, and of the stress change, which can be 0.
    against_the_change: [usize; 4],
    against_the_stress_change: [usize; 4],
    /// By law: flows by less than a grain, which plastic strain doesn't show.
    taken_up: [usize; 4],
    /// Law 2: tension that ends at a negative stress, compression at a positive one; and so of the trial.
    against_the_stress: [usize; 2],
    against_the_trial: [usize; 2],
    /// By law: elastic rows right behind a flow.
    behind_a_flow: [usize; 4],
}

impl Seen {
    fn meet(&mut self, pairs: &[Accepted]) {
        for pair in pairs {
            let (law, branch) = (pair.law as usize, pair.row.branch);
            self.branches[law][branch as usize] += 1;
            if branch == ELASTIC {
                continue;
            }
            let against = |value: i64| (of_sign(value) != branch) as usize;
            self.against_the_change[law] += against(pair.change);
            self.against_the_stress_change[law] += against(pair.after.stress - pair.before.stress);
            self.taken_up[law] += (pair.growth() == 0) as usize;
            if law == 2 {
                self.against_the_stress[branch as usize - 1] += against(pair.row.stress);
                self.against_the_trial[branch as usize - 1] += against(pair.trial);
            } else {
                // The limits lie above 0 on either side.
                assert_eq!(of_sign(pair.row.stress), branch);
            }
        }
        for two in pairs.windows(2) {
            let behind = two[0].row.branch != ELASTIC && two[1].row.branch == ELASTIC;
            self.behind_a_flow[two[1].law as usize] += behind as usize;
        }
    }

    fn assert_all(&self) {
        if std::env::var_os("CHECKS_PRINT").is_some() {
            println!("{self:?}");
        }
        let laws = self.branches.iter().flatten().chain(&self.against_the_change);
        let laws = laws.chain(&self.against_the_stress_change).chain(&self.behind_a_flow);
        assert!(laws.copied().all(|count| count >= 500), "{self:?}");
        let two = self.against_the_stress.iter().chain(&self.against_the_trial);
        assert!(two.copied().all(|count| count >= 500), "{self:?}");
        assert_eq!(self.taken_up[2], 0);
        assert!([0, 1, 3].iter().all(|&law| self.taken_up[law] >= 5), "{self:?}");
    }
}

/// What the branch has to do with what stands beside it holds of every row of a call by this version.
fn assert_beside(name: &str, version: Version, call: &Call) -> Vec<Accepted> {
    let outcome = version(call);
    let pairs = accepted(call, &outcome);
    for (i, pair) in pairs.iter().enumerate() {
        if let Err(text) = branch::holds(pair) {
            panic!("{name}: fails at pair {}: {text}\n{call}{outcome}", i + 1);
        }
    }
    pairs
}

/// The rules themselves, and what is held against them.
fn every_version() -> impl Iterator<Item = (&'static str, Version)> {
    [("rules", rules::call as Version)].into_iter().chain(VERSIONS.iter().copied())
}

/// Runs, single pairs and trials from all kinds of states: yielded bit, plastic strain, old centre, abscissas.
#[test]
fn beside_the_other_numbers() {
    for (name, version) in every_version() {
        let mut random = Random::new(901);
        let mut seen = Seen::default();
        for i in 0..CALLS {
            let mut call = generate::valid(&mut random);
            if call.entry == Entry::Pair && i % 2 == 0 {
                call.entry = Entry::Trial;
            }
            seen.meet(&assert_beside(name, version, &call));
        }
        seen.assert_all();
    }
}

/// Histories from unused rods, of which nearly every pair flows: the plastic strain before a pair is that of the row
/// before it, so that two neighbouring rows tell the branch.
#[test]
fn from_row_to_row() {
    for (name, version) in every_version() {
        let mut random = Random::new(902);
        let mut flows = [[0; 3]; 4];
        for i in 0..HISTORIES {
            let sheet = if i / 4 % 2 == 0 { generate::small_sheet } else { generate::sheet_of_law }(&mut random, i % 4);
            let state = unused_state(&sheet);
            let pairs = generate::pairs_by(&mut random, flowing_pair, &sheet, &state, 100, None);
            let call = generate::with_buffers(&mut random, Entry::Run, sheet, state, pairs);
            let mut plastic = 0;
            for pair in assert_beside(name, version, &call) {
                assert_eq!(pair.plastic, plastic, "{call}");
                plastic = pair.row.plastic;
                flows[pair.law as usize][pair.row.branch as usize] += 1;
            }
        }
        assert!(flows.iter().all(|law| law[1].min(law[2]) >= 1_000), "{flows:?}");
    }
}
