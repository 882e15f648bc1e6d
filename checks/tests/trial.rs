//! Trials and keepings (SPEC 16) by the rules, by the quick version and by the
//! library: a trial answers as a single pair does and moves nothing on, a
//! keeping is refused under its two conditions and no others, and every byte is
//! the same.

use checks::call::{Call, Entry, Outcome, WITHDRAWN};
use checks::generate;
use checks::layout::{self, PAIR, PAIR_BYTES, ROW_BYTES, STATE_BYTES};
use checks::log::line;
use checks::random::Random;
use checks::rules::{self, Row};
use checks::solver::{self, Offer, OFFERS};
use checks::trial::{NEXT_AT, TRIAL_BYTES};
use checks::{agreed, VERSIONS};

const VALID: usize = 60_000;
const DAMAGED: usize = 60_000;
const RANDOM: usize = 40_000;
const WRONG_LENGTHS: usize = 40_000;
const KEEPINGS_OF_AN_OFFER: usize = 1_000;
const RANDOM_KEEPINGS: usize = 100_000;
/// Beyond every length that a call knows.
const LONGEST: usize = 120;

/// How often each number was answered.
type Numbers = [usize; 14];

fn assert_seen(numbers: &Numbers, wanted: &[usize], least: usize) {
    for &number in wanted {
        assert!(numbers[number] >= least, "{number} was answered seldom: {numbers:?}");
    }
    assert_eq!(numbers[WITHDRAWN as usize], 0);
}

// ---- trials ----

/// What a trial leaves, the same by every version; of each the answer, the row and the next state are those of its own
/// single pair.
fn tried(call: &Call) -> Outcome {
    let left = agreed(call);
    for (name, version) in VERSIONS {
        let (trial, pair) = (version(call), version(&Call { entry: Entry::Pair, ..call.clone() }));
        let same = (trial.answer, &trial.rows, &trial.next) == (pair.answer, &pair.rows, &pair.next);
        assert!(same, "{name}: a trial differs from the single pair\n{call}trial:\n{trial}pair:\n{pair}");
    }
    assert_eq!(left.state, call.state, "a trial moves nothing on");
    assert_eq!(left.trial, trial_bytes(&left, &call.state), "{call}");
    left
}

/// Number, start and next state; zeros behind the number of a refusal.
fn trial_bytes(left: &Outcome, state: &[u8]) -> Vec<u8> {
    let mut bytes = vec![0; TRIAL_BYTES];
    bytes[0] = left.number() as u8;
    if left.answer == 0 {
        bytes[1..NEXT_AT].copy_from_slice(state);
        bytes[NEXT_AT..].copy_from_slice(&left.next);
    }
    bytes
}

/// The same, and its keeping by the state that the trial was given: both together are a single pair, or the keeping is
/// refused as the trial was.
fn tried_and_kept(call: &Call, numbers: &mut Numbers) {
    let left = tried(call);
    numbers[left.number() as usize] += 1;
    let keeping = Call::keeping(&left.trial, &call.state, vec![0xee; STATE_BYTES]);
    if left.answer == 0 {
        keeps(&keeping, &left.next);
    } else {
        refuses(&keeping, 15);
    }
}

#[test]
fn valid_trials() {
    let mut random = Random::new(700);
    let mut numbers = Numbers::default();
    for _ in 0..VALID {
        tried_and_kept(&solver::trial(&mut random), &mut numbers);
    }
    assert_seen(&numbers, &[0, 8, 9, 10], VALID / 100);
}

#[test]
fn damaged_trials() {
    let mut random = Random::new(701);
    let mut numbers = Numbers::default();
    for _ in 0..DAMAGED {
        let mut call = solver::trial(&mut random);
        generate::damage(&mut random, &mut call);
        if random.chance(10) {
            generate::wrong_lengths(&mut random, &mut call);
        }
        tried_and_kept(&call, &mut numbers);
    }
    assert_seen(&numbers, &[0, 1, 2, 3, 4, 5, 6, 7, 8, 9, 10, 12, 13], 200);
}

#[test]
fn random_trials() {
    let mut random = Random::new(702);
    let mut numbers = Numbers::default();
    for _ in 0..RANDOM {
        let mut call = Call { entry: Entry::Trial, ..generate::random_bytes(&mut random) };
        if random.chance(60) {
            call.sheet = generate::sheet(&mut random);
        }
        if random.chance(50) {
            call.state = generate::unused_state(&call.sheet);
        }
        if random.chance(70) {
            call.pairs.resize(PAIR_BYTES, 0);
        }
        tried_and_kept(&call, &mut numbers);
    }
    assert_seen(&numbers, &[1, 2, 4, 5, 7, 8, 12], 100);
}

#[test]
fn trials_on_wrong_lengths() {
    let mut random = Random::new(703);
    let mut numbers = Numbers::default();
    for _ in 0..WRONG_LENGTHS {
        let mut call = solver::trial(&mut random);
        generate::wrong_lengths(&mut random, &mut call);
        tried_and_kept(&call, &mut numbers);
    }
    assert_seen(&numbers, &[0, 7, 12], 1_000);
}

/// 7 for every length but a pair's, 12 for every row that is too short and every next state of another length.
#[test]
fn trials_on_each_length() {
    let mut random = Random::new(704);
    for (call, _) in accepted_trials(&mut random) {
        for length in 0..=LONGEST {
            let mut pairs = call.clone();
            pairs.pairs.resize(length, 0);
            assert_eq!(tried(&pairs).answer, if length == PAIR_BYTES { 0 } else { 7 });
            let row = Call { rows: random.bytes(length), ..call.clone() };
            assert_eq!(tried(&row).answer, if length < ROW_BYTES { 12 } else { 0 });
            let next = Call { next: random.bytes(length), ..call.clone() };
            assert_eq!(tried(&next).answer, if length == STATE_BYTES { 0 } else { 12 });
        }
    }
}

/// The board's steel: three trials from one state, of which the second is kept, and one more from there.
#[test]
fn worked_by_hand() {
    let sheet = line(0);
    let trial = |state: &[u8], change: i64| {
        let pair = layout::write(&PAIR, [0, change, 200]);
        let left =
            tried(&generate::with_buffers(&mut Random::new(705), Entry::Trial, sheet.clone(), state.into(), pair));
        assert_eq!(left.answer, 0);
        (left.trial, Row::read(&left.rows).stress)
    };
    let unused = generate::unused_state(&sheet);
    let [first, second, third] = [1_000_000, 1_500_000, 1_000_001].map(|change| trial(&unused, change));
    assert_eq!([first.1, second.1, third.1], [200_000_000_000, 201_000_000_000, 200_000_002_000]);
    let state = agreed(&Call::keeping(&second.0, &unused, vec![0; STATE_BYTES])).next;
    let rod = rules::read_state(&state).unwrap();
    assert_eq!((rod.stress, rod.n, rod.k), (201_000_000_000, 1, 1));
    for (trial, _) in [&first, &second, &third] {
        refuses(&Call::keeping(trial, &state, vec![0xee; STATE_BYTES]), 15);
    }
    assert_eq!(trial(&state, -3_000_000).1, -202_980_000_000);
}

// ---- keepings ----

/// A keeping that every version answers with 0, and these bytes are the rod's.
fn keeps(call: &Call, next: &[u8]) {
    let left = agreed(call);
    assert_eq!(left.answer, 0, "{call}");
    assert!(left.next == next && left.state == call.state && left.trial == call.trial, "{call}{left}");
}

/// A keeping that every version answers with this number, and no byte is written.
fn refuses(call: &Call, number: u64) {
    let left = agreed(call);
    assert_eq!(left.answer, number, "{call}");
    assert!(left.next == call.next && left.state == call.state && left.trial == call.trial, "{call}{left}");
}

/// A few accepted trials of every law, without points and with them, and what they leave.
fn accepted_trials(random: &mut Random) -> Vec<(Call, Outcome)> {
    let mut of_sheets = [[0; 2]; 4];
    let mut trials = Vec::new();
    while trials.len() < 24 {
        let call = solver::trial(random);
        let left = agreed(&call);
        let [law, .., points] = layout::read(&layout::SHEET, &call.sheet);
        let count = &mut of_sheets[law as usize][(points > 0) as usize];
        if left.answer == 0 && *count < 3 {
            *count += 1;
            trials.push((call, left));
        }
    }
    trials
}

/// Their keepings, by the state that each started from.
fn keepings(random: &mut Random) -> Vec<Call> {
    let keeping = |(call, left): (Call, Outcome)| Call::keeping(&left.trial, &call.state, vec![0xee; STATE_BYTES]);
    accepted_trials(random).into_iter().map(keeping).collect()
}

/// Everything that can be offered, rightly and wrongly, and the number that it gets.
#[test]
fn every_offer() {
    let mut random = Random::new(710);
    for offer in OFFERS {
        for _ in 0..KEEPINGS_OF_AN_OFFER {
            let call = solver::keeping(&mut random, offer);
            match offer {
                Offer::Start | Offer::NextBit | Offer::AnyBytesFromTheirStart | Offer::Zeros => {
                    keeps(&call, &call.trial[NEXT_AT..])
                }
                Offer::BufferLength | Offer::BufferLengthAndState | Offer::BufferLengthAndRefused => refuses(&call, 12),
                _ => refuses(&call, 15),
            }
        }
    }
}

/// 15 for every length but a state's, cut or with more bytes behind it, and never 4.
#[test]
fn a_state_of_any_length() {
    let mut random = Random::new(711);
    for call in keepings(&mut random) {
        keeps(&call, &call.trial[NEXT_AT..]);
        for length in (0..=LONGEST).filter(|&length| length != STATE_BYTES) {
            for filling in [0x00, 0xff] {
                let mut call = call.clone();
                call.state.resize(length, filling);
                refuses(&call, 15);
            }
        }
    }
}

#[test]
fn each_bit_of_the_state() {
    let mut random = Random::new(712);
    for call in keepings(&mut random) {
        for bit in 0..8 * STATE_BYTES {
            let mut call = call.clone();
            call.state[bit / 8] ^= 0x80 >> (bit % 8);
            refuses(&call, 15);
        }
    }
}

/// A bit of number or start is 15; one of the next state is kept as it stands there.
#[test]
fn each_bit_of_the_trial() {
    let mut random = Random::new(713);
    for call in keepings(&mut random) {
        for bit in 0..8 * TRIAL_BYTES {
            let mut call = call.clone();
            call.trial[bit / 8] ^= 0x80 >> (bit % 8);
            if bit / 8 < NEXT_AT {
                refuses(&call, 15);
            } else {
                keeps(&call, &call.trial[NEXT_AT..]);
            }
        }
    }
}

#[test]
fn each_number_of_a_trial() {
    let mut random = Random::new(714);
    for call in keepings(&mut random) {
        for number in 1..=255 {
            let mut call = call.clone();
            call.trial[0] = number;
            refuses(&call, 15);
        }
    }
}

/// 12 for every length but a state's, whether 15 would apply or not.
#[test]
fn a_buffer_of_any_length() {
    let mut random = Random::new(715);
    for call in keepings(&mut random) {
        let mut other_state = call.clone();
        other_state.state[36] ^= 1;
        let mut no_state = call.clone();
        no_state.state.clear();
        let mut refused = call.clone();
        refused.trial[0] = 9;
        for length in (0..=LONGEST).filter(|&length| length != STATE_BYTES) {
            for call in [&call, &other_state, &no_state, &refused] {
                refuses(&Call { next: random.bytes(length), ..call.clone() }, 12);
            }
        }
    }
}

/// Trials refused with each number that a trial gets: 15, whichever state is offered, zeros among them.
#[test]
fn trials_refused_with_each_number() {
    let mut random = Random::new(716);
    let mut numbers = Numbers::default();
    for i in 0..40_000 {
        let mut call = solver::trial(&mut random);
        if i % 4 != 0 {
            generate::damage(&mut random, &mut call);
        } else {
            generate::wrong_lengths(&mut random, &mut call);
        }
        let left = agreed(&call);
        numbers[left.number() as usize] += 1;
        if left.answer != 0 {
            assert_eq!((left.trial[0] as u64, &left.trial[1..]), (left.number(), &[0; TRIAL_BYTES - 1][..]));
            for state in [&call.state[..], &left.next, &[0; STATE_BYTES], &[]] {
                refuses(&Call::keeping(&left.trial, state, vec![0xee; STATE_BYTES]), 15);
            }
        }
    }
    assert_seen(&numbers, &[1, 2, 3, 4, 5, 6, 7, 8, 9, 10, 12, 13], 50);
}

/// Bytes that no trial wrote: any trial, any state, any buffer.
#[test]
fn random_keepings() {
    let mut random = Random::new(717);
    let mut numbers = [0; 16];
    for _ in 0..RANDOM_KEEPINGS {
        let mut trial = random.bytes(TRIAL_BYTES);
        if random.chance(60) {
            trial[0] = 0;
        }
        let [state, next] = [(); 2].map(|_| if random.chance(80) { STATE_BYTES } else { random.below(80) as usize });
        let (mut state, next) = (random.bytes(state), random.bytes(next));
        if random.chance(60) {
            state = trial[1..NEXT_AT].to_vec();
        }
        numbers[agreed(&Call::keeping(&trial, &state, next)).answer as usize] += 1;
    }
    assert!([0, 12, 15].iter().all(|&number| numbers[number] >= RANDOM_KEEPINGS / 10), "{numbers:?}");
    assert_eq!(numbers[0] + numbers[12] + numbers[15], RANDOM_KEEPINGS);
}
