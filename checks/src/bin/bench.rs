//! The proved library through its C interface against the quick version in
//! plain 64-bit Rust, on the same bytes: nanoseconds a pair, and the ratio
//! plain / proved, above 1 where the proved one is faster; and what points of
//! the expansion cost, proved time with them / proved time without. Then a
//! section of 32 rods beside the same rods by a single pair each: nanoseconds a
//! rod, and the ratio single pairs / section. Then a trial, and a trial with its
//! keeping, beside a single pair: nanoseconds a pair, and the ratios to it. Last
//! the grading of a table beside the run on the same input: nanoseconds a pair,
//! and the ratio grading / run.

use checks::generate::{self, sheet_bytes};
use checks::layout;
use checks::log::with_points;
use checks::random::Random;
use checks::section::{Member, RODS};
use checks::trial::TRIAL_BYTES;
use checks::{library, plain};
use std::hint::black_box;
use std::time::Instant;

const PAIRS: usize = 4_096;
const ROUNDS: usize = 25;
const RUNS_A_ROUND: usize = 20;

/// Around the single number, and within the temperatures of both lists, 200 to 263 and 200 to 250.
const POINTS: [(i64, i64); 8] =
    [(203, 1_187), (209, 1_191), (216, 1_196), (223, 1_201), (229, 1_204), (236, 1_211), (243, 1_209), (249, 1_217)];

type Carry = fn(&[u8], &[u8], &[u8], &mut [u8], &mut [u8]) -> u64;

/// Strain cycles past both limits, in even steps, while the rod warms and cools.
fn cycles() -> Vec<u8> {
    let mut strain = 0;
    let mut bytes = Vec::new();
    for i in 0..PAIRS as i64 {
        let phase = i % 128;
        let wanted = if phase < 64 { 125_000 * (phase - 32) } else { 125_000 * (96 - phase) };
        let temperature = 200 + (i / 16) % 64;
        bytes.extend(layout::write(&layout::PAIR, [0, wanted - strain, temperature]));
        strain = wanted;
    }
    bytes
}

/// Pairs whose branches can't be foretold: some elastic, some flowing either way.
fn mixed(sheet: &[u8]) -> Vec<u8> {
    let mut random = Random::new(1);
    let mut state = generate::unused_state(sheet);
    let mut bytes = Vec::new();
    while bytes.len() < 6 * PAIRS {
        let change = random.range(-4_000_000, 4_000_000);
        let pair = layout::write(&layout::PAIR, [0, change, 200 + random.range(0, 50)]);
        let (mut row, mut next) = ([0; 16], [0; 37]);
        if plain::pair(sheet, &state, &pair, &mut row, &mut next) == 0 {
            state = next.to_vec();
            bytes.extend(pair);
        }
    }
    bytes
}

/// A run of the whole list at once.
fn whole(run: Carry, sheet: &[u8], state: &[u8], pairs: &[u8], rows: &mut [u8], next: &mut [u8]) {
    assert_eq!(run(black_box(sheet), black_box(state), black_box(pairs), rows, next), 0);
}

/// The same list by single pairs, each from the state that its predecessor left.
fn single(pair: Carry, sheet: &[u8], state: &[u8], pairs: &[u8], rows: &mut [u8], next: &mut [u8]) {
    let mut state: [u8; 37] = state.try_into().unwrap();
    for (bytes, row) in pairs.chunks(6).zip(rows.chunks_mut(16)) {
        assert_eq!(pair(black_box(sheet), black_box(&state), black_box(bytes), row, next), 0);
        state.copy_from_slice(next);
    }
}

type Way = fn(Carry, &[u8], &[u8], &[u8], &mut [u8], &mut [u8]);

/// The least nanoseconds a pair of each version, taken in turns, and what it left.
fn measure(way: Way, versions: [Carry; 2], sheet: &[u8], pairs: &[u8]) -> [f64; 2] {
    let state = generate::unused_state(sheet);
    let mut least = [f64::INFINITY; 2];
    let mut left = [(vec![0; 16 * PAIRS], vec![0; 37]), (vec![0; 16 * PAIRS], vec![0; 37])];
    for _ in 0..ROUNDS {
        for (which, version) in versions.into_iter().enumerate() {
            let (rows, next) = &mut left[which];
            let start = Instant::now();
            for _ in 0..RUNS_A_ROUND {
                way(black_box(version), sheet, &state, pairs, rows, next);
            }
            let nanoseconds = start.elapsed().as_nanos() as f64 / (RUNS_A_ROUND * PAIRS) as f64;
            least[which] = least[which].min(nanoseconds);
        }
    }
    assert!(left[0] == left[1], "the two versions leave different bytes");
    least
}

/// The steels to carry, each with a name.
fn sheets() -> [(&'static str, Vec<u8>); 5] {
    let steel = |law, compressions, segments: &[[i64; 2]]| {
        let tensions = segments.len() as i64 - compressions;
        let compression_yield = if law == 3 { 250_000 } else { 0 };
        let head = [law, tensions, compressions, 200_000, 1_200, 200, 200_000, compression_yield, 0, 0];
        sheet_bytes(head, segments, &[])
    };
    let seven: Vec<[i64; 2]> = (0..7).map(|i| [if i < 6 { 40_000_000 } else { 0 }, 14_000 - 2_000 * i]).collect();
    [
        ("law 0", steel(0, 0, &[[0, 2_000]])),
        ("law 1, 1 segment", steel(1, 0, &[[0, 2_000]])),
        ("law 1, 7 segments", steel(1, 0, &seven)),
        ("law 2", steel(2, 0, &[[0, 2_000]])),
        ("law 3", steel(3, 1, &[[0, 2_000], [0, 2_000]])),
    ]
}

/// A text behind the program's name chooses the lines that hold it.
fn main() {
    let only = std::env::args().nth(1).unwrap_or_default();
    println!("{PAIRS} pairs, nanoseconds a pair, the least of {ROUNDS} rounds; ratio plain / proved");
    println!("buffers are allocated once and not cleared between calls");
    println!("8 points: the same steel, its expansion by points that the temperatures cross");
    println!("points: proved time with them / proved time of the same line without");
    println!("{:50} {:>6} {:>8} {:>8} {:>6} {:>6}", "", "flows", "proved", "plain", "ratio", "points");
    let ways: [(&str, Way, [Carry; 2]); 2] =
        [("whole run", whole, [library::run, plain::run]), ("single pairs", single, [library::pair, plain::pair])];
    for (way_name, way, versions) in ways {
        for (sheet_name, sheet) in &sheets() {
            let pointed = with_points(sheet.clone(), &POINTS);
            for (input, pairs) in [("cycles", cycles()), ("mixed", mixed(sheet))] {
                let label = |points: &str| format!("{way_name}, {sheet_name}, {points}{input}");
                let (without, with) = (label(""), label("8 points, "));
                let (print_without, print_with) = (without.contains(&only), with.contains(&only));
                if !print_without && !print_with {
                    continue;
                }
                // A line with points is held against the one without, printed or not.
                let times = measure(way, versions, sheet, &pairs);
                if print_without {
                    print_line(&without, flows(sheet, &pairs), times, None);
                }
                if print_with {
                    let pointed_times = measure(way, versions, &pointed, &pairs);
                    print_line(&with, flows(&pointed, &pairs), pointed_times, Some(times[0]));
                }
            }
        }
    }
    print_sections(&only);
    print_trials(&only);
    print_grades(&only);
}

/// The times of the two versions; where the sheet has points, with the proved time without them.
fn print_line(label: &str, flows: i64, [proved, quick]: [f64; 2], without: Option<f64>) {
    let points = without.map_or(String::new(), |without| format!(" {:6.2}", proved / without));
    println!("{label:50} {flows:>4} % {proved:8.2} {quick:8.2} {:6.2}{points}", quick / proved);
}

/// Of a hundred pairs, how many flow.
fn flows(sheet: &[u8], pairs: &[u8]) -> i64 {
    let (mut rows, mut next) = (vec![0; 16 * PAIRS], [0; 37]);
    plain::run(sheet, &generate::unused_state(sheet), pairs, &mut rows, &mut next);
    let [.., k] = layout::read(&layout::STATE, &next);
    100 * k / PAIRS as i64
}

// ---- sections ----

const MOVES: usize = PAIRS / RODS;

/// What the plate does in a call: change of mean strain and of curvature, and the new temperature.
type Move = [i64; 3];

type Section = fn(&[u8], &mut [Member], i64, i64, i64, &mut i64, &mut i64) -> u64;

/// Unused rods side by side, some mm apart.
fn bundle(sheet: &[u8]) -> Vec<Member> {
    let state = generate::unused_state(sheet).try_into().unwrap();
    let member = |i| Member { area: 700 + 10 * i as u64, offset: 10 * i as i64 - 155, state, padding: [0; 3] };
    (0..RODS).map(member).collect()
}

/// Mean strain and curvature cycle in even steps, one a quarter behind the other, while the plate warms and cools.
fn plate_cycles() -> Vec<Move> {
    let wave = |i: i64| if i % 64 < 32 { i % 64 - 16 } else { 48 - i % 64 };
    let (mut mean, mut curvature) = (0, 0);
    let step = |i: i64| {
        let wanted = (200_000 * wave(i), 1_000 * wave(i + 16));
        let step = [wanted.0 - mean, wanted.1 - curvature, 200 + (i / 2) % 64];
        (mean, curvature) = wanted;
        step
    };
    (0..MOVES as i64).map(step).collect()
}

/// Moves that no rod can foretell, each accepted.
fn plate_mixed(sheet: &[u8]) -> Vec<Move> {
    let mut random = Random::new(2);
    let mut members = bundle(sheet);
    let mut moves = Vec::new();
    while moves.len() < MOVES {
        let [mean, curvature] = [random.range(-4_000_000, 4_000_000), random.range(-20_000, 20_000)];
        let temperature = 200 + random.range(0, 50);
        if plain::section(sheet, &mut members, mean, curvature, temperature, &mut 0, &mut 0) == 0 {
            moves.push([mean, curvature, temperature]);
        }
    }
    moves
}

/// The moves by sections, and where the rods are then.
fn by_sections(section: Section, sheet: &[u8], members: &[Member], moves: &[Move]) -> Vec<[u8; 37]> {
    let mut members = members.to_vec();
    let (mut force, mut moment) = (0, 0);
    for &[mean, curvature, temperature] in moves {
        let (sheet, rods) = (black_box(sheet), black_box(&mut members[..]));
        assert_eq!(section(sheet, rods, mean, curvature, temperature, &mut force, &mut moment), 0);
    }
    black_box((force, moment));
    members.iter().map(|member| member.state).collect()
}

/// The pairs that the moves are to each rod.
fn pairs_of(members: &[Member], moves: &[Move]) -> Vec<Vec<u8>> {
    let pair = |mean: i64, curvature: i64, temperature: i64, member: &Member| {
        layout::write(&layout::PAIR, [0, mean + curvature * member.offset, temperature])
    };
    moves.iter().flat_map(|&[mean, curvature, t]| members.iter().map(move |m| pair(mean, curvature, t, m))).collect()
}

/// The same by single pairs, which are written already: a call for each rod.
fn by_pairs(pair: Carry, sheet: &[u8], members: &[Member], pairs: &[Vec<u8>]) -> Vec<[u8; 37]> {
    let mut states: Vec<[u8; 37]> = members.iter().map(|member| member.state).collect();
    let (mut row, mut next) = ([0; 16], [0; 37]);
    for pairs in pairs.chunks(RODS) {
        for (bytes, state) in pairs.iter().zip(&mut states) {
            assert_eq!(pair(black_box(sheet), black_box(&state[..]), black_box(bytes), &mut row, &mut next), 0);
            *state = next;
        }
    }
    black_box(row);
    states
}

/// The least nanoseconds a rod: sections and single pairs, proved, and then plain; taken in turns.
fn measure_sections(sheet: &[u8], moves: &[Move]) -> [f64; 4] {
    let members = bundle(sheet);
    let pairs = pairs_of(&members, moves);
    let left = by_sections(plain::section, sheet, &members, moves);
    let mut least = [f64::INFINITY; 4];
    for _ in 0..ROUNDS {
        for (which, least) in least.iter_mut().enumerate() {
            let start = Instant::now();
            for _ in 0..RUNS_A_ROUND {
                let states = match which {
                    0 => by_sections(black_box(library::section), sheet, &members, moves),
                    1 => by_pairs(black_box(library::pair), sheet, &members, &pairs),
                    2 => by_sections(black_box(plain::section), sheet, &members, moves),
                    _ => by_pairs(black_box(plain::pair), sheet, &members, &pairs),
                };
                assert!(states == left, "the versions leave different states");
            }
            *least = least.min(start.elapsed().as_nanos() as f64 / (RUNS_A_ROUND * RODS * MOVES) as f64);
        }
    }
    least
}

/// The lines about sections that hold the text.
fn print_sections(only: &str) {
    println!();
    println!("sections of {RODS} rods, {MOVES} calls, nanoseconds a rod, the least of {ROUNDS} rounds");
    println!(
        "pairs: the same rods by single pairs, a call for each; ratio pairs / section, above 1 where it costs less"
    );
    println!("last: plain section / proved section");
    let [flows, proved, plain, pairs, ratio] = ["flows", "proved", "plain", "pairs", "ratio"];
    println!("{:50} {flows:>6} {proved:>8} {pairs:>8} {ratio:>6} {plain:>8} {pairs:>8} {ratio:>6}   last", "");
    for (sheet_name, sheet) in &sheets() {
        let pointed = with_points(sheet.clone(), &POINTS);
        for (points, sheet) in [("", sheet), ("8 points, ", &pointed)] {
            for (input, moves) in [("cycles", plate_cycles()), ("mixed", plate_mixed(sheet))] {
                let label = format!("section, {sheet_name}, {points}{input}");
                if label.contains(only) {
                    print_section(&label, sheet, &moves);
                }
            }
        }
    }
}

fn print_section(label: &str, sheet: &[u8], moves: &[Move]) {
    let [proved, pairs, plain, plain_pairs] = measure_sections(sheet, moves);
    let states = by_sections(plain::section, sheet, &bundle(sheet), moves);
    let yielded: i64 = states.iter().map(|state| layout::read(&layout::STATE, state)[9]).sum();
    let flows = 100 * yielded / (RODS * MOVES) as i64;
    let (ratio, plain_ratio, last) = (pairs / proved, plain_pairs / plain, plain / proved);
    let of_proved = format!("{proved:8.2} {pairs:8.2} {ratio:6.2}");
    println!("{label:50} {flows:>4} % {of_proved} {plain:8.2} {plain_pairs:8.2} {plain_ratio:6.2} {last:6.2}");
}

// ---- trials ----

type Trial = fn(&[u8], &[u8], &[u8], &mut [u8], &mut [u8], &mut [u8; TRIAL_BYTES]) -> u64;
type Keep = fn(&[u8; TRIAL_BYTES], &[u8], &mut [u8]) -> u64;

/// A version's single pair, trial and keeping.
type Calls = (Carry, Trial, Keep);

#[derive(Clone, Copy, PartialEq)]
enum What {
    Pair,
    Trial,
    Kept,
}

/// The states before each pair of a list, and the one behind the last.
fn states_of(sheet: &[u8], pairs: &[u8]) -> Vec<[u8; 37]> {
    let mut states: Vec<[u8; 37]> = vec![generate::unused_state(sheet).try_into().unwrap()];
    for (i, bytes) in pairs.chunks(6).enumerate() {
        let (mut row, mut next) = ([0; 16], [0; 37]);
        assert_eq!(plain::pair(sheet, &states[i], bytes, &mut row, &mut next), 0);
        states.push(next);
    }
    states
}

/// Each pair of the list from its state, which is written already.
fn one_by_one((pair, trial, keep): Calls, what: What, sheet: &[u8], states: &[[u8; 37]], pairs: &[u8]) {
    let (mut row, mut next, mut tried) = ([0; 16], [0; 37], [0; TRIAL_BYTES]);
    for ((bytes, state), behind) in pairs.chunks(6).zip(states).zip(&states[1..]) {
        let (sheet, state, bytes) = (black_box(sheet), black_box(&state[..]), black_box(bytes));
        let mut answer = match what {
            What::Pair => pair(sheet, state, bytes, &mut row, &mut next),
            _ => trial(sheet, state, bytes, &mut row, &mut next, &mut tried),
        };
        if what == What::Kept {
            answer += keep(black_box(&tried), state, black_box(&mut next));
        }
        assert!(answer == 0 && next == *behind, "another state than the single pairs'");
    }
    black_box((row, tried));
}

/// The least nanoseconds a pair, proved and plain: of a single pair, a trial, and a trial with its keeping, in turns.
fn measure_trials(sheet: &[u8], pairs: &[u8]) -> [[f64; 3]; 2] {
    let states = states_of(sheet, pairs);
    let versions: [Calls; 2] =
        [(library::pair, library::trial, library::keep), (plain::pair, plain::trial, plain::keep)];
    let mut least = [[f64::INFINITY; 3]; 2];
    for _ in 0..ROUNDS {
        for (calls, least) in versions.into_iter().zip(&mut least) {
            for (what, least) in [What::Pair, What::Trial, What::Kept].into_iter().zip(least) {
                let start = Instant::now();
                for _ in 0..RUNS_A_ROUND {
                    one_by_one(black_box(calls), what, sheet, &states, pairs);
                }
                *least = least.min(start.elapsed().as_nanos() as f64 / (RUNS_A_ROUND * PAIRS) as f64);
            }
        }
    }
    least
}

/// The lines about trials that hold the text.
fn print_trials(only: &str) {
    println!();
    println!(
        "trials of {PAIRS} pairs, each from a state written before, nanoseconds a pair, the least of {ROUNDS} rounds"
    );
    println!("kept: a trial with its keeping; ratios to the single pair; proved, and then plain");
    let [flows, pair, trial, kept, ratio] = ["flows", "pair", "trial", "kept", "ratio"];
    let version = format!("{pair:>8} {trial:>8} {ratio:>6} {kept:>8} {ratio:>6}");
    println!("{:50} {flows:>6} {version} {version}", "");
    for (sheet_name, sheet) in &sheets() {
        for (input, pairs) in [("cycles", cycles()), ("mixed", mixed(sheet))] {
            let label = format!("trial, {sheet_name}, {input}");
            if label.contains(only) {
                print_trial(&label, sheet, &pairs);
            }
        }
    }
}

fn print_trial(label: &str, sheet: &[u8], pairs: &[u8]) {
    let times = measure_trials(sheet, pairs).map(|[pair, trial, kept]| {
        format!("{pair:8.2} {trial:8.2} {:6.2} {kept:8.2} {:6.2}", trial / pair, kept / pair)
    });
    println!("{label:50} {:>4} % {}", flows(sheet, pairs), times.join(" "));
}

// ---- gradings ----

type Grade = fn(&[u8], &[u8], &[u8], &[u8], i64, &mut u64) -> u64;

/// The grading of a table that is accepted, each row of it being compared.
fn graded(grade: Grade, sheet: &[u8], state: &[u8], pairs: &[u8], table: &[u8]) {
    let mut row = 1;
    let answer = grade(black_box(sheet), black_box(state), black_box(pairs), black_box(table), 0, &mut row);
    assert_eq!((answer, row), (0, 0));
}

/// The least nanoseconds a pair, proved and plain: of a run and of the grading of its rows, in turns.
fn measure_grades(sheet: &[u8], pairs: &[u8]) -> [[f64; 2]; 2] {
    let versions: [(Carry, Grade); 2] = [(library::run, library::grade), (plain::run, plain::grade)];
    let state = generate::unused_state(sheet);
    let (mut rows, mut next) = (vec![0; 16 * PAIRS], vec![0; 37]);
    whole(plain::run, sheet, &state, pairs, &mut rows, &mut next);
    let table = rows.clone();
    let mut least = [[f64::INFINITY; 2]; 2];
    for _ in 0..ROUNDS {
        for ((run, grade), least) in versions.into_iter().zip(&mut least) {
            for (which, least) in least.iter_mut().enumerate() {
                let start = Instant::now();
                for _ in 0..RUNS_A_ROUND {
                    match which {
                        0 => whole(black_box(run), sheet, &state, pairs, &mut rows, &mut next),
                        _ => graded(black_box(grade), sheet, &state, pairs, &table),
                    }
                }
                *least = least.min(start.elapsed().as_nanos() as f64 / (RUNS_A_ROUND * PAIRS) as f64);
            }
        }
    }
    assert!(rows == table, "the two versions write different rows");
    least
}

/// The lines about gradings that hold the text.
fn print_grades(only: &str) {
    println!();
    println!("gradings of {PAIRS} rows, ours being the table, nanoseconds a pair, the least of {ROUNDS} rounds");
    println!("run: the run of the same pairs; ratio grading / run; proved, and then plain");
    println!("last: plain grading / proved grading");
    let [flows, run, grading, ratio] = ["flows", "run", "grading", "ratio"];
    let version = format!("{run:>8} {grading:>8} {ratio:>6}");
    println!("{:50} {flows:>6} {version} {version}   last", "");
    for (sheet_name, sheet) in &sheets() {
        let pointed = with_points(sheet.clone(), &POINTS);
        for (points, sheet) in [("", sheet), ("8 points, ", &pointed)] {
            for (input, pairs) in [("cycles", cycles()), ("mixed", mixed(sheet))] {
                let label = format!("grading, {sheet_name}, {points}{input}");
                if label.contains(only) {
                    print_grade(&label, sheet, &pairs);
                }
            }
        }
    }
}

fn print_grade(label: &str, sheet: &[u8], pairs: &[u8]) {
    let times = measure_grades(sheet, pairs);
    let columns = times.map(|[run, grading]| format!("{run:8.2} {grading:8.2} {:6.2}", grading / run));
    let [[_, proved], [_, plain]] = times;
    println!("{label:50} {:>4} % {} {:6.2}", flows(sheet, pairs), columns.join(" "), plain / proved);
}
