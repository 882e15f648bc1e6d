//! Trials and keepings to try, as a solver makes them and as a hurried one
//! would: trials that pass and ones that don't, keepings that are wrong in every
//! way there is, and lists in which two rods of one sheet move side by side.
//! Nothing here says what a call has to answer.

use crate::call::{self, Call, Entry, Outcome};
use crate::generate::{self, flowing_pair, pair, with_field, NextPair};
use crate::layout::{self, ROW_BYTES, STATE_BYTES};
use crate::list::{Held, List, Seen, Tried};
use crate::random::Random;
use crate::rules;
use crate::trial::{NEXT_AT, TRIAL_BYTES};
use crate::Version;

// ---- a trial ----

/// A trial on a sheet and a state that pass; a quarter of the pairs is to be refused.
pub fn trial(random: &mut Random) -> Call {
    let sheet = generate::sheet(random);
    let state = generate::state(random, &sheet);
    let bad = random.chance(25).then_some(0);
    let pair = generate::pairs(random, &sheet, &state, 1, bad);
    generate::with_buffers(random, Entry::Trial, sheet, state, pair)
}

/// A trial whose answer is 0, or isn't, and what it leaves.
fn trial_that(random: &mut Random, accepted: bool) -> (Call, Outcome) {
    loop {
        let mut given = trial(random);
        if !accepted && random.chance(50) {
            generate::damage(random, &mut given);
        }
        let left = call::plain(&given);
        if (left.answer == 0) == accepted {
            return (given, left);
        }
    }
}

// ---- a keeping ----

/// What is offered to a keeping.
#[derive(Clone, Copy, Debug, PartialEq, Eq)]
pub enum Offer {
    /// An accepted trial and the state that it started from.
    Start,
    /// An accepted trial and its next state: the rod has moved on.
    Next,
    /// An accepted trial and a rod that has come back, its counts being greater.
    OtherCounts,
    /// An accepted trial and another rod of its sheet.
    OtherRod,
    StateBit,
    StateByte,
    /// As much of the state as fits another length, zeros behind it.
    StateLength,
    /// An accepted trial that is said to be refused.
    Number,
    /// A bit of the trial's start.
    StartBit,
    /// A bit of the trial's next state.
    NextBit,
    Refused,
    /// A refused trial and zeros, which stand where its start would.
    RefusedFromZeros,
    BufferLength,
    BufferLengthAndState,
    BufferLengthAndRefused,
    AnyBytes,
    /// Random bytes, but for number 0 and the state that stands in them.
    AnyBytesFromTheirStart,
    /// Nothing but zeros.
    Zeros,
}

pub const OFFERS: [Offer; 18] = [
    Offer::Start,
    Offer::Next,
    Offer::OtherCounts,
    Offer::OtherRod,
    Offer::StateBit,
    Offer::StateByte,
    Offer::StateLength,
    Offer::Number,
    Offer::StartBit,
    Offer::NextBit,
    Offer::Refused,
    Offer::RefusedFromZeros,
    Offer::BufferLength,
    Offer::BufferLengthAndState,
    Offer::BufferLengthAndRefused,
    Offer::AnyBytes,
    Offer::AnyBytesFromTheirStart,
    Offer::Zeros,
];

/// Lengths beside a state's.
pub const OTHER_LENGTHS: [usize; 8] =
    [0, 1, STATE_BYTES - 1, STATE_BYTES + 1, 2 * STATE_BYTES, NEXT_AT, TRIAL_BYTES, ROW_BYTES];

pub fn keeping(random: &mut Random, offer: Offer) -> Call {
    let refused = matches!(offer, Offer::Refused | Offer::RefusedFromZeros | Offer::BufferLengthAndRefused);
    let (given, left) = trial_that(random, !refused);
    let mut call = Call::keeping(&left.trial, &given.state, random.bytes(STATE_BYTES));
    match offer {
        Offer::Start | Offer::Refused => {}
        Offer::Next => call.state = left.next,
        Offer::OtherCounts => other_counts(random, &mut call.state),
        Offer::OtherRod => call.state = other_rod(random, &given),
        Offer::StateBit => flip(random, &mut call.state),
        Offer::StateByte => other_byte(random, &mut call.state),
        Offer::StateLength => call.state.resize(random.pick(&OTHER_LENGTHS), 0),
        Offer::Number => call.trial[0] = random.range(1, 255) as u8,
        Offer::StartBit => flip(random, &mut call.trial[1..NEXT_AT]),
        Offer::NextBit => flip(random, &mut call.trial[NEXT_AT..]),
        Offer::RefusedFromZeros => call.state = vec![0; STATE_BYTES],
        Offer::BufferLength | Offer::BufferLengthAndRefused => call.next = other_buffer(random),
        Offer::BufferLengthAndState => {
            flip(random, &mut call.state);
            call.next = other_buffer(random);
        }
        Offer::AnyBytes => call.trial = random.bytes(TRIAL_BYTES),
        Offer::AnyBytesFromTheirStart => {
            call.trial = [vec![0], random.bytes(TRIAL_BYTES - 1)].concat();
            call.state = call.trial[1..NEXT_AT].to_vec();
        }
        Offer::Zeros => (call.trial, call.state) = (vec![0; TRIAL_BYTES], vec![0; STATE_BYTES]),
    }
    call
}

fn flip(random: &mut Random, bytes: &mut [u8]) {
    let at = random.below(8 * bytes.len() as u64) as usize;
    bytes[at / 8] ^= 0x80 >> (at % 8);
}

fn other_byte(random: &mut Random, bytes: &mut [u8]) {
    let at = random.below(bytes.len() as u64) as usize;
    bytes[at] ^= random.range(1, 255) as u8;
}

fn other_buffer(random: &mut Random) -> Vec<u8> {
    let length = random.pick(&OTHER_LENGTHS);
    random.bytes(length)
}

/// n grows, and sometimes k with it, as far as there is room; else n falls.
fn other_counts(random: &mut Random, state: &mut [u8]) {
    let [.., n, k] = layout::read(&layout::STATE, state);
    let more = random.range(1, 4).min(u32::MAX as i64 - n);
    with_field(&layout::STATE, state, 0, 8, if more == 0 { n - 1 } else { n + more });
    if k < n && random.chance(50) {
        with_field(&layout::STATE, state, 0, 9, k + 1);
    }
}

/// A state of the trial's sheet that isn't the trial's start.
fn other_rod(random: &mut Random, given: &Call) -> Vec<u8> {
    loop {
        let state = generate::state(random, &given.sheet);
        if state != given.state {
            return state;
        }
    }
}

// ---- lists ----

/// Which trial a keeping is of, to the rod that keeps it.
#[derive(Clone, Copy, Debug, PartialEq, Eq)]
pub enum Kind {
    /// The last one that it made.
    Newest,
    /// One of its own before that, accepted and not kept so far.
    Older,
    /// One that it kept.
    KeptBefore,
    /// One that the other rod made, or nobody's.
    Foreign,
    Refused,
    /// The last one that it made, with another number or a bit of its start turned over.
    Damaged,
}

pub const KINDS: [Kind; 6] = [Kind::Newest, Kind::Older, Kind::KeptBefore, Kind::Foreign, Kind::Refused, Kind::Damaged];

/// What lists have met.
#[derive(Debug, Default)]
pub struct Met {
    pub seen: Seen,
    /// Keepings by kind: those with 0, with 12 and with 15.
    pub keepings: [[usize; 3]; 6],
    /// Keepings with 15 of an accepted trial whose start is the rod's state but for the counts.
    pub counts_alone: usize,
}

impl Met {
    /// The keepings of a kind with 0, with 12 and with 15.
    pub fn of(&self, kind: Kind) -> [usize; 3] {
        self.keepings[kind as usize]
    }

    pub fn add(&mut self, other: &Met) {
        self.seen.add(&other.seen);
        self.counts_alone += other.counts_alone;
        for (all, more) in self.keepings.iter_mut().flatten().zip(other.keepings.iter().flatten()) {
            *all += more;
        }
    }
}

/// A trial, the rod that made it if one did, and which rods have kept it.
struct Attempt {
    tried: Tried,
    by: Option<usize>,
    kept: [bool; 2],
}

/// Two rods of one sheet, each with the list of its calls, and the trials of both.
struct Solver<'a> {
    sheet: &'a [u8],
    choose: NextPair,
    rods: [List<'a>; 2],
    attempts: Vec<Attempt>,
    met: Met,
}

/// Two lists of calls on a sheet, side by side, as far as `steps` lead.
pub fn lists(random: &mut Random, version: Version, model: Option<Version>, sheet: &[u8], steps: usize) -> Held<Met> {
    let read = rules::read_sheet(sheet).unwrap();
    let rods = [List::new(version, model, sheet, &read)?, List::new(version, model, sheet, &read)?];
    let choose = random.pick(&[pair, flowing_pair, flowing_pair]);
    let mut solver = Solver { sheet, choose, rods, attempts: Vec::new(), met: Met::default() };
    for _ in 0..steps {
        solver.step(random)?;
    }
    for rod in &solver.rods {
        solver.met.seen.add(&rod.seen);
    }
    Ok(solver.met)
}

impl Solver<'_> {
    fn step(&mut self, random: &mut Random) -> Held<()> {
        let rod = random.below(2) as usize;
        match random.below(13) {
            0 => self.run(random, rod),
            1 => {
                let pair = self.pairs(random, rod, 1);
                self.rods[rod].carry(Entry::Pair, &pair, ROW_BYTES, STATE_BYTES)
            }
            2 => self.both(random, rod),
            3 => self.there_and_back(random, rod),
            4 => self.stray_trial(random, rod),
            5..=8 => self.trials(random, rod),
            _ => {
                let kind = random.pick(&KINDS);
                self.keeping(random, rod, kind)
            }
        }
    }

    /// Pairs from where a rod is, one in ten times with one that is to be refused.
    fn pairs(&self, random: &mut Random, rod: usize, count: usize) -> Vec<u8> {
        let bad = random.chance(10).then(|| random.below(count as u64 + 1) as usize);
        generate::pairs_by(random, self.choose, self.sheet, &self.rods[rod].state, count, bad)
    }

    /// A run, sometimes on buffers that don't fit.
    fn run(&mut self, random: &mut Random, rod: usize) -> Held<()> {
        let count = random.below(4) as usize;
        let pairs = self.pairs(random, rod, count);
        let (less, next) = if random.chance(10) { (1, 36) } else { (0, STATE_BYTES) };
        self.rods[rod].carry(Entry::Run, &pairs, (ROW_BYTES * count).saturating_sub(less), next)
    }

    /// A single pair to both rods: where they were alike, they are again.
    fn both(&mut self, random: &mut Random, rod: usize) -> Held<()> {
        let pair = self.pairs(random, rod, 1);
        self.rods.iter_mut().try_for_each(|rod| rod.carry(Entry::Pair, &pair, ROW_BYTES, STATE_BYTES))
    }

    /// A run that leaves all as it was but for the counts, and the yielded bit if it was 1.
    fn there_and_back(&mut self, random: &mut Random, rod: usize) -> Held<()> {
        let [_, _, _, _, temperature, stress, ..] = layout::read(&layout::STATE, &self.rods[rod].state);
        let change = random.range(0, 20) * -stress.signum();
        let pairs = [change, -change].map(|change| layout::write(&layout::PAIR, [0, change, temperature])).concat();
        self.rods[rod].carry(Entry::Run, &pairs, 2 * ROW_BYTES, STATE_BYTES)
    }

    /// Up to three trials from one state, one in ten on a buffer or a list that doesn't fit; mostly one of them is kept.
    fn trials(&mut self, random: &mut Random, rod: usize) -> Held<()> {
        for _ in 0..random.range(1, 3) {
            let count = if random.chance(3) { 2 } else { 1 };
            let pair = self.pairs(random, rod, count);
            let row = if random.chance(4) { random.pick(&[0, 15]) } else { ROW_BYTES };
            let next = if random.chance(4) { random.pick(&[0, 36, 38]) } else { STATE_BYTES };
            let tried = self.rods[rod].trial(&pair, row, next)?;
            self.attempts.push(Attempt { tried, by: Some(rod), kept: [false; 2] });
        }
        let settled = random.pick(&[Kind::Newest, Kind::Older, Kind::Older, Kind::Foreign]);
        self.keeping(random, rod, settled)
    }

    /// A trial from a state that the sheet allows, whether a rod was ever there or not.
    fn stray_trial(&mut self, random: &mut Random, rod: usize) -> Held<()> {
        let state = generate::state(random, self.sheet);
        let pair = generate::pairs(random, self.sheet, &state, 1, None);
        let tried = self.rods[rod].stray_trial(&state, &pair)?;
        self.attempts.push(Attempt { tried, by: None, kept: [false; 2] });
        Ok(())
    }

    /// One of the trials that are of this kind to the rod, mostly one of the last.
    fn choose(&self, random: &mut Random, rod: usize, kind: Kind) -> Option<usize> {
        let newest = self.attempts.iter().rposition(|attempt| attempt.by == Some(rod));
        let is_of = |at: &usize| {
            let Attempt { tried, by, kept } = &self.attempts[*at];
            let is_newest = Some(*at) == newest;
            match kind {
                Kind::Newest | Kind::Damaged => is_newest,
                Kind::Older => *by == Some(rod) && !is_newest && tried.answer == 0 && !kept[rod],
                Kind::KeptBefore => kept[rod],
                Kind::Foreign => *by != Some(rod) && !kept[rod],
                Kind::Refused => tried.answer != 0,
            }
        };
        let all: Vec<usize> = (0..self.attempts.len()).filter(is_of).collect();
        let last = &all[all.len().saturating_sub(2)..];
        let from = if random.chance(70) { last } else { &all };
        (!from.is_empty()).then(|| random.pick(from))
    }

    /// A keeping of a trial of this kind, if there is one, by the state that the rod has.
    fn keeping(&mut self, random: &mut Random, rod: usize, kind: Kind) -> Held<()> {
        let Some(at) = self.choose(random, rod, kind) else { return Ok(()) };
        let mut tried = self.attempts[at].tried.clone();
        if kind == Kind::Damaged {
            damage(random, &mut tried.trial);
            if tried.trial[1..NEXT_AT] == self.rods[rod].state {
                tried.trial[0] |= 0x80;
            }
        }
        let next = if random.chance(8) { random.pick(&OTHER_LENGTHS) } else { STATE_BYTES };
        let answer = self.rods[rod].keep(&tried, next)?;
        self.attempts[at].kept[rod] |= answer == 0;
        let which = [0, 12, 15].iter().position(|&number| number == answer).unwrap();
        self.met.keepings[kind as usize][which] += 1;
        let counts_at = STATE_BYTES - 8;
        let alike = tried.trial[1..1 + counts_at] == self.rods[rod].state[..counts_at];
        self.met.counts_alone += (answer == 15 && tried.answer == 0 && kind != Kind::Damaged && alike) as usize;
        Ok(())
    }
}

/// Damages the number or a bit of the start.
fn damage(random: &mut Random, trial: &mut [u8]) {
    if random.chance(50) {
        other_byte(random, &mut trial[..1]);
    } else {
        flip(random, &mut trial[1..NEXT_AT]);
    }
}
