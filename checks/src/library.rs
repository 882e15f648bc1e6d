//! The library through its C interface, `include/tie_rod.h`. Every buffer lies
//! between guard bytes, and what is only read is lent as it is. The answer of
//! every such call is looked at for the number that was taken out.

use crate::call::{Call, Entry, Outcome, WITHDRAWN};
use crate::grade;
use crate::section::{self, Member, UNWRITTEN};
use crate::trial::TRIAL_BYTES;
use std::fmt::Display;

extern "C" {
    fn tie_rod_run(
        sheet: *const u8,
        sheet_len: usize,
        state: *const u8,
        state_len: usize,
        pairs: *const u8,
        pairs_len: usize,
        rows: *mut u8,
        rows_len: usize,
        next: *mut u8,
        next_len: usize,
    ) -> u64;
    fn tie_rod_pair(
        sheet: *const u8,
        sheet_len: usize,
        state: *const u8,
        state_len: usize,
        pair: *const u8,
        pair_len: usize,
        row: *mut u8,
        row_len: usize,
        next: *mut u8,
        next_len: usize,
    ) -> u64;
    fn tie_rod_forecast(sheet: *const u8, sheet_len: usize, state: *const u8, state_len: usize) -> u64;
    fn tie_rod_unused(sheet: *const u8, sheet_len: usize, state: *mut u8) -> u64;
    fn tie_rod_trial(
        sheet: *const u8,
        sheet_len: usize,
        state: *const u8,
        state_len: usize,
        pair: *const u8,
        pair_len: usize,
        row: *mut u8,
        row_len: usize,
        next: *mut u8,
        next_len: usize,
        trial: *mut u8,
    ) -> u64;
    fn tie_rod_keep(trial: *const u8, state: *const u8, state_len: usize, next: *mut u8, next_len: usize) -> u64;
    fn tie_rod_section(
        sheet: *const u8,
        sheet_len: usize,
        members: *mut Member,
        count: usize,
        mean: i64,
        curvature: i64,
        temperature: i64,
        force: *mut i64,
        moment: *mut i64,
    ) -> u64;
    fn tie_rod_grade(
        sheet: *const u8,
        sheet_len: usize,
        state: *const u8,
        state_len: usize,
        pairs: *const u8,
        pairs_len: usize,
        rows: *const u8,
        rows_len: usize,
        tolerance: i64,
        row: *mut u64,
    ) -> u64;
}

/// A call on slices, those that are read and those that are written; behind them the array that has no length.
macro_rules! on_slices {
    ($function:ident, [$($read:ident),*], [$($written:ident),*] $(, $array:ident)?) => {
        // SAFETY: each pointer has its slice's length, and borrowed slices don't overlap; an array has the bytes that
        // the header says.
        unsafe {
            $function(
                $($read.as_ptr(), $read.len(),)*
                $($written.as_mut_ptr(), $written.len(),)*
                $($array.as_mut_ptr())?
            )
        }
    };
}

pub fn run(sheet: &[u8], state: &[u8], pairs: &[u8], rows: &mut [u8], next: &mut [u8]) -> u64 {
    on_slices!(tie_rod_run, [sheet, state, pairs], [rows, next])
}

pub fn pair(sheet: &[u8], state: &[u8], pair: &[u8], row: &mut [u8], next: &mut [u8]) -> u64 {
    on_slices!(tie_rod_pair, [sheet, state, pair], [row, next])
}

pub fn forecast(sheet: &[u8], state: &[u8]) -> u64 {
    on_slices!(tie_rod_forecast, [sheet, state], [])
}

pub fn unused(sheet: &[u8], state: &mut [u8; 37]) -> u64 {
    on_slices!(tie_rod_unused, [sheet], [], state)
}

pub fn trial(
    sheet: &[u8],
    state: &[u8],
    pair: &[u8],
    row: &mut [u8],
    next: &mut [u8],
    trial: &mut [u8; TRIAL_BYTES],
) -> u64 {
    on_slices!(tie_rod_trial, [sheet, state, pair], [row, next], trial)
}

pub fn keep(trial: &[u8; TRIAL_BYTES], state: &[u8], next: &mut [u8]) -> u64 {
    // SAFETY: as for `on_slices`.
    unsafe { tie_rod_keep(trial.as_ptr(), state.as_ptr(), state.len(), next.as_mut_ptr(), next.len()) }
}

pub fn section(
    sheet: &[u8],
    members: &mut [Member],
    mean: i64,
    curvature: i64,
    temperature: i64,
    force: &mut i64,
    moment: &mut i64,
) -> u64 {
    let (rods, count) = (members.as_mut_ptr(), members.len());
    // SAFETY: as for `on_slices`; a member lies as the C struct does.
    unsafe { tie_rod_section(sheet.as_ptr(), sheet.len(), rods, count, mean, curvature, temperature, force, moment) }
}

pub fn grade(sheet: &[u8], state: &[u8], pairs: &[u8], rows: &[u8], tolerance: i64, row: &mut u64) -> u64 {
    // SAFETY: as for `on_slices`.
    unsafe {
        tie_rod_grade(
            sheet.as_ptr(),
            sheet.len(),
            state.as_ptr(),
            state.len(),
            pairs.as_ptr(),
            pairs.len(),
            rows.as_ptr(),
            rows.len(),
            tolerance,
            row,
        )
    }
}

const GUARD: usize = 64;

/// A buffer between guard bytes, at any alignment; an empty one is sometimes NULL.
struct Guarded {
    memory: Vec<u8>,
    start: usize,
    len: usize,
}

fn guard_byte(at: usize) -> u8 {
    (at as u8).wrapping_mul(37) ^ 0xa5
}

impl Guarded {
    fn new(bytes: &[u8], shift: usize) -> Guarded {
        let start = GUARD + shift % 8;
        let mut memory: Vec<u8> = (0..start + bytes.len() + GUARD).map(guard_byte).collect();
        memory[start..start + bytes.len()].copy_from_slice(bytes);
        Guarded { memory, start, len: bytes.len() }
    }

    fn pointer(&mut self) -> *mut u8 {
        if self.len == 0 && self.start.is_multiple_of(2) {
            return std::ptr::null_mut();
        }
        self.bytes_mut().as_mut_ptr()
    }

    fn bytes(&self) -> &[u8] {
        &self.memory[self.start..self.start + self.len]
    }

    fn bytes_mut(&mut self) -> &mut [u8] {
        &mut self.memory[self.start..self.start + self.len]
    }

    fn untouched_around(&self) -> bool {
        let inside = self.start..self.start + self.len;
        self.memory.iter().enumerate().all(|(at, &byte)| inside.contains(&at) || byte == guard_byte(at))
    }
}

/// An answer of the library. Panics, with the bytes, if it has the number that was taken out (SPEC 8.7).
fn in_use(answer: u64, call: &dyn Display) -> u64 {
    assert_ne!(answer % 256, WITHDRAWN, "the number that was taken out is answered\n{call}");
    answer
}

#[test]
fn the_number_that_was_taken_out_is_noticed() {
    let noticed = |answer: u64| std::panic::catch_unwind(|| in_use(answer, &"")).is_err();
    for number in 0..256 {
        for more in [0, 1, 300, 4_096, 400_000] {
            assert_eq!(noticed(number + 256 * more), number == 11);
        }
    }
}

/// The call by the library. Panics, with the bytes, if it writes anything but
/// the lent buffers.
pub fn call(call: &Call) -> Outcome {
    let shift = call.sheet.len() + call.pairs.len() + call.next.first().map_or(0, |&byte| byte as usize);
    let given = [&call.sheet, &call.state, &call.pairs, &call.rows, &call.next, &call.trial];
    let mut lent: [Guarded; 6] = std::array::from_fn(|i| Guarded::new(given[i], shift >> i));
    let answer = in_use(answer(call.entry, &mut lent), call);
    assert!(lent.iter().all(Guarded::untouched_around), "a byte outside the buffers was written\n{call}");
    let [sheet, state, pairs, rows, next, trial] = lent.map(|buffer| buffer.bytes().to_vec());
    let read_alone = (&sheet, &state, &pairs) == (&call.sheet, &call.state, &call.pairs);
    assert!(read_alone, "a byte that is only read was written\n{call}");
    Outcome { answer, state, rows, next, trial }
}

/// A call on guarded buffers; behind them the array that has no length.
macro_rules! on_guarded {
    ($function:ident, $($buffer:ident),* $(; $array:ident)?) => {
        $function($($buffer.pointer(), $buffer.len,)* $($array.pointer())?)
    };
}

/// The answer of the library on sheet, state, pairs, rows, next state and trial.
fn answer(entry: Entry, [sheet, state, pairs, rows, next, trial]: &mut [Guarded; 6]) -> u64 {
    match entry {
        Entry::Unused => assert_eq!(next.len, 37),
        Entry::Trial | Entry::Keep => assert_eq!(trial.len, TRIAL_BYTES),
        _ => {}
    }
    // SAFETY: each buffer is memory of its own, as long as the call is told, and
    // the arrays have the bytes that the header says.
    unsafe {
        match entry {
            Entry::Run => on_guarded!(tie_rod_run, sheet, state, pairs, rows, next),
            Entry::Pair => on_guarded!(tie_rod_pair, sheet, state, pairs, rows, next),
            Entry::Forecast => on_guarded!(tie_rod_forecast, sheet, state),
            Entry::Unused => on_guarded!(tie_rod_unused, sheet; next),
            Entry::Trial => on_guarded!(tie_rod_trial, sheet, state, pairs, rows, next; trial),
            Entry::Keep => tie_rod_keep(trial.pointer(), state.pointer(), state.len, next.pointer(), next.len),
        }
    }
}

/// Members on either side of those that are lent.
const GUARD_MEMBERS: usize = 2;

fn guard_member(at: usize) -> Member {
    let byte = guard_byte(at);
    let number = u64::from_ne_bytes([byte; 8]);
    Member { area: number, offset: number as i64, state: [byte; 37], padding: [byte; 3] }
}

/// The section by the library. Panics, with the bytes, if it writes anything but the lent members, force and moment.
/// Without members their pointer is sometimes NULL.
pub fn section_call(call: &section::Call) -> section::Outcome {
    let mut sheet = Guarded::new(&call.sheet, call.temperature as usize);
    let guards = |at| (at..at + GUARD_MEMBERS).map(guard_member).collect::<Vec<Member>>();
    let (before, behind) = (guards(0), guards(GUARD_MEMBERS));
    let mut members = [&before[..], &call.members, &behind].concat();
    let end = GUARD_MEMBERS + call.members.len();
    let lent = &mut members[GUARD_MEMBERS..end];
    let none = lent.is_empty() && call.sheet.len().is_multiple_of(2);
    let pointer = if none { std::ptr::null_mut() } else { lent.as_mut_ptr() };
    let mut sums = [UNWRITTEN; 5];
    let [_, force, _, moment, _] = &mut sums;
    let (mean, curvature, temperature) = (call.mean, call.curvature, call.temperature);
    // SAFETY: each buffer is memory of its own, as long as the call is told.
    let answer = unsafe {
        tie_rod_section(
            sheet.pointer(),
            sheet.len,
            pointer,
            call.members.len(),
            mean,
            curvature,
            temperature,
            force,
            moment,
        )
    };
    assert!(
        sheet.untouched_around() && sheet.bytes() == call.sheet,
        "the sheet or a byte around it was written\n{call}"
    );
    let guarded = members[..GUARD_MEMBERS] == before && members[end..] == behind;
    assert!(guarded, "a byte of a member that isn't lent was written\n{call}");
    let [a, force, b, moment, c] = sums;
    assert!([a, b, c] == [UNWRITTEN; 3], "a byte beside force and moment was written\n{call}");
    section::Outcome { answer: in_use(answer, call), force, moment, members: members[GUARD_MEMBERS..end].to_vec() }
}

/// The grading by the library. Panics, with the bytes, if it writes anything but the row.
pub fn grade_call(call: &grade::Call) -> grade::Outcome {
    let shift = call.sheet.len() + call.pairs.len() + call.rows.len() + call.tolerance as usize % 8;
    let given = [&call.sheet, &call.state, &call.pairs, &call.rows];
    let mut lent: [Guarded; 4] = std::array::from_fn(|i| Guarded::new(given[i], shift >> i));
    let [sheet, state, pairs, rows] = &mut lent;
    let mut around = [grade::UNWRITTEN; 3];
    // SAFETY: each buffer is memory of its own, as long as the call is told.
    let answer = unsafe {
        tie_rod_grade(
            sheet.pointer(),
            sheet.len,
            state.pointer(),
            state.len,
            pairs.pointer(),
            pairs.len,
            rows.pointer(),
            rows.len,
            call.tolerance,
            &mut around[1],
        )
    };
    assert!(lent.iter().all(Guarded::untouched_around), "a byte outside the buffers was written\n{call}");
    let read_alone = lent.iter().zip(given).all(|(buffer, bytes)| buffer.bytes() == bytes);
    assert!(read_alone, "a byte that is only read was written\n{call}");
    let [before, row, behind] = around;
    assert!([before, behind] == [grade::UNWRITTEN; 2], "a byte beside the row was written\n{call}");
    grade::Outcome { answer: in_use(answer, call), row }
}
