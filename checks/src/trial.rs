//! Trials and keepings (document 02, A4; SPEC 16): what a trial of a single
//! pair hands to its keeping, and what the keeping does with it.

use crate::layout::STATE_BYTES;
use crate::rules::Number;

/// In bytes a trial is its number, then the state that it started from, then the next state.
pub const TRIAL_BYTES: usize = 1 + 2 * STATE_BYTES;
/// Where the next state begins.
pub const NEXT_AT: usize = 1 + STATE_BYTES;

pub struct Trial {
    pub number: Number,
    pub start: Vec<u8>,
    pub next: Vec<u8>,
}

impl Trial {
    /// The trial of a pair that was answered with this number; a refused one has zeros for both states.
    pub fn of(number: Number, state: &[u8], next: &[u8]) -> Trial {
        if number != 0 {
            return Trial { number, start: vec![0; STATE_BYTES], next: vec![0; STATE_BYTES] };
        }
        Trial { number, start: state.to_vec(), next: next.to_vec() }
    }

    /// Of any 75 bytes, whether a trial wrote them or not.
    pub fn read(bytes: &[u8]) -> Trial {
        assert_eq!(bytes.len(), TRIAL_BYTES);
        Trial { number: bytes[0].into(), start: bytes[1..NEXT_AT].to_vec(), next: bytes[NEXT_AT..].to_vec() }
    }

    pub fn bytes(&self) -> Vec<u8> {
        [&[self.number as u8], &self.start[..], &self.next].concat()
    }

    /// The keeping, by a rod that is in this state: the next state is the rod's then, or nothing is written.
    pub fn keep(&self, state: &[u8], next: &mut [u8]) -> Number {
        // 12: the buffer has a state's length
        if next.len() != STATE_BYTES {
            return 12;
        }
        // 15: the state offered is the trial's start, and the trial wasn't refused
        if state != self.start || self.number != 0 {
            return 15;
        }
        next.copy_from_slice(&self.next);
        0
    }
}
