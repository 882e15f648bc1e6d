//! The curve at the starts of the segments behind the first, where every
//! version and the rules are held against sums of whole numbers: T there is the
//! yield and what the segments before rise by, and nothing is rounded (SPEC 4.11).

use checks::agreed;
use checks::call::{Call, Entry};
use checks::generate::{sheet_bytes, with_buffers};
use checks::layout::{self, STATE};
use checks::random::Random;
use checks::rules::{self, Row};

const CURVES: usize = 10_000;
/// Six segments with an end take a rod no further than its strain may go.
const LONGEST: i64 = rules::STRAIN / 6;

struct Curve {
    modulus: i64,
    yield_stress: i64,
    /// Length and tangent.
    segments: Vec<[i64; 2]>,
}

impl Curve {
    fn draw(random: &mut Random) -> Curve {
        let modulus = random.range(2, 400_000);
        let yield_stress = rules::YIELD_UNIT * random.spread(1, 10_000_000);
        let mut tangents: Vec<i64> = (0..7).map(|_| random.range(0, modulus - 1)).collect();
        tangents.sort_by(|a, b| b.cmp(a));
        let mut segments: Vec<[i64; 2]> =
            tangents.iter().map(|&tangent| [random.spread(1, LONGEST), tangent]).collect();
        segments[6][0] = 0;
        Curve { modulus, yield_stress, segments }
    }

    fn sheet(&self) -> Vec<u8> {
        let yield_field = self.yield_stress / rules::YIELD_UNIT;
        sheet_bytes([1, 7, 0, self.modulus, 0, 0, yield_field, 0, 0, 0], &self.segments, &[])
    }

    /// A rod whose curve hasn't been flowed along, pulled (or pushed) from `stress` by `change`.
    fn pull(&self, random: &mut Random, stress: i64, change: i64) -> Call {
        let state = layout::write(&STATE, [1, 0, 0, 0, 0, stress, self.yield_stress, 0, 0, 0]);
        with_buffers(random, Entry::Pair, self.sheet(), state, layout::write(&layout::PAIR, [0, change, 0]))
    }
}

/// The row and the abscissa that a pull leaves, the same by every version.
fn pulled(call: &Call) -> (Row, i64) {
    let wanted = agreed(call);
    assert_eq!(wanted.answer, 0);
    (Row::read(&wanted.rows), layout::read(&STATE, &wanted.next)[6])
}

#[test]
fn the_rise_at_every_start() {
    let mut random = Random::new(1300);
    for _ in 0..CURVES {
        let curve = Curve::draw(&mut random);
        let (mut length, mut rise) = (0, 0);
        for i in 1..7 {
            let [before, here] = [curve.segments[i - 1], curve.segments[i]];
            length += before[0];
            rise += before[0] * before[1];
            let start = curve.yield_stress + curve.modulus * length;
            let limit = curve.yield_stress + rise;
            for sign in [1, -1] {
                let call = curve.pull(&mut random, sign * curve.yield_stress, sign * length);
                let (row, abscissa) = pulled(&call);
                assert_eq!((abscissa, row.stress, row.tangent), (start, sign * limit, here[1]), "{call}");
                // a grain before it
                let call = curve.pull(&mut random, sign * (curve.yield_stress - 1), sign * length);
                let (row, abscissa) = pulled(&call);
                let less = (before[1] > 0) as i64;
                assert_eq!(
                    (abscissa, row.stress, row.tangent),
                    (start - 1, sign * (limit - less), before[1]),
                    "{call}"
                );
            }
        }
    }
}
