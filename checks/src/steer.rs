//! What the generator knows of a sheet and a state that pass: enough to aim
//! pairs at limits, at the starts of segments and at the points of the expansion.

use crate::layout::{self, POINT_BYTES, SEGMENT_BYTES, SHEET_BYTES};

/// A segment's start, T there, and its tangent.
pub struct Piece {
    pub start: i64,
    height: i64,
    tangent: i64,
}

pub struct Steel {
    pub law: i64,
    pub e: i64,
    a: i64,
    pub reference: i64,
    /// Temperature and coefficient.
    pub points: Vec<(i64, i64)>,
    pub tension: Vec<Piece>,
    pub compression: Vec<Piece>,
}

pub struct Rod {
    pub strain: i64,
    pub temperature: i64,
    pub stress: i64,
    pub first: i64,
    pub second: i64,
}

impl Steel {
    /// Of a sheet that passes.
    pub fn read(bytes: &[u8]) -> Steel {
        let [law, tensions, compressions, e, a, reference, tension_yield, compression_yield, _, _] =
            layout::read(&layout::SHEET, bytes);
        let (tension, rest) = bytes[SHEET_BYTES..].split_at(SEGMENT_BYTES * tensions as usize);
        let (compression, points) = rest.split_at(SEGMENT_BYTES * compressions as usize);
        let side = |yield_field: i64, segments: &[u8]| {
            let (mut start, mut height) = (1_000_000 * yield_field, 1_000_000 * yield_field);
            let mut pieces = Vec::new();
            for bytes in segments.chunks(SEGMENT_BYTES) {
                let [length, tangent] = layout::read(&layout::SEGMENT, bytes);
                pieces.push(Piece { start, height, tangent });
                (start, height) = (start + e * length, height + tangent * length);
            }
            pieces
        };
        let (tension, compression) = (side(tension_yield, tension), side(compression_yield, compression));
        let point = |bytes| {
            let [temperature, _, coefficient] = layout::read(&layout::POINT, bytes);
            (temperature, coefficient)
        };
        let points = points.chunks(POINT_BYTES).map(point).collect();
        Steel { law, e, a, reference, points, tension, compression }
    }

    /// Thermal strain.
    pub fn thermal(&self, temperature: i64) -> i64 {
        let passed = self.points.iter().filter(|point| point.0 <= temperature).count();
        let coefficient = match (self.points.get(passed.wrapping_sub(1)), self.points.get(passed)) {
            (None, None) => self.a,
            (Some(end), None) | (None, Some(end)) => end.1,
            (Some(from), Some(to)) => from.1 + ((to.1 - from.1) * (temperature - from.0)).div_euclid(to.0 - from.0),
        };
        coefficient * (temperature - self.reference)
    }

    /// The floor of T.
    fn limit(&self, side: &[Piece], abscissa: i64) -> i64 {
        let piece = side.iter().rev().find(|piece| piece.start <= abscissa).unwrap_or(&side[0]);
        let rise = (abscissa - piece.start) as i128 * piece.tangent as i128 / self.e as i128;
        piece.height + rise as i64
    }

    /// The least and the greatest whole stress within the limits.
    pub fn limits(&self, first: i64, second: i64) -> (i64, i64) {
        match self.law {
            2 => (first - self.tension[0].start, first + self.tension[0].start),
            3 => (-self.limit(&self.compression, second), self.limit(&self.tension, first)),
            _ => (-self.limit(&self.tension, first), self.limit(&self.tension, first)),
        }
    }
}

impl Rod {
    pub fn read(bytes: &[u8]) -> Rod {
        let [_, _, _, strain, temperature, stress, first, second, _, _] = layout::read(&layout::STATE, bytes);
        Rod { strain, temperature, stress, first, second }
    }
}
