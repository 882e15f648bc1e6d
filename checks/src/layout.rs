//! The bit layouts (SPEC 3): fields side by side, each with its most significant
//! bit in front, signed ones in two's complement.

pub struct Field {
    pub name: &'static str,
    pub width: usize,
    pub signed: bool,
}

const fn unsigned(name: &'static str, width: usize) -> Field {
    Field { name, width, signed: false }
}

const fn signed(name: &'static str, width: usize) -> Field {
    Field { name, width, signed: true }
}

pub const SHEET: [Field; 10] = [
    unsigned("law", 2),
    unsigned("tension segments", 3),
    unsigned("compression segments", 3),
    unsigned("E", 20),
    unsigned("expansion", 14),
    signed("reference temperature", 16),
    unsigned("tension yield", 24),
    unsigned("compression yield", 24),
    unsigned("zero", 2),
    unsigned("points", 4),
];

pub const SEGMENT: [Field; 2] = [unsigned("length", 28), unsigned("tangent", 20)];

pub const POINT: [Field; 3] = [signed("temperature", 16), unsigned("zero", 2), unsigned("coefficient", 14)];

pub const STATE: [Field; 10] = [
    unsigned("law", 2),
    unsigned("yielded", 1),
    unsigned("zero", 5),
    signed("strain", 32),
    signed("temperature", 16),
    signed("stress", 48),
    signed("first variable", 64),
    signed("second variable", 64),
    unsigned("n", 32),
    unsigned("k", 32),
];

pub const PAIR: [Field; 3] = [unsigned("kind", 3), signed("strain change", 29), signed("temperature", 16)];

pub const ROW: [Field; 5] = [
    unsigned("yielded", 1),
    unsigned("branch", 3),
    unsigned("tangent", 20),
    signed("stress", 48),
    signed("plastic", 56),
];

pub const SHEET_BYTES: usize = 14;
pub const SEGMENT_BYTES: usize = 6;
pub const POINT_BYTES: usize = 4;
pub const STATE_BYTES: usize = 37;
pub const PAIR_BYTES: usize = 6;
pub const ROW_BYTES: usize = 16;

/// The fields of a layout, read from the first of the bytes on.
pub fn read<const N: usize>(layout: &[Field; N], bytes: &[u8]) -> [i64; N] {
    let mut at = 0;
    let mut values = [0; N];
    for (field, value) in layout.iter().zip(&mut values) {
        let mut bits: u64 = 0;
        for bit in at..at + field.width {
            bits = bits << 1 | (bytes[bit / 8] >> (7 - bit % 8) & 1) as u64;
        }
        at += field.width;
        let unused = 64 - field.width;
        *value = if field.signed { (bits << unused) as i64 >> unused } else { bits as i64 };
    }
    values
}

/// The bytes of a layout; of each value its lowest bits, as many as the field has.
pub fn write<const N: usize>(layout: &[Field; N], values: [i64; N]) -> Vec<u8> {
    let width: usize = layout.iter().map(|field| field.width).sum();
    let mut bytes = vec![0; width / 8];
    let mut at = 0;
    for (field, value) in layout.iter().zip(values) {
        for bit in 0..field.width {
            let set = value >> (field.width - 1 - bit) & 1;
            bytes[(at + bit) / 8] |= (set as u8) << (7 - (at + bit) % 8);
        }
        at += field.width;
    }
    bytes
}

/// The length that a sheet's own counts give it, good or bad: header, segments and points. A byte that isn't there
/// counts nothing.
pub fn sheet_length(bytes: &[u8]) -> usize {
    let byte = |at: usize| bytes.get(at).map_or(0, |&byte| byte as usize);
    let segments = (byte(0) >> 3 & 7) + (byte(0) & 7);
    SHEET_BYTES + SEGMENT_BYTES * segments + POINT_BYTES * (byte(13) & 15)
}

#[cfg(test)]
mod tests {
    use super::*;
    use crate::random::Random;

    #[test]
    fn lengths() {
        let bits = |layout: &[Field]| layout.iter().map(|field| field.width).sum::<usize>();
        assert_eq!(bits(&SHEET), 8 * SHEET_BYTES);
        assert_eq!(bits(&SEGMENT), 8 * SEGMENT_BYTES);
        assert_eq!(bits(&POINT), 8 * POINT_BYTES);
        assert_eq!(bits(&STATE), 8 * STATE_BYTES);
        assert_eq!(bits(&PAIR), 8 * PAIR_BYTES);
        assert_eq!(bits(&ROW), 8 * ROW_BYTES);
    }

    #[test]
    fn read_back() {
        let mut source = Random::new(5);
        for _ in 0..20_000 {
            let bytes = source.bytes(STATE_BYTES);
            assert_eq!(write(&STATE, read(&STATE, &bytes)), bytes);
            let bytes = source.bytes(SHEET_BYTES);
            assert_eq!(write(&SHEET, read(&SHEET, &bytes)), bytes);
            let bytes = source.bytes(POINT_BYTES);
            assert_eq!(write(&POINT, read(&POINT, &bytes)), bytes);
            let bytes = source.bytes(ROW_BYTES);
            assert_eq!(write(&ROW, read(&ROW, &bytes)), bytes);
        }
    }

    #[test]
    fn most_significant_bit_first() {
        assert_eq!(write(&PAIR, [0, -1, 1]), [0x1f, 0xff, 0xff, 0xff, 0x00, 0x01]);
        assert_eq!(write(&PAIR, [5, 1, -2]), [0xa0, 0x00, 0x00, 0x01, 0xff, 0xfe]);
        assert_eq!(read(&PAIR, &[0xb0, 0x00, 0x00, 0x00, 0x80, 0x00]), [5, -(1 << 28), -32768]);
        assert_eq!(write(&SEGMENT, [1, 2]), [0x00, 0x00, 0x00, 0x10, 0x00, 0x02]);
        assert_eq!(write(&POINT, [-2, 1, 3]), [0xff, 0xfe, 0x40, 0x03]);
        assert_eq!(write(&SHEET, [0, 0, 0, 0, 0, 0, 0, 0, 2, 5])[13], 0x25);
        assert_eq!(write(&ROW, [1, 0, 1, -1, 1])[..4], [0x80, 0x00, 0x01, 0xff]);
        assert_eq!(write(&ROW, [1, 1, 0xf_0000, 0, 0])[0], 0x9f);
        assert_eq!(read(&ROW, &[0xa0; 16])[..2], [1, 2]);
    }

    #[test]
    fn lengths_by_the_counts() {
        let sheet = |tensions, compressions, points| {
            sheet_length(&write(&SHEET, [0, tensions, compressions, 0, 0, 0, 0, 0, 0, points]))
        };
        assert_eq!(sheet(1, 0, 0), 20);
        assert_eq!(sheet(7, 0, 8), 88);
        assert_eq!(sheet(7, 7, 15), 158);
        assert_eq!(sheet_length(&[]), 14);
    }
}
