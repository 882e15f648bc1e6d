//! Signed whole numbers of any size.

use std::cmp::Ordering;
use std::fmt;
use std::ops::{Add, Mul, Neg, Sub};

/// A sign and a magnitude in limbs of 64 bits, least significant first. The
/// last limb is not 0, and 0 has no limbs and is not negative, so that equal
/// numbers have equal fields.
#[derive(Clone, Debug, PartialEq, Eq)]
pub struct Big {
    negative: bool,
    limbs: Vec<u64>,
}

impl Big {
    fn new(negative: bool, mut limbs: Vec<u64>) -> Big {
        trim(&mut limbs);
        Big { negative: negative && !limbs.is_empty(), limbs }
    }

    pub fn is_zero(&self) -> bool {
        self.limbs.is_empty()
    }

    pub fn is_negative(&self) -> bool {
        self.negative
    }

    pub fn is_one(&self) -> bool {
        !self.negative && self.limbs == [1]
    }

    pub fn abs(&self) -> Big {
        Big { negative: false, limbs: self.limbs.clone() }
    }

    /// Quotient and remainder with `self = quotient * by + remainder` and
    /// `0 <= remainder < |by|`.
    pub fn div_rem(&self, by: &Big) -> (Big, Big) {
        let (quotient, remainder) = divide(&self.limbs, &by.limbs);
        let quotient = Big::new(self.negative != by.negative, quotient);
        let remainder = Big::new(self.negative, remainder);
        if !remainder.negative {
            return (quotient, remainder);
        }
        let step: i64 = if by.negative { 1 } else { -1 };
        (&quotient + &Big::from(step), &remainder + &by.abs())
    }

    /// The greatest common divisor, 0 only for two zeros.
    pub fn gcd(&self, other: &Big) -> Big {
        let (mut a, mut b) = (self.abs(), other.abs());
        while !b.is_zero() {
            let remainder = a.div_rem(&b).1;
            a = b;
            b = remainder;
        }
        a
    }

    pub fn to_i64(&self) -> Option<i64> {
        match self.limbs[..] {
            [] => Some(0),
            [limb] if self.negative && limb <= 1 << 63 => Some((limb as i64).wrapping_neg()),
            [limb] if !self.negative && limb < 1 << 63 => Some(limb as i64),
            _ => None,
        }
    }
}

impl From<i64> for Big {
    fn from(value: i64) -> Big {
        Big::new(value < 0, vec![value.unsigned_abs()])
    }
}

impl From<i128> for Big {
    fn from(value: i128) -> Big {
        let magnitude = value.unsigned_abs();
        Big::new(value < 0, vec![magnitude as u64, (magnitude >> 64) as u64])
    }
}

impl Ord for Big {
    fn cmp(&self, other: &Big) -> Ordering {
        match (self.negative, other.negative) {
            (false, true) => Ordering::Greater,
            (true, false) => Ordering::Less,
            (false, false) => compare(&self.limbs, &other.limbs),
            (true, true) => compare(&other.limbs, &self.limbs),
        }
    }
}

impl PartialOrd for Big {
    fn partial_cmp(&self, other: &Big) -> Option<Ordering> {
        Some(self.cmp(other))
    }
}

impl Neg for &Big {
    type Output = Big;
    fn neg(self) -> Big {
        Big::new(!self.negative, self.limbs.clone())
    }
}

impl Add for &Big {
    type Output = Big;
    fn add(self, other: &Big) -> Big {
        sum(self, other.negative, &other.limbs)
    }
}

impl Sub for &Big {
    type Output = Big;
    fn sub(self, other: &Big) -> Big {
        sum(self, !other.negative, &other.limbs)
    }
}

impl Mul for &Big {
    type Output = Big;
    fn mul(self, other: &Big) -> Big {
        Big::new(self.negative != other.negative, product(&self.limbs, &other.limbs))
    }
}

impl fmt::Display for Big {
    fn fmt(&self, f: &mut fmt::Formatter) -> fmt::Result {
        let mut digits = Vec::new();
        let mut rest = self.limbs.clone();
        while !rest.is_empty() {
            let (quotient, remainder) = divide_by_limb(&rest, 10);
            digits.push(b'0' + remainder as u8);
            rest = quotient;
        }
        digits.reverse();
        let digits = if digits.is_empty() { "0".into() } else { String::from_utf8(digits).unwrap() };
        f.pad_integral(!self.negative, "", &digits)
    }
}

fn trim(limbs: &mut Vec<u64>) {
    while limbs.last() == Some(&0) {
        limbs.pop();
    }
}

fn compare(a: &[u64], b: &[u64]) -> Ordering {
    a.len().cmp(&b.len()).then_with(|| a.iter().rev().cmp(b.iter().rev()))
}

fn sum(a: &Big, b_negative: bool, b: &[u64]) -> Big {
    if a.negative == b_negative {
        return Big::new(a.negative, add(&a.limbs, b));
    }
    match compare(&a.limbs, b) {
        Ordering::Less => Big::new(b_negative, subtract(b, &a.limbs)),
        _ => Big::new(a.negative, subtract(&a.limbs, b)),
    }
}

fn add(a: &[u64], b: &[u64]) -> Vec<u64> {
    let (long, short) = if a.len() >= b.len() { (a, b) } else { (b, a) };
    let mut out = Vec::with_capacity(long.len() + 1);
    let mut carry = false;
    for (i, &limb) in long.iter().enumerate() {
        let (partial, first) = limb.overflowing_add(short.get(i).copied().unwrap_or(0));
        let (total, second) = partial.overflowing_add(carry as u64);
        carry = first || second;
        out.push(total);
    }
    out.push(carry as u64);
    out
}

/// `a - b` for `a >= b`.
fn subtract(a: &[u64], b: &[u64]) -> Vec<u64> {
    let mut out = Vec::with_capacity(a.len());
    let mut borrow = false;
    for (i, &limb) in a.iter().enumerate() {
        let (partial, first) = limb.overflowing_sub(b.get(i).copied().unwrap_or(0));
        let (total, second) = partial.overflowing_sub(borrow as u64);
        borrow = first || second;
        out.push(total);
    }
    assert!(!borrow);
    out
}

fn product(a: &[u64], b: &[u64]) -> Vec<u64> {
    let mut out = vec![0; a.len() + b.len()];
    for (i, &x) in a.iter().enumerate() {
        let mut carry = 0;
        for (j, &y) in b.iter().enumerate() {
            let total = x as u128 * y as u128 + out[i + j] as u128 + carry as u128;
            out[i + j] = total as u64;
            carry = (total >> 64) as u64;
        }
        out[i + b.len()] = carry;
    }
    out
}

fn divide_by_limb(a: &[u64], by: u64) -> (Vec<u64>, u64) {
    let mut quotient = vec![0; a.len()];
    let mut remainder = 0;
    for (i, &limb) in a.iter().enumerate().rev() {
        let total = (remainder as u128) << 64 | limb as u128;
        quotient[i] = (total / by as u128) as u64;
        remainder = (total % by as u128) as u64;
    }
    trim(&mut quotient);
    (quotient, remainder)
}

/// Quotient and remainder of magnitudes: Knuth's algorithm D.
fn divide(a: &[u64], b: &[u64]) -> (Vec<u64>, Vec<u64>) {
    assert!(!b.is_empty(), "division by zero");
    if compare(a, b) == Ordering::Less {
        return (Vec::new(), a.to_vec());
    }
    if b.len() == 1 {
        let (quotient, remainder) = divide_by_limb(a, b[0]);
        return (quotient, vec![remainder]);
    }
    let shift = b[b.len() - 1].leading_zeros();
    let b = shift_left(b, shift);
    let mut rest = shift_left(a, shift);
    rest.push(0);
    let n = b.len();
    let top = b[n - 1] as u128;
    let mut quotient = vec![0; rest.len() - n];
    for j in (0..quotient.len()).rev() {
        let head = (rest[j + n] as u128) << 64 | rest[j + n - 1] as u128;
        let mut digit = head / top;
        let mut over = head % top;
        while digit >> 64 != 0 || digit * b[n - 2] as u128 > (over << 64 | rest[j + n - 2] as u128) {
            digit -= 1;
            over += top;
            if over >> 64 != 0 {
                break;
            }
        }
        let mut digit = digit as u64;
        if take_away(&mut rest[j..=j + n], &b, digit) {
            digit -= 1;
            put_back(&mut rest[j..=j + n], &b);
        }
        quotient[j] = digit;
    }
    rest.truncate(n);
    (quotient, shift_right(&rest, shift))
}

/// `rest -= b * digit`; true when that fell below 0 and wrapped around.
fn take_away(rest: &mut [u64], b: &[u64], digit: u64) -> bool {
    let mut carry = 0;
    let mut borrow = false;
    for (i, limb) in rest.iter_mut().enumerate() {
        let total = digit as u128 * b.get(i).copied().unwrap_or(0) as u128 + carry as u128;
        carry = (total >> 64) as u64;
        let (partial, first) = limb.overflowing_sub(total as u64);
        let (difference, second) = partial.overflowing_sub(borrow as u64);
        borrow = first || second;
        *limb = difference;
    }
    borrow
}

/// `rest += b`, the carry out of the top being the one that `take_away` borrowed.
fn put_back(rest: &mut [u64], b: &[u64]) {
    let mut carry = false;
    for (i, limb) in rest.iter_mut().enumerate() {
        let (partial, first) = limb.overflowing_add(b.get(i).copied().unwrap_or(0));
        let (total, second) = partial.overflowing_add(carry as u64);
        carry = first || second;
        *limb = total;
    }
}

fn shift_left(a: &[u64], by: u32) -> Vec<u64> {
    if by == 0 {
        return a.to_vec();
    }
    let mut out = Vec::with_capacity(a.len() + 2);
    let mut low = 0;
    for &limb in a {
        out.push(limb << by | low);
        low = limb >> (64 - by);
    }
    if low != 0 {
        out.push(low);
    }
    out
}

fn shift_right(a: &[u64], by: u32) -> Vec<u64> {
    if by == 0 {
        return a.to_vec();
    }
    (0..a.len()).map(|i| a[i] >> by | a.get(i + 1).map_or(0, |high| high << (64 - by))).collect()
}

#[cfg(test)]
mod tests {
    use super::*;
    use crate::random::Random;

    /// Numbers of up to `limbs` limbs, with runs of ones and zeros among them.
    fn random(random: &mut Random, limbs: u64) -> Big {
        let count = random.below(limbs + 1);
        let negative = random.chance(50);
        let limbs = (0..count).map(|_| match random.below(4) {
            0 => 0,
            1 => u64::MAX,
            2 => random.draw() >> random.below(64),
            _ => random.draw(),
        });
        Big::new(negative, limbs.collect())
    }

    #[test]
    fn agrees_with_128_bits() {
        let mut source = Random::new(1);
        for _ in 0..200_000 {
            let (shift, other) = (source.below(128), source.below(128));
            let wide = |source: &mut Random| (source.draw() as u128) << 64 | source.draw() as u128;
            let (x, y) = (wide(&mut source) as i128 >> shift, wide(&mut source) as i128 >> other);
            let (a, b) = (Big::from(x), Big::from(y));
            assert_eq!(a.cmp(&b), x.cmp(&y));
            assert_eq!(a.to_string(), x.to_string());
            assert_eq!(a.to_i64(), i64::try_from(x).ok());
            if let Some(z) = x.checked_add(y) {
                assert_eq!(&a + &b, Big::from(z));
            }
            if let Some(z) = x.checked_sub(y) {
                assert_eq!(&a - &b, Big::from(z));
            }
            if let Some(z) = x.checked_mul(y) {
                assert_eq!(&a * &b, Big::from(z));
            }
            if let (Some(q), Some(r)) = (x.checked_div_euclid(y), x.checked_rem_euclid(y)) {
                assert_eq!(a.div_rem(&b), (Big::from(q), Big::from(r)));
            }
        }
    }

    #[test]
    fn laws_of_long_numbers() {
        let mut source = Random::new(2);
        for _ in 0..20_000 {
            let (a, b, c) = (random(&mut source, 12), random(&mut source, 8), random(&mut source, 4));
            assert_eq!(&(&a + &b) - &b, a);
            assert_eq!(&(&a + &b) + &c, &a + &(&b + &c));
            assert_eq!(&(&a * &b) * &c, &a * &(&b * &c));
            assert_eq!(&(&a + &b) * &c, &(&a * &c) + &(&b * &c));
            assert_eq!(-&(&a - &b), &b - &a);
            assert_eq!(a.cmp(&b), (&a - &b).cmp(&Big::from(0i64)));
            if !b.is_zero() {
                let (quotient, remainder) = a.div_rem(&b);
                assert_eq!(&(&quotient * &b) + &remainder, a);
                assert!(!remainder.is_negative() && remainder < b.abs());
            }
        }
    }

    #[test]
    fn greatest_common_divisors() {
        let mut source = Random::new(3);
        for _ in 0..2_000 {
            let (a, b, c) = (random(&mut source, 5), random(&mut source, 5), random(&mut source, 3));
            let divisor = (&a * &c).gcd(&(&b * &c));
            if c.is_zero() || (a.is_zero() && b.is_zero()) {
                assert!(divisor.is_zero());
                continue;
            }
            assert!(divisor.div_rem(&c).1.is_zero());
            let (a, b) = ((&a * &c).div_rem(&divisor), (&b * &c).div_rem(&divisor));
            assert!(a.1.is_zero() && b.1.is_zero());
            assert!(a.0.gcd(&b.0).is_one());
        }
    }

    #[test]
    fn printed_in_decimal() {
        let mut power = Big::from(1i64);
        for exponent in 0..60 {
            assert_eq!(power.to_string(), format!("1{}", "0".repeat(exponent)));
            assert_eq!((-&power).to_string(), format!("-1{}", "0".repeat(exponent)));
            power = &power * &Big::from(10i64);
        }
        assert_eq!(Big::from(0i64).to_string(), "0");
    }
}
