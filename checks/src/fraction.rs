//! Fractions (SPEC 2.5): a numerator of either sign, a denominator above 0.
//!
//! Fractions are compared by cross products, so they needn't be in lowest
//! terms. Those of a rod are over powers of E: of two denominators one nearly
//! always divides the other, and the greater serves both. Only where it
//! doesn't, the result is brought to lowest terms.

use crate::big::Big;
use std::cmp::Ordering;
use std::fmt;
use std::ops::{Add, Mul, Neg, Sub};

#[derive(Clone, Debug)]
pub struct Fraction {
    num: Big,
    den: Big,
}

impl Fraction {
    pub fn new(num: Big, den: Big) -> Fraction {
        assert!(!den.is_zero() && !den.is_negative(), "a denominator is positive");
        Fraction { num, den }
    }

    /// `num / den` of small numbers.
    pub fn ratio(num: i64, den: i64) -> Fraction {
        Fraction::new(Big::from(num), Big::from(den))
    }

    pub fn zero() -> Fraction {
        Fraction::from(0)
    }

    pub fn is_negative(&self) -> bool {
        self.num.is_negative()
    }

    pub fn is_positive(&self) -> bool {
        !self.num.is_negative() && !self.num.is_zero()
    }

    pub fn abs(&self) -> Fraction {
        Fraction { num: self.num.abs(), den: self.den.clone() }
    }

    /// −1, 0 or 1.
    pub fn sign(&self) -> Fraction {
        Fraction::from(self.is_positive() as i64 - self.is_negative() as i64)
    }

    /// The greatest whole number that isn't above it.
    pub fn floor(&self) -> Fraction {
        Fraction { num: self.num.div_rem(&self.den).0, den: Big::from(1i64) }
    }

    /// The least whole number that isn't below it.
    pub fn ceiling(&self) -> Fraction {
        -&(-self).floor()
    }

    /// The number itself, if it is whole and fits.
    pub fn whole(&self) -> Option<i64> {
        let (quotient, remainder) = self.num.div_rem(&self.den);
        quotient.to_i64().filter(|_| remainder.is_zero())
    }

    pub fn reduced(&self) -> Fraction {
        let divisor = self.num.gcd(&self.den);
        Fraction { num: self.num.div_rem(&divisor).0, den: self.den.div_rem(&divisor).0 }
    }
}

/// Both numerators over one denominator, and whether that is the lesser one that fits.
fn common(a: &Fraction, b: &Fraction) -> (Big, Big, Big, bool) {
    if a.den == b.den {
        return (a.num.clone(), b.num.clone(), a.den.clone(), true);
    }
    if a.den < b.den {
        let (b, a, den, fits) = common(b, a);
        return (a, b, den, fits);
    }
    let (factor, remainder) = a.den.div_rem(&b.den);
    if remainder.is_zero() {
        return (a.num.clone(), &b.num * &factor, a.den.clone(), true);
    }
    (&a.num * &b.den, &b.num * &a.den, &a.den * &b.den, false)
}

fn over(num: Big, den: Big, fits: bool) -> Fraction {
    let fraction = Fraction { num, den };
    if fits {
        fraction
    } else {
        fraction.reduced()
    }
}

impl From<i64> for Fraction {
    fn from(value: i64) -> Fraction {
        Fraction { num: Big::from(value), den: Big::from(1i64) }
    }
}

impl Add for &Fraction {
    type Output = Fraction;
    fn add(self, other: &Fraction) -> Fraction {
        let (a, b, den, fits) = common(self, other);
        over(&a + &b, den, fits)
    }
}

impl Sub for &Fraction {
    type Output = Fraction;
    fn sub(self, other: &Fraction) -> Fraction {
        let (a, b, den, fits) = common(self, other);
        over(&a - &b, den, fits)
    }
}

impl Mul for &Fraction {
    type Output = Fraction;
    fn mul(self, other: &Fraction) -> Fraction {
        Fraction { num: &self.num * &other.num, den: &self.den * &other.den }
    }
}

impl Neg for &Fraction {
    type Output = Fraction;
    fn neg(self) -> Fraction {
        Fraction { num: -&self.num, den: self.den.clone() }
    }
}

impl Ord for Fraction {
    fn cmp(&self, other: &Fraction) -> Ordering {
        if self.num.is_negative() != other.num.is_negative() {
            return other.num.is_negative().cmp(&self.num.is_negative());
        }
        let (a, b, ..) = common(self, other);
        a.cmp(&b)
    }
}

impl PartialOrd for Fraction {
    fn partial_cmp(&self, other: &Fraction) -> Option<Ordering> {
        Some(self.cmp(other))
    }
}

impl PartialEq for Fraction {
    fn eq(&self, other: &Fraction) -> bool {
        self.cmp(other) == Ordering::Equal
    }
}

impl Eq for Fraction {}

impl fmt::Display for Fraction {
    fn fmt(&self, f: &mut fmt::Formatter) -> fmt::Result {
        let lowest = self.reduced();
        if lowest.den.is_one() {
            write!(f, "{}", lowest.num)
        } else {
            write!(f, "{}/{}", lowest.num, lowest.den)
        }
    }
}

#[cfg(test)]
mod tests {
    use super::*;
    use crate::random::Random;

    fn small(source: &mut Random) -> (i64, i64) {
        (source.range(-40, 40), source.range(1, 12))
    }

    #[test]
    fn agrees_with_cross_products() {
        let mut source = Random::new(4);
        for _ in 0..100_000 {
            let ((a, b), (c, d)) = (small(&mut source), small(&mut source));
            let (x, y) = (Fraction::ratio(a, b), Fraction::ratio(c, d));
            assert_eq!(x.cmp(&y), (a * d).cmp(&(c * b)));
            assert_eq!(&x + &y, Fraction::ratio(a * d + c * b, b * d));
            assert_eq!(&x - &y, Fraction::ratio(a * d - c * b, b * d));
            assert_eq!(&x * &y, Fraction::ratio(a * c, b * d));
            assert_eq!(x.abs(), Fraction::ratio(a.abs(), b));
            assert_eq!(x.sign(), Fraction::from(a.signum()));
            assert_eq!(x.floor(), Fraction::from(a.div_euclid(b)));
            assert_eq!(x.ceiling(), Fraction::from(-(-a).div_euclid(b)));
            assert_eq!(x.whole(), Some(a / b).filter(|_| a % b == 0));
            assert_eq!(x.reduced(), x);
        }
    }

    #[test]
    fn printed_in_lowest_terms() {
        assert_eq!(Fraction::ratio(-6, 4).to_string(), "-3/2");
        assert_eq!(Fraction::ratio(6, 3).to_string(), "2");
        assert_eq!(Fraction::ratio(0, 7).to_string(), "0");
    }

    #[test]
    #[should_panic]
    fn no_zero_denominator() {
        Fraction::ratio(1, 0);
    }
}
