//! The bar without rounding, which is the papers' term (SPEC 10).

use crate::fraction::Fraction;
use crate::rules::{Law, Pair, Sheet, Side};

/// The sheet and the accepted pairs of a history go in, and nothing else.
#[derive(Clone)]
pub struct Bar<'a> {
    sheet: &'a Sheet,
    pub strain: Fraction,
    pub temperature: Fraction,
    pub stress: Fraction,
    /// The abscissa, for law 3 that of tension; for law 2 the centre X.
    pub first: Fraction,
    /// For law 3 the abscissa of compression.
    pub second: Fraction,
}

impl<'a> Bar<'a> {
    /// At first it has the numbers of the unused rod.
    pub fn new(sheet: &'a Sheet) -> Bar<'a> {
        let tension = sheet.tension.yield_stress.clone();
        Bar {
            sheet,
            strain: Fraction::zero(),
            temperature: Fraction::from(sheet.reference),
            stress: Fraction::zero(),
            first: if sheet.law == Law::Kinematic { Fraction::zero() } else { tension },
            second: sheet.compression.as_ref().map_or(Fraction::zero(), |side| side.yield_stress.clone()),
        }
    }

    pub fn feed(&mut self, pair: &Pair) {
        let (change, temperature) = (Fraction::from(pair.change), Fraction::from(pair.temperature));
        let trial = self.sheet.trial(&self.stress, &change, &self.temperature, &temperature);
        self.strain = &self.strain + &change;
        self.temperature = temperature;

        let tension = &self.sheet.tension;
        match self.sheet.law {
            Law::Line | Law::Curve => {
                self.stress = match grow(tension, &mut self.first, &trial.abs()) {
                    Some(magnitude) => &trial.sign() * &magnitude,
                    None => trial,
                };
            }
            Law::Kinematic => {
                let offset = &trial - &self.first;
                let past = &offset.abs() - &tension.yield_stress;
                if !past.is_positive() {
                    self.stress = trial;
                    return;
                }
                let slope = Fraction::ratio(tension.segments[0].tangent, self.sheet.modulus);
                self.first = &self.first + &(&offset.sign() * &(&past * &slope));
                self.stress = &self.first + &(&offset.sign() * &tension.yield_stress);
            }
            Law::Asymmetric => {
                let compression = self.sheet.compression.as_ref().unwrap();
                if let Some(magnitude) = grow(tension, &mut self.first, &trial) {
                    self.stress = magnitude;
                } else if let Some(magnitude) = grow(compression, &mut self.second, &-&trial) {
                    self.stress = -&magnitude;
                } else {
                    self.stress = trial;
                }
            }
        }
    }

    pub fn plastic(&self) -> Fraction {
        self.sheet.plastic(&self.strain, &self.temperature, &self.stress)
    }
}

/// Beyond the limit the abscissa moves on by the excess, and the answer is the limit there.
fn grow(side: &Side, abscissa: &mut Fraction, trial: &Fraction) -> Option<Fraction> {
    let past = trial - &side.limit(abscissa);
    if !past.is_positive() {
        return None;
    }
    *abscissa = &*abscissa + &past;
    Some(side.limit(abscissa))
}
