//! The conditions of one pair have one solution, the one that the rules name,
//! and no other candidate among many meets them. No trial passes both limits.

use checks::fraction::Fraction;
use checks::random::Random;
use checks::rules::{branch, conditions, rounded, solution, Flow, Law, Numbers, Sheet, Side};

/// Tangents that fall, on short segments, so that a few fractions cover the plane.
fn side(random: &mut Random, modulus: i64, segments: usize) -> Side {
    let mut greatest = modulus - 1;
    let mut pieces = Vec::new();
    for _ in 0..segments {
        greatest = random.range(0, greatest);
        pieces.push((random.range(1, 2), greatest));
    }
    Side::new(modulus, random.range(1, 4), &pieces)
}

fn sheet(random: &mut Random) -> Sheet {
    let law = random.pick(&[Law::Line, Law::Curve, Law::Kinematic, Law::Asymmetric]);
    let modulus = random.range(1, 4);
    let segments = if law == Law::Curve { random.range(2, 3) as usize } else { 1 };
    let tension = side(random, modulus, segments);
    let compression = (law == Law::Asymmetric).then(|| side(random, modulus, 1));
    Sheet { law, modulus, expansion: 0, points: Vec::new(), reference: 0, tension, compression }
}

/// Old numbers within their limits; fractions, as the bar without rounding has them.
fn old_numbers(random: &mut Random, sheet: &Sheet) -> Numbers {
    let over = random.pick(&[1, 1, sheet.modulus, 3]);
    let grown =
        |random: &mut Random, side: &Side| &side.yield_stress + &Fraction::ratio(random.range(0, 12 * over), over);
    let zero = Fraction::zero();
    let (first, second) = match sheet.law {
        Law::Kinematic => (Fraction::ratio(random.range(-6 * over, 6 * over), over), zero),
        Law::Asymmetric => (grown(random, &sheet.tension), grown(random, sheet.compression.as_ref().unwrap())),
        _ => (grown(random, &sheet.tension), zero),
    };
    let (lower, upper) = match sheet.law {
        Law::Kinematic => (&first - &sheet.tension.yield_stress, &first + &sheet.tension.yield_stress),
        Law::Asymmetric => (-&sheet.compression.as_ref().unwrap().limit(&second), sheet.tension.limit(&first)),
        _ => (-&sheet.tension.limit(&first), sheet.tension.limit(&first)),
    };
    let part = Fraction::ratio(random.range(0, 8), 8);
    let stress = &lower + &(&part * &(&upper - &lower));
    Numbers { stress, first, second }
}

#[test]
fn the_solution_meets_the_conditions() {
    let mut random = Random::new(200);
    for _ in 0..100_000 {
        let sheet = sheet(&mut random);
        let old = old_numbers(&mut random, &sheet);
        let trial = &old.stress + &Fraction::ratio(random.range(-60, 60), random.pick(&[1, 2, 3]));
        let (new, flow) = solution(&sheet, &old, &trial);
        assert!(conditions(&sheet, &old, &trial, &new), "{sheet:?}\n{old:?}\n{trial}\n{new:?}");
        assert_eq!(flow == Flow::None, new.stress == trial);
        // What flowed is the way that plastic strain went.
        assert_eq!(flow as i64, branch(&trial, &new), "{sheet:?}\n{old:?}\n{trial}\n{new:?}");
        let stored = rounded(&sheet, &old, (&new, flow));
        assert!(flow != Flow::None || stored == new);
    }
}

/// The limits of SPEC 6.6: a trial s passes that of tension where s is above the first, that of compression where −s is
/// above the second.
fn limits(sheet: &Sheet, old: &Numbers) -> [Fraction; 2] {
    let radius = &sheet.tension.yield_stress;
    match sheet.law {
        Law::Kinematic => [&old.first + radius, radius - &old.first],
        Law::Asymmetric => [sheet.tension.limit(&old.first), sheet.compression.as_ref().unwrap().limit(&old.second)],
        _ => [sheet.tension.limit(&old.first), sheet.tension.limit(&old.first)],
    }
}

/// Beyond every trial stress that a call can come to.
const FAR: i64 = 1_000_000_000_000_000;

/// At each limit, beside it, around 0 and far out; what flows goes by the limit that is passed.
#[test]
fn no_trial_passes_both_limits() {
    let mut random = Random::new(202);
    let mut flows = [0; 3];
    for _ in 0..100_000 {
        let sheet = sheet(&mut random);
        let old = old_numbers(&mut random, &sheet);
        let [tension, compression] = limits(&sheet, &old);
        let near = [tension.clone(), -&compression, Fraction::zero()][random.below(3) as usize].clone();
        let away = if random.chance(10) { FAR } else { 4 };
        let trial = &near + &Fraction::ratio(random.range(-away, away), random.pick(&[1, 7, 1_000_000]));
        let flow = match (trial > tension, -&trial > compression) {
            (false, false) => Flow::None,
            (true, false) => Flow::Tension,
            (false, true) => Flow::Compression,
            (true, true) => panic!("both limits are passed: {sheet:?}\n{old:?}\n{trial}"),
        };
        assert_eq!(solution(&sheet, &old, &trial).1, flow, "{sheet:?}\n{old:?}\n{trial}");
        flows[flow as usize] += 1;
    }
    assert!(flows.iter().all(|&met| met >= 10_000), "{flows:?}");
}

/// Candidates on a grid of eighths of 1 / E² around old and new, and each with
/// the stress that the conditions would ask of it.
#[test]
fn nothing_else_meets_them() {
    let mut random = Random::new(201);
    let mut met = 0;
    for _ in 0..6_000 {
        let sheet = sheet(&mut random);
        let old = old_numbers(&mut random, &sheet);
        let trial = &old.stress + &Fraction::ratio(random.range(-30, 30), random.pick(&[1, 2]));
        let new = solution(&sheet, &old, &trial).0;
        for _ in 0..200 {
            let candidate = candidate(&mut random, &sheet, &old, &trial, &new);
            if conditions(&sheet, &old, &trial, &candidate) {
                assert_eq!(candidate, new, "{sheet:?}\n{old:?}\n{trial}");
                met += 1;
            }
        }
    }
    // The solution itself is among the candidates often enough.
    assert!(met >= 10_000, "{met}");
}

fn candidate(random: &mut Random, sheet: &Sheet, old: &Numbers, trial: &Fraction, new: &Numbers) -> Numbers {
    let near = |random: &mut Random, old: &Fraction, new: &Fraction| match random.below(4) {
        0 => old.clone(),
        1 => new.clone(),
        _ => new + &Fraction::ratio(random.range(-16, 16), 8 * sheet.modulus * sheet.modulus),
    };
    let first = near(random, &old.first, &new.first);
    let second = near(random, &old.second, &new.second);
    let limit = |side: &Side, abscissa: &Fraction| {
        if *abscissa < side.yield_stress {
            side.yield_stress.clone()
        } else {
            side.limit(abscissa)
        }
    };
    let stress = match (random.below(5), sheet.law) {
        (0, _) => trial.clone(),
        (1, Law::Kinematic) => &first + &sheet.tension.yield_stress,
        (2, Law::Kinematic) => &first - &sheet.tension.yield_stress,
        (1, _) => limit(&sheet.tension, &first),
        (2, Law::Asymmetric) => -&limit(sheet.compression.as_ref().unwrap(), &second),
        (2, _) => -&limit(&sheet.tension, &first),
        _ => near(random, &old.stress, &new.stress),
    };
    Numbers { stress, first, second }
}
