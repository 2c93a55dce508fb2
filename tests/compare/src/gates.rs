//! Probe gates, with bit patterns at the edges of floats and of the gate's levels.

use crate::outcomes::Group;
use crate::part::{Part, Tally};
use crate::show;
use crate::shrink::Shrinker;
use hwsq::Sampled;
use makers::floats::{beside, pattern};
use makers::random::Random;
use second::probe::{self, Calibration, Gate};

const SALT: u64 = 7;
/// What any NaN's pattern is taken for, as the papers give none.
const NAN: u32 = 0x7fc0_0000;
/// No reading, as include/hwsq.h numbers it.
const NONE: u8 = 2;

/// Compares the gates.
pub struct Gates {
    pub seed: u64,
    pub readings: u64,
}

/// A gate's number and five patterns: low, high, gain, offset, raw.
#[derive(Clone, Debug)]
pub struct Case {
    gate: u8,
    patterns: Vec<u32>,
}

fn canonical(volts: u32) -> u32 {
    if f32::from_bits(volts).is_nan() {
        NAN
    } else {
        volts
    }
}

fn proved(case: &Case) -> Sampled {
    let &[low, high, gain, offset, raw] = case.patterns.as_slice() else {
        unreachable!("a case has five patterns");
    };
    let sampled = hwsq::sample(case.gate, low, high, gain, offset, raw);
    Sampled {
        volts: canonical(sampled.volts),
        ..sampled
    }
}

fn second(case: &Case) -> Sampled {
    let floats = case.patterns.iter().map(|&pattern| f32::from_bits(pattern));
    let floats: Vec<f32> = floats.collect();
    let (low, high) = (floats[0], floats[1]);
    let gate = match case.gate {
        0 => Gate::Normal { low, high },
        1 => Gate::Inverted { low, high },
        _ => Gate::Dead,
    };
    let calibration = Calibration {
        gain: floats[2],
        offset: floats[3],
    };
    match probe::read(gate, calibration, case.patterns[4]) {
        Ok(reading) => Sampled {
            refusal: 0,
            reading: reading.unwrap_or(NONE),
            volts: canonical(calibration.volts(floats[4]).to_bits()),
        },
        Err(refusal) => Sampled {
            refusal: refusal.number(),
            reading: NONE,
            volts: NAN,
        },
    }
}

fn differs(case: &Case) -> bool {
    proved(case) != second(case)
}

/// Levels at the very volts, next to them, around them, or anywhere.
fn made(random: &mut Random) -> Case {
    let [gain, offset, raw] = [(); 3].map(|_| pattern(random));
    let volts = (f32::from_bits(raw) * f32::from_bits(gain) + f32::from_bits(offset)).to_bits();
    let mut low = pattern(random);
    let mut high = pattern(random);
    match random.below(4) {
        0 => low = beside(random, volts),
        1 => high = beside(random, volts),
        2 => (low, high) = (beside(random, volts), beside(random, volts)),
        _ => {}
    }
    // The wrong order is refused, so that it shouldn't be every second one.
    if f32::from_bits(low) > f32::from_bits(high) && random.chance(80) {
        (low, high) = (high, low);
    }
    Case {
        gate: random.pick(&[0, 0, 0, 1, 1, 1, 2]),
        patterns: vec![low, high, gain, offset, raw],
    }
}

impl Part for Gates {
    type Case = Case;

    fn name(&self) -> &'static str {
        "gates"
    }

    fn groups(&self) -> &'static [Group] {
        &[Group::NormalGate, Group::InvertedGate, Group::DeadGate]
    }

    fn units(&self) -> u64 {
        self.readings
    }

    fn compare(&self, unit: u64, tally: &mut Tally) -> Option<Case> {
        let case = made(&mut Random::of_case(self.seed, SALT, unit));
        let sampled = proved(&case);
        tally.cases += 1;
        let group = self.groups()[usize::from(case.gate)];
        let refused = sampled.refusal > 0;
        tally.count(
            group,
            if refused {
                sampled.refusal
            } else {
                sampled.reading
            },
        );
        (sampled != second(&case)).then_some(case)
    }

    fn shrunk(&self, mut case: Case) -> Case {
        let plain = |_: &u32| vec![0, 0x3f80_0000, 0x4000_0000];
        Shrinker::start().simplify(&mut case, |case| &mut case.patterns, plain, differs);
        case
    }

    fn input(&self, case: &Case) -> String {
        let gate = ["normal", "inverted", "dead"][usize::from(case.gate)];
        format!("gate {gate} {}", show::words(&case.patterns))
    }

    fn answers(&self, case: &Case) -> String {
        let (proved, second) = (proved(case), second(case));
        format!("  proved {proved:x?}\n  second {second:x?}")
    }
}
