//! Gates and captures of a job: levels at the very volts of captures or next to them, zeros of either sign, volts that are none.

use crate::floats;
use crate::random::Random;

/// How many events there are.
pub const EVENTS: usize = 32;
/// Most captures of a draft, so that with as many rows and writes as there may be it is no longer than a job may be.
pub const MOST_CAPTURES: usize = 1_500;

const NORMAL: u8 = 0;
const INVERTED: u8 = 1;
pub const DEAD: u8 = 2;

const ONE: u32 = 0x3f80_0000;
const TWO: u32 = 0x4000_0000;
const LARGEST: u32 = 0x7f7f_ffff;
/// The bit of a float's sign, which alone is -0.0.
const MINUS: u32 = 0x8000_0000;
/// 0.8 and 2.0 volts.
const BENCH_LEVELS: (u32, u32) = (0x3f4c_cccd, TWO);

/// What a gate record says; floats are patterns.
#[derive(Clone, Copy, Debug, PartialEq, Eq)]
pub struct Gate {
    pub event: u8,
    pub gate: u8,
    pub low: u32,
    pub high: u32,
    pub gain: u32,
    pub offset: u32,
}

/// What a capture record says.
#[derive(Clone, Copy, Debug, PartialEq, Eq)]
pub struct Capture {
    pub event: u8,
    pub raw: u32,
}

/// A gate, and the raw floats that its levels, its gain and its offset are made to.
#[derive(Clone, Debug)]
pub struct Probe {
    pub gate: Gate,
    pub raws: Vec<u32>,
}

/// Probes of a few events as a rule, at times of all, in any order.
pub fn random(random: &mut Random) -> Vec<Probe> {
    // The events that most scripts wait for.
    let highest = if random.chance(70) { 4 } else { EVENTS };
    let few = 1 + random.below(4);
    let count = if random.chance(10) { highest } else { few };
    let mut probes = all(random, highest);
    probes.truncate(count);
    probes
}

/// A probe for each event below this one, in any order.
pub fn all(random: &mut Random, end: usize) -> Vec<Probe> {
    let mut probes: Vec<Probe> = (0..end as u8)
        .map(|event| Probe::random(random, event))
        .collect();
    random.shuffle(&mut probes);
    probes
}

/// The captures before each of so many rows: before few of them, half, most or all.
pub fn captures(random: &mut Random, probes: &[Probe], rows: usize) -> Vec<Vec<Capture>> {
    if probes.is_empty() {
        return vec![];
    }
    let captured = random.pick(&[20, 50, 90, 100]);
    let mut left = MOST_CAPTURES;
    let mut lists = Vec::new();
    for _ in 0..rows {
        let mut list = Vec::new();
        if random.chance(captured) {
            list = before_row(random, probes);
            list.truncate(left);
        }
        left -= list.len();
        lists.push(list);
    }
    lists
}

/// Captures before one row: of each event with a gate or of some, in any order.
pub fn before_row(random: &mut Random, probes: &[Probe]) -> Vec<Capture> {
    let captured = random.pick(&[30, 70, 100]);
    let mut list = Vec::new();
    for probe in probes {
        if random.chance(captured) {
            list.push(probe.capture(random));
        }
    }
    random.shuffle(&mut list);
    list
}

impl Probe {
    /// A probe with a gate that is allowed.
    pub fn random(random: &mut Random, event: u8) -> Probe {
        let mut probe = match random.below(8) {
            0..=2 => bench(random),
            3 => zeros(random),
            4 => without_volts(random),
            _ => edges(random),
        };
        probe.gate.event = event;
        probe.gate.gate = random.pick(&[NORMAL, NORMAL, NORMAL, INVERTED, INVERTED, DEAD]);
        if probe.gate.gate == DEAD && random.chance(80) {
            probe.gate.low = floats::pattern(random);
            probe.gate.high = floats::not_finite(random);
        }
        probe
    }

    /// A capture: a raw float that the gate is made to, one next to it, or any.
    pub fn capture(&self, random: &mut Random) -> Capture {
        let made = random.pick(&self.raws);
        let raw = match random.below(20) {
            0 => floats::pattern(random),
            1..=4 => floats::beside(random, made),
            _ => made,
        };
        Capture {
            event: self.gate.event,
            raw,
        }
    }
}

/// A probe of event 0 with a normal gate.
fn normal((low, high): (u32, u32), gain: u32, offset: u32, raws: Vec<u32>) -> Probe {
    let gate = Gate {
        event: 0,
        gate: NORMAL,
        low,
        high,
        gain,
        offset,
    };
    Probe { gate, raws }
}

/// Plain volts below, at, between, at and above plain levels, so that most captures are readings.
fn bench(random: &mut Random) -> Probe {
    let (low, high) = BENCH_LEVELS;
    let volts = [0.0, 0.5, 1.5, 3.0, 3.3].map(f32::to_bits);
    let raws = [low, high].into_iter().chain(volts).collect();
    let gain = random.pick(&[ONE, ONE, TWO]);
    normal((low, high), gain, random.half() & MINUS, raws)
}

/// Volts that are 0.0 and -0.0, with levels around them or at one of them.
fn zeros(random: &mut Random) -> Probe {
    let gain = random.pick(&[0, ONE]) | random.half() & MINUS;
    let any = floats::finite(random) & !MINUS;
    let raws = if gain & !MINUS == 0 {
        vec![0, MINUS, any, any | MINUS]
    } else {
        vec![0, MINUS]
    };
    let (minus_one, zero) = (ONE | MINUS, random.half() & MINUS);
    let levels = random.pick(&[(minus_one, ONE), (zero, ONE), (minus_one, zero)]);
    normal(levels, gain, MINUS, raws)
}

/// NaN, infinities, and floats that the gain makes infinite.
fn without_volts(random: &mut Random) -> Probe {
    let lost = [(); 3].map(|_| floats::not_finite(random));
    let overflowing = [LARGEST, LARGEST | MINUS, 0x7f00_0001];
    let raws = lost.into_iter().chain(overflowing).collect();
    normal(BENCH_LEVELS, random.pick(&[TWO, LARGEST]), 0, raws)
}

/// Any gain and offset, and levels at the very volts of a raw float or next to them.
fn edges(random: &mut Random) -> Probe {
    let gain = if random.chance(50) {
        random.pick(&[ONE, TWO, ONE | MINUS])
    } else {
        floats::finite(random)
    };
    let offset = if random.chance(50) {
        random.half() & MINUS
    } else {
        floats::finite(random)
    };
    let raws: Vec<u32> = (0..4).map(|_| floats::pattern(random)).collect();
    let mut level = |raw: u32| {
        let volts = f32::from_bits(raw) * f32::from_bits(gain) + f32::from_bits(offset);
        floats::beside(random, volts.to_bits())
    };
    let found = (level(raws[0]), level(raws[1]));
    let levels = rising(found).unwrap_or_else(|| edge_levels(random));
    normal(levels, gain, offset, raws)
}

/// The two as levels, where both are finite and not equal.
fn rising((one, other): (u32, u32)) -> Option<(u32, u32)> {
    let (first, second) = (f32::from_bits(one), f32::from_bits(other));
    if !first.is_finite() || !second.is_finite() || first == second {
        None
    } else if first < second {
        Some((one, other))
    } else {
        Some((other, one))
    }
}

/// Levels as far apart as they may be, or next to each other.
fn edge_levels(random: &mut Random) -> (u32, u32) {
    random.pick(&[
        (LARGEST | MINUS, LARGEST),
        (ONE, ONE + 1),
        (0, 1),
        (1 | MINUS, MINUS),
        (LARGEST - 1, LARGEST),
        BENCH_LEVELS,
    ])
}
