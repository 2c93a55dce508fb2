//! Random gates and captures: the report is that of the masks they make, with lines for the volts that came.

use crate::captures::DEAD;
use crate::common::Random;
use crate::job::{text, Records};
use second::probe::{read, Calibration, Gate};

/// Raw values, levels and offsets that meet each other often.
const FLOATS: [f32; 12] = [
    -0.0,
    0.0,
    1.0,
    -1.0,
    2.0,
    0.5,
    1.5,
    f32::MAX,
    f32::MIN,
    f32::MIN_POSITIVE,
    f32::INFINITY,
    f32::NAN,
];

/// The gate of one event and the volts that came there.
#[derive(Clone)]
struct Model {
    event: u8,
    byte: u8,
    floats: [f32; 4],
    volts: Vec<f32>,
}

impl Model {
    fn random(random: &mut Random, event: u8) -> Model {
        let byte = random.below(3) as u8;
        let finite = |random: &mut Random| FLOATS[random.below(10) as usize];
        let mut floats = [0; 4].map(|_| finite(random));
        if byte != DEAD && floats[0] >= floats[1] {
            floats[..2].copy_from_slice(&[-1.0, 1.0]);
        }
        Model {
            event,
            byte,
            floats,
            volts: vec![],
        }
    }

    fn gate(&self) -> Gate {
        let [low, high, ..] = self.floats;
        match self.byte {
            0 => Gate::Normal { low, high },
            1 => Gate::Inverted { low, high },
            _ => Gate::Dead,
        }
    }

    /// Captures a raw value and gives its reading.
    fn capture(&mut self, raw: f32) -> Option<u8> {
        let [.., gain, offset] = self.floats;
        self.volts.push(raw * gain + offset);
        read(self.gate(), Calibration { gain, offset }, raw.to_bits()).unwrap()
    }

    fn line(&self) -> String {
        let finite: Vec<f32> = self
            .volts
            .iter()
            .copied()
            .filter(|v| v.is_finite())
            .collect();
        let bits = |found: Option<&f32>| {
            found.map_or("none".to_string(), |v| format!("{:08x}", v.to_bits()))
        };
        // The first of those that none lies below, or above.
        let least = finite.iter().find(|a| finite.iter().all(|b| *a <= b));
        let greatest = finite.iter().find(|a| finite.iter().all(|b| *a >= b));
        let [low, high, ..] = self.floats;
        let between = finite
            .iter()
            .filter(|v| self.byte != DEAD && **v > low && **v < high);
        let (event, between) = (self.event, between.count());
        format!(
            "event {event} least {} greatest {} between {between}\n",
            bits(least),
            bits(greatest)
        )
    }
}

fn raw(random: &mut Random) -> f32 {
    if random.chance(20) {
        return f32::from_bits(random.word());
    }
    FLOATS[random.below(FLOATS.len() as u64) as usize]
}

/// A job with captures, the same with their masks in the rows instead, and the models of its gates.
fn pair(random: &mut Random) -> (Vec<u8>, Vec<u8>, Vec<Model>) {
    let script = format!("5f{:02x}{:02x} 01 7f", random.below(6), random.below(2));
    let mut plain = Records::family(2).code(&script).start_a();
    let mut models: Vec<Model> = (0..random.below(6))
        .map(|event| Model::random(random, event as u8))
        .collect();
    let gates = models.iter().rev();
    let mut captured = gates.fold(plain.clone(), |job, model| {
        job.gate(model.event, model.byte, model.floats)
    });
    for _ in 0..random.below(6) {
        let own = (random.word(), random.word());
        let (mut masks, mut any) = ((0, 0), false);
        for model in &mut models {
            if random.chance(50) {
                continue;
            }
            let raw = raw(random);
            captured = captured.capture(model.event, raw);
            any = true;
            if let Some(reading) = model.capture(raw) {
                masks.0 |= 1 << model.event;
                masks.1 |= u32::from(reading) << model.event;
            }
        }
        let (known, values) = if any { masks } else { own };
        let clocks = 1 + random.below(60);
        captured = captured.row(clocks, own.0, own.1);
        plain = plain.row(clocks, known, values);
    }
    (captured.end(), plain.end(), models)
}

#[test]
fn captures_report_as_their_masks_would() {
    let mut random = Random::of(33);
    for _ in 0..3_000 {
        let (captured, plain, models) = pair(&mut random);
        let events: String = models.iter().map(Model::line).collect();
        let expected = text(&plain).replacen("end ", &format!("{events}end "), 1);
        assert_eq!(text(&captured), expected);
    }
}
