//! The call on probe gates.

use calls::words::{wrong, Answer, Read, Words};
use second::probe::{self, Calibration, Gate};
use second::show;

/// What stands for every NaN: neither its sign nor its payload is fixed by an operation.
const ANY_NAN: u32 = 0x7fc0_0000;

pub fn gate(words: &mut Words) -> Answer {
    let gate = gate_of(words)?;
    let calibration = Calibration {
        gain: float(words)?,
        offset: float(words)?,
    };
    let raw = words.word()?;
    let answer = probe::read(gate, calibration, raw).map(|reading| {
        let volts = calibration.volts(f32::from_bits(raw));
        let reads = reading.map_or("none".to_string(), |bit| bit.to_string());
        format!("volts {:08x} reads {reads}", pattern(volts))
    });
    Ok(Some(show::answer(answer)))
}

/// The gate of a call; a dead one has no levels, so those beside it are left out.
fn gate_of(words: &mut Words) -> Read<Gate> {
    let wanted = "a kind of gate";
    let kind = words.text(wanted)?;
    let (low, high) = (float(words)?, float(words)?);
    match kind {
        "normal" => Ok(Gate::Normal { low, high }),
        "inverted" => Ok(Gate::Inverted { low, high }),
        "dead" => Ok(Gate::Dead),
        _ => Err(wrong(kind, wanted)),
    }
}

fn float(words: &mut Words) -> Read<f32> {
    words.word().map(f32::from_bits)
}

fn pattern(volts: f32) -> u32 {
    if volts.is_nan() {
        ANY_NAN
    } else {
        volts.to_bits()
    }
}
