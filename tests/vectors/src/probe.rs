//! The call on probe gates.

use crate::show;
use calls::words::{Answer, Words};

/// What stands for every NaN: neither its sign nor its payload is fixed by an operation.
const ANY_NAN: u32 = 0x7fc0_0000;
/// Kinds of gate, as include/hwsq.h numbers them.
const GATES: [u8; 3] = [0, 1, 2];
const READINGS: [&str; 3] = ["0", "1", "none"];

pub fn gate(words: &mut Words) -> Answer {
    let gate = words.one_of("a kind of gate", &GATES, name)?;
    let (low, high) = (words.word()?, words.word()?);
    let (gain, offset) = (words.word()?, words.word()?);
    let sampled = hwsq::sample(gate, low, high, gain, offset, words.word()?);
    Ok(Some(show::answer(sampled.refusal, || {
        let reads = READINGS[usize::from(sampled.reading)];
        format!("volts {:08x} reads {reads}", pattern(sampled.volts))
    })))
}

fn name(gate: u8) -> &'static str {
    ["normal", "inverted", "dead"][usize::from(gate)]
}

fn pattern(volts: u32) -> u32 {
    if f32::from_bits(volts).is_nan() {
        ANY_NAN
    } else {
        volts
    }
}
