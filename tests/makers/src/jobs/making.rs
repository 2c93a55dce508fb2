//! Random jobs: a sound one, then no damage, one, or two.

use super::damage::{self, BYTES, DRAFTS, RECORDS};
use super::draft::Draft;
use crate::random::Random;

/// How many times in a hundred a job stays sound.
const SOUND: usize = 45;

/// The bytes of a random job.
pub fn job(random: &mut Random) -> Vec<u8> {
    if random.chance(SOUND) {
        return Draft::random(random).records().concat();
    }
    if random.chance(3) {
        return damage::noise(random);
    }
    let first = random.below(damages());
    let second = random.below(damages());
    let both = random.chance(20);
    damaged(random, |number| number == first || both && number == second)
}

fn damages() -> usize {
    DRAFTS.len() + RECORDS.len() + BYTES.len()
}

/// A job with the damages chosen: those to the draft first, then to its records, then to its bytes.
fn damaged(random: &mut Random, chosen: impl Fn(usize) -> bool) -> Vec<u8> {
    let mut draft = Draft::random(random);
    for (number, damage) in DRAFTS.iter().enumerate() {
        if chosen(number) {
            damage(random, &mut draft);
        }
    }
    let mut records = draft.records();
    for (number, damage) in RECORDS.iter().enumerate() {
        if chosen(DRAFTS.len() + number) {
            damage(random, &mut records);
        }
    }
    let mut bytes = records.concat();
    for (number, damage) in BYTES.iter().enumerate() {
        if chosen(DRAFTS.len() + RECORDS.len() + number) {
            damage(random, &mut bytes);
        }
    }
    bytes
}
