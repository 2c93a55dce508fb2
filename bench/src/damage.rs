//! Damaged scripts, logs and jobs, on which all must answer alike, faults too.

use crate::audits;
use crate::jobs;
use crate::logs;
use crate::replays;
use crate::reports;
use crate::scripts::{self, ranges, Script};
use crate::witnesses;
use hwsq::REPORT_SIZE;
use makers::jobs::damage::BYTES;
use makers::random::Random;

const SCRIPTS: usize = 24_000;
const JOBS: usize = 5_000;
const SEED: u64 = 1;

/// Up to four bytes changed, and now and then a mark.
fn damage(script: &mut Script, random: &mut Random) {
    let size = script.code.len();
    for _ in 0..1 + random.below(4) {
        script.code[random.below(size)] = random.byte();
    }
    if random.below(5) == 0 {
        script.marks[random.below(size)] = random.below(3) as u8;
    }
}

fn damaged(kinds: fn() -> Vec<Script>, random: &mut Random, mut compare: impl FnMut(&Script)) {
    for _ in 0..SCRIPTS / kinds().len() {
        for mut script in kinds() {
            damage(&mut script, random);
            compare(&script);
        }
    }
}

pub fn agree() {
    let mut random = Random::of_case(SEED, 0, 0);
    let ranges = ranges();
    damaged(scripts::audited, &mut random, |script| {
        audits::agreed(script, &ranges);
    });
    damaged(scripts::replayed, &mut random, |script| {
        replays::agreed(script, &logs::walked_by(script));
    });
    let mut out = [0; REPORT_SIZE];
    let whole = [jobs::typical(), jobs::full(0x7f), jobs::captures()];
    for round in 0..JOBS {
        let mut job = whole[round % whole.len()].clone();
        random.pick(&BYTES)(&mut random, &mut job);
        reports::agreed(&job, &mut out);
    }
    damaged(scripts::witnessed, &mut random, |script| {
        witnesses::agreed(script, &ranges);
    });
    println!("same answers on {SCRIPTS} damaged scripts audited, {SCRIPTS} replayed, {SCRIPTS} with witnesses, and {JOBS} damaged jobs");
}
