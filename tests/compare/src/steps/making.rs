//! Random sessions: a script is uploaded, started and stepped to its end, at times with interference.

use super::session::{Action, Session};
use makers::compose;
use makers::log::Log;
use makers::random::Random;
use makers::ranges;
use makers::registers::{self, CONTROL, ENTRY_POINT, ENTRY_POINT_HIGH, FLAGS_0, FLAGS_1, TRIGGER};
use makers::script::Script;
use makers::upload::Upload;

/// A whole session.
pub fn session(random: &mut Random) -> Session {
    let unknown = random.chance(3);
    let family = if unknown {
        random.pick(&[0, 5, 6, 255])
    } else {
        1 + random.below(4) as u8
    };
    let ranges = ranges::random(random);
    let script = compose::script(random, family, &ranges);
    let mut log = Log::fitting(random, &script.waits());
    // Bad on both counts shows which refusal comes first.
    if random.chance(if unknown { 40 } else { 2 }) {
        log.spoil(random);
    }
    let number = random.below(4) as u32;
    let mut actions = setup(random, family, &script, number);
    for _ in 0..1 + random.below(3) {
        let steps = script.pieces.len() + 1 + random.below(3);
        round(random, family, steps, number, &mut actions);
    }
    actions.push(Action::ReadAll);
    Session {
        family,
        upload: Upload::random(random, &script),
        script,
        log,
        actions,
    }
}

/// Upload, entry points and other registers, in any order.
fn setup(random: &mut Random, family: u8, script: &Script, number: u32) -> Vec<Action> {
    let write = |address, word| Action::Write { address, word };
    let mut actions = vec![Action::Upload];
    let others = !(0xff << (8 * number));
    let entry = (script.at as u32 & 0xff) << (8 * number);
    actions.push(write(ENTRY_POINT, random.half() & others | entry));
    if family == 4 {
        let bit = (script.at as u32 >> 8) << (8 * number);
        actions.push(write(ENTRY_POINT_HIGH, random.half() & others | bit));
    }
    if random.chance(90) {
        // bit 3 as a rule, so that pokes are done
        let enable = if random.chance(85) { 8 } else { 0 };
        actions.push(write(CONTROL, random.half() & !8 | enable));
    }
    if random.chance(30) {
        actions.push(write(FLAGS_0, random.edgy()));
        actions.push(write(FLAGS_1, random.edgy()));
    }
    if random.chance(20) {
        actions.push(noise(random));
    }
    random.shuffle(&mut actions);
    actions
}

/// A start, steps with few disturbances, and at times an abort.
fn round(random: &mut Random, family: u8, steps: usize, number: u32, actions: &mut Vec<Action>) {
    let slot_bit = random.half() & 2;
    let more = if random.chance(20) {
        random.half() & !15
    } else {
        0
    };
    actions.push(Action::Write {
        address: TRIGGER,
        word: 1 | slot_bit | number << 2 | more,
    });
    // Bit 1 means slot A; on family 4 it means nothing, and there is no slot B.
    let slot = match (slot_bit, family) {
        (2, _) => 0,
        (_, 4) => random.pick(&[0, 0, 0, 1]),
        _ => random.pick(&[1, 1, 1, 0, 255]),
    };
    for _ in 0..steps {
        if random.chance(3) {
            disturb(random, slot, actions);
        }
        let other = random.chance(4);
        actions.push(Action::Step(if other { u8::from(slot == 0) } else { slot }));
    }
    if random.chance(50) {
        actions.push(Action::Write {
            address: TRIGGER,
            word: slot_bit | more & !1,
        });
    }
}

/// Disturbs a round; another place in the log lasts for a step, or most later ones would be refused.
fn disturb(random: &mut Random, slot: u8, actions: &mut Vec<Action>) {
    let action = noise(random);
    let moves = matches!(action, Action::Place { .. });
    actions.push(action);
    if moves {
        actions.push(Action::Step(slot));
        actions.push(Action::Place { row: 0, used: 0 });
    }
}

/// A disturbance: any host access, another place in the log, or a state that the host can't make.
fn noise(random: &mut Random) -> Action {
    match random.below(14) {
        0..=3 => Action::Write {
            address: registers::random(random),
            word: random.edgy(),
        },
        4 | 5 => Action::Write {
            address: TRIGGER,
            word: random.half() & 15,
        },
        6 | 7 => Action::Read(registers::random(random)),
        8 => Action::ReadAll,
        9 => Action::Place {
            row: random.below(4),
            used: random.pick(&[0, 0, 0, 1, 31, 32, 400, u64::MAX]),
        },
        10 => Action::Force {
            slot: random.below(2),
            mode: random.below(5) as u8,
            ip: random.pick(&[0, 1, 63, 64, 127, 128, 255, 256, 511, 512, u32::MAX]),
        },
        11 => Action::High(random.half()),
        _ => Action::Raw {
            at: random.below(512),
            byte: random.byte(),
            mark: random.pick(&[0, 1, 1, 2, 255]),
        },
    }
}
