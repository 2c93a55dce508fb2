//! Addresses of the host's registers, of their neighbours, and of nothing.

use crate::random::Random;

pub const CONTROL: u32 = 0x1098;
pub const ENTRY_POINT: u32 = 0x1304;
pub const TRIGGER: u32 = 0x130c;
pub const FLAGS_0: u32 = 0x1310;
pub const FLAGS_1: u32 = 0x1314;
pub const ENTRY_POINT_HIGH: u32 = 0x1318;
pub const CODE: u32 = 0x1400;
pub const NEW_CODE: u32 = 0x8_0000;

/// Registers outside code RAM, then what is none: their neighbours, unaligned ones, the windows' ends.
const LISTED: [u32; 8] = [
    CONTROL,
    ENTRY_POINT,
    0x1308,
    TRIGGER,
    FLAGS_0,
    FLAGS_1,
    ENTRY_POINT_HIGH,
    0x1578,
];
const OTHERS: [u32; 18] = [
    0,
    0x1094,
    0x1099,
    0x109c,
    0x1300,
    0x1305,
    0x130d,
    0x131c,
    0x13fc,
    0x1401,
    0x1402,
    0x1403,
    0x1500,
    0x157c,
    0x7_fffc,
    0x8_0001,
    0x8_0200,
    0xffff_fffc,
];

/// Every listed address, every word of both code windows, and the others.
pub fn all() -> Vec<u32> {
    let code = (0..0x100).step_by(4).map(|at| CODE + at);
    let new_code = (0..0x200).step_by(4).map(|at| NEW_CODE + at);
    let single = LISTED.into_iter().chain(OTHERS);
    single.chain(code).chain(new_code).collect()
}

/// A register, a code word, or no register.
pub fn random(random: &mut Random) -> u32 {
    match random.below(6) {
        0 | 1 => random.pick(&LISTED),
        2 => CODE + 4 * random.below(64) as u32,
        3 => NEW_CODE + 4 * random.below(128) as u32,
        4 => random.pick(&OTHERS),
        _ => unwritable(random),
    }
}

/// An address that is no writable register, whatever the family.
pub fn unwritable(random: &mut Random) -> u32 {
    match random.below(4) {
        0 => random.pick(&OTHERS),
        1 => random.pick(&[0x1308, 0x1578]),
        2 => CODE + (random.half() & 0xff | 1),
        _ => random.half() | 2,
    }
}

/// An address that families below 4, or smaller ones, lack.
pub fn of_larger_family(random: &mut Random) -> u32 {
    match random.below(4) {
        0 => ENTRY_POINT_HIGH,
        1 => NEW_CODE + 4 * random.below(128) as u32,
        2 => random.pick(&[CODE + 0x40, CODE + 0x80, CODE + 0x7c, CODE + 0xfc]),
        _ => CODE + 0x40 + 4 * random.below(48) as u32,
    }
}
