//! Random allowed ranges, and addresses at their edges.

use crate::jobs::records::MOST_RANGES;
use crate::random::Random;
use crate::registers;

/// First and last address, both allowed.
pub type Range = (u32, u32);

/// No, some, or as many ranges as are allowed.
pub fn random(random: &mut Random) -> Vec<Range> {
    let count = match random.below(12) {
        0 => 0,
        1 => MOST_RANGES,
        2 => 1 + random.below(MOST_RANGES),
        _ => 1 + random.below(4),
    };
    // Of many ranges each is small, or the last would never be needed.
    let most = if count > 8 { 0xf } else { u32::MAX };
    (0..count).map(|_| narrowed(range(random), most)).collect()
}

fn narrowed((first, last): Range, most: u32) -> Range {
    (first, last.min(first.saturating_add(most)))
}

/// A range of one address, of a register, of one high half, or of any size.
pub fn range(random: &mut Random) -> Range {
    // A poke of the sequencer's own registers changes none, so that some are allowed.
    let first = if random.chance(15) {
        registers::random(random)
    } else {
        random.edgy()
    };
    let last = match random.below(6) {
        0 => first,
        1 => first.saturating_add(3),
        2 => first | 0xffff,
        3 => first.saturating_add(random.half() & 0xffff),
        4 => first.saturating_add(random.half()),
        _ => first.saturating_add(random.half() & 0xff),
    };
    (first, last)
}

/// An address in one of the ranges, its ends more often than not.
pub fn address(random: &mut Random, ranges: &[Range]) -> Option<u32> {
    if ranges.is_empty() {
        return None;
    }
    let (first, last) = match random.below(5) {
        0 => ranges[ranges.len() - 1],
        _ => random.pick(ranges),
    };
    let width = u64::from(last - first) + 1;
    Some(match random.below(3) {
        0 => first,
        1 => last,
        _ => first + (random.word() % width) as u32,
    })
}

/// An address just outside a range, which another may hold.
pub fn outside(random: &mut Random, ranges: &[Range]) -> u32 {
    if ranges.is_empty() {
        return random.edgy();
    }
    let (first, last) = random.pick(ranges);
    if random.chance(50) {
        first.wrapping_sub(1)
    } else {
        last.wrapping_add(1)
    }
}

/// As many ranges as are allowed, of 4,096 addresses each, one behind the other.
pub fn most(base: u32) -> Vec<Range> {
    let firsts = (0..MOST_RANGES as u32).map(|i| base + 0x1000 * i);
    firsts.map(|first| (first, first + 0xfff)).collect()
}

/// The ranges as the auditor takes them.
pub fn flat(ranges: &[Range]) -> Vec<u32> {
    ranges
        .iter()
        .flat_map(|&(first, last)| [first, last])
        .collect()
}
