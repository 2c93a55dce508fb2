//! Allowed ranges: first and last address alternating in one slice.

use crate::isa::MmioAddress;
use crate::misreadings::{in_force, Misreading};
use crate::Refusal;
use std::cmp::Ordering;

/// Most ranges an audit takes.
pub const MOST_RANGES: usize = 64;

/// The ranges of one audit.
#[derive(Clone, Copy, Debug)]
pub struct Ranges<'a> {
    list: &'a [u32],
    rise: bool,
}

impl<'a> Ranges<'a> {
    /// Tests the list: first for its refusals, then, once for all lookups, whether it rises.
    pub fn new(list: &'a [u32]) -> Result<Ranges<'a>, Refusal> {
        check_ranges(list)?;
        // Both ends are included, so two ranges that share one address overlap.
        let rise = list
            .chunks_exact(2)
            .is_sorted_by(|range, next| range[1] < next[0]);
        Ok(Ranges { list, rise })
    }

    /// Whether each range ends before the next one begins.
    pub fn rise(&self) -> bool {
        self.rise
    }

    /// Whether a range holds the address, both ends included.
    pub fn hold(&self, address: MmioAddress) -> bool {
        self.search(|first, last| look(first, last, address))
    }

    /// Whether a look finds a range that holds the address; `look` is asked once for each look.
    pub fn search(&self, look: impl FnMut(u32, u32) -> Ordering) -> bool {
        // The papers: fewer looks are for lists that rise; any other answers as it did before.
        if self.rise || in_force(Misreading::AnyListByHalves) {
            by_halves(self.list, look)
        } else {
            one_by_one(self.list, look)
        }
    }
}

/// Whether a range holds the address, both ends included; a first without its last holds none.
pub fn listed(ranges: &[u32], address: MmioAddress) -> bool {
    one_by_one(ranges, |first, last| look(first, last, address))
}

/// What a look at a range tells: it is below the address, above it, or holds it.
pub fn look(first: u32, last: u32, address: MmioAddress) -> Ordering {
    // The papers: both ends are included.
    let past = in_force(Misreading::PokeOutsideRangeAtLast) && address.0 == last;
    if last < address.0 || past {
        Ordering::Less
    } else if first > address.0 {
        Ordering::Greater
    } else {
        Ordering::Equal
    }
}

fn one_by_one(ranges: &[u32], mut look: impl FnMut(u32, u32) -> Ordering) -> bool {
    ranges
        .chunks_exact(2)
        .any(|range| look(range[0], range[1]).is_eq())
}

/// The search of a list that rises: a look at the middle range leaves at most half of the list.
fn by_halves(mut ranges: &[u32], mut look: impl FnMut(u32, u32) -> Ordering) -> bool {
    // The standard search promises no number of looks.
    while let (below, [first, last, above @ ..]) = ranges.split_at(ranges.len() / 4 * 2) {
        match look(*first, *last) {
            Ordering::Less => ranges = above,
            Ordering::Greater => ranges = below,
            Ordering::Equal => return true,
        }
    }
    false
}

/// Refuses too many ranges, a first without its last, and one above its last.
fn check_ranges(ranges: &[u32]) -> Result<(), Refusal> {
    let mut pairs = ranges.chunks_exact(2);
    let too_many = pairs.len() > MOST_RANGES;
    if too_many || pairs.any(|range| range[0] > range[1]) || !ranges.len().is_multiple_of(2) {
        return Err(Refusal::UnfitInput);
    }
    Ok(())
}
