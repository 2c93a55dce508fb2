//! Laws over pseudo-random lists of ranges: each kind is answered as a plain scan answers it.

use crate::ranges::{ends, rising, same_as_scan, WIDTHS};
use makers::random::Random;
use makers::ranges::{self, flat, Range};
use second::audit::Ranges;

/// One kind of list.
type Kind = fn(&mut Random) -> Vec<Range>;

const KINDS: [Kind; 9] = [
    ranges::random,
    apart,
    close,
    spaced,
    nested,
    falling,
    shuffled,
    repeated,
    shared,
];

/// Any addresses, taken in pairs in rising order.
fn apart(random: &mut Random) -> Vec<Range> {
    let count = random.below(65);
    let mut cuts: Vec<u32> = (0..2 * count).map(|_| random.edgy()).collect();
    cuts.sort_unstable();
    // Equal cuts leave a range of one address, or two ranges that share one.
    cuts.chunks_exact(2)
        .map(|ends| (ends[0], ends[1]))
        .collect()
}

/// Small steps from one end to the next, so that ranges touch and share an address by chance.
fn close(random: &mut Random) -> Vec<Range> {
    let count = random.below(65);
    let mut at = random.below(5) as u32;
    let mut step = || {
        at += random.below(3) as u32;
        at
    };
    (0..count).map(|_| (step(), step())).collect()
}

/// Ranges that rise in any number, up to those that touch.
fn spaced(random: &mut Random) -> Vec<Range> {
    let width = random.pick(&WIDTHS);
    rising(random.between(0, 64) as u32, width)
}

/// Each range within the one before it.
fn nested(random: &mut Random) -> Vec<Range> {
    let count = random.between(2, 64);
    let (mut first, mut last) = (random.half() >> 1, u32::MAX - (random.half() >> 2));
    let mut inner = || {
        first += random.below(9) as u32;
        last -= random.below(9) as u32;
        (first, last)
    };
    (0..count).map(|_| inner()).collect()
}

fn falling(random: &mut Random) -> Vec<Range> {
    let mut ranges = spaced(random);
    ranges.reverse();
    ranges
}

fn shuffled(random: &mut Random) -> Vec<Range> {
    let mut ranges = close(random);
    random.shuffle(&mut ranges);
    ranges
}

/// One of the ranges stands twice.
fn repeated(random: &mut Random) -> Vec<Range> {
    let mut ranges = rising(random.between(1, 63) as u32, 2);
    let range = random.pick(&ranges);
    ranges.insert(random.between(0, ranges.len()), range);
    ranges
}

/// Of two that would be neighbours the first reaches into the second.
fn shared(random: &mut Random) -> Vec<Range> {
    let mut ranges = rising(random.between(2, 64) as u32, 0x1000);
    let i = random.below(ranges.len() - 1);
    ranges[i].1 = ranges[i + 1].0 + random.below(3) as u32;
    ranges
}

#[test]
fn every_kind_of_list_is_answered_as_a_scan_answers_it() {
    for (salt, kind) in KINDS.iter().enumerate() {
        for number in 0..1_000 {
            let mut random = Random::of_case(2, salt as u64, number);
            let ranges = kind(&mut random);
            let mut addresses = ends(&ranges);
            addresses.extend((0..20).map(|_| random.edgy()));
            addresses.extend((0..20).filter_map(|_| ranges::address(&mut random, &ranges)));
            same_as_scan(&ranges, &addresses);
        }
    }
}

/// A list rises just where its firsts are in order and no two of its ranges share an address.
#[test]
fn rising_is_in_order_and_without_a_shared_address() {
    let mut met = [[0; 2]; KINDS.len()];
    for (salt, kind) in KINDS.iter().enumerate() {
        for number in 0..1_000 {
            let ranges = kind(&mut Random::of_case(3, salt as u64, number));
            let ordered = ranges.iter().is_sorted_by_key(|range| range.0);
            let share = |a: &Range, b: &Range| a.0 <= b.1 && b.0 <= a.1;
            let pairs = (0..ranges.len()).flat_map(|i| (0..i).map(move |j| (i, j)));
            let mut pairs = pairs.map(|(i, j)| (&ranges[i], &ranges[j]));
            let expected = ordered && !pairs.any(|(a, b)| share(a, b));
            let rise = Ranges::new(&flat(&ranges)).unwrap().rise();
            assert_eq!(rise, expected, "{ranges:08x?}");
            met[salt][usize::from(rise)] += 1;
        }
    }
    let both = met.iter().filter(|met| met[0] > 10 && met[1] > 10).count();
    assert!(both >= 4, "{met:?}");
}
