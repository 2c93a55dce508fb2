//! Lists of ranges: which of them rise, what they hold, and how many looks tell it.

use crate::common::{Script, ALL};
use makers::ranges::{flat, Range};
use second::audit::{listed, look, Ranges, MOST_RANGES};
use second::isa::MmioAddress;
use second::Refusal;

/// Whether a range holds the address, by a plain scan.
fn scan(ranges: &[Range], address: u32) -> bool {
    ranges
        .iter()
        .any(|&(first, last)| (first..=last).contains(&address))
}

/// Both ends of each range and the addresses beside them.
pub fn ends(ranges: &[Range]) -> Vec<u32> {
    let beside = |end: u32| [end.wrapping_sub(1), end, end.wrapping_add(1)];
    flat(ranges).into_iter().flat_map(beside).collect()
}

/// What the audit of one poke says of its address.
fn audited(list: &[u32], address: u32) -> bool {
    let poke = format!("e200000000 e0{:08x} 7f", address.swap_bytes());
    match Script::new(2, &poke).verdict(list) {
        (0, 10) => true,
        (6, 5) => false,
        other => panic!("{other:?}"),
    }
}

/// Looks that every answer about these addresses is that of the scan.
pub fn same_as_scan(ranges: &[Range], addresses: &[u32]) {
    let list = flat(ranges);
    let tested = Ranges::new(&list).unwrap();
    for &address in addresses {
        let expected = scan(ranges, address);
        let held = tested.hold(MmioAddress(address));
        assert_eq!(held, expected, "{address:08x} {ranges:08x?}");
        assert_eq!(listed(&list, MmioAddress(address)), expected);
    }
}

/// The answer of a search and how many looks it took.
fn looked(ranges: &[Range], address: u32) -> (bool, usize) {
    let mut looks = 0;
    let held = Ranges::new(&flat(ranges)).unwrap().search(|first, last| {
        looks += 1;
        look(first, last, MmioAddress(address))
    });
    (held, looks)
}

fn rise(ranges: &[Range]) -> bool {
    Ranges::new(&flat(ranges)).unwrap().rise()
}

/// So many ranges that rise, 2^26 apart; with `width` 2^26 each touches the next.
pub fn rising(count: u32, width: u32) -> Vec<Range> {
    let firsts = (0..count).map(|i| i << 26);
    firsts.map(|first| (first, first + (width - 1))).collect()
}

/// From one address to all there are between two firsts.
pub const WIDTHS: [u32; 4] = [1, 2, 0x1000, 1 << 26];

/// A small list: its ranges, whether they rise, and the addresses they hold.
type Small = (&'static [Range], bool, &'static [u32]);

const SMALL: &[Small] = &[
    // None and one.
    (&[], true, &[]),
    (&[(4, 8)], true, &[4, 5, 6, 7, 8]),
    (&[(7, 7)], true, &[7]),
    (&[(0, 0)], true, &[0]),
    // Apart and touching.
    (&[(2, 3), (5, 6)], true, &[2, 3, 5, 6]),
    (&[(2, 3), (4, 6)], true, &[2, 3, 4, 5, 6]),
    (&[(2, 2), (3, 3), (4, 4)], true, &[2, 3, 4]),
    // One address shared.
    (&[(2, 4), (4, 6)], false, &[2, 3, 4, 5, 6]),
    (&[(4, 4), (4, 6)], false, &[4, 5, 6]),
    (&[(0, 1), (2, 4), (4, 4)], false, &[0, 1, 2, 3, 4]),
    // More shared.
    (&[(2, 5), (4, 7)], false, &[2, 3, 4, 5, 6, 7]),
    (&[(2, 9), (4, 5), (7, 8)], false, &[2, 3, 4, 5, 6, 7, 8, 9]),
    (&[(2, 6), (4, 4), (9, 9)], false, &[2, 3, 4, 5, 6, 9]),
    (&[(4, 5), (2, 6)], false, &[2, 3, 4, 5, 6]),
    // Falling, also where they only touch, and out of order at one place.
    (&[(5, 6), (2, 3)], false, &[2, 3, 5, 6]),
    (&[(4, 6), (2, 3)], false, &[2, 3, 4, 5, 6]),
    (&[(8, 9), (5, 6), (2, 3)], false, &[2, 3, 5, 6, 8, 9]),
    (&[(2, 3), (8, 9), (5, 6)], false, &[2, 3, 5, 6, 8, 9]),
    (&[(5, 6), (2, 3), (8, 9)], false, &[2, 3, 5, 6, 8, 9]),
    // The same twice.
    (&[(4, 6), (4, 6)], false, &[4, 5, 6]),
    (&[(4, 4), (4, 4)], false, &[4]),
    (&[(1, 1), (4, 5), (4, 5)], false, &[1, 4, 5]),
];

#[test]
fn small_lists_of_every_kind() {
    for &(ranges, expected, held) in SMALL {
        assert_eq!(rise(ranges), expected, "{ranges:?}");
        let list = flat(ranges);
        let tested = Ranges::new(&list).unwrap();
        let found: Vec<u32> = (0..100).filter(|&a| tested.hold(MmioAddress(a))).collect();
        assert_eq!(found, held, "{ranges:?}");
        let passed: Vec<u32> = (0..100).filter(|&a| audited(&list, a)).collect();
        assert_eq!(passed, held, "{ranges:?}");
        same_as_scan(ranges, &(0..100).collect::<Vec<_>>());
        same_as_scan(ranges, &ends(ranges));
    }
}

#[test]
fn the_ends_of_the_address_space() {
    let most = u32::MAX;
    let lists: [(&[Range], bool); 7] = [
        (&[(0, most)], true),
        (&[(0, most - 1), (most, most)], true),
        (&[(0, 0), (1, most)], true),
        (&[(0, 0), (most, most)], true),
        (&[(0, most), (most, most)], false),
        (&[(0, most), (0, most)], false),
        (&[(most, most), (0, 0)], false),
    ];
    for (ranges, expected) in lists {
        assert_eq!(rise(ranges), expected, "{ranges:?}");
        let addresses = [0, 1, 0x7fff_ffff, 0x8000_0000, most - 1, most];
        same_as_scan(ranges, &addresses);
        for address in addresses {
            assert_eq!(audited(&flat(ranges), address), scan(ranges, address));
        }
    }
    assert!(Ranges::new(ALL).unwrap().hold(MmioAddress(most)));
}

#[test]
fn as_many_rising_ranges_as_allowed() {
    for width in WIDTHS {
        let ranges = rising(64, width);
        assert_eq!(ranges.len(), MOST_RANGES);
        assert!(rise(&ranges));
        same_as_scan(&ranges, &ends(&ranges));
        for address in ends(&ranges) {
            assert_eq!(audited(&flat(&ranges), address), scan(&ranges, address));
        }
    }
}

/// One script pokes an end of every range.
#[test]
fn one_audit_of_many_pokes() {
    let ranges = rising(64, 0x1000);
    for end in [|range: Range| range.0, |range: Range| range.1] {
        let poke = |&range| format!("e0{:08x}", end(range).swap_bytes());
        let pokes: String = ranges.iter().map(poke).collect();
        let script = Script::new(4, &format!("e200000000 {pokes} 7f"));
        let pass = script.audit(&flat(&ranges)).unwrap();
        assert_eq!((pass.place.0, pass.writes), (5 + 64 * 5, 64));
        for missing in 0..64 {
            let mut fewer = ranges.clone();
            fewer.remove(missing);
            let place = 5 + 5 * missing as u32;
            assert_eq!(script.verdict(&flat(&fewer)), (6, place));
            fewer.reverse();
            assert_eq!(script.verdict(&flat(&fewer)), (6, place));
        }
    }
}

#[test]
fn one_range_moved_or_two_exchanged() {
    for width in [1, 0x1000, 1 << 26] {
        let ranges = rising(64, width);
        for from in 0..64 {
            for to in [0, (from + 1) % 64, (from + 31) % 64, 32, 63 - from, 63] {
                if from == to {
                    continue;
                }
                let mut exchanged = ranges.clone();
                exchanged.swap(from, to);
                let mut moved = ranges.clone();
                let range = moved.remove(from);
                moved.insert(to, range);
                for list in [exchanged, moved] {
                    assert!(!rise(&list), "{from} {to}");
                    same_as_scan(&list, &ends(&list));
                }
            }
        }
    }
}

/// One end of one range moved so far that it shares an address with the range beside it.
#[test]
fn one_range_grown_into_the_next() {
    for i in 0..63 {
        for by in [0, 1, 0xfff, 0x1000] {
            let mut up = rising(64, 0x1000);
            up[i].1 = up[i + 1].0 + by;
            let mut down = rising(64, 0x1000);
            down[i + 1].0 = down[i].1 - by.min(0xfff);
            for list in [up, down] {
                assert!(!rise(&list), "{i} {by}");
                same_as_scan(&list, &ends(&list));
            }
            let mut touching = rising(64, 0x1000);
            touching[i].1 = touching[i + 1].0 - 1;
            assert!(rise(&touching));
            same_as_scan(&touching, &ends(&touching));
        }
    }
}

/// The bound is reached: each time the list doubles, one look more is needed.
#[test]
fn looks_at_rising_ranges() {
    for count in 0..=64 {
        for width in WIDTHS {
            let ranges = rising(count, width);
            let mut addresses = ends(&ranges);
            addresses.extend([0, u32::MAX]);
            let looks = |&address| {
                let (held, looks) = looked(&ranges, address);
                assert_eq!(held, scan(&ranges, address));
                looks
            };
            let most = addresses.iter().map(looks).max().unwrap();
            assert_eq!(most, (u32::BITS - count.leading_zeros()) as usize);
            assert!(most <= 7);
        }
    }
}

/// No range is looked at twice, so looks and ranges looked at are one number.
#[test]
fn a_range_is_looked_at_once() {
    for count in [1, 2, 3, 31, 32, 33, 63, 64] {
        let ranges = rising(count, 2);
        let list = flat(&ranges);
        for address in ends(&ranges) {
            let mut seen = vec![];
            Ranges::new(&list).unwrap().search(|first, last| {
                assert!(ranges.contains(&(first, last)));
                assert!(!seen.contains(&first));
                seen.push(first);
                look(first, last, MmioAddress(address))
            });
        }
    }
}

/// Any other list: range after range up to the first that holds the address.
#[test]
fn looks_at_other_ranges() {
    for count in 2..=64 {
        let mut falling = rising(count, 2);
        falling.reverse();
        for (i, &(first, last)) in falling.iter().enumerate() {
            assert_eq!(looked(&falling, first), (true, i + 1));
            assert_eq!(looked(&falling, last), (true, i + 1));
            assert_eq!(looked(&falling, last + 1), (false, falling.len()));
        }
        let same = vec![(4, 4); count as usize];
        assert_eq!(looked(&same, 4), (true, 1));
        assert_eq!(looked(&same, 5), (false, same.len()));
    }
}

#[test]
fn a_first_without_its_last() {
    for list in [&[0][..], &[5], &[1, 2, 5], &[7, 8, 5], &[1, 1, 2, 2, 5]] {
        assert!(!listed(list, MmioAddress(5)));
        assert_eq!(Ranges::new(list).unwrap_err(), Refusal::UnfitInput);
        assert_eq!(Script::new(2, "7f").verdict(list), (9, 0));
    }
    assert!(listed(&[1, 2, 5], MmioAddress(2)));
}

#[test]
fn a_first_above_its_last() {
    for list in [&[9, 1][..], &[1, 2, 9, 4], &[9, 4, 10, 11], &[0, 3, 9, 8]] {
        assert!(!listed(list, MmioAddress(5)));
        assert_eq!(Ranges::new(list).unwrap_err(), Refusal::UnfitInput);
        assert_eq!(Script::new(2, "7f").verdict(list), (9, 0));
    }
}

#[test]
fn too_many_ranges_though_they_rise() {
    let mut list: Vec<u32> = (0..130).collect();
    assert_eq!(Ranges::new(&list).unwrap_err(), Refusal::UnfitInput);
    assert_eq!(Script::new(2, "7f").verdict(&list), (9, 0));
    assert!(listed(&list, MmioAddress(129)) && !listed(&list, MmioAddress(130)));
    list.truncate(128);
    assert!(Ranges::new(&list).unwrap().rise());
    assert_eq!(Script::new(2, "7f").verdict(&list), (0, 0));
}
