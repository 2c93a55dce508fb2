//! Making a job's script shorter, which no dropped record or byte can do: the code behind moves down.

use makers::jobs::records;
use makers::registers::{CODE, ENTRY_POINT, ENTRY_POINT_HIGH, NEW_CODE};
use std::collections::BTreeMap;

/// A job whose code writes are taken out of its records and kept as bytes by place.
struct Uploaded {
    others: Vec<Vec<u8>>,
    /// Where the code writes stood among the others.
    at: usize,
    code: BTreeMap<usize, u8>,
}

/// Address and word of a host write.
fn write_of(record: &[u8]) -> Option<(u32, [u8; 4])> {
    match *record {
        [2, a, b, c, d, w, x, y, z] => Some((u32::from_le_bytes([a, b, c, d]), [w, x, y, z])),
        _ => None,
    }
}

/// The place in code RAM that an address uploads to.
fn place_of(address: u32) -> Option<usize> {
    match address {
        CODE..0x1500 => Some((address - CODE) as usize),
        NEW_CODE..0x8_0200 => Some((address - NEW_CODE) as usize),
        _ => None,
    }
}

impl Uploaded {
    fn of(list: &[Vec<u8>]) -> Uploaded {
        let mut uploaded = Uploaded {
            others: Vec::new(),
            at: 1,
            code: BTreeMap::new(),
        };
        for record in list {
            let code = write_of(record).and_then(|(at, word)| Some((place_of(at)?, word)));
            let Some((place, word)) = code else {
                uploaded.others.push(record.clone());
                continue;
            };
            if uploaded.code.is_empty() {
                uploaded.at = uploaded.others.len();
            }
            uploaded.code.extend((place..).zip(word));
        }
        uploaded
    }

    /// Places that have code, the last first, so that a removal moves none that is yet to be tried.
    fn places(&self) -> Vec<usize> {
        self.code.keys().rev().copied().collect()
    }

    /// The job without one code byte.
    fn without(&self, place: usize) -> Vec<Vec<u8>> {
        let kept = self.code.iter().filter(|&(&at, _)| at != place);
        let moved = kept.map(|(&at, &byte)| (at - usize::from(at > place), byte));
        self.spelled(&self.others, moved.collect())
    }

    /// The job with its code, and the entry points, as low as they go.
    fn lowered(&self) -> Vec<Vec<u8>> {
        let lowest = self.code.keys().next().copied().unwrap_or(0);
        let moved = self.code.iter().map(|(&at, &byte)| (at - lowest, byte));
        let mut others = self.others.clone();
        others.iter_mut().for_each(|record| match write_of(record) {
            Some((ENTRY_POINT, word)) => {
                let word = word.map(|byte| byte.saturating_sub(lowest as u8));
                *record = records::write((ENTRY_POINT, u32::from_le_bytes(word)));
            }
            Some((ENTRY_POINT_HIGH, _)) => *record = records::write((ENTRY_POINT_HIGH, 0)),
            _ => {}
        });
        self.spelled(&others, moved.collect())
    }

    /// All records again; a word that has any code byte is written whole.
    fn spelled(&self, others: &[Vec<u8>], code: BTreeMap<usize, u8>) -> Vec<Vec<u8>> {
        let new_window = others.first() == Some(&records::family(4));
        let window = if new_window { NEW_CODE } else { CODE };
        let mut words: BTreeMap<usize, [u8; 4]> = BTreeMap::new();
        for (place, byte) in code {
            words.entry(place / 4).or_default()[place % 4] = byte;
        }
        let writes = words.into_iter().map(|(number, word)| {
            let address = window + 4 * number as u32;
            records::write((address, u32::from_le_bytes(word)))
        });
        let mut list = others.to_vec();
        let at = self.at.min(list.len());
        list.splice(at..at, writes).for_each(drop);
        list
    }
}

/// Leaves as little code as will do.
pub fn shorten(list: &mut Vec<Vec<u8>>, differs: impl Fn(&Vec<Vec<u8>>) -> bool) {
    let lowered = Uploaded::of(list).lowered();
    if differs(&lowered) {
        *list = lowered;
    }
    for place in Uploaded::of(list).places() {
        let shorter = Uploaded::of(list).without(place);
        if differs(&shorter) {
            *list = shorter;
        }
    }
}
