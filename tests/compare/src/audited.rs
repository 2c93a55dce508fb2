//! What is audited: a script in code RAM, and the words of the ranges.

use crate::ram::Ram;
use crate::show;
use crate::shrink::Shrinker;
use makers::random::Random;
use makers::ranges;

/// A script about to be audited.
#[derive(Clone, PartialEq)]
pub struct Audited {
    pub ram: Ram,
    pub ranges: Vec<u32>,
}

impl Audited {
    /// A script with the ranges it was made for, at times too many, odd in number or out of order.
    pub fn random(random: &mut Random) -> Audited {
        let list = ranges::random(random);
        let ram = Ram::random(random, &list);
        let mut words = ranges::flat(&list);
        match random.below(30) {
            0 => words.resize(128, 0xffff_ffff),
            1 => words.resize(130, 0xffff_ffff),
            2 => words.push(0),
            3 => drop(words.pop()),
            4 => words.reverse(),
            5 => words.resize(129, 0xffff_ffff),
            _ => {}
        }
        Audited { ram, ranges: words }
    }

    /// Makes a case smaller that holds one of these.
    pub fn shrink<C: Clone>(
        shrinker: &Shrinker,
        case: &mut C,
        audited: impl Fn(&mut C) -> &mut Audited + Copy,
        differs: impl Fn(&C) -> bool + Copy,
    ) {
        Ram::shrink(shrinker, case, |case| &mut audited(case).ram, differs);
        shrinker.drop_items(case, |case| &mut audited(case).ranges, differs);
    }

    /// Script and ranges as docs/VECTORS.md writes them, with how code and marks are made in brackets.
    pub fn told(&self) -> String {
        format!("{} ranges {}", self.ram.told(), show::words(&self.ranges))
    }
}
