//! What a replay starts from: a script in code RAM, and the registers.

use crate::ram::Ram;
use crate::shrink::Shrinker;
use hwsq::Start;
use makers::random::Random;

/// A script about to run.
#[derive(Clone)]
pub struct Launch {
    pub ram: Ram,
    pub start: Start,
}

impl Launch {
    /// Any registers, with pokes enabled as a rule.
    pub fn random(random: &mut Random, ram: Ram) -> Launch {
        let start = Start {
            addr: random.edgy(),
            data: random.edgy(),
            flags_0: random.edgy(),
            flags_1: random.edgy(),
            enable: random.chance(85),
        };
        Launch { ram, start }
    }

    /// Makes a case smaller that holds one of these.
    pub fn shrink<C: Clone>(
        shrinker: &Shrinker,
        case: &mut C,
        launch: impl Fn(&mut C) -> &mut Launch + Copy,
        differs: impl Fn(&C) -> bool + Copy,
    ) {
        Ram::shrink(shrinker, case, |case| &mut launch(case).ram, differs);
        shrinker.settle(case, |case| &mut launch(case).start.addr, &[0], differs);
        shrinker.settle(case, |case| &mut launch(case).start.data, &[0], differs);
        shrinker.settle(case, |case| &mut launch(case).start.flags_0, &[0], differs);
        shrinker.settle(case, |case| &mut launch(case).start.flags_1, &[0], differs);
    }

    /// The replay as docs/VECTORS.md writes it, with how code and marks are made in brackets.
    pub fn told(&self, lent: usize) -> String {
        let Start {
            addr,
            data,
            flags_0,
            flags_1,
            enable,
        } = self.start;
        let (ram, enable) = (self.ram.told(), second::show::yes_or_no(enable));
        let registers =
            format!("addr {addr:08x} data {data:08x} flags {flags_0:08x} {flags_1:08x}");
        format!("replay {ram} {registers} enable {enable} lent {lent}")
    }
}
