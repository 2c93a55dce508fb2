//! The auditors: the proved one, the second program's and the plain one.

use crate::plain;
use crate::scripts::{ranges, Script, FAMILY};
use crate::table::Line;
use crate::timing;
use compare::{inputs, mirror};
use hwsq::Verdict;
use second::audit::{Fault, Pass};
use std::hint::black_box;

fn proved(script: &Script, ranges: &[u32]) -> Verdict {
    hwsq::audit(script.lent(), ranges)
}

fn second(script: &Script, ranges: &[u32]) -> Result<Pass, Fault> {
    second::audit::audit(inputs::script(script.lent()), ranges)
}

fn plain(script: &Script, ranges: &[u32]) -> plain::Verdict {
    plain::audit(FAMILY, &script.code, &script.marks, 0, ranges)
}

fn of_plain(answer: plain::Verdict) -> Verdict {
    match answer {
        plain::Verdict::Pass {
            place,
            count,
            writes,
            clocks,
        } => Verdict {
            verdict: 0,
            place,
            count,
            writes,
            clocks,
        },
        plain::Verdict::Fault { number, place } => Verdict {
            verdict: number,
            place,
            count: 0,
            writes: 0,
            clocks: 0,
        },
    }
}

/// All three give the same verdict, which is given back.
pub fn agreed(script: &Script, ranges: &[u32]) -> Verdict {
    let verdict = proved(script, ranges);
    assert_eq!(verdict, mirror::verdict(second(script, ranges)));
    assert_eq!(verdict, of_plain(plain(script, ranges)));
    verdict
}

pub fn line(script: &Script) -> Line {
    let ranges = ranges();
    assert_eq!(agreed(script, &ranges).place, script.end);
    let [proved, second, plain] = timing::best([
        &mut || timing::spend(proved(black_box(script), black_box(&ranges))),
        &mut || timing::spend(second(black_box(script), black_box(&ranges))),
        &mut || timing::spend(plain(black_box(script), black_box(&ranges))),
    ]);
    let line = Line {
        name: script.name.clone(),
        proved,
        second,
        third: Some(plain),
    };
    line.print();
    line
}
