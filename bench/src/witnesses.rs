//! The witnesses: the proved one and the second program's, and beside them the proved audit of the same script.

use crate::logs;
use crate::scripts::{ranges, Script};
use crate::table::Line;
use crate::timing;
use compare::{inputs, mirror};
use hwsq::Shown;
use makers::log::Columns;
use second::witness::Witness;
use second::Refusal;
use std::hint::black_box;

fn proved(script: &Script, ranges: &[u32], log: &mut Columns) -> Shown {
    hwsq::witness(script.lent(), ranges, inputs::lend(log))
}

fn second(script: &Script, ranges: &[u32], log: &mut Columns) -> Result<Witness, Refusal> {
    let (script, lent) = (
        inputs::script(script.lent()),
        inputs::lent(inputs::lend(log)),
    );
    second::witness::witness(script, ranges, lent)
}

/// Both give the same answer and the same log; the answer is given back.
pub fn agreed(script: &Script, ranges: &[u32]) -> Shown {
    let (mut ours, mut theirs) = (logs::unwritten(), logs::unwritten());
    let answer = proved(script, ranges, &mut ours);
    let second = mirror::shown(second(script, ranges, &mut theirs));
    assert_eq!(answer, second);
    assert_eq!(ours, theirs);
    answer
}

pub fn line(script: &Script) -> Line {
    let ranges = ranges();
    let answer = agreed(script, &ranges);
    assert_eq!(answer.place, script.end);
    // Each ewait of these scripts has a row of its own.
    assert!(script.end == 0 || answer.rows == 1 + script.ewaits);
    let (mut ours, mut theirs) = (logs::unwritten(), logs::unwritten());
    let [proved, second, audit] = timing::best([
        &mut || timing::spend(proved(black_box(script), black_box(&ranges), &mut ours)),
        &mut || timing::spend(second(black_box(script), black_box(&ranges), &mut theirs)),
        &mut || timing::spend(hwsq::audit(black_box(script).lent(), black_box(&ranges))),
    ]);
    let line = Line {
        name: script.name.clone(),
        proved,
        second,
        third: Some(audit),
    };
    line.print();
    line
}
