//! The replays: the proved one and the second program's.

use crate::logs;
use crate::scripts::Script;
use crate::table::Line;
use crate::timing;
use compare::{inputs, mirror};
use hwsq::{Replayed, Start, ENTRIES};
use makers::log::Columns;
use second::Refusal;
use std::hint::black_box;

type Writes = [u32; ENTRIES];

const START: Start = Start {
    addr: 0,
    data: 0,
    flags_0: 0,
    flags_1: 0,
    enable: true,
};

fn proved(script: &Script, log: &Columns, writes: &mut Writes) -> Replayed {
    hwsq::replay(script.lent(), START, inputs::log(log), writes)
}

fn second(
    script: &Script,
    log: &Columns,
    writes: &mut Writes,
) -> Result<second::audit::Replayed, Refusal> {
    second::audit::replay(
        inputs::script(script.lent()),
        inputs::registers(START),
        inputs::columns(inputs::log(log)),
        writes,
    )
}

/// Both give the same answer and the same writes; the answer is given back.
pub fn agreed(script: &Script, log: &Columns) -> Replayed {
    let (mut ours, mut theirs) = ([7; ENTRIES], [7; ENTRIES]);
    let answer = proved(script, log, &mut ours);
    let second = mirror::replayed(second(script, log, &mut theirs));
    assert_eq!(answer, second);
    assert_eq!(ours, theirs);
    answer
}

pub fn line(script: &Script) -> Line {
    let log = logs::walked_by(script);
    let answer = agreed(script, &log);
    // A script that does not stop at once walks the log to its end or close to it.
    assert!(answer.ip >= script.end);
    assert!(script.end == 0 || answer.row * 10 >= log.clocks.len() * 9);
    let (mut ours, mut theirs) = ([0; ENTRIES], [0; ENTRIES]);
    let [proved, second] = timing::best([
        &mut || timing::spend(proved(black_box(script), black_box(&log), &mut ours)),
        &mut || timing::spend(second(black_box(script), black_box(&log), &mut theirs)),
    ]);
    let line = Line {
        name: script.name.clone(),
        proved,
        second,
        third: None,
    };
    line.print();
    line
}
