//! Laws of witnesses over pseudo-random scripts and starts.

use crate::common::{number_and_place, Random, Rows, Script, ALL};
use crate::laws::{random_start, run_steps};
use crate::more_log_laws::passing;
use second::audit::{Ending, WRITE_ENTRIES};
use second::log::Log;
use second::machine::{Slot, State};
use second::shows::{shows, Write};
use second::witness::{Witness, LOG_ENTRIES};

const LOW_HALF: &[u32] = &[0, 0x7fff_ffff];

/// Any start in any slot, and one that differs from it in the high halves of ADDR and DATA alone.
fn starts(random: &mut Random, script: &Script) -> ([State; 2], Slot) {
    let slot = if script.family < 4 && random.chance(50) {
        Slot::B
    } else {
        Slot::A
    };
    let registers = random_start(random);
    let mut state = script.start(slot);
    state.set_flags(false, registers.flags_0);
    let (paused, free) = (0x1_0001, registers.flags_1 & !1);
    let pauses = script.family > 1 && registers.flags_1 & paused == paused;
    state.set_flags(true, if pauses { free } else { registers.flags_1 });
    state.slot_mut(slot).addr = registers.addr;
    state.slot_mut(slot).data = registers.data;
    let mut other = state.clone();
    other.slot_mut(slot).addr.0 ^= 0x8000_0000;
    other.slot_mut(slot).data ^= 0x8000_0000;
    ([state, other], slot)
}

/// The write at the place from each of two starts, both of which must show the verdict.
fn shown(random: &mut Random, script: &Script, claim: Witness, log: &Rows) -> [Option<Write>; 2] {
    let (starts, slot) = starts(random, script);
    starts.map(|start| {
        let answer = shows(&start, slot, log.columns(), LOW_HALF, claim);
        answer.unwrap_or_else(|doubt| panic!("{doubt:?} {claim:?} {script:?}"))
    })
}

#[test]
fn every_witness_is_borne_out_by_runs() {
    let mut random = Random::of(31);
    let mut met = [0; 9];
    for round in 0..40_000 {
        let script = random.script(1 + (round % 4) as u8);
        let (claim, log) = script.witness(LOW_HALF);
        assert_eq!(claim.verdict, script.audit(LOW_HALF));
        let [write, other] = shown(&mut random, &script, claim, &log);
        let (number, _) = number_and_place(claim.verdict);
        met[usize::from(number)] += 1;
        assert_eq!(write.is_some(), matches!(number, 4..=6));
        assert_eq!(write != other, matches!(number, 4 | 5));
    }
    assert!(met.iter().all(|&count| count > 20), "{met:?}");
}

#[test]
fn one_clock_is_left_at_the_place() {
    let mut random = Random::of(32);
    for round in 0..20_000 {
        let script = random.script(1 + (round % 4) as u8);
        let (claim, rows) = script.witness(LOW_HALF);
        assert!((1..=LOG_ENTRIES).contains(&claim.rows));
        let log = Log::new(rows.columns()).unwrap();
        let (_, place, steps, writes) =
            run_steps(script.start(Slot::A), &rows, claim.steps as usize);
        assert_eq!((place.row + 1, log.left(place)), (claim.rows, 1));
        assert_eq!(
            (steps, 2 * claim.writes as usize),
            (claim.steps, writes.len())
        );
    }
}

#[test]
fn a_pass_uses_its_log_but_for_the_last_clock() {
    let mut random = Random::of(33);
    let mut most = 0;
    for round in 0..10_000 {
        let script = passing(&mut random, 1 + (round % 4) as u8);
        let (claim, log) = script.witness(ALL);
        let pass = claim.verdict.unwrap();
        let mut writes = [0; WRITE_ENTRIES];
        let mut start = random_start(&mut random);
        start.hwsq_enable = true;
        let run = script.replay_from(start, &log, &mut writes).unwrap().run;
        assert_eq!((run.ending, run.steps), (Ending::Exit, pass.instructions));
        assert_eq!((run.writes, run.left_clocks), (pass.writes, 1));
        // Each row but the last keeps one clock, which an ewait passes by.
        assert_eq!(run.wait_clocks, pass.wait_clocks);
        assert_eq!(run.ewait_clocks, claim.rows as u64 - 1);
        most = most.max(claim.rows);
    }
    assert!(most > 6, "{most}");
}

#[test]
fn no_row_but_the_first_can_be_left_out() {
    let mut random = Random::of(34);
    let mut left_out = 0;
    for round in 0..5_000 {
        let script = passing(&mut random, 2 + (round % 3) as u8);
        let (claim, log) = script.witness(ALL);
        let start = script.start(Slot::A);
        for row in 1..claim.rows {
            let mut fewer = log.clone();
            fewer.clocks.remove(row);
            fewer.known.remove(row);
            fewer.values.remove(row);
            let rows = claim.rows - 1;
            let claim = Witness { rows, ..claim };
            assert!(shows(&start, Slot::A, fewer.columns(), ALL, claim).is_err());
            left_out += 1;
        }
    }
    assert!(left_out > 5_000, "{left_out}");
}
