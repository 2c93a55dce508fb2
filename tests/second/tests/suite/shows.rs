//! Verdicts shown by logs.

use crate::common::{Rows, Script, ALL};
use crate::witness::{CASES, POKES, WORKED};
use second::audit::{Fault, Pass, Verdict};
use second::isa::{CodeAddress, MmioAddress};
use second::machine::{Activity, Did, Slot, SlotState, State, Stop};
use second::shows::{shows, After, Counts, Doubt, Write};
use second::witness::Witness;
use second::Refusal;

/// A start with everything 0 that may be, and one with other values, in slot B if there is one.
pub fn two_starts(script: &Script) -> [(State, Slot); 2] {
    let slot = if script.family == 4 { Slot::A } else { Slot::B };
    let mut other = script.start(slot);
    other.slot_mut(slot).addr = MmioAddress(0x1_2345);
    other.slot_mut(slot).data = 0x1_6789;
    other.set_flags(false, u32::MAX);
    // Flag 16 has the value 1 but no override, so memory isn't paused.
    other.set_flags(true, 0xfffe_ffff);
    [(script.start(Slot::A), Slot::A), (other, slot)]
}

/// A claim with the log and the ranges it is about.
#[derive(Clone, Debug)]
struct Shown {
    script: Script,
    ranges: &'static [u32],
    log: Rows,
    claim: Witness,
}

impl Shown {
    fn new(script: Script, ranges: &'static [u32]) -> Shown {
        let (claim, log) = script.witness(ranges);
        Shown {
            script,
            ranges,
            log,
            claim,
        }
    }

    /// The case of that verdict.
    fn case(number: usize) -> Shown {
        Shown::new((CASES[number].script)(), POKES)
    }

    fn seen(&self, start: &State, slot: Slot) -> Result<Option<Write>, Doubt> {
        shows(start, slot, self.log.columns(), self.ranges, self.claim)
    }

    fn both(&self) -> [Result<Option<Write>, Doubt>; 2] {
        two_starts(&self.script).map(|(start, slot)| self.seen(&start, slot))
    }

    /// What doubts the claim after a change, from the start with everything 0.
    fn doubt(mut self, change: impl Fn(&mut Shown)) -> Doubt {
        change(&mut self);
        self.seen(&self.script.start(Slot::A), Slot::A).unwrap_err()
    }
}

fn write(address: u32, data: u32) -> Write {
    let address = MmioAddress(address);
    Write { address, data }
}

#[test]
fn each_verdict_is_shown_from_two_starts() {
    for (number, case) in CASES.iter().enumerate() {
        let [one, other] = Shown::case(number).both();
        let writes = match number {
            4 => [Some(write(0x1600, 1)), Some(write(0x1_1600, 1))],
            5 => [Some(write(0x10_1600, 5)), Some(write(0x10_1600, 0x1_0005))],
            6 => [Some(write(0x10_1700, 1)); 2],
            _ => [None; 2],
        };
        assert_eq!([one, other], writes.map(Ok), "{:?}", case.verdict);
    }
}

#[test]
fn the_worked_example() {
    let shown = Shown::new(Script::new(2, WORKED), ALL);
    let fault = Fault {
        number: Refusal::AddrNotSet,
        place: CodeAddress(8),
    };
    let claim = Witness {
        verdict: Err(fault),
        rows: 2,
        steps: 2,
        writes: 0,
    };
    assert_eq!(shown.claim, claim);
    assert_eq!(shown.log, Rows::new(&[(1, 0, 0), (1, 2, 2)]));
    let mut start = shown.script.start(Slot::A);
    assert_eq!(shown.seen(&start, Slot::A), Ok(Some(write(0x1600, 1))));
    start.slot_mut(Slot::A).addr = MmioAddress(65536);
    assert_eq!(shown.seen(&start, Slot::A), Ok(Some(write(0x1_1600, 1))));
}

#[test]
fn entries_past_the_log_have_no_say() {
    for number in 0..CASES.len() {
        let mut shown = Shown::case(number);
        shown.log.clocks.extend([0; 3]);
        shown.log.known.extend([u32::MAX; 2]);
        shown.log.values.push(u32::MAX);
        assert!(shown.both().iter().all(Result::is_ok));
    }
}

#[test]
fn unfit_logs_and_states_are_doubted() {
    let missing = Shown::case(0).doubt(|shown| shown.claim.rows = 3);
    assert_eq!(missing, Doubt::RowsMissing);
    let missing = Shown::case(0).doubt(|shown| shown.log.values.truncate(1));
    assert_eq!(missing, Doubt::RowsMissing);
    let empty_row = Shown::case(0).doubt(|shown| shown.log.clocks[1] = 0);
    assert_eq!(empty_row, Doubt::Refused(0, Refusal::UnfitLog));
    let shown = Shown::new(Script::new(1, "7f"), &[]);
    let mut start = shown.script.start(Slot::A);
    start.family = 0;
    let doubt = Doubt::Refused(0, Refusal::UnfitInput);
    assert_eq!(shown.seen(&start, Slot::A), Err(doubt));
}

#[test]
fn logs_that_release_nothing_are_doubted() {
    let stuck = Doubt::NoInstruction(4, Did::Nothing);
    assert_eq!(Shown::case(0).doubt(|shown| shown.claim.rows = 1), stuck);
    assert_eq!(Shown::case(0).doubt(|shown| shown.log.known[1] = 0), stuck);
    assert_eq!(Shown::case(0).doubt(|shown| shown.log.values[1] = 0), stuck);
    // One that the wait uses up leaves no clock of the row to release it.
    let short = Shown::case(7).doubt(|shown| shown.log.clocks[1] = 31);
    let Doubt::NotAtPlace(slot) = short else {
        panic!("{short:?}")
    };
    assert_eq!(slot.activity, Activity::Waiting);
}

#[test]
fn other_numbers_of_steps_are_doubted() {
    let behind = SlotState {
        ip: CodeAddress(17),
        addr: MmioAddress(0x10_1600),
        data: 0x1234_0001,
        activity: Activity::Fetching,
    };
    let doubt = Shown::case(0).doubt(|shown| shown.claim.steps -= 1);
    assert_eq!(doubt, Doubt::NotAtPlace(behind));
    let exited = SlotState {
        ip: CodeAddress(20),
        addr: MmioAddress(0x10_1604),
        activity: Activity::Idle,
        ..behind
    };
    let doubt = Shown::case(0).doubt(|shown| shown.claim.steps += 1);
    assert_eq!(doubt, Doubt::NotAtPlace(exited));
    let doubt = Shown::case(0).doubt(|shown| shown.claim.steps = u32::MAX);
    assert_eq!(doubt, Doubt::NoInstruction(7, Did::Nothing));
    // A stop stays at the place and a nop goes on, but neither is an instruction done.
    let doubt = Shown::case(1).doubt(|shown| shown.claim.steps += 1);
    let stop = Did::Stopped(Stop::PastCode);
    assert_eq!(doubt, Doubt::NoInstruction(3, stop));
    let doubt = Shown::case(3).doubt(|shown| {
        shown.claim.verdict = verdict(0, 3, &shown.claim);
        shown.claim.steps += 1;
    });
    assert_eq!(doubt, Doubt::NoInstruction(2, Did::UnknownOpcode));
}

#[test]
fn other_writes_are_doubted() {
    let doubt = Shown::case(0).doubt(|shown| shown.claim.writes = 1);
    assert_eq!(doubt, Doubt::OtherWrites(2));
    // The write at the place is none of those before it.
    let doubt = Shown::case(6).doubt(|shown| shown.claim.writes = 2);
    assert_eq!(doubt, Doubt::OtherWrites(1));
    let doubt = Shown::case(0).doubt(|shown| shown.ranges = &[]);
    let first = write(0x10_1600, 0x1234_5678);
    assert_eq!(doubt, Doubt::Unlisted(1, first));
}

/// A verdict of that number, of which a pass has the counts of what is claimed and no clocks.
fn verdict(number: usize, place: u32, claim: &Witness) -> Verdict {
    const FAULTS: [Refusal; 8] = [
        Refusal::PastCode,
        Refusal::NeverUploaded,
        Refusal::UnknownOpcode,
        Refusal::AddrNotSet,
        Refusal::DataNotSet,
        Refusal::NotListed,
        Refusal::NeverReleased,
        Refusal::PausedAtExit,
    ];
    let place = CodeAddress(place);
    if number == 0 {
        return Ok(Pass {
            place,
            instructions: claim.steps + 1,
            writes: claim.writes,
            wait_clocks: 0,
        });
    }
    let number = FAULTS[number - 1];
    Err(Fault { number, place })
}

/// The case of one verdict with another one claimed.
fn claimed(number: usize, other: usize) -> Shown {
    let mut shown = Shown::case(number);
    let place = CASES[number].verdict.1;
    shown.claim.verdict = verdict(other, place, &shown.claim);
    shown
}

#[test]
fn other_verdicts_are_doubted() {
    let of_write = |number| (4..=6).contains(&number);
    for number in 0..=8 {
        let others = (0..=8).filter(|&other| other != number);
        for other in others.filter(|&other| !(of_write(number) && of_write(other))) {
            for answer in claimed(number, other).both() {
                let Err(Doubt::NotShown(after)) = answer else {
                    panic!("{number} as {other}: {answer:?}")
                };
                let wrote = matches!(after.did, Did::Wrote { .. });
                assert_eq!(wrote, of_write(number));
            }
        }
    }
    for number in [Refusal::UnfitInput, Refusal::TooFewEntries] {
        let place = CodeAddress(20);
        let doubt =
            Shown::case(0).doubt(|shown| shown.claim.verdict = Err(Fault { number, place }));
        assert!(matches!(doubt, Doubt::NotShown(_)));
    }
}

#[test]
fn faults_of_a_write_are_told_apart_by_two_starts() {
    let holds = |number, other| claimed(number, other).both().map(|answer| answer.is_ok());
    // DATA 00000001 has the high half of a start's 0 by chance, but not that of another.
    assert_eq!(holds(4, 5), [true, false]);
    assert_eq!(holds(6, 5), [true, false]);
    for (number, other) in [(5, 4), (5, 6), (6, 4)] {
        assert_eq!(holds(number, other), [false, false]);
    }
    // The poke of the worked example is outside these ranges as well.
    assert_eq!(holds(4, 6), [true, true]);
}

#[test]
fn other_counts_of_a_pass_are_doubted() {
    let counts = Counts {
        instructions: 7,
        writes: 2,
        wait_clocks: 128,
    };
    let changes: [fn(&mut Pass); 3] = [
        |pass| pass.instructions -= 1,
        |pass| pass.writes += 1,
        |pass| pass.wait_clocks = 0,
    ];
    for change in changes {
        let doubt = Shown::case(0).doubt(|shown| {
            change(shown.claim.verdict.as_mut().unwrap());
        });
        assert_eq!(doubt, Doubt::OtherCounts(counts));
    }
}

#[test]
fn states_that_are_no_start_show_little() {
    let shown = Shown::new(Script::new(2, "7f"), &[]);
    let mut start = shown.script.start(Slot::A);
    assert_eq!(shown.seen(&start, Slot::A), Ok(None));
    let idle = SlotState::default();
    let doubt = shown.seen(&start, Slot::B).unwrap_err();
    assert_eq!(doubt, Doubt::NotAtPlace(idle));
    start.set_flags(true, 0x1_0001);
    let after = After {
        did: Did::Done,
        slot: idle,
        memory_paused: true,
        log_used_up: false,
    };
    let doubt = shown.seen(&start, Slot::A).unwrap_err();
    assert_eq!(doubt, Doubt::NotShown(after));
    let shown = Shown::case(4);
    let mut start = shown.script.start(Slot::A);
    start.hwsq_enable = false;
    let Err(Doubt::NotShown(after)) = shown.seen(&start, Slot::A) else {
        panic!("a blocked poke shows no write")
    };
    assert_eq!(after.slot.activity, Activity::Blocked);
}
