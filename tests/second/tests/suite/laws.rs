//! Laws over pseudo-random scripts, starts and logs.

use crate::common::{Random, Rows, Script};
use second::audit::{listed, Ending, Fault, Pass, Registers, WRITE_ENTRIES};
use second::isa::MmioAddress;
use second::log::{Log, Place};
use second::machine::{step, step_untested, Activity, Did, Slot, State, Stop};

const LOW_HALF: &[u32] = &[0, 0x7fff_ffff];

pub fn random_start(random: &mut Random) -> Registers {
    Registers {
        addr: MmioAddress(random.word()),
        data: random.word(),
        flags_0: random.word(),
        flags_1: random.word(),
        hwsq_enable: random.chance(80),
    }
}

#[test]
fn clock_law_of_replays() {
    let mut random = Random::of(11);
    let mut endings = [0; 5];
    for round in 0..20_000 {
        let script = random.script(1 + (round % 4) as u8);
        let rows = random.rows();
        let start = random_start(&mut random);
        let mut writes = [1; WRITE_ENTRIES];
        let replayed = script.replay_from(start, &rows, &mut writes).unwrap();
        let run = replayed.run;
        let spent = run.wait_clocks + run.ewait_clocks + run.left_clocks;
        assert_eq!(spent, rows.clocks.iter().sum::<u64>());
        let log = Log::new(rows.columns()).unwrap();
        assert!(log.holds(run.place));
        assert_eq!(log.left(run.place), run.left_clocks);
        assert!(run.ending != Ending::Log || run.place == log.end());
        assert!(run.ending != Ending::Hang || matches!(script.family, 2 | 3));
        assert!(run.ending != Ending::Poke || !start.hwsq_enable && run.writes == 0);
        endings[run.ending as usize] += 1;
    }
    assert!(endings.iter().all(|&count| count > 50), "{endings:?}");
}

/// The state a replay starts from.
pub fn state_of(script: &Script, start: Registers) -> State {
    let mut state = script.start(Slot::A);
    state.set_flags(false, start.flags_0);
    state.set_flags(true, start.flags_1);
    state.hwsq_enable = start.hwsq_enable;
    state.slot_mut(Slot::A).addr = start.addr;
    state.slot_mut(Slot::A).data = start.data;
    state
}

/// A run of a number of steps: the state, place, instructions and writes after it.
pub fn run_steps(mut state: State, rows: &Rows, count: usize) -> (State, Place, u32, Vec<u32>) {
    let (mut place, mut instructions, mut writes) = (Place::default(), 0, vec![]);
    for _ in 0..count {
        let answer = step(&mut state, Slot::A, rows.columns(), place).unwrap();
        place = answer.place;
        instructions += u32::from(!matches!(answer.did, Did::Nothing | Did::Stopped(_)));
        if let Did::Wrote { address, data } = answer.did {
            writes.extend([address.0, data]);
        }
    }
    (state, place, instructions, writes)
}

#[test]
fn replay_is_one_step_more_than_the_code_has_bytes() {
    let mut random = Random::of(12);
    for round in 0..2_000 {
        let script = random.script(1 + (round % 4) as u8);
        let rows = random.rows();
        let start = random_start(&mut random);
        let mut lent = [1; WRITE_ENTRIES];
        let replayed = script.replay_from(start, &rows, &mut lent).unwrap();
        let (state, place, steps, writes) =
            run_steps(state_of(&script, start), &rows, script.code.len() + 1);
        let slot = state.slot(Slot::A);
        assert_eq!(replayed.ip, slot.ip);
        assert_eq!((replayed.addr, replayed.data), (slot.addr, slot.data));
        assert_eq!(replayed.flags_0, state.flags(false));
        assert_eq!(replayed.flags_1, state.flags(true));
        assert_eq!((replayed.run.place, replayed.run.steps), (place, steps));
        assert_eq!(replayed.run.writes as usize * 2, writes.len());
        assert_eq!(lent[..writes.len()], writes);
        assert!(lent[writes.len()..].iter().all(|&w| w == 1));
    }
}

#[test]
fn verdicts_are_borne_out_by_runs() {
    let mut random = Random::of(13);
    let mut met = [0; 9];
    for round in 0..40_000 {
        let script = random.script(1 + (round % 4) as u8);
        let mut start = random_start(&mut random);
        start.hwsq_enable = true;
        start.flags_1 &= !1;
        match script.audit(LOW_HALF) {
            Ok(pass) => {
                met[0] += 1;
                passed(&script, start, pass);
                cut_short(&script, start, pass, &random.rows());
            }
            Err(fault) => {
                met[usize::from(fault.number.number())] += 1;
                at_fault(&script, start, fault);
            }
        }
    }
    assert!(met.iter().all(|&count| count > 20), "{met:?}");
}

/// A pass against a log that releases all: the run has just the auditor's numbers.
fn passed(script: &Script, start: Registers, pass: Pass) {
    let mut writes = [0; WRITE_ENTRIES];
    let replayed = script
        .replay_from(start, &Rows::generous(), &mut writes)
        .unwrap();
    let run = replayed.run;
    assert_eq!((run.ending, replayed.ip), (Ending::Exit, pass.place));
    assert_eq!((run.steps, run.writes), (pass.instructions, pass.writes));
    assert_eq!(run.wait_clocks, pass.wait_clocks);
    let used = &writes[..2 * run.writes as usize];
    assert!(used
        .chunks_exact(2)
        .all(|w| listed(LOW_HALF, MmioAddress(w[0]))));
    let paused = script.family > 1 && replayed.flags_1 & 0x1_0001 == 0x1_0001;
    assert!(!paused);
}

/// A pass against any log: it exits, or the log ends in a wait.
fn cut_short(script: &Script, start: Registers, pass: Pass, rows: &Rows) {
    let mut writes = [0; WRITE_ENTRIES];
    let run = script.replay_from(start, rows, &mut writes).unwrap().run;
    match run.ending {
        Ending::Exit => assert_eq!(run.steps, pass.instructions),
        Ending::Log => assert!(run.steps < pass.instructions),
        other => panic!("{other:?}"),
    }
    assert!(run.writes <= pass.writes && run.wait_clocks <= pass.wait_clocks);
}

/// Runs to a place against the generous log and takes the step there.
fn step_at(script: &Script, start: Registers, fault: Fault) -> (State, Did) {
    let rows = Rows::generous();
    let log = Log::new(rows.columns()).unwrap();
    let mut state = state_of(script, start);
    let mut place = Place::default();
    while state.slot(Slot::A).ip != fault.place {
        let answer = step_untested(&mut state, Slot::A, &log, place);
        assert!(matches!(answer.did, Did::Done | Did::Wrote { .. }));
        place = answer.place;
    }
    let did = step_untested(&mut state, Slot::A, &log, place).did;
    (state, did)
}

/// A fault: the step at its place shows it.
fn at_fault(script: &Script, start: Registers, fault: Fault) {
    let (state, did) = step_at(script, start, fault);
    let slot = state.slot(Slot::A);
    match fault.number.number() {
        1 => assert_eq!(did, Did::Stopped(Stop::PastCode)),
        2 => assert_eq!(did, Did::Stopped(Stop::NeverUploaded)),
        3 => assert_eq!(did, Did::UnknownOpcode),
        4 => {
            let other = Registers {
                addr: MmioAddress(start.addr.0 ^ 0x8000_0000),
                ..start
            };
            assert_ne!(step_at(script, other, fault).1, did);
        }
        5 => {
            let other = Registers {
                data: start.data ^ 0x8000_0000,
                ..start
            };
            assert_ne!(step_at(script, other, fault).1, did);
        }
        6 => {
            let Did::Wrote { address, .. } = did else {
                panic!("{did:?}")
            };
            assert!(!listed(LOW_HALF, address));
        }
        7 => assert_eq!(slot.activity, Activity::Waiting),
        8 => {
            assert_eq!((did, slot.activity), (Did::Done, Activity::Idle));
            assert_eq!(state.memory_paused(), Ok(true));
        }
        other => panic!("{other}"),
    }
}
