//! Laws of more log over pseudo-random pairs of logs.

use crate::common::{Random, Rows, Script, ALL};
use crate::laws::{random_start, run_steps, state_of};
use crate::more_log::{holds, masks, shown_from, Shown};
use second::audit::{Ending, WRITE_ENTRIES};
use second::isa::{encode, Instruction, MmioAddress};
use second::more_log::WaitEnd::{At, Never};
use second::more_log::{filled_in, keeps_writes, wait_ends, WaitEnd};

#[test]
fn ends_agree_with_replays() {
    let mut random = Random::of(21);
    let mut finished = 0;
    for round in 0..20_000 {
        let script = random.script(1 + (round % 4) as u8);
        let rows = random.rows();
        let start = random_start(&mut random);
        let mut writes = [0; WRITE_ENTRIES];
        let run = script.replay_from(start, &rows, &mut writes).unwrap().run;
        let ends = wait_ends(script.slices(), start, rows.columns()).unwrap();
        assert!(ends.is_sorted());
        let cut_off = ends.iter().filter(|&&end| end == Never).count();
        assert_eq!(cut_off, usize::from(run.ending == Ending::Log));
        assert!(ends.len() <= run.steps as usize);
        if run.ending != Ending::Log {
            let last = ends.last().copied().unwrap_or(At(0));
            assert_eq!(last, At(run.wait_clocks + run.ewait_clocks));
            finished += ends.len();
        }
    }
    assert!(finished > 10_000, "{finished}");
}

/// A script that passes: what its pokes need, then instructions that mostly wait.
pub fn passing(random: &mut Random, family: u8) -> Script {
    let mut script = Script::new(family, "");
    let mut instructions = vec![];
    if family > 1 {
        instructions.push(Instruction::Data(random.word()));
        instructions.push(Instruction::Addr(MmioAddress(random.word())));
    }
    for _ in 0..random.below(12) {
        let kind = if family > 1 { random.below(5) } else { 0 };
        instructions.push(match kind {
            0 => Instruction::Wait {
                length: random.below(3) as u8,
                shift: 0,
            },
            1 | 2 => Instruction::Ewait {
                event: random.below(3) as u8,
                value: random.below(2) as u8,
            },
            3 => Instruction::DataLo(random.word() as u16),
            _ => Instruction::AddrLo(random.word() as u16),
        });
    }
    instructions.push(Instruction::Exit);
    let mut at = 0;
    for instruction in instructions {
        at += encode(family, instruction, &mut script.code[at..]).unwrap();
    }
    assert!(script.audit(ALL).is_ok());
    script
}

/// A short log that lacks most readings.
fn sparse(random: &mut Random) -> Rows {
    let rows: Vec<_> = (0..random.below(14))
        .map(|_| {
            let clocks = 1 + random.below(60);
            (clocks, random.word() & random.word(), random.word())
        })
        .collect();
    Rows::new(&rows)
}

/// The log with readings filled in, rows added, both or neither.
fn more(random: &mut Random, rows: &Rows) -> Rows {
    let mut more = rows.clone();
    if random.chance(60) {
        for (known, values) in more.known.iter_mut().zip(&mut more.values) {
            let from = masks(random.word(), random.word());
            let row = filled_in(masks(*known, *values), from);
            (*known, *values) = (row.known, row.values);
        }
    }
    if random.chance(60) {
        let added = sparse(random);
        more.clocks.extend(added.clocks);
        more.known.extend(added.known);
        more.values.extend(added.values);
    }
    more
}

/// Clocks of each finished wait, from the end of the one before.
fn lengths(ends: &[WaitEnd]) -> Vec<u64> {
    let points: Vec<u64> = ends.iter().map_while(|&end| point(end)).collect();
    let starts = std::iter::once(&0).chain(&points);
    points
        .iter()
        .zip(starts)
        .map(|(end, start)| end - start)
        .collect()
}

fn point(end: WaitEnd) -> Option<u64> {
    match end {
        At(clocks) => Some(clocks),
        Never => None,
    }
}

/// More writes, a wait earlier, one finished that was not, one that takes longer, nothing new.
fn outcomes(before: &Shown, now: &Shown) -> [bool; 5] {
    let pairs = || before.ends.iter().zip(&now.ends);
    let (long, short) = (lengths(&now.ends), lengths(&before.ends));
    [
        now.writes.len() > before.writes.len(),
        pairs().any(|(&before, &now)| before != Never && now < before),
        pairs().any(|(&before, &now)| before == Never && now != Never),
        long.iter().zip(short).any(|(&now, before)| now > before),
        now == before,
    ]
}

#[test]
fn more_log_never_makes_fewer_writes() {
    let mut random = Random::of(22);
    let mut met = [0; 5];
    for round in 0..20_000 {
        let family = 1 + (round % 4) as u8;
        let passes = random.chance(80);
        let script = if passes {
            passing(&mut random, family)
        } else {
            random.script(family)
        };
        let start = random_start(&mut random);
        let rows = sparse(&mut random);
        let more = more(&mut random, &rows);
        let before = shown_from(&script, start, &rows);
        let now = shown_from(&script, start, &more);
        assert!(holds(&before, &now), "{script:?} {rows:?} {more:?}");
        for (count, outcome) in met.iter_mut().zip(outcomes(&before, &now)) {
            *count += u32::from(passes && outcome);
        }
    }
    assert!(met.iter().all(|&count| count > 100), "{met:?}");
}

#[test]
fn the_same_after_any_number_of_steps() {
    let mut random = Random::of(23);
    let mut added = 0;
    for round in 0..4_000 {
        let script = passing(&mut random, 1 + (round % 4) as u8);
        let start = random_start(&mut random);
        let rows = sparse(&mut random);
        let more = more(&mut random, &rows);
        let count = random.below(16) as usize;
        let (_, _, _, before) = run_steps(state_of(&script, start), &rows, count);
        let (_, _, _, now) = run_steps(state_of(&script, start), &more, count);
        assert!(keeps_writes(&before, &now));
        added += u32::from(now.len() > before.len());
    }
    assert!(added > 100, "{added}");
}
