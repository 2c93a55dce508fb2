//! Replay, called with any registers, lent entries and log.

use crate::launch::Launch;
use crate::outcomes::Group;
use crate::part::{Part, Tally};
use crate::ram::Ram;
use crate::show;
use crate::shrink::Shrinker;
use compare::{inputs, mirror};
use hwsq::{Replayed, ENTRIES};
use makers::log::{Log, Row};
use makers::random::Random;
use makers::ranges;

const SALT: u64 = 6;
/// What the entries hold before; neither address nor data of most writes.
const LENT: u32 = 0xa5a5_5a5a;

/// Compares the replays.
pub struct Replays {
    pub seed: u64,
    pub replays: u64,
}

/// A script with its registers, a log and how many entries are lent.
#[derive(Clone)]
pub struct Case {
    launch: Launch,
    log: Log,
    lent: usize,
}

/// An answer and all lent entries after it.
type Answer = (Replayed, Vec<u32>);

/// Both answers, the proved one first.
fn answers(case: &Case) -> (Answer, Answer) {
    let Launch { ram, start } = &case.launch;
    let (code, marks) = ram.slices();
    let columns = case.log.columns();
    let script = ram.lent(&code, &marks);
    let mut entries = vec![LENT; case.lent];
    let proved = hwsq::replay(script, *start, inputs::log(&columns), &mut entries);
    let mut others = vec![LENT; case.lent];
    let second = second::audit::replay(
        inputs::script(script),
        inputs::registers(*start),
        inputs::columns(inputs::log(&columns)),
        &mut others,
    );
    ((proved, entries), (mirror::replayed(second), others))
}

fn differs(case: &Case) -> bool {
    let (proved, second) = answers(case);
    proved != second
}

/// Scripts of the auditor's kind, or nothing but pokes, of which replay must have room for all.
fn made(random: &mut Random) -> Case {
    let ranges = ranges::random(random);
    let mut ram = Ram::random(random, &ranges);
    if random.chance(2) {
        let count = random.pick(&[20, 40, 80, 168, 169, 170, 171]);
        let poke = |_| vec![0x40, random.byte(), random.byte()];
        ram.script.pieces = (0..count).map(poke).collect();
        ram.script.at = random.below(3);
        ram.entry = ram.script.at as u32;
    }
    let mut log = Log::fitting(random, &ram.script.waits());
    if random.chance(10) {
        log.spoil(random);
    }
    let lent = match random.below(10) {
        0 => random.pick(&[0, 1, 2, 338, 339, 341]),
        1 => 400,
        _ => ENTRIES,
    };
    let launch = Launch::random(random, ram);
    Case { launch, log, lent }
}

impl Part for Replays {
    type Case = Case;

    fn name(&self) -> &'static str {
        "replays"
    }

    fn groups(&self) -> &'static [Group] {
        &[Group::Replay, Group::Ending]
    }

    fn units(&self) -> u64 {
        self.replays
    }

    fn compare(&self, unit: u64, tally: &mut Tally) -> Option<Case> {
        let case = made(&mut Random::of_case(self.seed, SALT, unit));
        let (proved, second) = answers(&case);
        tally.cases += 1;
        tally.count(Group::Replay, proved.0.refusal);
        if proved.0.refusal == 0 {
            tally.count(Group::Ending, proved.0.ending);
        }
        (proved != second).then_some(case)
    }

    fn shrunk(&self, mut case: Case) -> Case {
        let shrinker = Shrinker::start();
        Launch::shrink(&shrinker, &mut case, |case| &mut case.launch, differs);
        shrinker.drop_items(&mut case, |case| &mut case.log.rows, differs);
        shrinker.simplify(&mut case, |case| &mut case.log.rows, Row::simpler, differs);
        case
    }

    fn input(&self, case: &Case) -> String {
        let (log, replay) = (show::log(&case.log.columns()), case.launch.told(case.lent));
        format!("{log}\n{replay}")
    }

    fn answers(&self, case: &Case) -> String {
        let (proved, second) = answers(case);
        let [proved, second] = [proved, second].map(|(answer, entries)| {
            let end = entries.len().min(2 * answer.writes + 2);
            format!("{answer:x?} lent {}", show::words(&entries[..end]))
        });
        format!("  proved {proved}\n  second {second}")
    }
}
