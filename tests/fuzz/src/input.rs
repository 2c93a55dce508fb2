//! The input with a number: what it is made from, and what is done to it.

use makers::compose;
use makers::jobs::damage::{BYTES, DRAFTS, LONGEST, RECORDS};
use makers::jobs::probes::{self, Probe, EVENTS, MOST_CAPTURES};
use makers::jobs::records::{self, Record};
use makers::jobs::Draft;
use makers::log::{self, Row, MOST_CLOCKS, MOST_ROWS};
use makers::random::Random;
use makers::ranges;

/// Other numbers than those of the comparison's parts, which have salts from 1 on.
const SALT: u64 = 0;
/// Past the longest job, and below what a pipe holds, so that the whole of it can be handed over at once.
const LONG: usize = 60_000;
/// Such an input is handed over in part: the program reads no further than it must.
const HUGE: usize = 1 << 20;

pub fn input(seeds: &[Vec<u8>], seed: u64, index: u64) -> Vec<u8> {
    let random = &mut Random::of_case(seed, SALT, index);
    match random.below(200) {
        0 => full(random).concat(),
        1 => damaged_records(full(random), random),
        2..=69 => made(random),
        70..=99 => damaged_draft(random),
        100..=119 => damaged_records(records::split(worked(seeds, random)), random),
        120..=139 => damaged_bytes(made(random), random),
        140..=159 => damaged_bytes(worked(seeds, random).to_vec(), random),
        160..=169 => spliced(random, seeds),
        170..=179 => lengthened(random),
        180..=189 => numbers(random),
        _ => noise(random),
    }
}

/// A whole job.
fn made(random: &mut Random) -> Vec<u8> {
    Draft::random(random).records().concat()
}

/// One of the worked jobs.
fn worked<'a>(seeds: &'a [Vec<u8>], random: &mut Random) -> &'a [u8] {
    &seeds[random.below(seeds.len())]
}

/// As many ranges, host writes, register writes and rows as there may be, and the longest lines; every other time all gates.
fn full(random: &mut Random) -> Vec<Record> {
    let ranges = ranges::most(random.half() & 0x00ff_f000);
    let code = compose::pokes(random, &ranges, 512);
    let row = |_| Row {
        clocks: MOST_CLOCKS,
        known: u32::MAX,
        values: random.half(),
    };
    let rows = (0..MOST_ROWS).map(row).collect();
    let mut draft = Draft::full(&code, ranges, rows);
    if random.chance(50) {
        draft.probes = probes::all(random, EVENTS);
        let captured = MOST_CAPTURES / EVENTS;
        draft.captures = probes::captures(random, &draft.probes, captured);
    }
    draft.records()
}

/// Damage to what a job says as often as not, and to its records.
fn damaged_draft(random: &mut Random) -> Vec<u8> {
    let mut draft = Draft::random(random);
    if random.chance(50) {
        random.pick(&DRAFTS)(random, &mut draft);
    }
    damaged_records(draft.records(), random)
}

fn damaged_records(mut records: Vec<Record>, random: &mut Random) -> Vec<u8> {
    for _ in 0..random.between(1, 3) {
        if !records.is_empty() {
            random.pick(&RECORDS)(random, &mut records);
        }
    }
    records.concat()
}

fn damaged_bytes(mut job: Vec<u8>, random: &mut Random) -> Vec<u8> {
    for _ in 0..random.between(1, 4) {
        random.pick(&BYTES)(random, &mut job);
    }
    job
}

/// The start of one job and the end of another, cut anywhere.
fn spliced(random: &mut Random, seeds: &[Vec<u8>]) -> Vec<u8> {
    let made = made(random);
    let worked = worked(seeds, random);
    let (head, tail) = if random.chance(50) {
        (&made[..], worked)
    } else {
        (worked, &made[..])
    };
    let head = &head[..random.below(head.len() + 1)];
    let tail = &tail[random.below(tail.len() + 1)..];
    [head, tail].concat()
}

/// A job made longer to just about the longest that is read, or far past it, by rows or by bytes after its end.
fn lengthened(random: &mut Random) -> Vec<u8> {
    let draft = Draft::random(random);
    let mut records = draft.records();
    let end = records.pop().unwrap_or_default();
    let near = random.between(LONGEST - 40, LONGEST + 40);
    let wanted = if random.chance(70) {
        near
    } else {
        random.between(LONGEST, LONG)
    };
    let mut length: usize = records.iter().map(Vec::len).sum();
    if random.chance(70) {
        loop {
            let added = captured_row(random, &draft.probes);
            length += added.len();
            if length + end.len() > wanted {
                break;
            }
            records.push(added);
        }
    }
    records.push(end);
    let mut job = records.concat();
    if job.len() < wanted && random.chance(80) {
        let fill = random.pick(&[0, 1, 0xff]);
        job.resize(wanted, fill);
    }
    job
}

/// A row with captures before it, if there are gates.
fn captured_row(random: &mut Random, probes: &[Probe]) -> Vec<u8> {
    let captures = probes::before_row(random, probes);
    let mut bytes: Vec<u8> = captures.into_iter().flat_map(records::capture).collect();
    bytes.extend(records::row(log::row(random, &[])));
    bytes
}

/// Small bytes alone, so that unlikely orders of records come up.
fn numbers(random: &mut Random) -> Vec<u8> {
    let count = random.below(120);
    let mut job: Vec<u8> = (0..count).map(|_| random.below(8) as u8).collect();
    if random.chance(70) {
        job.splice(0..0, records::family(1 + random.below(4) as u8));
    }
    job
}

/// Bytes of no kind.
fn noise(random: &mut Random) -> Vec<u8> {
    let most = match random.below(100) {
        0 => HUGE,
        1..=9 => LONG,
        _ => 200,
    };
    let count = random.below(most);
    random.bytes(count)
}
