//! Ways to damage gates and captures, aimed at 33, at 16 and at the order of the two and their neighbours.

use super::{after_end, not_started};
use crate::floats;
use crate::jobs::draft::Draft;
use crate::jobs::probes::{self, Capture, Gate, Probe, DEAD, EVENTS};
use crate::jobs::records::{self, Record, CAPTURE, GATE};
use crate::log;
use crate::random::Random;

/// Bytes that are no gate.
const NO_GATES: [u8; 5] = [3, 4, 0x7f, 0x80, 0xff];
/// Levels that are equal, one of them or both a zero.
const ZERO_LEVELS: [(u32, u32); 3] = [(0x8000_0000, 0), (0, 0x8000_0000), (0, 0)];

/// An event that there is none of.
fn no_event(random: &mut Random) -> u8 {
    let wrapped = 32 + random.below(4) as u8;
    random.pick(&[32, 33, 64, 128, 255, wrapped])
}

/// Leaves at least one gate.
fn gated(random: &mut Random, draft: &mut Draft) {
    if draft.probes.is_empty() {
        draft.probes = probes::random(random);
    }
}

/// One of the gates, of which there is one then.
fn a_probe<'a>(random: &mut Random, draft: &'a mut Draft) -> &'a mut Probe {
    gated(random, draft);
    let at = random.below(draft.probes.len());
    &mut draft.probes[at]
}

/// The captures before a row, or before the end where there are just so many rows.
fn captures_at(draft: &mut Draft, at: usize) -> &mut Vec<Capture> {
    let lists = draft.captures.len().max(at + 1);
    draft.captures.resize(lists, vec![]);
    &mut draft.captures[at]
}

/// The captures before any row, of which there is one then.
fn before_a_row<'a>(random: &mut Random, draft: &'a mut Draft) -> &'a mut Vec<Capture> {
    if draft.rows.is_empty() {
        draft.rows.push(log::row(random, &[]));
    }
    let at = random.below(draft.rows.len());
    captures_at(draft, at)
}

fn inserted<T>(random: &mut Random, list: &mut Vec<T>, item: T) {
    let at = random.below(list.len() + 1);
    list.insert(at, item);
}

/// A capture of an event that has no gate, also where no event has one.
pub fn ungated(random: &mut Random, draft: &mut Draft) {
    if random.chance(70) {
        gated(random, draft);
    }
    let has_gate = |event: u8| draft.probes.iter().any(|probe| probe.gate.event == event);
    let without: Vec<u8> = (0..EVENTS as u8)
        .filter(|&event| !has_gate(event))
        .collect();
    let event = if without.is_empty() {
        let probe = draft.probes.remove(random.below(EVENTS));
        probe.gate.event
    } else {
        random.pick(&without)
    };
    let raw = floats::pattern(random);
    let list = before_a_row(random, draft);
    inserted(random, list, Capture { event, raw });
}

pub fn captured_above(random: &mut Random, draft: &mut Draft) {
    gated(random, draft);
    let event = no_event(random);
    let raw = floats::pattern(random);
    let list = before_a_row(random, draft);
    inserted(random, list, Capture { event, raw });
}

/// An event captured once more before a row, with the same raw float or another.
pub fn captured_twice(random: &mut Random, draft: &mut Draft) {
    let probe = a_probe(random, draft).clone();
    let again = probe.capture(random);
    let list = before_a_row(random, draft);
    if !list.iter().any(|capture| capture.event == again.event) {
        let first = if random.chance(50) {
            again
        } else {
            probe.capture(random)
        };
        inserted(random, list, first);
    }
    inserted(random, list, again);
}

/// Captures with no row after them, or none at all; at times with bytes behind the end, and with nothing executing.
pub fn trailing(random: &mut Random, draft: &mut Draft) {
    let probe = a_probe(random, draft).clone();
    if random.chance(20) {
        draft.rows.clear();
        draft.captures.clear();
    }
    let mut list = probes::before_row(random, &draft.probes);
    if list.is_empty() {
        list.push(probe.capture(random));
    }
    *captures_at(draft, draft.rows.len()) = list;
    match random.below(3) {
        0 => after_end(random, draft),
        1 => not_started(random, draft),
        _ => {}
    }
}

/// Captures before a row, if there are gates.
pub fn capture_before(random: &mut Random, draft: &mut Draft, row: usize) {
    let list = probes::before_row(random, &draft.probes);
    *captures_at(draft, row) = list;
}

/// A gate more, which 16 forbids too at times.
fn gate_more(random: &mut Random, draft: &mut Draft, mut probe: Probe) {
    if random.chance(30) {
        forbid(random, &mut probe.gate);
    }
    inserted(random, &mut draft.probes, probe);
}

/// A second gate for an event, the same or another.
pub fn second_gate(random: &mut Random, draft: &mut Draft) {
    let mut probe = a_probe(random, draft).clone();
    if random.chance(70) {
        probe = Probe::random(random, probe.gate.event);
    }
    gate_more(random, draft, probe);
}

pub fn no_gate(random: &mut Random, draft: &mut Draft) {
    let mut probe = a_probe(random, draft).clone();
    probe.gate.gate = random.pick(&NO_GATES);
    // in the place of the event's gate, or as a second one
    if random.chance(70) {
        let event = probe.gate.event;
        draft.probes.retain(|other| other.gate.event != event);
    }
    gate_more(random, draft, probe);
}

pub fn gate_above(random: &mut Random, draft: &mut Draft) {
    let event = no_event(random);
    let probe = Probe::random(random, event);
    gate_more(random, draft, probe);
}

/// A gate that 16 forbids.
pub fn forbidden(random: &mut Random, draft: &mut Draft) {
    let mut gate = a_probe(random, draft).gate;
    forbid(random, &mut gate);
    let same = |probe: &&mut Probe| probe.gate.event == gate.event;
    if let Some(probe) = draft.probes.iter_mut().find(same) {
        probe.gate = gate;
    }
}

/// Gain or offset not finite, for a gate that isn't dead also its levels, or these in no rising order.
fn forbid(random: &mut Random, gate: &mut Gate) {
    let reasons = if gate.gate == DEAD { 2 } else { 7 };
    match random.below(reasons) {
        0 => gate.gain = floats::not_finite(random),
        1 => gate.offset = floats::not_finite(random),
        2 => gate.low = floats::not_finite(random),
        3 => gate.high = floats::not_finite(random),
        4 => gate.high = gate.low,
        5 => (gate.low, gate.high) = (gate.high, gate.low),
        _ => (gate.low, gate.high) = random.pick(&ZERO_LEVELS),
    }
}

/// A gate for every event, and at times one more.
pub fn all_gated(random: &mut Random, draft: &mut Draft) {
    let mut others = probes::all(random, EVENTS);
    others.retain(|other| {
        let same = |probe: &Probe| probe.gate.event == other.gate.event;
        !draft.probes.iter().any(same)
    });
    draft.probes.extend(others);
    if random.chance(60) {
        let event = random.below(EVENTS + 4) as u8;
        let probe = Probe::random(random, event);
        draft.probes.push(probe);
    }
}

/// The places of all records of a kind.
fn places_of(list: &[Record], kind: u8) -> Vec<usize> {
    let is_of = |at: &usize| list[*at][0] == kind;
    (0..list.len()).filter(is_of).collect()
}

/// A gate right behind a capture, or anywhere: behind rows, or before ranges and writes.
pub fn moved_gate(random: &mut Random, list: &mut Vec<Record>) {
    let captures = places_of(list, CAPTURE);
    let gates = places_of(list, GATE);
    let event = random.below(EVENTS) as u8;
    if !captures.is_empty() && random.chance(50) {
        // one more, or the capture might lack its own
        let gate = records::gate(Probe::random(random, event).gate);
        return list.insert(1 + random.pick(&captures), gate);
    }
    let gate = if gates.is_empty() {
        records::gate(Probe::random(random, event).gate)
    } else {
        list.remove(random.pick(&gates))
    };
    inserted(random, list, gate);
}

/// A gate that is at fault by itself.
pub fn bad_gate(random: &mut Random) -> Record {
    let mut gate = Probe::random(random, 1).gate;
    match random.below(3) {
        0 => gate.event = no_event(random),
        1 => gate.gate = random.pick(&NO_GATES),
        _ => forbid(random, &mut gate),
    }
    records::gate(gate)
}

/// A capture that is at fault by itself.
pub fn bad_capture(random: &mut Random) -> Record {
    records::capture(Capture {
        event: no_event(random),
        raw: floats::pattern(random),
    })
}
