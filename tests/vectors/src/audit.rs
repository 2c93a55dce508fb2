//! Calls on the auditor.

use calls::script::{Ram, Script};
use calls::words::{yes_or_no, Answer, Read, Words};

const EXIT: u8 = 0x7f;
const NOT_LISTED: u8 = 6;

pub fn audit(ram: Ram, words: &mut Words) -> Answer {
    let script = script(ram, words)?;
    let found = hwsq::audit(lent(&script), &words.ranges()?);
    Ok(Some(if found.verdict == 0 {
        pass(found.place, found.count, found.writes, found.clocks)
    } else {
        fault(found.verdict, found.place)
    }))
}

pub fn pass(place: usize, count: usize, writes: usize, clocks: u64) -> String {
    format!("verdict 0 place {place} count {count} writes {writes} clocks {clocks}")
}

pub fn fault(verdict: u8, place: usize) -> String {
    format!("verdict {verdict} place {place}")
}

/// The script of a call.
pub fn script(ram: Ram, words: &mut Words) -> Read<Script> {
    Script::read(ram, words, |family| hwsq::family(family).size)
}

/// The script as the calls take it.
pub fn lent(script: &Script) -> hwsq::Script<'_> {
    hwsq::Script {
        family: script.family,
        code: &script.code,
        marks: &script.marks,
        entry: script.entry as usize,
    }
}

/// Whether the auditor passes a poke at the address.
pub fn listed(words: &mut Words) -> Answer {
    let [a, b, c, d] = words.word()?.to_le_bytes();
    let poke = [0xe2, 0, 0, 0, 0, 0xe0, a, b, c, d];
    let (mut code, marks) = ([EXIT; 128], [1; 128]);
    code[..poke.len()].copy_from_slice(&poke);
    let script = hwsq::Script {
        family: 2,
        code: &code,
        marks: &marks,
        entry: 0,
    };
    match hwsq::audit(script, &words.ranges()?).verdict {
        0 => Ok(Some(yes_or_no(true).to_string())),
        NOT_LISTED => Ok(Some(yes_or_no(false).to_string())),
        _ => Err("ranges that the auditor does not take".to_string()),
    }
}
