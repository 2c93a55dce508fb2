//! Calls on the auditor.

use calls::script::{Ram, Script};
use calls::words::{Answer, Read, Words};
use second::audit::{self, Verdict};
use second::isa::{self, CodeAddress, MmioAddress};
use second::show;

pub fn audit(ram: Ram, words: &mut Words) -> Answer {
    let script = script(ram, words)?;
    let ranges = words.ranges()?;
    Ok(Some(verdict(audit::audit(slices(&script), &ranges))))
}

/// The script of a call.
pub fn script(ram: Ram, words: &mut Words) -> Read<Script> {
    Script::read(ram, words, |family| {
        isa::code_size(family).expect("a known family")
    })
}

/// The script as the library takes it.
pub fn slices(script: &Script) -> audit::Script<'_> {
    audit::Script {
        family: script.family,
        code: &script.code,
        marks: &script.marks,
        entry: CodeAddress(script.entry),
    }
}

/// A verdict with its place, and a pass with its counts.
pub fn verdict(verdict: Verdict) -> String {
    match verdict {
        Ok(pass) => format!(
            "verdict 0 place {} count {} writes {} clocks {}",
            pass.place.0, pass.instructions, pass.writes, pass.wait_clocks
        ),
        Err(fault) => format!("verdict {} place {}", fault.number.number(), fault.place.0),
    }
}

pub fn listed(words: &mut Words) -> Answer {
    let address = MmioAddress(words.word()?);
    let held = audit::listed(&words.ranges()?, address);
    Ok(Some(show::yes_or_no(held).to_string()))
}
