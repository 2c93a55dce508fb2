//! Calls on the replay.

use crate::audit::{script, slices};
use calls::script::Ram;
use calls::words::{Answer, Words};
use second::audit::{self as library, Registers, Replayed};
use second::isa::MmioAddress;
use second::log::Columns;
use second::show;

/// Most entries a call lends.
const MOST_LENT: usize = 400;
/// What lent entries hold before a call, so that entries left alone can be told from entries written.
const LENT: u32 = 0xaaaa_aaaa;
/// Lent entries shown past those written, so that a stray write would be seen.
const SHOWN_PAST: usize = 2;

/// The answer of a replay and the first of the entries lent to it.
pub fn replay(ram: Ram, words: &mut Words, log: Columns) -> Answer {
    let script = script(ram, words)?;
    let registers = registers(calls::registers::Registers::read(words)?);
    words.fixed("lent")?;
    let mut entries = vec![LENT; words.at_most(MOST_LENT)?];
    let answer = library::replay(slices(&script), registers, log, &mut entries);
    let written = answer.map_or(0, |replayed| 2 * replayed.run.writes as usize);
    let mut line = show::answer(answer.map(ended)) + " lent";
    for entry in entries.iter().take(written + SHOWN_PAST) {
        line += &format!(" {entry:08x}");
    }
    Ok(Some(line))
}

/// The registers as the library takes them.
fn registers(read: calls::registers::Registers) -> Registers {
    Registers {
        addr: MmioAddress(read.addr),
        data: read.data,
        flags_0: read.flags_0,
        flags_1: read.flags_1,
        hwsq_enable: read.enable,
    }
}

/// A replay that was not refused.
fn ended(replayed: Replayed) -> String {
    let run = replayed.run;
    format!(
        "ending {} ip {} addr {:08x} data {:08x} flags {:08x} {:08x} row {} used {} steps {} \
         writes {} waited {} searched {} left {}",
        run.ending.word(),
        replayed.ip.0,
        replayed.addr.0,
        replayed.data,
        replayed.flags_0,
        replayed.flags_1,
        run.place.row,
        run.place.used,
        run.steps,
        run.writes,
        run.wait_clocks,
        run.ewait_clocks,
        run.left_clocks
    )
}
