//! Calls on the replay.

use crate::audit::{lent, script};
use crate::show;
use calls::registers::Registers;
use calls::script::Ram;
use calls::words::{Answer, Words};
use hwsq::{Log, Replayed, Start};

/// Most entries a call lends.
const MOST_LENT: usize = 400;
/// What lent entries hold before a call, so that entries left alone can be told from entries written.
const LENT: u32 = 0xaaaa_aaaa;
/// Lent entries shown past those written, so that a stray write would be seen.
const SHOWN_PAST: usize = 2;
/// Endings, as include/hwsq.h numbers them from 1 on.
const ENDINGS: [&str; 5] = ["exit", "log", "poke", "hang", "stop"];

/// The answer of a replay and the first of the entries lent to it.
pub fn replay(ram: Ram, words: &mut Words, log: Log) -> Answer {
    let script = script(ram, words)?;
    let start = start(Registers::read(words)?);
    words.fixed("lent")?;
    let mut entries = vec![LENT; words.at_most(MOST_LENT)?];
    let replayed = hwsq::replay(lent(&script), start, log, &mut entries);
    let shown = entries.iter().take(2 * replayed.writes + SHOWN_PAST);
    let answer = show::answer(replayed.refusal, || ended(&replayed));
    let entries = show::entries(shown.map(show::mask));
    Ok(Some(format!("{answer} lent{entries}")))
}

fn start(registers: Registers) -> Start {
    Start {
        addr: registers.addr,
        data: registers.data,
        flags_0: registers.flags_0,
        flags_1: registers.flags_1,
        enable: registers.enable,
    }
}

/// A replay that was not refused.
fn ended(run: &Replayed) -> String {
    format!(
        "ending {} ip {} addr {:08x} data {:08x} flags {:08x} {:08x} row {} used {} steps {} \
         writes {} waited {} searched {} left {}",
        ENDINGS[usize::from(run.ending) - 1],
        run.ip,
        run.addr,
        run.data,
        run.flags_0,
        run.flags_1,
        run.row,
        run.used,
        run.steps,
        run.writes,
        run.waited,
        run.searched,
        run.left
    )
}
