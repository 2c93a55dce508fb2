//! Which call a line is, and what calls leave for later ones.

use crate::machine::Bench;
use crate::{audit, isa, probe, replay, witness};
use calls::lines::{unknown, Calls};
use calls::log::Rows;
use calls::script::Ram;
use calls::words::{Answer, Read, Words};
use hwsq::Log;

/// What calls leave for later ones.
#[derive(Default)]
pub struct Answers {
    log: Rows,
    bench: Option<Bench>,
}

impl Calls for Answers {
    fn call(&mut self, name: &str, words: &mut Words) -> Answer {
        match name {
            "family" => isa::family(words),
            "clocks" => isa::clocks(words),
            "decode" => isa::decode(words),
            "encode" => isa::encode(words),
            "gate" => probe::gate(words),
            "log" => self.log.set(words),
            "rows" => self.log.repeat(words),
            "fresh" => self.fresh(words),
            "write" => self.bench()?.write(words),
            "read" => self.bench()?.read(words),
            "force" => self.bench()?.force(words),
            "raw" => self.bench()?.raw(words),
            "high" => self.bench()?.high(words),
            "slots" => self.bench()?.slots(),
            "place" => self.bench()?.place(words),
            "step" => started(&mut self.bench)?.step(words, lent(&self.log)),
            "listed" => audit::listed(words),
            _ => self.call_on_script(name, words),
        }
    }
}

impl Answers {
    /// The answer to a call on a script, whose name has the RAM's behind that of the call itself.
    fn call_on_script(&self, name: &str, words: &mut Words) -> Answer {
        match Ram::of(name) {
            Some(("audit", ram)) => audit::audit(ram, words),
            Some(("replay", ram)) => replay::replay(ram, words, lent(&self.log)),
            Some(("witness", ram)) => witness::witness(ram, words),
            _ => unknown(words),
        }
    }

    /// A fresh bench has a log without rows, whether the call is refused or not.
    fn fresh(&mut self, words: &mut Words) -> Answer {
        let (bench, answer) = Bench::fresh(words.number()?);
        self.bench = Some(bench);
        self.log = Rows::default();
        Ok(Some(answer))
    }

    fn bench(&mut self) -> Read<&mut Bench> {
        started(&mut self.bench)
    }
}

/// The log as the calls take it.
fn lent(log: &Rows) -> Log<'_> {
    Log {
        clocks: &log.clocks,
        known: &log.known,
        values: &log.values,
    }
}

/// The bench, which has no state before the first `fresh`.
fn started(bench: &mut Option<Bench>) -> Read<&mut Bench> {
    bench.as_mut().ok_or("no `fresh` came before".to_string())
}
