//! What goes into the calls, in the types of either side.

use hwsq::{Log, Script, Start};
use makers::log::Columns;
use second::audit::{self, Registers};
use second::isa::{CodeAddress, MmioAddress};
use second::witness::Lent;

/// The script; entry points are below 2^32, as the second program's code addresses are.
pub fn script(script: Script) -> audit::Script {
    let Script {
        family,
        code,
        marks,
        entry,
    } = script;
    audit::Script {
        family,
        code,
        marks,
        entry: CodeAddress(entry as u32),
    }
}

pub fn registers(start: Start) -> Registers {
    Registers {
        addr: MmioAddress(start.addr),
        data: start.data,
        flags_0: start.flags_0,
        flags_1: start.flags_1,
        hwsq_enable: start.enable,
    }
}

/// Made columns as the proved calls take a log.
pub fn log(columns: &Columns) -> Log<'_> {
    Log {
        clocks: &columns.clocks,
        known: &columns.known,
        values: &columns.values,
    }
}

/// Made columns as they are lent to the proved witness.
pub fn lend(columns: &mut Columns) -> hwsq::Columns<'_> {
    hwsq::Columns {
        clocks: &mut columns.clocks,
        known: &mut columns.known,
        values: &mut columns.values,
    }
}

/// Columns that are lent for a log.
pub fn lent(columns: hwsq::Columns) -> Lent {
    Lent {
        clocks: columns.clocks,
        known: columns.known,
        values: columns.values,
    }
}

pub fn columns(log: Log) -> second::log::Columns {
    second::log::Columns {
        clocks: log.clocks,
        known: log.known,
        values: log.values,
    }
}
