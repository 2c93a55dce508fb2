//! The scripts: 512 bytes on family 4, all uploaded, entered at 0, that pass or fail at their last byte.

use makers::ranges;

pub const FAMILY: u8 = 4;
pub const CODE: usize = 512;
/// Where the first range begins; of the 64 the last alone holds the addresses that are poked.
pub const FIRST_RANGE: u32 = 0;
const FIRST: u32 = FIRST_RANGE + 63 * 0x1000;

const EXIT: u8 = 0x7f;
const UNKNOWN: u8 = 0xff;
/// A wait of 0 clocks, to fill up with.
const NO_WAIT: u8 = 0x00;
/// A wait of 128 clocks.
const WAIT: u8 = 0x05;

pub struct Script {
    pub name: String,
    pub code: Vec<u8>,
    pub marks: Vec<u8>,
    /// How many ewaits it has, for the log to be made to.
    pub ewaits: usize,
    /// The place of its exit or of its first fault.
    pub end: usize,
}

/// Code without its last byte, which says how the script ends.
#[derive(Clone, Default)]
pub struct Body {
    code: Vec<u8>,
    ewaits: usize,
}

impl Script {
    pub fn lent(&self) -> hwsq::Script<'_> {
        hwsq::Script {
            family: FAMILY,
            code: &self.code,
            marks: &self.marks,
            entry: 0,
        }
    }
}

/// As many ranges as there may be.
pub fn ranges() -> Vec<u32> {
    ranges::flat(&ranges::most(FIRST_RANGE))
}

/// What the auditor is timed on.
pub fn audited() -> Vec<Script> {
    both_ways("audit", &without_ewaits())
}

/// What the witness is timed on: what the auditor is, and ewaits alone, which make the longest log.
pub fn witnessed() -> Vec<Script> {
    let mut kinds = Vec::from(without_ewaits());
    kinds.push(("ewaits", ewaits()));
    both_ways("witness", &kinds)
}

fn without_ewaits() -> [(&'static str, Body); 3] {
    [
        ("addr and data", whole_pokes(false)),
        ("addrlo", low_pokes(false)),
        ("one-byte", single_bytes()),
    ]
}

/// What replay is timed on: the same kinds, with ewaits and waits between the pokes, and ewaits alone.
pub fn replayed() -> Vec<Script> {
    let kinds = [
        ("addr and data", whole_pokes(true)),
        ("addrlo", low_pokes(true)),
        ("one-byte", single_bytes()),
        ("ewaits", ewaits()),
    ];
    both_ways("replay", &kinds)
}

/// A script of which the first byte was never uploaded.
pub fn at_once(name: &str) -> Script {
    let mut script = Script {
        name: name.to_string(),
        end: 0,
        ..single_bytes().ended(EXIT)
    };
    script.marks[0] = 0;
    script
}

/// Each with an exit for its last byte, and with an unknown opcode.
fn both_ways(call: &str, kinds: &[(&str, Body)]) -> Vec<Script> {
    let ends = [("passes", EXIT), ("fails at the last byte", UNKNOWN)];
    let named = |kind: &str, body: &Body, (end, last): (&str, u8)| Script {
        name: format!("{call}, {kind}, {end}"),
        ..body.ended(last)
    };
    kinds
        .iter()
        .flat_map(|(kind, body)| ends.map(|end| named(kind, body, end)))
        .collect()
}

impl Body {
    /// The script of 512 bytes with this last byte.
    pub fn ended(&self, last: u8) -> Script {
        let mut code = self.code.clone();
        code.resize(CODE - 1, NO_WAIT);
        code.push(last);
        Script {
            name: String::new(),
            code,
            marks: vec![1; CODE],
            ewaits: self.ewaits,
            end: CODE - 1,
        }
    }

    /// An ewait for event 0, for 1 and 0 in turn.
    fn ewait(&mut self) {
        self.ewaits += 1;
        self.code.extend([0x5f, 0, (self.ewaits % 2) as u8]);
    }

    /// An ewait and a wait, where wanted.
    fn pause(&mut self, wanted: bool) {
        if wanted {
            self.ewait();
            self.code.push(WAIT);
        }
    }
}

/// Data and addr in turn: the script with the most operands.
fn whole_pokes(pauses: bool) -> Body {
    let mut body = Body::default();
    let length = if pauses { 14 } else { 10 };
    for i in 0..((CODE - 1) / length) as u32 {
        body.code.push(0xe2);
        body.code.extend((i * 0x0101_0101).to_le_bytes());
        body.code.push(0xe0);
        body.code.extend((FIRST + 4 * i).to_le_bytes());
        body.pause(pauses);
    }
    body
}

/// Data, addr, then addrlo: the script with the most pokes.
pub fn low_pokes(pauses: bool) -> Body {
    let mut body = Body::default();
    body.code.extend([0xe2, 1, 2, 3, 4, 0xe0]);
    body.code.extend(FIRST.to_le_bytes());
    let (pokes, length) = if pauses { (3, 13) } else { (1, 3) };
    for turn in 0..((CODE - 1 - 10) / length) as u32 {
        for i in 0..pokes {
            let address = FIRST + 4 * (pokes * turn + i);
            body.code.push(0x40);
            body.code.extend((address as u16).to_le_bytes());
        }
        body.pause(pauses);
    }
    body
}

/// Waits and flags: the script with the most instructions.
fn single_bytes() -> Body {
    let code = (0..CODE - 1).map(|i| [WAIT, 0xa1, 0xc1, 0x80][i % 4]);
    Body {
        code: code.collect(),
        ewaits: 0,
    }
}

/// Ewaits alone: the script that has the most searches.
fn ewaits() -> Body {
    let mut body = Body::default();
    for _ in 0..(CODE - 1) / 3 {
        body.ewait();
    }
    body
}
