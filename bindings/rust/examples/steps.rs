//! Writes a script instruction by instruction, uploads it as a host does, steps it to its end, and finds that the replay says the
//! same. Prints each step, then some refusals.

use hwsq::{Log, Script, Start, State};

const FAMILY: u8 = 3;
const RAM: usize = 256;
const LOG: Log = Log {
    clocks: &[100, 50],
    known: &[0, 2],
    values: &[0, 0],
};
const RANGES: [u32; 2] = [0x0010_1600, 0x0010_1603];

// Kinds of instruction, modes and effects of include/hwsq.h.
const WAIT: u8 = 1;
const ADDRLO: u8 = 2;
const EWAIT: u8 = 4;
const EXIT: u8 = 5;
const SET1: u8 = 7;
const SET0: u8 = 8;
const ADDR: u8 = 9;
const DATA: u8 = 10;
const RUNNING: u8 = 1;
const WROTE: u8 = 4;

/// Pause, wait for event 1 to be 0, write a register twice, wait 32 clocks, let go, exit.
const SCRIPT: [(u8, u32, u8); 8] = [
    (SET1, 16, 0),
    (EWAIT, 1, 0),
    (DATA, 0x1234_5678, 0),
    (ADDR, 0x0010_1600, 0),
    (ADDRLO, 0x1602, 0),
    (WAIT, 1, 0),
    (SET0, 16, 0),
    (EXIT, 0, 0),
];

fn spelled() -> Vec<u8> {
    let mut bytes = Vec::new();
    for (kind, first, second) in SCRIPT {
        let mut out = [0xee; 6];
        let wrote = hwsq::encode(FAMILY, kind, first, second, &mut out);
        assert_eq!(wrote.refusal, 0);
        assert!(
            out[wrote.length..].iter().all(|&b| b == 0xee),
            "bytes past the spelling stay as lent"
        );
        let read = hwsq::decode(FAMILY, &out);
        assert_eq!((read.kind, read.first, read.second), (kind, first, second));
        assert_eq!((read.refusal, read.length), (0, wrote.length));
        bytes.extend(&out[..wrote.length]);
    }
    bytes
}

fn written(state: &State, address: u32, word: u32) -> State {
    let access = hwsq::write(state, address, word);
    assert_eq!(access.refusal, 0, "write {address:06x}");
    access.state
}

/// The script uploaded by words, HWSQ_ENABLE set, and slot A started at entry point 0.
fn started(bytes: &[u8]) -> State {
    let mut state = hwsq::fresh(FAMILY).state;
    for (i, word) in bytes.chunks(4).enumerate() {
        let mut four = [0x7f; 4];
        four[..word.len()].copy_from_slice(word);
        state = written(&state, 0x1400 + 4 * i as u32, u32::from_le_bytes(four));
        assert_eq!(
            hwsq::read(&state, 0x1400 + 4 * i as u32).word,
            u32::from_le_bytes(four)
        );
    }
    state = written(&state, 0x1098, 8);
    written(&state, 0x130c, 3)
}

/// Steps slot A until it runs no more, and returns its last state and place, its writes and its two sums.
fn stepped(start: State) -> (State, usize, u64, Vec<u32>, u64, u64) {
    let (mut state, mut row, mut used) = (start, 0, 0);
    let (mut writes, mut waited, mut searched) = (Vec::new(), 0, 0);
    while state.a.mode == RUNNING {
        let step = hwsq::step(&state, 0, LOG, row, used);
        assert_eq!(step.refusal, 0);
        (state, row, used) = (step.state, step.row, step.used);
        waited += step.waited;
        searched += step.searched;
        if step.effect == WROTE {
            writes.extend([step.address, step.word]);
        }
        let paused = if hwsq::paused(&state) {
            "paused"
        } else {
            "free"
        };
        println!(
            "effect {} why {} mode {} ip {} addr {:08x} data {:08x} values {:08x} enables {:08x} row {row} used {used} {paused}",
            step.effect, step.why, state.a.mode, state.a.ip, state.a.addr, state.a.data, state.values, state.enables
        );
    }
    (state, row, used, writes, waited, searched)
}

fn agrees(first: State) {
    let (state, row, used, writes, waited, searched) = stepped(first);
    let script = Script {
        family: FAMILY,
        code: &first.code[..RAM],
        marks: &first.marks[..RAM],
        entry: 0,
    };
    let start = Start {
        addr: 0,
        data: 0,
        flags_0: 0,
        flags_1: 0,
        enable: true,
    };
    let mut entries = [0xeeee_eeee; hwsq::ENTRIES];
    let verdict = hwsq::audit(script, &RANGES);
    let told = hwsq::replay(script, start, LOG, &mut entries);
    println!("{verdict:?}");
    println!("{told:?}");
    assert_eq!(
        (told.ip, told.addr, told.data),
        (state.a.ip, state.a.addr, state.a.data)
    );
    assert_eq!(told.flags_0, hwsq::read(&state, 0x1310).word);
    assert_eq!(told.flags_1, hwsq::read(&state, 0x1314).word);
    assert_eq!(
        (told.row, told.used, told.waited, told.searched),
        (row, used, waited, searched)
    );
    assert_eq!(entries[..2 * told.writes], writes[..]);
    assert!(
        entries[2 * told.writes..].iter().all(|&e| e == 0xeeee_eeee),
        "entries past the writes stay as lent"
    );
    println!("status {:08x}", hwsq::read(&state, 0x1308).word);
}

/// Family, kind, first operand and lent bytes that the writer refuses.
const UNWRITABLE: [(u8, u8, u32, usize); 7] = [
    (0, 1, 0, 6),
    (1, ADDRLO, 70000, 6),
    (2, ADDRLO, 70000, 6),
    (2, 0, 0, 6),
    (2, 11, 0, 6),
    (2, WAIT, 300, 6),
    (2, ADDR, 0, 4),
];

/// Refused calls of reader and writer leave what they were lent.
fn codec_refusals() {
    let mut out = [0xee; 6];
    for (family, kind, first, lent) in UNWRITABLE {
        let answer = hwsq::encode(family, kind, first, 0, &mut out[..lent]);
        println!("encode {family} {kind} {first} {lent}: {answer:?}");
    }
    assert_eq!(out, [0xee; 6]);
    println!("decode: {:?}", hwsq::decode(1, &[0x40, 0, 0]));
}

/// Refused calls leave what they were lent, and hand back the state that they were given.
fn refusals(state: State) {
    let mut few = [0xeeee_eeee; hwsq::ENTRIES - 1];
    let script = Script {
        family: FAMILY,
        code: &state.code[..RAM],
        marks: &state.marks[..RAM],
        entry: 0,
    };
    let start = Start {
        addr: 0,
        data: 0,
        flags_0: 0,
        flags_1: 0,
        enable: true,
    };
    println!("replay: {:?}", hwsq::replay(script, start, LOG, &mut few));
    assert!(few.iter().all(|&e| e == 0xeeee_eeee));
    for (address, word) in [(0x1308, 0), (0x1400, 0)] {
        let access = hwsq::write(&state, address, word);
        assert_eq!(access.state, state);
        println!("write {address:06x}: {}", access.refusal);
    }
    println!("read 00130c: {:?}", hwsq::read(&state, 0x130c));
    let step = hwsq::step(&state, 0, LOG, 3, 0);
    assert_eq!(step.state, state);
    println!(
        "step: {} {} row {} used {}",
        step.refusal, step.effect, step.row, step.used
    );
    println!("fresh: {}", hwsq::fresh(5).refusal);
    println!("family: {:?}", hwsq::family(5));
}

fn samples() {
    let [low, high, gain, offset] = [0.5f32, 2.0, 2.0, 0.25].map(f32::to_bits);
    for (gate, raw) in [
        (0, 0.125f32),
        (0, 0.5),
        (0, 0.875),
        (1, 0.875),
        (2, 0.875),
        (3, 0.875),
        (0, f32::INFINITY),
    ] {
        println!(
            "sample {gate} {raw}: {:?}",
            hwsq::sample(gate, low, high, gain, offset, raw.to_bits())
        );
    }
    println!(
        "sample levels exchanged: {:?}",
        hwsq::sample(0, high, low, gain, offset, 0)
    );
}

fn main() {
    println!("{:?}", hwsq::family(FAMILY));
    let first = started(&spelled());
    agrees(first);
    codec_refusals();
    refusals(first);
    samples();
}
