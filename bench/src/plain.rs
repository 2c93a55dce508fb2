//! The auditor in ordinary Rust, written from the rules: what the proved one is timed against.

#[derive(Clone, Copy)]
pub enum Verdict {
    Pass {
        place: usize,
        count: usize,
        writes: usize,
        clocks: u64,
    },
    Fault {
        number: u8,
        place: usize,
    },
}

/// Of DATA it matters only that it is set, so the two that set it carry no value.
enum Instruction {
    Wait(u64),
    AddrLo(u16),
    DataLo,
    Ewait { event: u8, value: u8 },
    Exit,
    Unset(u8),
    Set1(u8),
    Set0(u8),
    Addr(u32),
    Data,
}

/// What the script has set so far.
#[derive(Default)]
struct Known {
    addr: Option<u32>,
    data: bool,
    paused: bool,
    count: usize,
    writes: usize,
    clocks: u64,
}

fn code_size(family: u8) -> Option<usize> {
    match family {
        1 => Some(64),
        2 => Some(128),
        3 => Some(256),
        4 => Some(512),
        _ => None,
    }
}

fn input_fits(family: u8, code: &[u8], marks: &[u8], entry: usize, ranges: &[u32]) -> bool {
    let Some(size) = code_size(family) else {
        return false;
    };
    let highest = if family == 4 { 511 } else { 255 };
    code.len() == size
        && marks.len() == size
        && marks.iter().all(|&mark| mark <= 1)
        && entry <= highest
        && ranges.len() <= 128
        && ranges.len().is_multiple_of(2)
        && ranges.chunks_exact(2).all(|range| range[0] <= range[1])
}

/// How many bytes an instruction takes, or fault 3.
fn size_of(family: u8, opcode: u8) -> Result<usize, u8> {
    match opcode {
        0x00..=0x3f | 0x7f | 0x80..=0xdf => Ok(1),
        0x40 | 0x42 | 0x5f if family >= 2 => Ok(3),
        0xe0 | 0xe2 if family >= 2 => Ok(5),
        _ => Err(3),
    }
}

/// The instruction that these bytes spell; size_of has tested the first one.
fn decode(bytes: &[u8]) -> Instruction {
    match *bytes {
        [0x40, a, b] => Instruction::AddrLo(u16::from_le_bytes([a, b])),
        [0x42, _, _] => Instruction::DataLo,
        [0x5f, event, value] => Instruction::Ewait { event, value },
        [0xe0, a, b, c, d] => Instruction::Addr(u32::from_le_bytes([a, b, c, d])),
        [0xe2, _, _, _, _] => Instruction::Data,
        [op @ 0x80..=0x9f] => Instruction::Unset(op & 31),
        [op @ 0xa0..=0xbf] => Instruction::Set1(op & 31),
        [op @ 0xc0..=0xdf] => Instruction::Set0(op & 31),
        [op @ 0x00..=0x3f] => Instruction::Wait(32 * (u64::from(op & 3) << (2 * (op >> 2)))),
        _ => Instruction::Exit,
    }
}

/// The instruction at a place and its size, or the fault's number.
fn fetch(family: u8, code: &[u8], marks: &[u8], at: usize) -> Result<(Instruction, usize), u8> {
    let &opcode = code.get(at).ok_or(1)?;
    if marks[at] != 1 {
        return Err(2);
    }
    let size = size_of(family, opcode)?;
    let bytes = code.get(at..at + size).ok_or(1)?;
    if marks[at..at + size].iter().any(|&mark| mark != 1) {
        return Err(2);
    }
    Ok((decode(bytes), size))
}

/// A poke, or the fault's number.
fn poke(known: &mut Known, address: Option<u32>, ranges: &[u32]) -> Result<(), u8> {
    let address = address.ok_or(4)?;
    if !known.data {
        return Err(5);
    }
    if !ranges
        .chunks_exact(2)
        .any(|range| range[0] <= address && address <= range[1])
    {
        return Err(6);
    }
    known.addr = Some(address);
    known.writes += 1;
    Ok(())
}

/// What is known after an instruction other than exit, or the fault's number.
fn assess(known: &mut Known, instruction: Instruction, ranges: &[u32]) -> Result<(), u8> {
    match instruction {
        Instruction::Wait(clocks) => known.clocks += clocks,
        Instruction::Ewait { event, value } if event > 31 || value > 1 => return Err(7),
        Instruction::Unset(16) | Instruction::Set0(16) => known.paused = false,
        Instruction::Set1(16) => known.paused = true,
        Instruction::Data => known.data = true,
        Instruction::Addr(address) => poke(known, Some(address), ranges)?,
        Instruction::AddrLo(low) => {
            let address = known.addr.map(|addr| addr & 0xffff_0000 | u32::from(low));
            poke(known, address, ranges)?;
        }
        Instruction::DataLo | Instruction::Ewait { .. } | Instruction::Exit => {}
        Instruction::Unset(_) | Instruction::Set1(_) | Instruction::Set0(_) => {}
    }
    known.count += 1;
    Ok(())
}

// No more inlined into the timing loop than the others are.
#[inline(never)]
pub fn audit(family: u8, code: &[u8], marks: &[u8], entry: usize, ranges: &[u32]) -> Verdict {
    if !input_fits(family, code, marks, entry, ranges) {
        return Verdict::Fault {
            number: 9,
            place: 0,
        };
    }
    let mut place = entry;
    let mut known = Known::default();
    loop {
        let (instruction, size) = match fetch(family, code, marks, place) {
            Ok(fetched) => fetched,
            Err(number) => return Verdict::Fault { number, place },
        };
        if matches!(instruction, Instruction::Exit) {
            if family >= 2 && known.paused {
                return Verdict::Fault { number: 8, place };
            }
            let Known {
                count,
                writes,
                clocks,
                ..
            } = known;
            return Verdict::Pass {
                place,
                count: count + 1,
                writes,
                clocks,
            };
        }
        if let Err(number) = assess(&mut known, instruction, ranges) {
            return Verdict::Fault { number, place };
        }
        place += size;
    }
}
