//! Calls on families, the reader and the writer.

use crate::show;
use calls::words::{wrong, yes_or_no, Answer, Read, Words};
use hwsq::Script;

/// Most bytes a call hands to the reader.
const MOST_BYTES: usize = 600;
/// Most bytes a call lends to the writer.
const MOST_ROOM: usize = 8;
/// What lent bytes hold before a call, so that bytes left alone can be told from bytes written.
const LENT: u8 = 0xaa;
const EXIT: u8 = 0x7f;

// Kinds of include/hwsq.h.
const WAIT: u8 = 1;
const MNEMONICS: [&str; 10] = [
    "wait", "addrlo", "datalo", "ewait", "exit", "unset", "set1", "set0", "addr", "data",
];

/// An instruction: its kind and both operands.
type Parts = (u8, u32, u8);

pub fn family(words: &mut Words) -> Answer {
    let facts = hwsq::family(words.known_family()?);
    let unknown = if facts.hangs { "hangs" } else { "nop" };
    Ok(Some(show::answer(facts.refusal, || {
        format!(
            "size {} slots {} unknown {unknown} pauses {} entry {}",
            facts.size,
            facts.slots,
            yes_or_no(facts.pauses),
            facts.entry
        )
    })))
}

/// The clocks that the auditor counts in a script of that wait alone.
pub fn clocks(words: &mut Words) -> Answer {
    let (length, shift): (u8, u8) = (words.number()?, words.number()?);
    let (mut code, marks) = ([EXIT; 64], [1; 64]);
    let written = hwsq::encode(1, WAIT, length.into(), shift, &mut code);
    if written.refusal > 0 {
        return Err("operands that no wait has".to_string());
    }
    let script = Script {
        family: 1,
        code: &code,
        marks: &marks,
        entry: 0,
    };
    Ok(Some(hwsq::audit(script, &[]).clocks.to_string()))
}

pub fn decode(words: &mut Words) -> Answer {
    let family = words.number()?;
    let bytes = words.bytes()?;
    if bytes.len() > MOST_BYTES {
        return Err(format!("more than {MOST_BYTES} bytes"));
    }
    let read = hwsq::decode(family, &bytes);
    Ok(Some(show::answer(read.refusal, || {
        let instruction = told((read.kind, read.first, read.second));
        format!("{instruction} length {}", read.length)
    })))
}

/// Shows all lent bytes after the call, so that a stray write would be seen.
pub fn encode(words: &mut Words) -> Answer {
    let family = words.number()?;
    words.fixed("room")?;
    let mut lent = vec![LENT; words.at_most(MOST_ROOM)?];
    let (kind, first, second) = parts(words)?;
    let written = hwsq::encode(family, kind, first, second, &mut lent);
    let answer = show::answer(written.refusal, || format!("length {}", written.length));
    Ok(Some(format!("{answer} lent {}", show::bytes(&lent))))
}

/// The mnemonic and its operands; immediates in hex of their full width.
fn told((kind, first, second): Parts) -> String {
    let name = MNEMONICS[usize::from(kind) - 1];
    match name {
        "wait" | "ewait" => format!("{name} {first} {second}"),
        "addrlo" | "datalo" => format!("{name} {first:04x}"),
        "addr" | "data" => format!("{name} {first:08x}"),
        "exit" => name.to_string(),
        _ => format!("{name} {first}"),
    }
}

/// An instruction as `told` writes it.
fn parts(words: &mut Words) -> Read<Parts> {
    let wanted = "a mnemonic";
    let name = words.text(wanted)?;
    let kind = (1..).zip(MNEMONICS).find(|(_, other)| *other == name);
    let Some((kind, _)) = kind else {
        return Err(wrong(name, wanted));
    };
    let (first, second) = match name {
        "wait" | "ewait" => (words.number::<u8>()?.into(), words.number()?),
        "addrlo" | "datalo" => (words.half()?.into(), 0),
        "addr" | "data" => (words.word()?, 0),
        "exit" => (0, 0),
        _ => (words.number::<u8>()?.into(), 0),
    };
    Ok((kind, first, second))
}
