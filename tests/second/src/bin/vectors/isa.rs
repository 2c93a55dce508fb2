//! Calls on families, the reader and the writer.

use calls::words::{wrong, Answer, Read, Words};
use second::isa::{self, Instruction, MmioAddress};
use second::{show, Refusal};

/// Most bytes a call hands to the reader.
const MOST_BYTES: usize = 600;
/// Most bytes a call lends to the writer.
const MOST_ROOM: usize = 8;
/// What lent bytes hold before a call, so that bytes left alone can be told from bytes written.
const LENT: u8 = 0xaa;

pub fn family(words: &mut Words) -> Answer {
    Ok(Some(show::answer(facts(words.known_family()?))))
}

/// The facts of a family in the order of the line.
fn facts(family: u8) -> Result<String, Refusal> {
    let hangs = isa::unknown_hangs(family)?;
    let pauses = isa::pauses_memory(family)?;
    Ok(format!(
        "size {} slots {} unknown {} pauses {} entry {}",
        isa::code_size(family)?,
        isa::slot_count(family)?,
        if hangs { "hangs" } else { "nop" },
        show::yes_or_no(pauses),
        isa::highest_entry(family)?
    ))
}

pub fn clocks(words: &mut Words) -> Answer {
    let (length, shift) = (words.number()?, words.number()?);
    Ok(Some(isa::wait_clocks(length, shift).to_string()))
}

pub fn decode(words: &mut Words) -> Answer {
    let family = words.number()?;
    let bytes = words.bytes()?;
    if bytes.len() > MOST_BYTES {
        return Err(format!("more than {MOST_BYTES} bytes"));
    }
    let answer = isa::decode(family, &bytes)
        .map(|(read, length)| format!("{} length {length}", show::instruction(read)));
    Ok(Some(show::answer(answer)))
}

/// Shows all lent bytes after the call, so that a stray write would be seen.
pub fn encode(words: &mut Words) -> Answer {
    let family = words.number()?;
    words.fixed("room")?;
    let mut lent = vec![LENT; words.at_most(MOST_ROOM)?];
    let instruction = instruction(words)?;
    let answer =
        isa::encode(family, instruction, &mut lent).map(|length| format!("length {length}"));
    let lent = show::bytes(&lent);
    Ok(Some(format!("{} lent {lent}", show::answer(answer))))
}

/// An instruction as `show::instruction` writes it.
fn instruction(words: &mut Words) -> Read<Instruction> {
    let wanted = "a mnemonic";
    Ok(match words.text(wanted)? {
        "wait" => Instruction::Wait {
            length: words.number()?,
            shift: words.number()?,
        },
        "addrlo" => Instruction::AddrLo(words.half()?),
        "datalo" => Instruction::DataLo(words.half()?),
        "ewait" => Instruction::Ewait {
            event: words.number()?,
            value: words.number()?,
        },
        "exit" => Instruction::Exit,
        "unset" => Instruction::Unset(words.number()?),
        "set1" => Instruction::Set1(words.number()?),
        "set0" => Instruction::Set0(words.number()?),
        "addr" => Instruction::Addr(MmioAddress(words.word()?)),
        "data" => Instruction::Data(words.word()?),
        other => return Err(wrong(other, wanted)),
    })
}
