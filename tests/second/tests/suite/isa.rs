//! Reader, writer and family facts.

use second::isa::*;
use second::Refusal;

/// Length of an opcode as the tables give it, none if unknown.
fn length(family: u8, first: u8) -> Option<usize> {
    match first {
        0x00..=0x3f | 0x7f | 0x80..=0xdf => Some(1),
        0x40 | 0x42 | 0x5f if family > 1 => Some(3),
        0xe0 | 0xe2 if family > 1 => Some(5),
        _ => None,
    }
}

#[test]
fn family_facts() {
    let sizes: Vec<_> = (1..=4).map(|f| code_size(f).unwrap()).collect();
    assert_eq!(sizes, [64, 128, 256, 512]);
    let slots: Vec<_> = (1..=4).map(|f| slot_count(f).unwrap()).collect();
    assert_eq!(slots, [2, 2, 2, 1]);
    let hangs: Vec<_> = (1..=4).map(|f| unknown_hangs(f).unwrap()).collect();
    assert_eq!(hangs, [false, true, true, false]);
    let pauses: Vec<_> = (1..=4).map(|f| pauses_memory(f).unwrap()).collect();
    assert_eq!(pauses, [false, true, true, true]);
    let pokes: Vec<_> = (1..=4).map(|f| has_pokes(f).unwrap()).collect();
    assert_eq!(pokes, [false, true, true, true]);
    let entries: Vec<_> = (1..=4).map(|f| highest_entry(f).unwrap()).collect();
    assert_eq!(entries, [255, 255, 255, 511]);
}

#[test]
fn unknown_families_are_refused_everywhere() {
    for family in (0..=255).filter(|f| !(1..=4).contains(f)) {
        assert_eq!(code_size(family), Err(Refusal::UnfitInput));
        assert_eq!(slot_count(family), Err(Refusal::UnfitInput));
        assert_eq!(unknown_hangs(family), Err(Refusal::UnfitInput));
        assert_eq!(pauses_memory(family), Err(Refusal::UnfitInput));
        assert_eq!(has_pokes(family), Err(Refusal::UnfitInput));
        assert_eq!(highest_entry(family), Err(Refusal::UnfitInput));
        assert_eq!(decode(family, &[]), Err(Refusal::UnfitInput));
        assert_eq!(decode(family, &[0xff]), Err(Refusal::UnfitInput));
        assert_eq!(
            encode(family, Instruction::Set1(99), &mut []),
            Err(Refusal::UnfitInput)
        );
    }
}

#[test]
fn every_first_byte_on_every_family_round_trips() {
    for family in 1..=4 {
        for first in 0..=255 {
            let bytes = [first, 0x12, 0x34, 0x56, 0x78, 0x9a];
            let Some(expected) = length(family, first) else {
                assert_eq!(decode(family, &bytes), Err(Refusal::UnknownOpcode));
                assert_eq!(decode(family, &bytes[..1]), Err(Refusal::UnknownOpcode));
                continue;
            };
            let (instruction, read) = decode(family, &bytes).unwrap();
            assert_eq!(read, expected);
            assert_eq!(
                decode(family, &bytes[..expected]),
                Ok((instruction, expected))
            );
            let mut out = [0xaa; 7];
            assert_eq!(encode(family, instruction, &mut out), Ok(expected));
            assert_eq!(out[..expected], bytes[..expected]);
            assert!(out[expected..].iter().all(|&b| b == 0xaa));
            for short in 0..expected {
                assert_eq!(decode(family, &bytes[..short]), Err(Refusal::PastCode));
                let mut out = [0xaa; 7];
                let answer = encode(family, instruction, &mut out[..short]);
                assert_eq!(answer, Err(Refusal::TooFewBytes));
                assert_eq!(out, [0xaa; 7]);
            }
        }
    }
}

#[test]
fn operands_are_read_little_endian() {
    let read = |bytes: &[u8]| decode(2, bytes).unwrap().0;
    assert_eq!(read(&[0x40, 0x34, 0x12]), Instruction::AddrLo(0x1234));
    assert_eq!(read(&[0x42, 0x34, 0x12]), Instruction::DataLo(0x1234));
    assert_eq!(
        read(&[0x5f, 0x34, 0x12]),
        Instruction::Ewait {
            event: 0x34,
            value: 0x12
        }
    );
    let address = MmioAddress(0x7856_3412);
    assert_eq!(
        read(&[0xe0, 0x12, 0x34, 0x56, 0x78]),
        Instruction::Addr(address)
    );
    assert_eq!(
        read(&[0xe2, 0x12, 0x34, 0x56, 0x78]),
        Instruction::Data(0x7856_3412)
    );
    assert_eq!(
        read(&[0x36]),
        Instruction::Wait {
            length: 2,
            shift: 13
        }
    );
    assert_eq!(read(&[0x7f]), Instruction::Exit);
    assert_eq!(read(&[0x9f]), Instruction::Unset(31));
    assert_eq!(read(&[0xb0]), Instruction::Set1(16));
    assert_eq!(read(&[0xc1]), Instruction::Set0(1));
}

#[test]
fn long_instructions_are_one_unknown_byte_on_family_1() {
    for first in [0x40, 0x42, 0x5f, 0xe0, 0xe2] {
        assert_eq!(decode(1, &[first]), Err(Refusal::UnknownOpcode));
        assert_eq!(decode(1, &[first, 0, 0, 0, 0]), Err(Refusal::UnknownOpcode));
        for family in 2..=4 {
            assert_eq!(decode(family, &[first, 0]), Err(Refusal::PastCode));
        }
    }
}

#[test]
fn writer_refuses_in_order() {
    let late = [
        Instruction::AddrLo(0),
        Instruction::DataLo(0),
        Instruction::Ewait { event: 0, value: 0 },
        Instruction::Addr(MmioAddress(0)),
        Instruction::Data(0),
    ];
    for instruction in late {
        assert_eq!(encode(1, instruction, &mut []), Err(Refusal::NotOnFamily));
        assert_eq!(encode(2, instruction, &mut []), Err(Refusal::TooFewBytes));
    }
    for family in 1..=4 {
        for instruction in [
            Instruction::Wait {
                length: 4,
                shift: 0,
            },
            Instruction::Wait {
                length: 0,
                shift: 16,
            },
            Instruction::Unset(32),
            Instruction::Set1(32),
            Instruction::Set0(255),
        ] {
            let mut out = [0xaa; 5];
            let short = encode(family, instruction, &mut []);
            let long = encode(family, instruction, &mut out);
            assert_eq!(short, Err(Refusal::OperandTooLarge));
            assert_eq!(long, Err(Refusal::OperandTooLarge));
            assert_eq!(out, [0xaa; 5]);
        }
    }
}

#[test]
fn every_operand_has_its_own_spelling() {
    let mut out = [0; 5];
    for length in 0..=3 {
        for shift in 0..=15 {
            encode(1, Instruction::Wait { length, shift }, &mut out).unwrap();
            assert_eq!(out[0], shift << 2 | length);
        }
    }
    for flag in 0..=31 {
        encode(1, Instruction::Unset(flag), &mut out).unwrap();
        assert_eq!(out[0], 0x80 + flag);
        encode(1, Instruction::Set1(flag), &mut out).unwrap();
        assert_eq!(out[0], 0xa0 + flag);
        encode(1, Instruction::Set0(flag), &mut out).unwrap();
        assert_eq!(out[0], 0xc0 + flag);
    }
    encode(
        4,
        Instruction::Ewait {
            event: 255,
            value: 254,
        },
        &mut out,
    )
    .unwrap();
    assert_eq!(out[..3], [0x5f, 255, 254]);
}

#[test]
fn wait_lengths() {
    assert_eq!(wait_clocks(0, 15), 0);
    assert_eq!(wait_clocks(1, 0), 32);
    assert_eq!(wait_clocks(1, 1), 128);
    assert_eq!(wait_clocks(3, 15), 103_079_215_104);
    for length in 0..=3 {
        for shift in 0..=15 {
            let clocks = u64::from(length) * 4u64.pow(u32::from(shift)) * 32;
            assert_eq!(wait_clocks(length, shift), clocks);
        }
    }
    assert_eq!(wait_clocks(255, 255), wait_clocks(3, 15));
}
