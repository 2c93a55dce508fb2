//! The registers the host sees.

use super::state::{Activity, Slot, SlotState, State};
use crate::isa::{self, CodeAddress, MmioAddress};
use crate::misreadings::{in_force, Misreading};
use crate::Refusal;

/// A register of a family; code words carry the place of their first byte.
#[derive(Clone, Copy, PartialEq, Eq)]
enum Register {
    Control,
    EntryPoint,
    Status,
    Trigger,
    Flags { high_flags: bool },
    EntryPointHigh,
    Code(usize),
}

const HIGH_ENTRY_BITS: u32 = 0x0101_0101;

/// Finds the register at an address.
fn register(family: u8, address: MmioAddress) -> Result<Register, Refusal> {
    let size = isa::code_size(family)?;
    match address.0 {
        0x1098 => Ok(Register::Control),
        0x1304 => Ok(Register::EntryPoint),
        0x1308 => Ok(Register::Status),
        0x130c => Ok(Register::Trigger),
        0x1310 => Ok(Register::Flags { high_flags: false }),
        0x1314 => Ok(Register::Flags { high_flags: true }),
        0x1318 if family == 4 => Ok(Register::EntryPointHigh),
        0x1400..=0x14ff => code_word(address.0 - 0x1400, size),
        0x8_0000..=0x8_01ff if family == 4 => code_word(address.0 - 0x8_0000, size),
        _ => Err(Refusal::NoRegister),
    }
}

/// The code word at an offset into a window, if aligned and inside the code RAM.
fn code_word(offset: u32, size: usize) -> Result<Register, Refusal> {
    let place = offset as usize;
    if !place.is_multiple_of(4) || place >= size {
        return Err(Refusal::NoRegister);
    }
    Ok(Register::Code(place))
}

/// A write by the host; a refusal leaves the state alone.
pub fn host_write(state: &mut State, address: MmioAddress, value: u32) -> Result<(), Refusal> {
    let register = register(state.family, address)?;
    if register == Register::Status {
        return Err(Refusal::NoRegister);
    }
    let abort = register == Register::Trigger && value & 1 == 0;
    if !abort && state.executing_slot()?.is_some() {
        return Err(Refusal::SlotExecuting);
    }
    match register {
        Register::Control => {
            state.hwsq_enable = value >> 3 & 1 == 1;
            state.override_mode = value >> 4 & 1 == 1;
        }
        Register::EntryPoint => state.entry_point = value,
        Register::EntryPointHigh => state.entry_point_high = value & HIGH_ENTRY_BITS,
        Register::Flags { high_flags } => state.set_flags(high_flags, value),
        Register::Code(place) => upload(state, place, value),
        Register::Trigger => trigger(state, value),
        Register::Status => {}
    }
    Ok(())
}

fn upload(state: &mut State, place: usize, word: u32) {
    state.code[place..place + 4].copy_from_slice(&word.to_le_bytes());
    state.marks[place..place + 4].fill(1);
}

/// Starts or aborts a slot; family 4 has no slot bit.
fn trigger(state: &mut State, value: u32) {
    let slot_a = state.family == 4 || value >> 1 & 1 == 1;
    let slot = if slot_a { Slot::A } else { Slot::B };
    if value & 1 == 0 {
        let executing = state.slot(slot).activity != Activity::Idle;
        state.slot_mut(slot).activity = Activity::Idle;
        // The papers: an abort always stops the slot and clears the hang.
        if in_force(Misreading::AbortHangs) && executing {
            state.slot_mut(slot).activity = Activity::Hung;
        }
        return;
    }
    let ip = entry(state, value >> 2 & 3);
    let slot = state.slot_mut(slot);
    slot.ip = ip;
    slot.activity = Activity::Fetching;
}

/// One of the four entry points; only family 4 has the ninth bit.
fn entry(state: &State, index: u32) -> CodeAddress {
    let low = state.entry_point >> (8 * index) & 0xff;
    let high = state.entry_point_high >> (8 * index) & 1;
    CodeAddress(if state.family == 4 {
        low | high << 8
    } else {
        low
    })
}

/// A read by the host.
pub fn host_read(state: &State, address: MmioAddress) -> Result<u32, Refusal> {
    match register(state.family, address)? {
        Register::Control => {
            Ok(u32::from(state.hwsq_enable) << 3 | u32::from(state.override_mode) << 4)
        }
        Register::EntryPoint => Ok(state.entry_point),
        Register::Status => status(state),
        Register::Trigger => Err(Refusal::NoRegister),
        Register::Flags { high_flags } => Ok(state.flags(high_flags)),
        Register::EntryPointHigh => Ok(state.entry_point_high & HIGH_ENTRY_BITS),
        Register::Code(place) => Ok(read_word(state, place)),
    }
}

/// Four code bytes, those never uploaded as 0.
fn read_word(state: &State, place: usize) -> u32 {
    let mut bytes = [0; 4];
    for (i, byte) in bytes.iter_mut().enumerate() {
        if state.marks[place + i] == 1 {
            *byte = state.code[place + i];
        }
    }
    u32::from_le_bytes(bytes)
}

fn status(state: &State) -> Result<u32, Refusal> {
    let a = slot_status(state.family, state.slot(Slot::A))?;
    let b = slot_status(state.family, state.slot(Slot::B))?;
    Ok(if isa::slot_count(state.family)? == 1 {
        a
    } else {
        a | b << 16
    })
}

/// Half of STATUS; the hang bit and the ninth IP bit exist on some families only.
fn slot_status(family: u8, slot: &SlotState) -> Result<u32, Refusal> {
    let executing = slot.activity != Activity::Idle;
    let hung = slot.activity == Activity::Hung && isa::unknown_hangs(family)?;
    let ip_bit_8 = if family == 4 { slot.ip.0 >> 8 & 1 } else { 0 };
    Ok(slot.ip.0 & 0xff | u32::from(executing) << 8 | u32::from(hung) << 9 | ip_bit_8 << 10)
}
