//! Safe Rust over the calls of include/hwsq.h. Numbers and layouts are documented there.
//!
//! Each call takes every input of its type, and each pointer here is a live slice's, so no call needs a test before it.

/// The entries that a replay asks for.
pub const ENTRIES: usize = 340;
/// The entries that a witness asks for in each column.
pub const SHOWN_ROWS: usize = 171;
/// The bytes that a report asks for.
pub const REPORT_SIZE: usize = 65536;

#[repr(C)]
#[derive(Clone, Copy, Debug, PartialEq, Eq)]
pub struct Facts {
    pub refusal: u8,
    pub hangs: bool,
    pub pauses: bool,
    pub size: usize,
    pub slots: usize,
    pub entry: usize,
}

#[repr(C)]
#[derive(Clone, Copy, Debug, PartialEq, Eq)]
pub struct Decoded {
    pub refusal: u8,
    pub kind: u8,
    pub first: u32,
    pub second: u8,
    pub length: usize,
}

#[repr(C)]
#[derive(Clone, Copy, Debug, PartialEq, Eq)]
pub struct Encoded {
    pub refusal: u8,
    pub length: usize,
}

#[repr(C)]
#[derive(Clone, Copy, Debug, PartialEq, Eq)]
pub struct Verdict {
    pub verdict: u8,
    pub place: usize,
    pub count: usize,
    pub writes: usize,
    pub clocks: u64,
}

#[repr(C)]
#[derive(Clone, Copy, Debug, PartialEq, Eq)]
pub struct Shown {
    pub refusal: u8,
    pub verdict: u8,
    pub addr: u32,
    pub data: u32,
    pub place: usize,
    pub count: usize,
    pub clocks: u64,
    pub rows: usize,
    pub steps: usize,
    pub writes: usize,
}

#[repr(C)]
#[derive(Clone, Copy, Debug, PartialEq, Eq)]
pub struct Replayed {
    pub refusal: u8,
    pub ending: u8,
    pub addr: u32,
    pub data: u32,
    pub flags_0: u32,
    pub flags_1: u32,
    pub ip: usize,
    pub row: usize,
    pub used: u64,
    pub steps: usize,
    pub writes: usize,
    pub waited: u64,
    pub searched: u64,
    pub left: u64,
}

#[repr(C)]
#[derive(Clone, Copy, Debug, PartialEq, Eq)]
pub struct Sampled {
    pub refusal: u8,
    pub reading: u8,
    pub volts: u32,
}

#[repr(C)]
#[derive(Clone, Copy, Debug, PartialEq, Eq)]
pub struct Slot {
    pub mode: u8,
    pub addr: u32,
    pub data: u32,
    pub ip: usize,
}

#[repr(C)]
#[derive(Clone, Copy, Debug, PartialEq, Eq)]
pub struct State {
    pub family: u8,
    pub enable: bool,
    pub override_mode: bool,
    pub values: u32,
    pub enables: u32,
    pub entries: u32,
    pub entries_high: u32,
    pub a: Slot,
    pub b: Slot,
    pub code: [u8; 512],
    pub marks: [u8; 512],
}

#[repr(C)]
#[derive(Clone, Copy, Debug, PartialEq, Eq)]
pub struct Access {
    pub refusal: u8,
    pub state: State,
}

#[repr(C)]
#[derive(Clone, Copy, Debug, PartialEq, Eq)]
pub struct Reading {
    pub refusal: u8,
    pub word: u32,
}

#[repr(C)]
#[derive(Clone, Copy, Debug, PartialEq, Eq)]
pub struct Stepped {
    pub refusal: u8,
    pub effect: u8,
    pub why: u8,
    pub address: u32,
    pub word: u32,
    pub row: usize,
    pub used: u64,
    pub waited: u64,
    pub searched: u64,
    pub state: State,
}

mod raw {
    use super::*;

    // A Rattle slice passes as a pointer and a length.
    #[link(name = "hwsq", kind = "static")]
    extern "C" {
        pub fn hwsq_family(family: u8) -> Facts;
        pub fn hwsq_decode(family: u8, bytes: *const u8, bytes_len: usize) -> Decoded;
        pub fn hwsq_encode(
            family: u8,
            kind: u8,
            first: u32,
            second: u8,
            out: *mut u8,
            out_len: usize,
        ) -> Encoded;
        pub fn hwsq_audit(
            family: u8,
            code: *const u8,
            code_len: usize,
            marks: *const u8,
            marks_len: usize,
            entry: usize,
            ranges: *const u32,
            ranges_len: usize,
        ) -> Verdict;
        pub fn hwsq_witness(
            family: u8,
            code: *const u8,
            code_len: usize,
            marks: *const u8,
            marks_len: usize,
            entry: usize,
            ranges: *const u32,
            ranges_len: usize,
            clocks: *mut u64,
            clocks_len: usize,
            known: *mut u32,
            known_len: usize,
            values: *mut u32,
            values_len: usize,
        ) -> Shown;
        pub fn hwsq_replay(
            family: u8,
            code: *const u8,
            code_len: usize,
            marks: *const u8,
            marks_len: usize,
            entry: usize,
            addr: u32,
            data: u32,
            flags_0: u32,
            flags_1: u32,
            enable: bool,
            clocks: *const u64,
            clocks_len: usize,
            known: *const u32,
            known_len: usize,
            values: *const u32,
            values_len: usize,
            writes: *mut u32,
            writes_len: usize,
        ) -> Replayed;
        pub fn hwsq_sample(
            gate: u8,
            low: u32,
            high: u32,
            gain: u32,
            offset: u32,
            raw: u32,
        ) -> Sampled;
        pub fn hwsq_fresh(family: u8) -> Access;
        pub fn hwsq_write(state: State, address: u32, word: u32) -> Access;
        pub fn hwsq_read(state: State, address: u32) -> Reading;
        pub fn hwsq_step(
            state: State,
            slot: u8,
            clocks: *const u64,
            clocks_len: usize,
            known: *const u32,
            known_len: usize,
            values: *const u32,
            values_len: usize,
            row: usize,
            used: u64,
        ) -> Stepped;
        pub fn hwsq_paused(state: State) -> bool;
        pub fn hwsq_report(job: *const u8, job_len: usize, out: *mut u8) -> usize;
    }
}

/// A script in code RAM, with its upload marks and its entry point.
#[derive(Clone, Copy)]
pub struct Script<'a> {
    pub family: u8,
    pub code: &'a [u8],
    pub marks: &'a [u8],
    pub entry: usize,
}

/// The registers that a replay starts with.
#[derive(Clone, Copy)]
pub struct Start {
    pub addr: u32,
    pub data: u32,
    pub flags_0: u32,
    pub flags_1: u32,
    pub enable: bool,
}

/// A log's columns.
#[derive(Clone, Copy)]
pub struct Log<'a> {
    pub clocks: &'a [u64],
    pub known: &'a [u32],
    pub values: &'a [u32],
}

/// Columns that are lent for a log.
pub struct Columns<'a> {
    pub clocks: &'a mut [u64],
    pub known: &'a mut [u32],
    pub values: &'a mut [u32],
}

pub fn family(family: u8) -> Facts {
    unsafe { raw::hwsq_family(family) }
}

pub fn decode(family: u8, bytes: &[u8]) -> Decoded {
    unsafe { raw::hwsq_decode(family, bytes.as_ptr(), bytes.len()) }
}

pub fn encode(family: u8, kind: u8, first: u32, second: u8, out: &mut [u8]) -> Encoded {
    unsafe { raw::hwsq_encode(family, kind, first, second, out.as_mut_ptr(), out.len()) }
}

pub fn audit(script: Script, ranges: &[u32]) -> Verdict {
    unsafe {
        raw::hwsq_audit(
            script.family,
            script.code.as_ptr(),
            script.code.len(),
            script.marks.as_ptr(),
            script.marks.len(),
            script.entry,
            ranges.as_ptr(),
            ranges.len(),
        )
    }
}

/// The log that shows the verdict is in the first `rows` entries of the columns.
pub fn witness(script: Script, ranges: &[u32], columns: Columns) -> Shown {
    unsafe {
        raw::hwsq_witness(
            script.family,
            script.code.as_ptr(),
            script.code.len(),
            script.marks.as_ptr(),
            script.marks.len(),
            script.entry,
            ranges.as_ptr(),
            ranges.len(),
            columns.clocks.as_mut_ptr(),
            columns.clocks.len(),
            columns.known.as_mut_ptr(),
            columns.known.len(),
            columns.values.as_mut_ptr(),
            columns.values.len(),
        )
    }
}

pub fn replay(script: Script, start: Start, log: Log, writes: &mut [u32]) -> Replayed {
    unsafe {
        raw::hwsq_replay(
            script.family,
            script.code.as_ptr(),
            script.code.len(),
            script.marks.as_ptr(),
            script.marks.len(),
            script.entry,
            start.addr,
            start.data,
            start.flags_0,
            start.flags_1,
            start.enable,
            log.clocks.as_ptr(),
            log.clocks.len(),
            log.known.as_ptr(),
            log.known.len(),
            log.values.as_ptr(),
            log.values.len(),
            writes.as_mut_ptr(),
            writes.len(),
        )
    }
}

/// All but the gate's number are bit patterns.
pub fn sample(gate: u8, low: u32, high: u32, gain: u32, offset: u32, raw: u32) -> Sampled {
    unsafe { raw::hwsq_sample(gate, low, high, gain, offset, raw) }
}

pub fn fresh(family: u8) -> Access {
    unsafe { raw::hwsq_fresh(family) }
}

pub fn write(state: &State, address: u32, word: u32) -> Access {
    unsafe { raw::hwsq_write(*state, address, word) }
}

pub fn read(state: &State, address: u32) -> Reading {
    unsafe { raw::hwsq_read(*state, address) }
}

pub fn step(state: &State, slot: u8, log: Log, row: usize, used: u64) -> Stepped {
    unsafe {
        raw::hwsq_step(
            *state,
            slot,
            log.clocks.as_ptr(),
            log.clocks.len(),
            log.known.as_ptr(),
            log.known.len(),
            log.values.as_ptr(),
            log.values.len(),
            row,
            used,
        )
    }
}

/// Whether memory is paused.
pub fn paused(state: &State) -> bool {
    unsafe { raw::hwsq_paused(*state) }
}

/// Writes the report on a job at the start of out and answers how many bytes it takes.
pub fn report(job: &[u8], out: &mut [u8; REPORT_SIZE]) -> usize {
    unsafe { raw::hwsq_report(job.as_ptr(), job.len(), out.as_mut_ptr()) }
}
