//! A script handed in as slices, and the test of it.

use crate::isa::{self, CodeAddress};
use crate::Refusal;

/// Code RAM with a mark for each byte, 1 for one that was uploaded, and where the script is entered.
#[derive(Clone, Copy, Debug)]
pub struct Script<'a> {
    pub family: u8,
    pub code: &'a [u8],
    pub marks: &'a [u8],
    pub entry: CodeAddress,
}

/// Refuses an unknown family, wrong sizes, a mark that is none and an entry no register can hold.
pub(super) fn check_script(script: Script) -> Result<(), Refusal> {
    let size = isa::code_size(script.family)?;
    let sizes_fit = script.code.len() == size && script.marks.len() == size;
    let entry_fits = script.entry.0 <= isa::highest_entry(script.family)?;
    if !sizes_fit || !entry_fits || script.marks.iter().any(|&mark| mark > 1) {
        return Err(Refusal::UnfitInput);
    }
    Ok(())
}
