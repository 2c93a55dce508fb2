//! How answers are written.

/// Bytes as hex; `-` for none, so that no field of a line is empty.
pub fn bytes(bytes: &[u8]) -> String {
    if bytes.is_empty() {
        return "-".to_string();
    }
    bytes.iter().map(|byte| format!("{byte:02x}")).collect()
}

/// The answer's text, or the refusal by its number.
pub fn answer(refusal: u8, text: impl FnOnce() -> String) -> String {
    match refusal {
        0 => text(),
        number => format!("refused {number}"),
    }
}

/// Entries, each with the space before it.
pub fn entries(entries: impl Iterator<Item = String>) -> String {
    entries.map(|entry| format!(" {entry}")).collect()
}

pub fn mask(mask: &u32) -> String {
    format!("{mask:08x}")
}
