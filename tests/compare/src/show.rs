//! How numbers, bytes, lists and states are printed.

use hwsq::State;
use makers::log::Columns;
pub use second::show::bytes;

/// A number with a comma after each thousand.
pub fn grouped(number: u64) -> String {
    let digits = number.to_string();
    let mut text = String::new();
    for (i, digit) in digits.chars().enumerate() {
        if i > 0 && (digits.len() - i).is_multiple_of(3) {
            text.push(',');
        }
        text.push(digit);
    }
    text
}

/// Words as hex with a space between; `-` for none.
pub fn words(words: &[u32]) -> String {
    list(words.iter().map(|word| format!("{word:08x}")))
}

/// Numbers with a space between; `-` for none.
pub fn numbers(numbers: &[u64]) -> String {
    list(numbers.iter().map(u64::to_string))
}

/// Items with a space between; `-` for none.
pub fn list(items: impl Iterator<Item = String>) -> String {
    let items: Vec<String> = items.collect();
    if items.is_empty() {
        return "-".to_string();
    }
    items.join(" ")
}

/// A log as docs/VECTORS.md writes it.
pub fn log(columns: &Columns) -> String {
    format!(
        "log {} known {} values {}",
        numbers(&columns.clocks),
        words(&columns.known),
        words(&columns.values)
    )
}

/// A state in a line; code as hex, and the marks as ones.
pub fn state(state: &State) -> String {
    let uploaded = state.marks.iter().rposition(|&mark| mark != 0);
    let end = uploaded.map_or(0, |last| last + 1);
    format!(
        "family {} enable {} override {} values {:08x} enables {:08x} entries {:08x} {:08x} A {:x?} B {:x?} code {} marks {}",
        state.family,
        state.enable,
        state.override_mode,
        state.values,
        state.enables,
        state.entries,
        state.entries_high,
        state.a,
        state.b,
        bytes(&state.code[..end]),
        bytes(&state.marks[..end]),
    )
}
