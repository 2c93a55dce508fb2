//! Reader and writer, systematically.

mod reading;
mod writing;

pub use reading::Reading;
pub use writing::Writing;

/// Families 1 to 4 and numbers that name none.
const FAMILIES: [u8; 8] = [0, 1, 2, 3, 4, 5, 6, 255];

/// The family and the byte of a unit.
fn unit_of(unit: u64) -> (u8, u8) {
    (FAMILIES[(unit >> 8) as usize], unit as u8)
}

/// Units of both parts: each family with each byte.
const UNITS: u64 = FAMILIES.len() as u64 * 256;
