//! Two kinds of address that the compiler keeps apart.

/// A place in code RAM.
#[derive(Clone, Copy, Debug, Default, PartialEq, Eq, PartialOrd, Ord)]
pub struct CodeAddress(pub u32);

/// The address of a register.
#[derive(Clone, Copy, Debug, Default, PartialEq, Eq, PartialOrd, Ord)]
pub struct MmioAddress(pub u32);
