//! The registers that the call of a replay starts with.

use crate::words::{yes_or_no, Read, Words};

/// Registers by number, HWSQ_ENABLE as `yes` or `no`.
pub struct Registers {
    pub addr: u32,
    pub data: u32,
    pub flags_0: u32,
    pub flags_1: u32,
    pub enable: bool,
}

impl Registers {
    pub fn read(words: &mut Words) -> Read<Registers> {
        words.fixed("addr")?;
        let addr = words.word()?;
        words.fixed("data")?;
        let data = words.word()?;
        words.fixed("flags")?;
        let (flags_0, flags_1) = (words.word()?, words.word()?);
        words.fixed("enable")?;
        let enable = words.one_of("yes or no", &[true, false], yes_or_no)?;
        Ok(Registers {
            addr,
            data,
            flags_0,
            flags_1,
            enable,
        })
    }
}
