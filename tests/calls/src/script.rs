//! The script of a call: code with its marks, and the place it is entered at.

use crate::words::{Read, Words};

/// Most bytes or marks of a script that need not fit a family.
const MOST_INPUT: usize = 600;
const EXIT: u8 = 0x7f;

/// Which code and marks a call's name stands for.
#[derive(Clone, Copy)]
pub enum Ram {
    /// All of it uploaded.
    Whole,
    /// Only the script's own bytes uploaded.
    Part,
    /// All but one place uploaded.
    Hole,
    /// Code and marks of any size.
    Input,
}

impl Ram {
    /// The name of the call itself, and the RAM that the rest of its name stands for.
    pub fn of(name: &str) -> Option<(&str, Ram)> {
        match name.split_once('_') {
            None => Some((name, Ram::Whole)),
            Some((call, "part")) => Some((call, Ram::Part)),
            Some((call, "hole")) => Some((call, Ram::Hole)),
            Some((call, "input")) => Some((call, Ram::Input)),
            Some(_) => None,
        }
    }
}

/// A script that owns its code and marks.
pub struct Script {
    pub family: u8,
    pub code: Vec<u8>,
    pub marks: Vec<u8>,
    pub entry: u32,
}

impl Script {
    /// The script of a call; how large a family's code RAM is is for the answering program to say.
    pub fn read(ram: Ram, words: &mut Words, code_size: fn(u8) -> usize) -> Read<Script> {
        let family = match ram {
            Ram::Input => words.number()?,
            _ => words.known_family()?,
        };
        words.fixed("entry")?;
        let mut script = Script {
            family,
            code: Vec::new(),
            marks: Vec::new(),
            entry: words.number()?,
        };
        match ram {
            Ram::Whole => script.place(words, code_size(family))?,
            Ram::Part => script.place_part(words, code_size(family))?,
            Ram::Hole => script.place_around(words, code_size(family))?,
            Ram::Input => script.fill(words)?,
        }
        Ok(script)
    }

    /// The bytes from a place on, 00 all around them, and only they uploaded.
    fn place_part(&mut self, words: &mut Words, size: usize) -> Read<()> {
        words.fixed("at")?;
        let at = words.number()?;
        let bytes = words.bytes()?;
        self.code = vec![0; size];
        self.marks = vec![0; size];
        let places = self.code.iter_mut().zip(&mut self.marks).skip(at);
        // What has no place in the code RAM is dropped.
        for ((place, mark), byte) in places.zip(bytes) {
            (*place, *mark) = (byte, 1);
        }
        Ok(())
    }

    /// The same, and all of it uploaded.
    fn place(&mut self, words: &mut Words, size: usize) -> Read<()> {
        self.place_part(words, size)?;
        self.marks.fill(1);
        Ok(())
    }

    /// The same, but for one place.
    fn place_around(&mut self, words: &mut Words, size: usize) -> Read<()> {
        self.place(words, size)?;
        words.fixed("hole")?;
        let hole = words.at_most(self.marks.len() - 1)?;
        self.marks[hole] = 0;
        Ok(())
    }

    /// Nothing but exits, of any size.
    fn fill(&mut self, words: &mut Words) -> Read<()> {
        words.fixed("size")?;
        self.code = vec![EXIT; words.at_most(MOST_INPUT)?];
        words.fixed("marks")?;
        self.marks = vec![1; words.at_most(MOST_INPUT)?];
        words.fixed("last")?;
        let last = words.number()?;
        if let Some(mark) = self.marks.last_mut() {
            *mark = last;
        }
        Ok(())
    }
}
