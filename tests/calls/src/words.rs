//! The words of a line and the values they stand for.

use crate::hex;
use std::iter::Peekable;
use std::str::Split;

/// What was read, or why it can't be.
pub type Read<T> = Result<T, String>;

/// What a call answers, if it has an answer.
pub type Answer = Read<Option<String>>;

/// Most words of a call.
const MOST_WORDS: usize = 1100;

/// The words of a line that were not read yet.
pub struct Words<'a> {
    rest: Peekable<Split<'a, char>>,
    /// How many more a call may have.
    allowed: usize,
}

/// Why a word can't be read.
pub fn wrong(word: &str, wanted: &str) -> String {
    format!("`{word}` where {wanted} should stand")
}

/// `yes` or `no`.
pub fn yes_or_no(truth: bool) -> &'static str {
    if truth {
        "yes"
    } else {
        "no"
    }
}

impl<'a> Words<'a> {
    /// Just one space lies between two words, so a second one makes an empty word.
    pub fn of(line: &'a str) -> Words<'a> {
        Words {
            rest: line.split(' ').peekable(),
            allowed: MOST_WORDS,
        }
    }

    /// The next word as it stands.
    pub fn text(&mut self, wanted: &str) -> Read<&'a str> {
        let word = self.rest.next();
        let word = word.ok_or_else(|| format!("no word where {wanted} should stand"))?;
        let allowed = self.allowed.checked_sub(1);
        self.allowed = allowed.ok_or_else(|| format!("more than {MOST_WORDS} words"))?;
        Ok(word)
    }

    /// The next word as a value.
    fn value<T>(&mut self, wanted: &str, read: impl Fn(&str) -> Option<T>) -> Read<T> {
        let word = self.text(wanted)?;
        read(word).ok_or_else(|| wrong(word, wanted))
    }

    /// A word that every call of this form has here.
    pub fn fixed(&mut self, fixed: &str) -> Read<()> {
        self.value(fixed, |word| (word == fixed).then_some(()))
    }

    /// The one of these values that has the word for its name.
    pub fn one_of<T: Copy>(
        &mut self,
        wanted: &str,
        values: &[T],
        name: fn(T) -> &'static str,
    ) -> Read<T> {
        self.value(wanted, |word| {
            values.iter().copied().find(|&value| name(value) == word)
        })
    }

    /// A decimal number that its type can hold.
    pub fn number<T: TryFrom<u64>>(&mut self) -> Read<T> {
        let bits = 8 * size_of::<T>();
        self.fitting(&format!("a decimal number of {bits} bits"), |_| true)
    }

    /// A decimal number with a bound that this call has.
    pub fn at_most(&mut self, most: usize) -> Read<usize> {
        let wanted = format!("a decimal number of at most {most}");
        self.fitting(&wanted, |&number| number <= most)
    }

    /// The number of a family that there is.
    pub fn known_family(&mut self) -> Read<u8> {
        self.fitting("a family from 1 to 4", |number| (1..=4).contains(number))
    }

    fn fitting<T: TryFrom<u64>>(&mut self, wanted: &str, fits: impl Fn(&T) -> bool) -> Read<T> {
        self.value(wanted, |word| {
            let number = T::try_from(decimal(word)?).ok();
            number.filter(&fits)
        })
    }

    /// Four hex digits.
    pub fn half(&mut self) -> Read<u16> {
        let half = |word: &str| hex::bytes(word)?.try_into().ok();
        self.value("four hex digits", half).map(u16::from_be_bytes)
    }

    /// Eight hex digits.
    pub fn word(&mut self) -> Read<u32> {
        let word = |word: &str| hex::bytes(word)?.try_into().ok();
        self.value("eight hex digits", word).map(u32::from_be_bytes)
    }

    /// Bytes as hex, `-` for none.
    pub fn bytes(&mut self) -> Read<Vec<u8>> {
        self.value("bytes as hex or -", |word| match word {
            "-" => Some(Vec::new()),
            _ => hex::bytes(word),
        })
    }

    /// A list, `-` for none; it ends before a word that begins like none of its items.
    pub fn list<T>(&mut self, item: fn(&mut Self) -> Read<T>) -> Read<Vec<T>> {
        if self.rest.peek() == Some(&"-") {
            self.fixed("-")?;
            return Ok(Vec::new());
        }
        let mut list = vec![item(self)?];
        while self.rest.peek().is_some_and(|word| begins_item(word)) {
            list.push(item(self)?);
        }
        Ok(list)
    }

    /// Each number of the ranges, which need not come in pairs.
    pub fn ranges(&mut self) -> Read<Vec<u32>> {
        self.fixed("ranges")?;
        self.list(Words::word)
    }

    /// Leaves the other words unread.
    pub fn pass_over(&mut self) {
        self.rest.by_ref().for_each(drop);
    }

    /// The end of the line.
    pub fn end(mut self) -> Read<()> {
        match self.rest.next() {
            None => Ok(()),
            Some(word) => Err(wrong(word, "the end of the line")),
        }
    }
}

/// Digits alone: the language's own reader takes a sign too.
fn decimal(word: &str) -> Option<u64> {
    let digits = word.bytes().all(|byte| byte.is_ascii_digit());
    digits.then(|| word.parse().ok())?
}

/// Whether a list goes on with this word.
fn begins_item(word: &str) -> bool {
    word.bytes().next().and_then(hex::digit).is_some()
}
