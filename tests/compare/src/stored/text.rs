//! How stored cases are written; a file of them says it in its first lines.

use super::Case;
use calls::hex;
use std::collections::BTreeMap;

/// What was read so far.
#[derive(Default)]
struct Reading {
    names: BTreeMap<String, Vec<u8>>,
    cases: Vec<Case>,
}

/// The cases of a text, which is a source and so without fault.
pub fn cases(text: &str) -> Vec<Case> {
    let mut reading = Reading::default();
    for line in text.lines() {
        let read = reading.line(line);
        read.unwrap_or_else(|| panic!("no line of a case: {line}"));
    }
    reading.cases
}

impl Reading {
    fn line(&mut self, line: &str) -> Option<()> {
        let (word, rest) = line.split_once(' ').unwrap_or((line, ""));
        match word {
            "let" => {
                let (name, bytes) = rest.split_once(' ')?;
                let bytes = self.bytes(bytes)?;
                self.names.insert(name.to_string(), bytes);
            }
            "case" => self.cases.push(Case::named(rest)),
            "job" => {
                let bytes = self.bytes(rest)?;
                self.cases.last_mut()?.job.extend(bytes);
            }
            ">" => {
                let report = &mut self.cases.last_mut()?.report;
                report.extend(rest.bytes().chain([b'\n']));
            }
            "" | "#" => {}
            _ => return None,
        }
        Some(())
    }

    fn bytes(&self, words: &str) -> Option<Vec<u8>> {
        let parts: Option<Vec<_>> = words.split(' ').map(|word| self.word(word)).collect();
        Some(parts?.concat())
    }

    /// The bytes of a name, of a name so many times, or of hex.
    fn word(&self, word: &str) -> Option<Vec<u8>> {
        if let Some((count, name)) = word.split_once('*') {
            return Some(self.names.get(name)?.repeat(count.parse().ok()?));
        }
        self.names.get(word).cloned().or_else(|| hex::bytes(word))
    }
}
