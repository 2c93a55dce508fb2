//! What came back, counted.

use crate::check::{refusal, Wrong};
use std::collections::BTreeMap;
use std::fmt;

#[derive(Default)]
pub struct Tally {
    inputs: u64,
    bytes: u64,
    longest_input: usize,
    longest_report: usize,
    /// By what a report says: its refusal, its verdict, its events' volts, its ending.
    said: BTreeMap<String, u64>,
    hangs: u64,
    crashes: u64,
    errors: u64,
    shapes: u64,
    differences: u64,
}

impl Tally {
    pub fn inputs(&self) -> u64 {
        self.inputs
    }

    pub fn count(&mut self, input: &[u8], report: &[u8], faults: &[Wrong]) {
        self.inputs += 1;
        self.bytes += input.len() as u64;
        self.longest_input = self.longest_input.max(input.len());
        self.longest_report = self.longest_report.max(report.len());
        for saying in sayings(&String::from_utf8_lossy(report)) {
            *self.said.entry(saying).or_default() += 1;
        }
        for fault in faults {
            match fault {
                Wrong::Hang => self.hangs += 1,
                Wrong::Crash => self.crashes += 1,
                Wrong::Stderr => self.errors += 1,
                Wrong::Shape => self.shapes += 1,
                Wrong::Difference => self.differences += 1,
            }
        }
    }

    pub fn failures(&self) -> u64 {
        self.hangs + self.crashes + self.errors + self.shapes + self.differences
    }
}

/// `refused N`, or `verdict N` and of a pass `end E`, and for each event whether it had volts.
fn sayings(report: &str) -> Vec<String> {
    if let Some((number, _)) = refusal(report) {
        return vec![format!("refused {number}")];
    }
    report.lines().filter_map(saying).collect()
}

fn saying(line: &str) -> Option<String> {
    let (first, rest) = line.split_once(' ')?;
    let second = rest.split(' ').next()?;
    match first {
        "verdict" | "end" => Some(format!("{first} {second}")),
        "event" if rest.contains("none") => Some("event none".to_string()),
        "event" => Some("event volts".to_string()),
        _ => None,
    }
}

impl fmt::Display for Tally {
    fn fmt(&self, to: &mut fmt::Formatter) -> fmt::Result {
        for (saying, count) in &self.said {
            writeln!(to, "{saying:<12} {count:>9}")?;
        }
        let (input, report) = (self.longest_input, self.longest_report);
        writeln!(
            to,
            "{} inputs of {} bytes, the longest {input}, the longest report {report}",
            self.inputs, self.bytes
        )?;
        writeln!(
            to,
            "{} crashes, {} hangs, {} with something on standard error, {} reports out of shape, {} differences",
            self.crashes, self.hangs, self.errors, self.shapes, self.differences
        )
    }
}
