//! The printed table, a line for each measure.

use crate::timing::ROUNDS;

/// Best times in nanoseconds; of an audit the third is the plain auditor's, of a witness the proved audit's.
pub struct Line {
    pub name: String,
    pub proved: f64,
    pub second: f64,
    pub third: Option<f64>,
}

impl Line {
    pub fn to_second(&self) -> f64 {
        self.proved / self.second
    }

    /// Against the third, or the second where there is none.
    pub fn to_third(&self) -> f64 {
        self.proved / self.third.unwrap_or(self.second)
    }

    /// Against the faster of the others, which the limit is set by.
    pub fn ratio(&self) -> f64 {
        self.to_second().max(self.to_third())
    }

    pub fn print(&self) {
        let (name, proved, second) = (&self.name, self.proved, self.second);
        let to_second = self.to_second();
        print!("{name:<48}{proved:>9.0}{second:>9.0}{to_second:>7.2}");
        match self.third {
            Some(third) => println!("{third:>9.0}{:>7.2}", self.to_third()),
            None => println!(),
        }
    }
}

pub fn head() {
    println!("nanoseconds a call, best of {ROUNDS} rounds; ratio is proved over the one before it");
    columns("plain");
}

/// The names of the columns, and what the third time is of.
pub fn columns(third: &str) {
    let [name, proved, second] = ["measure", "proved", "second"];
    println!(
        "{name:<48}{proved:>9}{second:>9}{0:>7}{third:>9}{0:>7}",
        "ratio"
    );
}

/// The worst of some measures by a ratio, with its name.
pub fn worst(lines: &[Line], ratio: fn(&Line) -> f64) -> (f64, &str) {
    let worst = lines
        .iter()
        .max_by(|a, b| ratio(a).total_cmp(&ratio(b)))
        .expect("nothing was measured");
    (ratio(worst), &worst.name)
}
