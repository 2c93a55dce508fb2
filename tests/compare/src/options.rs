//! What the command line says: a seed and how much to compare.

/// How many cases of each random part; what is systematic has its own number.
#[derive(Clone, Copy)]
pub struct Amounts {
    pub seed: u64,
    pub jobs: u64,
    pub scripts: u64,
    pub audits: u64,
    pub replays: u64,
    pub pairs: u64,
    pub witnesses: u64,
    pub readings: u64,
    pub programs: u64,
    /// Of the writer's units, one in so many.
    pub writer_stride: u64,
}

impl Amounts {
    /// Fewer jobs, pairs or witnesses than the gate has can't be held to hundreds of each outcome.
    pub fn are_full(&self) -> bool {
        self.jobs >= FULL.jobs && self.pairs >= FULL.pairs && self.witnesses >= FULL.witnesses
    }
}

/// The gate's run.
pub const FULL: Amounts = Amounts {
    seed: 1,
    jobs: 120_000,
    scripts: 40_000,
    audits: 100_000,
    replays: 100_000,
    pairs: 60_000,
    witnesses: 100_000,
    readings: 400_000,
    programs: 1_000,
    writer_stride: 1,
};

pub const USAGE: &str = "usage: compare [--seed N] [--jobs N] [--scripts N] [--audits N] \
[--replays N] [--pairs N] [--witnesses N] [--readings N] [--programs N]";

/// Reads pairs of a name and a number over what stands there.
pub fn parse(words: impl Iterator<Item = String>, mut amounts: Amounts) -> Option<Amounts> {
    let mut words = words;
    while let Some(name) = words.next() {
        let number = words.next()?.parse().ok()?;
        let amount = match name.as_str() {
            "--seed" => &mut amounts.seed,
            "--jobs" => &mut amounts.jobs,
            "--scripts" => &mut amounts.scripts,
            "--audits" => &mut amounts.audits,
            "--replays" => &mut amounts.replays,
            "--pairs" => &mut amounts.pairs,
            "--witnesses" => &mut amounts.witnesses,
            "--readings" => &mut amounts.readings,
            "--programs" => &mut amounts.programs,
            _ => return None,
        };
        *amount = number;
    }
    Some(amounts)
}
