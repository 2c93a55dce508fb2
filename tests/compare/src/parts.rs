//! All parts that compare in process, in the order in which they run.

use crate::audits::Audits;
use crate::codec::{Reading, Writing};
use crate::gates::Gates;
use crate::jobs::Jobs;
use crate::options::Amounts;
use crate::pairs::Pairs;
use crate::part::Part;
use crate::replays::Replays;
use crate::steps::Steps;
use crate::stored::Stored;
use crate::witnesses::Witnesses;

/// What is done with each part, whose cases are of different types.
pub trait Visitor {
    fn visit<P: Part>(&mut self, part: &P);
}

pub fn each(amounts: &Amounts, visitor: &mut impl Visitor) {
    let seed = amounts.seed;
    visitor.visit(&Reading { seed });
    visitor.visit(&Writing {
        seed,
        stride: amounts.writer_stride,
    });
    visitor.visit(&Steps {
        seed,
        scripts: amounts.scripts,
    });
    visitor.visit(&Stored::all());
    visitor.visit(&Jobs {
        seed,
        jobs: amounts.jobs,
    });
    visitor.visit(&Audits {
        seed,
        audits: amounts.audits,
    });
    visitor.visit(&Replays {
        seed,
        replays: amounts.replays,
    });
    visitor.visit(&Pairs {
        seed,
        pairs: amounts.pairs,
    });
    visitor.visit(&Witnesses {
        seed,
        witnesses: amounts.witnesses,
    });
    visitor.visit(&Gates {
        seed,
        readings: amounts.readings,
    });
}
