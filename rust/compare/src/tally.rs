//! How much was compared.

use crate::index_tally::IndexTally;
use crate::listed::Listed;
use crate::positions::PositionTally;
use crate::records::RecordTally;
use crate::rests::{RestTally, REST_RECORDS};
use crate::small_tally::SmallTally;
use crate::sums::SumTally;
use crate::triple_reasons::ReasonTally;
use crate::write_tally::WriteTally;

/// The calls.
#[derive(Clone, Copy)]
pub enum Call {
    /// The costs of a drawn tree.
    Judge,
    /// The best tree under ceilings.
    Best,
    /// The list of plans.
    List,
    /// One plan of a list.
    Fetch,
    /// The index of a list.
    Index,
    /// The cheapest plan under a value, by the index.
    Lookup,
    /// The survey of figures.
    Write,
    /// A small survey.
    Small,
}

/// The numbers that are replied end here; 0 is success.
pub const NUMBERS: usize = 21;

/// The name of each call in reports, and the numbers that it replies with, in the order of `Call`.
pub const CALLS: [(&str, &[usize]); 8] = [
    ("judge", &[0, 1, 2, 3, 4, 5, 6, 7, 8, 11, 15, 18, 19]),
    ("best", &[0, 1, 2, 3, 4, 5, 6, 7, 8, 9, 14, 15, 18, 19]),
    ("list", &[0, 1, 2, 3, 4, 5, 6, 7, 8, 9, 10, 15, 18, 19]),
    ("fetch", &[0, 12, 13]),
    ("index", &[0, 12, 16]),
    ("lookup", &[0, 12, 13, 16]),
    ("write", &[0, 2, 3, 4, 5, 6, 7, 8, 17]),
    ("small survey", &[0, 17, 20]),
];

/// How much was compared.
#[derive(Clone, Copy, Default)]
pub struct Tally {
    /// Surveys, hand-made lists, figures, or numbers of small surveys.
    pub samples: u64,
    /// Surveys or figures that are legal.
    pub legal: u64,
    /// How often each call replied with each number, made on both planners.
    pub replies: [[u64; NUMBERS]; CALLS.len()],
    /// Bytes of lent buffers and returned parts.
    pub bytes: u64,
    /// What was held against a listing of all trees.
    pub listed: Listed,
    /// Which sum costs there were.
    pub sums: SumTally,
    /// Which yard records there were.
    pub records: RecordTally,
    /// Which stations rested, with each of `REST_RECORDS`.
    pub rests: [RestTally; REST_RECORDS.len()],
    /// Which positions there were in yards with three ceilings.
    pub positions: PositionTally,
    /// Why surveys were refused that have to do with three ceilings.
    pub triple_reasons: ReasonTally,
    /// Which plan lists were indexed.
    pub indexes: IndexTally,
    /// Which figures were written.
    pub writes: WriteTally,
    /// Which small surveys were asked for.
    pub smalls: SmallTally,
}

impl Tally {
    /// Counts the reply of a call.
    pub fn count(&mut self, call: Call, number: u8) {
        if let Some(count) = self.replies[call as usize].get_mut(usize::from(number)) {
            *count += 1;
        }
    }

    /// How often each call was made.
    pub fn calls(&self) -> [u64; CALLS.len()] {
        self.replies.map(|numbers| numbers.iter().sum())
    }

    /// Adds another tally to this one.
    pub fn add(&mut self, other: &Tally) {
        self.samples += other.samples;
        self.legal += other.legal;
        self.bytes += other.bytes;
        self.listed.add(&other.listed);
        self.sums.add(&other.sums);
        self.records.add(&other.records);
        for (rests, more) in self.rests.iter_mut().zip(&other.rests) {
            rests.add(more);
        }
        self.positions.add(&other.positions);
        self.triple_reasons.add(&other.triple_reasons);
        self.indexes.add(&other.indexes);
        self.writes.add(&other.writes);
        self.smalls.add(&other.smalls);
        let replies = self.replies.as_flattened_mut().iter_mut();
        for (count, more) in replies.zip(other.replies.as_flattened()) {
            *count += more;
        }
    }
}
