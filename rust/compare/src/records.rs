//! Which yard records the surveys have, and where a cut was noticed by the link count.

use peer::link_set::LinkSet;
use peer::records::{YardRecord, COUNTED, RESTING, TRIPLE, YARD_RECORDS};
use peer::survey::MAX_LINKS;
use peer::Refusal;

/// The yard records that have a link count.
pub const COUNTING_RECORDS: [YardRecord; 3] = [COUNTED, RESTING, TRIPLE];

/// The marks of yard records, for reports.
pub fn marks<const N: usize>(records: [YardRecord; N]) -> [String; N] {
    records.map(|record| {
        let [first, second] = record.mark;
        format!("{first:02X} {second:02X}")
    })
}

/// The number that asks for a yard record: its mark, first byte high.
pub fn kind_of(record: YardRecord) -> u32 {
    u16::from_be_bytes(record.mark).into()
}

/// How much was compared, by yard records.
#[derive(Clone, Copy, Default)]
pub struct RecordTally {
    /// Legal surveys with each of `YARD_RECORDS`.
    pub legal: [u64; YARD_RECORDS.len()],
    /// How many links were left of 40, for each cut at a record's end that was refused by 15 with
    /// each of `YARD_RECORDS`.
    left: [LinkSet; YARD_RECORDS.len()],
}

impl RecordTally {
    /// Counts a legal survey.
    pub fn count_legal(&mut self, survey: &[u8]) {
        self.legal[index_of(YardRecord::of(survey))] += 1;
    }

    /// Counts a refused survey, if it is what a cut left of 40 links.
    pub fn count_refused(&mut self, survey: &[u8], refusal: Refusal) {
        let kind = YardRecord::of(survey);
        if refusal.number == 15 && kind.written_count(survey) == Some(MAX_LINKS) {
            let left = (survey.len() - kind.bytes) / kind.link.bytes;
            let cuts = &mut self.left[index_of(kind)];
            *cuts = cuts.with(left as u8);
        }
    }

    /// How many of the cuts at a record's end were refused by 15, with a yard record.
    pub fn cuts(&self, record: YardRecord) -> usize {
        self.left[index_of(record)].links().count()
    }

    /// Whether each of them was.
    pub fn is_cut_everywhere(&self, record: YardRecord) -> bool {
        self.left[index_of(record)] == (0..MAX_LINKS as u8).collect()
    }

    /// Adds what another tally has.
    pub fn add(&mut self, other: &RecordTally) {
        for (left, more) in self.left.iter_mut().zip(other.left) {
            *left = left.or(more);
        }
        for (count, more) in self.legal.iter_mut().zip(other.legal) {
            *count += more;
        }
    }
}

/// Which of `YARD_RECORDS` a record is.
fn index_of(record: YardRecord) -> usize {
    let index = YARD_RECORDS.iter().position(|&other| other == record);
    index.expect("every kind of yard record is among them")
}
