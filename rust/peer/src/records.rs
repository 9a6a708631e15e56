//! The records of a survey: their marks and lengths.

use crate::rest::Rest;

/// The most ceilings of a yard.
pub const MAX_CEILINGS: usize = 3;

/// A kind of link record. Every kind has a mark, two stations, a sum cost, and a cost for each
/// ceiling that the yard record of its survey has room for.
#[derive(Clone, Copy, PartialEq, Eq, Debug)]
pub struct LinkRecord {
    /// Its mark.
    pub mark: [u8; 2],
    /// How many bytes it has.
    pub bytes: usize,
}

/// The link record with two ceiling costs.
pub const TWO_COSTS: LinkRecord = LinkRecord {
    mark: [0x4c, 0x4b],
    bytes: 12,
};

/// The link record with three ceiling costs.
pub const THREE_COSTS: LinkRecord = LinkRecord {
    mark: [0x4c, 0x4d],
    bytes: 14,
};

/// A kind of yard record. Every kind opens with its mark, n, p and its ranks.
#[derive(Clone, Copy, PartialEq, Eq, Debug)]
pub struct YardRecord {
    /// Its mark.
    pub mark: [u8; 2],
    /// How many bytes it has.
    pub bytes: usize,
    /// The least ceilings that its yards may have.
    pub least_ceilings: usize,
    /// The most: it has room for the rank of each of them.
    pub most_ceilings: usize,
    /// Which of its bytes is the number of links, if that is written in it.
    pub count_at: Option<usize>,
    /// Where its rest bytes start, if it has them.
    pub rest_at: Option<usize>,
    /// The kind of the link records that come after it.
    pub link: LinkRecord,
}

/// The yard record without a link count.
pub const PLAIN: YardRecord = YardRecord {
    mark: [0x59, 0x44],
    bytes: 6,
    least_ceilings: 0,
    most_ceilings: 2,
    count_at: None,
    rest_at: None,
    link: TWO_COSTS,
};

/// The yard record with a link count.
pub const COUNTED: YardRecord = YardRecord {
    mark: [0x59, 0x45],
    bytes: 7,
    count_at: Some(6),
    ..PLAIN
};

/// The yard record with a link count and the stations at rest.
pub const RESTING: YardRecord = YardRecord {
    mark: [0x59, 0x46],
    bytes: 10,
    rest_at: Some(7),
    ..COUNTED
};

/// The yard record with three ceilings, a link count and the stations at rest.
pub const TRIPLE: YardRecord = YardRecord {
    mark: [0x59, 0x47],
    bytes: 11,
    least_ceilings: 3,
    most_ceilings: 3,
    count_at: Some(7),
    rest_at: Some(8),
    link: THREE_COSTS,
};

/// All kinds of yard records.
pub const YARD_RECORDS: [YardRecord; 4] = [PLAIN, COUNTED, RESTING, TRIPLE];
/// The kinds of yard records that are written.
pub const WRITTEN_RECORDS: [YardRecord; 2] = [PLAIN, COUNTED];

impl YardRecord {
    /// The kind that a survey is measured by: its first two bytes say which. Where they are no
    /// known mark, or not there, it is the plain one.
    pub fn of(survey: &[u8]) -> YardRecord {
        let mut kinds = YARD_RECORDS.into_iter();
        let known = kinds.find(|kind| survey.starts_with(&kind.mark));
        known.unwrap_or(PLAIN)
    }

    /// The kind to be written that is named by its mark, read as a number with the first byte high.
    pub fn named(mark: u32) -> Option<YardRecord> {
        let mut kinds = WRITTEN_RECORDS.into_iter();
        kinds.find(|kind| u32::from(u16::from_be_bytes(kind.mark)) == mark)
    }

    /// The ranks that a record of this kind has; 0 for ceilings that it has no room for.
    pub fn ranks(&self, record: &[u8]) -> [usize; MAX_CEILINGS] {
        let mut ranks = [0; MAX_CEILINGS];
        for (rank, &byte) in ranks.iter_mut().zip(&record[4..4 + self.most_ceilings]) {
            *rank = byte.into();
        }
        ranks
    }

    /// The link count that is written in a record of this kind, if it has one.
    pub fn written_count(&self, record: &[u8]) -> Option<usize> {
        self.count_at.map(|at| record[at].into())
    }

    /// The stations at rest by a record of this kind; none where it has no rest bytes.
    pub fn rest(&self, record: &[u8]) -> Rest {
        let bytes = self.rest_at.and_then(|at| record[at..].first_chunk());
        bytes.map_or(Rest::default(), |&bytes| Rest::read(bytes))
    }
}
