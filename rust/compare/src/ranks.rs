//! The ranks of generated yards.

use peer::records::{YardRecord, MAX_CEILINGS};

/// The ranks that a yard of at most two ceilings may have where they are not above t.
pub const RANKS: [[u8; 2]; 10] = [
    [0, 0],
    [1, 0],
    [2, 0],
    [3, 0],
    [1, 1],
    [1, 2],
    [1, 3],
    [2, 1],
    [2, 2],
    [3, 1],
];

/// The ranks that a yard with three ceilings may have where they are not above t.
pub const TRIPLE_RANKS: [[u8; 3]; 10] = [
    [1, 1, 1],
    [1, 1, 2],
    [1, 1, 3],
    [1, 2, 1],
    [1, 2, 2],
    [1, 3, 1],
    [2, 1, 1],
    [2, 1, 2],
    [2, 2, 1],
    [3, 1, 1],
];

/// The ranks that a yard with a yard record may have where they are not above t.
pub fn ranks_with(record: YardRecord) -> Vec<[u8; MAX_CEILINGS]> {
    let pairs = RANKS.map(|[k1, k2]| [k1, k2, 0]);
    let all = pairs.into_iter().chain(TRIPLE_RANKS);
    let has_room = |ranks: &[u8; MAX_CEILINGS]| {
        (record.least_ceilings..=record.most_ceilings).contains(&present(ranks))
    };
    all.filter(has_room).collect()
}

/// How many ceilings are present: those of ranks above 0.
pub fn present(ranks: &[u8; MAX_CEILINGS]) -> usize {
    ranks.iter().filter(|&&rank| rank > 0).count()
}
