//! Surveys and lists to compare with.

use peer::listing::Listing;
use peer::plan_list;
use peer::survey::Yard;
use peer::{list, Refusal};

/// The ends, sum and ceiling costs of a link.
pub type LinkRow = (u8, u8, i32, i16, i16);

/// The bytes of a survey.
pub fn survey(n: u8, ranks: &[u8], links: &[LinkRow]) -> Vec<u8> {
    let rank = |i| ranks.get(i).copied().unwrap_or(0);
    let mut bytes = vec![0x59, 0x44, n, ranks.len() as u8, rank(0), rank(1)];
    for &(a, b, s, c1, c2) in links {
        bytes.extend([0x4c, 0x4b, a, b]);
        bytes.extend(s.to_le_bytes());
        bytes.extend(c1.to_le_bytes());
        bytes.extend(c2.to_le_bytes());
    }
    bytes
}

/// The links of survey A.
pub const A: [LinkRow; 3] = [(0, 1, 4, 7, 0), (1, 2, 3, 2, 0), (0, 2, 1, 9, 0)];
/// A with second costs.
pub const A2: [LinkRow; 3] = [(0, 1, 4, 7, 1), (1, 2, 3, 2, 6), (0, 2, 1, 9, 3)];

/// The list of a survey in a dirty buffer of exactly its need, without the zeroes at its end.
pub fn listed(survey: &[u8], need: usize, len: usize) -> Vec<u8> {
    let mut short = vec![0xaa; need - 1];
    assert_eq!(list(survey, 1600, &mut short), Err(Refusal::whole(9)));
    assert!(short.iter().all(|&byte| byte == 0xaa));
    let mut buffer = vec![0xaa; need];
    assert_eq!(list(survey, 1600, &mut buffer), Ok(()));
    let yard = Yard::read(survey).unwrap();
    let listing = Listing::of(&yard);
    let mut by_listing = vec![0xaa; need];
    let solved = listing.solved_count();
    plan_list::write(&mut by_listing, &yard, solved, &listing.plans());
    assert_eq!(buffer, by_listing);
    assert!(buffer[len..].iter().all(|&byte| byte == 0));
    buffer.truncate(len);
    buffer
}

/// A list head.
pub fn head(count: u8, solved: u8, t: u8, p: u8) -> Vec<u8> {
    vec![0x50, 0x48, count, 0, solved, 0, 0, 0, t, p]
}

/// A plan of small ceiling costs.
pub fn plan(sum: i32, y1: u8, y2: u8, links: &[u8]) -> Vec<u8> {
    let [s0, s1, s2, s3] = sum.to_le_bytes();
    [&[0x50, 0x4c, s0, s1, s2, s3, y1, 0, y2, 0], links].concat()
}
