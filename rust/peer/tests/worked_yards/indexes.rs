//! Indexes by first ceiling and lookups, worked out by hand.

use crate::samples::{head, listed, plan, survey, A, A2};
use peer::{index, index_lookup, Refusal};

/// The sum, y1 and y2 of a plan.
type PlanRow = (i32, i16, i16);

/// A list of plans without links, which no list call need make.
fn list_of(ceilings: u8, plans: &[PlanRow]) -> Vec<u8> {
    let [count0, count1] = (plans.len() as u16).to_le_bytes();
    let mut bytes = vec![0x50, 0x48, count0, count1, 9, 0, 0, 0, 0, ceilings];
    for (sum, y1, y2) in plans {
        bytes.extend([0x50, 0x4c]);
        bytes.extend(sum.to_le_bytes());
        bytes.extend(y1.to_le_bytes());
        bytes.extend(y2.to_le_bytes());
    }
    bytes
}

/// The numbers of a list's index, out of dirty buffers of its length and longer.
fn numbers(list: &[u8], count: usize) -> Vec<u16> {
    let [mut exact, mut longer] = [vec![0xaa; 2 * count], vec![0xaa; 2 * count + 3]];
    assert_eq!(index(list, &mut exact), Ok(()));
    assert_eq!(index(list, &mut longer), Ok(()));
    assert_eq!(longer, [&exact[..], &[0xaa; 3]].concat());
    let entry = |bytes: &[u8]| u16::from_le_bytes([bytes[0], bytes[1]]);
    exact.chunks_exact(2).map(entry).collect()
}

/// The bytes of an index of these numbers.
fn entries(numbers: &[u16]) -> Vec<u8> {
    numbers.iter().flat_map(|n| n.to_le_bytes()).collect()
}

/// Looks up a value in the right index.
fn found(list: &[u8], count: usize, value: i16) -> Result<u16, Refusal> {
    index_lookup(list, &entries(&numbers(list, count)), value)
}

const NONE: Result<u16, Refusal> = Err(Refusal::whole(13));
const DAMAGED: Result<u16, Refusal> = Err(Refusal::whole(12));
const SHORT: Result<u16, Refusal> = Err(Refusal::whole(16));

#[test]
fn survey_a() {
    let list = listed(&survey(3, &[1], &A), 46, 34);
    assert_eq!(numbers(&list, 2), [1, 0]);
    let replies = [6, 7, 8, 9, i16::MAX].map(|value| found(&list, 2, value));
    assert_eq!(replies, [NONE, Ok(1), Ok(1), Ok(0), Ok(0)]);
}

#[test]
fn two_ceilings() {
    let list = listed(&survey(3, &[1, 1], &A2), 118, 46);
    assert_eq!(numbers(&list, 3), [2, 0, 1]);
    let replies = [6, 7, 8, 9].map(|value| found(&list, 3, value));
    assert_eq!(replies, [NONE, Ok(2), Ok(2), Ok(0)]);
}

#[test]
fn a_list_without_plans() {
    for ceilings in 0..=2 {
        let list = head(0, 0, 1, ceilings);
        assert_eq!(numbers(&list, 0), []);
        assert_eq!(found(&list, 0, i16::MAX), NONE);
        assert_eq!(index_lookup(&list, &[1, 2, 3], i16::MAX), NONE);
    }
}

#[test]
fn without_ceilings_by_sum() {
    let list = list_of(0, &[(3, -9, 0), (2, 9, 9), (3, -10, 0), (2, 8, -9)]);
    assert_eq!(numbers(&list, 4), [1, 3, 0, 2]);
    assert_eq!(found(&list, 4, i16::MIN), Ok(1));
    let list = listed(&survey(1, &[], &[]), 20, 20);
    assert_eq!(numbers(&list, 1), [0]);
    assert_eq!(found(&list, 1, i16::MIN), Ok(0));
}

#[test]
fn y1_then_sum_then_y2_then_number() {
    let rows = [(5, 2, 1), (5, 2, 0), (4, 2, 7), (9, 1, 7), (5, 2, 0)];
    for ceilings in [1, 2] {
        let list = list_of(ceilings, &rows);
        assert_eq!(numbers(&list, 5), [3, 2, 1, 4, 0]);
        let replies = [0, 1, 2].map(|value| found(&list, 5, value));
        assert_eq!(replies, [NONE, Ok(3), Ok(2)]);
    }
}

#[test]
fn values_are_signed() {
    let [low, high] = [i16::MIN, i16::MAX];
    let rows = [
        (i32::MAX, 0, 0),
        (i32::MIN, high, 0),
        (0, low, high),
        (0, low, -1),
        (-1, low, 0),
        (i32::MIN, 0, 0),
    ];
    let list = list_of(2, &rows);
    assert_eq!(numbers(&list, 6), [4, 3, 2, 5, 0, 1]);
    let replies = [low, -1, 0, high].map(|value| found(&list, 6, value));
    assert_eq!(replies, [Ok(4), Ok(4), Ok(5), Ok(1)]);
}

#[test]
fn the_earliest_of_equal_sums() {
    // Plan 1 has the least y1 and stands first in the index.
    let list = list_of(1, &[(5, 3, 0), (5, 2, 0), (6, 1, 0)]);
    assert_eq!(numbers(&list, 3), [2, 1, 0]);
    let replies = [1, 2, 3].map(|value| found(&list, 3, value));
    assert_eq!(replies, [Ok(2), Ok(1), Ok(0)]);
}

#[test]
fn the_longest_list() {
    let falling: Vec<PlanRow> = (0..1600).map(|i| (0, 800 - i, 0)).collect();
    let list = list_of(1, &falling);
    assert!(numbers(&list, 1600).into_iter().eq((0..1600).rev()));
    assert_eq!(found(&list, 1600, 0), Ok(800));
    let mut longer = [&list[..], &list[10..20]].concat();
    longer[2..4].copy_from_slice(&1601_u16.to_le_bytes());
    assert_eq!(index(&longer, &mut [0; 3202]), Err(Refusal::whole(12)));
}

/// The replies of both calls to a list, whose lent bytes stay.
fn refused(list: &[u8], len: usize) -> [Result<u16, Refusal>; 2] {
    let mut buffer = vec![0xaa; len];
    let reply = index(list, &mut buffer);
    assert_eq!(buffer, vec![0xaa; len]);
    [reply.map(|()| 0), index_lookup(list, &buffer, 0)]
}

#[test]
fn damaged_lists() {
    let plans = [plan(4, 9, 0, &[1, 2]), plan(7, 7, 0, &[0, 1])].concat();
    let list = [head(2, 3, 2, 1), plans].concat();
    for len in 0..list.len() {
        assert_eq!(refused(&list[..len], 4), [DAMAGED; 2]);
        assert_eq!(refused(&list[..len], 0), [DAMAGED; 2]);
    }
    // The head's mark, count, t and p, and the mark of each plan.
    let changes = [(0, 0x52), (1, 0x4c), (2, 3), (3, 7), (8, 24), (9, 3)];
    let marks = [(10, 0x52), (11, 0x48), (22, 0x52), (23, 0x4d)];
    for (at, byte) in changes.into_iter().chain(marks) {
        let mut damaged = list.clone();
        damaged[at] = byte;
        assert_eq!(refused(&damaged, 4), [DAMAGED; 2]);
        assert_eq!(refused(&damaged, 3), [DAMAGED; 2]);
    }
    // The second plan's mark says nothing where the list has one plan.
    let mut one = list.clone();
    (one[2], one[22]) = (1, 0);
    assert_eq!(numbers(&one, 1), [0]);
}

#[test]
fn short_buffers() {
    let list = list_of(1, &[(4, 9, 0), (7, 7, 0)]);
    for len in 0..4 {
        assert_eq!(refused(&list, len), [SHORT; 2]);
    }
    assert_eq!(index_lookup(&list, &[1, 0, 0], 6), SHORT);
}

#[test]
fn other_indexes() {
    let list = list_of(1, &[(4, 7, 0), (4, 7, 0), (3, 9, 0)]);
    assert_eq!(numbers(&list, 3), [0, 1, 2]);
    let [twice, equal, over] = [[0, 0, 2], [1, 0, 2], [0, 1, 3]];
    for other in [twice, equal, over, [0, 2, 1], [0, 1, 258], [0, 1, 0xffff]] {
        // 12 where no plan meets the value too.
        for value in [6, 7, 9] {
            assert_eq!(index_lookup(&list, &entries(&other), value), DAMAGED);
        }
    }
    let longer = entries(&[0, 1, 2, 9]);
    let replies = [6, 7, 9].map(|value| index_lookup(&list, &longer, value));
    assert_eq!(replies, [NONE, Ok(0), Ok(2)]);
}
