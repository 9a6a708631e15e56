//! Yards with two ranks above 1.

use crate::samples::{head, listed, plan, survey, A2};
use peer::best;
use peer::listing::Listing;
use peer::survey::Yard;
use peer::Refusal;

#[test]
fn limits_of_ranks() {
    let is_legal = |n, ranks: &[u8]| match Yard::read(&survey(n, ranks, &[])) {
        Ok(_) => true,
        Err(refusal) => {
            assert_eq!(refusal, Refusal::whole(6));
            false
        }
    };
    assert!(is_legal(4, &[3]) && !is_legal(3, &[3]));
    assert!(is_legal(3, &[2, 2]) && !is_legal(2, &[2, 2]));
    for ranks in [[1, 1], [1, 2], [2, 1], [1, 3], [3, 1], [2, 2]] {
        assert!(is_legal(4, &ranks));
    }
    for ranks in [[2, 3], [3, 2], [3, 3], [1, 4], [4, 1], [0, 2], [2, 0]] {
        assert!(!is_legal(4, &ranks) && !is_legal(24, &ranks));
    }
}

#[test]
fn both_second_largest() {
    let bytes = listed(&survey(3, &[2, 2], &A2), 118, 46);
    let plans = [
        plan(4, 2, 3, &[1, 2]),
        plan(5, 7, 1, &[0, 2]),
        plan(7, 2, 1, &[0, 1]),
    ];
    assert_eq!(bytes, [head(3, 3, 2, 2), plans.concat()].concat());
}

/// The best tree of a yard of four stations with ranks (2, 2) under bounds of 5. Links 0, 1 and 2
/// are above both bounds, the first and the second; the sum of link 3, a normal one, is given.
fn best_with_exceptions(sum: i32) -> [u8; 3] {
    let links = [
        (0, 1, 1, 9, 9),
        (0, 1, 2, 9, 1),
        (1, 2, 1, 1, 9),
        (1, 2, sum, 1, 1),
        (2, 3, 1, 1, 1),
    ];
    let survey = survey(4, &[2, 2], &links);
    let yard = Yard::read(&survey).unwrap();
    let mut tree = [0; 3];
    let costs = best(&survey, [5, 5, 0], &mut tree).unwrap();
    let by_listing = Listing::of(&yard).best([5, 5, 0]).unwrap();
    assert_eq!(by_listing.costs, costs);
    assert!(by_listing.tree.links().eq(tree));
    tree
}

#[test]
fn one_exception_above_both_bounds() {
    assert_eq!(best_with_exceptions(1), [0, 3, 4]);
    // As good as the tree with two exceptions, and first.
    assert_eq!(best_with_exceptions(2), [0, 3, 4]);
}

#[test]
fn an_exception_above_each_bound() {
    assert_eq!(best_with_exceptions(3), [1, 2, 4]);
}
