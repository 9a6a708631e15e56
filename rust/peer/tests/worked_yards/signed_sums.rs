//! Yards with sums below 0.

use crate::samples::{head, listed, plan, survey, LinkRow};
use peer::{best, judge, Costs, Refusal};

#[test]
fn limits_of_sums() {
    let reply = |sums: [i32; 2]| judge(&survey(2, &[], &sums.map(|sum| (0, 1, sum, 0, 0))), &[0]);
    let only = |sum| {
        Ok(Costs {
            sum,
            ceilings: [0, 0, 0],
        })
    };
    let eighth = |place| Err(Refusal { number: 8, place });
    let [low, high] = [-1_000_000, 1_000_000];
    assert_eq!(reply([low, high]), only(low));
    assert_eq!(reply([high, low]), only(high));
    for outside in [low - 1, high + 1, i32::MIN, i32::MAX] {
        assert_eq!(reply([outside, low]), eighth(1));
        assert_eq!(reply([high, outside]), eighth(2));
    }
}

/// A with sums below 0 on links 0 and 2.
const SOLAR: [LinkRow; 3] = [(0, 1, -4, 7, 0), (1, 2, 3, 2, 0), (0, 2, -1, 9, 0)];

#[test]
fn sums_on_both_sides_of_0() {
    let bytes = listed(&survey(3, &[1], &SOLAR), 46, 34);
    let first = [0x50, 0x4c, 0xfb, 0xff, 0xff, 0xff, 9, 0, 0, 0, 0, 2];
    let second = [0x50, 0x4c, 0xff, 0xff, 0xff, 0xff, 7, 0, 0, 0, 0, 1];
    assert_eq!(bytes, [&head(2, 3, 2, 1)[..], &first, &second].concat());
}

#[test]
fn plans_rise_across_0() {
    let links = [(0, 1, 1, 1, 0), (0, 1, -1, 9, 0), (0, 1, 0, 5, 0)];
    let bytes = listed(&survey(2, &[1], &links), 43, 43);
    let plans = [
        plan(-1, 9, 0, &[1]),
        plan(0, 5, 0, &[2]),
        plan(1, 1, 0, &[0]),
    ];
    assert_eq!(bytes, [head(3, 3, 1, 1), plans.concat()].concat());
}

#[test]
fn all_sums_below_0() {
    // The tree of links 0 and 1 is the cheapest and has the least ceiling cost.
    let links = [(0, 1, -4, 7, 0), (1, 2, -3, 2, 0), (0, 2, -1, 9, 0)];
    let bytes = listed(&survey(3, &[1], &links), 46, 22);
    assert_eq!(bytes, [head(1, 2, 2, 1), plan(-7, 7, 0, &[0, 1])].concat());
}

#[test]
fn equal_sums_below_0() {
    let [low, high] = [(0, 1, -5, 3, 0), (0, 1, -5, 8, 0)];
    let bytes = listed(&survey(2, &[1], &[low, high]), 32, 21);
    assert_eq!(bytes, [head(1, 1, 1, 1), plan(-5, 3, 0, &[0])].concat());
    let bytes = listed(&survey(2, &[1], &[high, low]), 32, 21);
    assert_eq!(bytes, [head(1, 2, 1, 1), plan(-5, 3, 0, &[1])].concat());
}

#[test]
fn two_ceilings_and_sums_below_0() {
    let links = [(0, 1, -4, 7, 1), (1, 2, -3, 2, 6), (0, 2, -1, 9, 3)];
    let bytes = listed(&survey(3, &[1, 1], &links), 118, 34);
    let plans = [plan(-7, 7, 6, &[0, 1]), plan(-5, 9, 3, &[0, 2])];
    assert_eq!(bytes, [head(2, 5, 2, 2), plans.concat()].concat());
}

/// An exception that costs more than the best tree without it has a place beside a link that gives
/// charge back.
#[test]
fn a_dear_exception_beside_a_link_below_0() {
    let links = [(0, 1, -10, 1, 0), (1, 2, 5, 1, 0), (0, 2, 1, 9, 0)];
    let bytes = listed(&survey(3, &[2], &links), 34, 22);
    assert_eq!(bytes, [head(1, 1, 2, 1), plan(-9, 1, 0, &[0, 2])].concat());
    let mut tree = [0; 2];
    let costs = best(&survey(3, &[2], &links), [1, 0, 0], &mut tree);
    assert_eq!((costs.map(|costs| costs.sum), tree), (Ok(-9), [0, 2]));
}

#[test]
fn the_longest_tree_at_the_limits() {
    for sum in [-1_000_000, 1_000_000] {
        let links: Vec<LinkRow> = (0..23).map(|end| (end, end + 1, sum, 0, 0)).collect();
        let all: Vec<u8> = (0..23).collect();
        let bytes = listed(&survey(24, &[], &links), 43, 43);
        assert_eq!(
            bytes,
            [head(1, 1, 23, 0), plan(23 * sum, 0, 0, &all)].concat()
        );
    }
}
