//! The yards of document 01.

use crate::samples::{head, listed, plan, survey, A, A2};
use peer::{best, fetch, judge, list, Costs, Refusal};

#[test]
fn p1_survey_a() {
    let bytes = listed(&survey(3, &[1], &A), 46, 34);
    let plans = [plan(4, 9, 0, &[1, 2]), plan(7, 7, 0, &[0, 1])].concat();
    assert_eq!(bytes, [head(2, 3, 2, 1), plans].concat());
    assert_eq!(fetch(&bytes, 0), Ok(&[1, 2][..]));
    assert_eq!(fetch(&bytes, 1), Ok(&[0, 1][..]));
    assert_eq!(fetch(&bytes, 2), Err(Refusal::whole(13)));
    assert_eq!(fetch(&bytes[..33], 0), Err(Refusal::whole(12)));
}

#[test]
fn p2_second_largest() {
    let bytes = listed(&survey(3, &[2], &A), 46, 22);
    assert_eq!(bytes, [head(1, 1, 2, 1), plan(4, 2, 0, &[1, 2])].concat());
}

#[test]
fn p3_two_ceilings() {
    let bytes = listed(&survey(3, &[1, 1], &A2), 118, 46);
    let plans = [
        plan(4, 9, 6, &[1, 2]),
        plan(5, 9, 3, &[0, 2]),
        plan(7, 7, 6, &[0, 1]),
    ];
    assert_eq!(bytes, [head(3, 6, 2, 2), plans.concat()].concat());
}

#[test]
fn p4_and_p5_equal_sums() {
    let [low, high] = [(0, 1, 5, 3, 0), (0, 1, 5, 8, 0)];
    let bytes = listed(&survey(2, &[1], &[low, high]), 32, 21);
    assert_eq!(bytes, [head(1, 1, 1, 1), plan(5, 3, 0, &[0])].concat());
    let bytes = listed(&survey(2, &[1], &[high, low]), 32, 21);
    assert_eq!(bytes, [head(1, 2, 1, 1), plan(5, 3, 0, &[1])].concat());
}

#[test]
fn p6_and_p7_no_links() {
    let bytes = listed(&survey(1, &[], &[]), 20, 20);
    assert_eq!(bytes, [head(1, 1, 0, 0), plan(0, 0, 0, &[])].concat());
    assert_eq!(fetch(&bytes, 0), Ok(&[][..]));
    let bytes = listed(&survey(2, &[1], &[]), 10, 10);
    assert_eq!(bytes, head(0, 0, 1, 1));
}

#[test]
fn p8_and_p9_under_ceilings() {
    let a = survey(3, &[1], &A);
    let costs = Costs {
        sum: 7,
        ceilings: [7, 0, 0],
    };
    let mut tree = [0xaa; 3];
    assert_eq!(best(&a, [6, 0, 0], &mut tree), Err(Refusal::whole(14)));
    let lowest = i16::MIN;
    assert_eq!(best(&a, [lowest, 0, 0], &mut tree), Err(Refusal::whole(14)));
    assert_eq!(best(&a, [8, 0, 0], &mut tree[..1]), Err(Refusal::whole(9)));
    assert_eq!(tree, [0xaa; 3]);
    assert_eq!(best(&a, [8, lowest, 0], &mut tree), Ok(costs));
    assert_eq!(tree, [0, 1, 0xaa]);
}

#[test]
fn p10_and_p11_drawn_trees() {
    let costs = |sum, y1| {
        Ok(Costs {
            sum,
            ceilings: [y1, 0, 0],
        })
    };
    assert_eq!(judge(&survey(3, &[1], &A), &[0, 2]), costs(5, 9));
    let wrong: [&[u8]; 6] = [&[], &[0], &[0, 1, 2], &[2, 0], &[0, 0], &[0, 3]];
    for drawn in wrong {
        let reply = judge(&survey(3, &[1], &A), drawn);
        assert_eq!(reply, Err(Refusal::whole(11)));
    }
    let row = [(0, 1, 0, 5, 0), (1, 2, 0, -3, 0), (2, 3, 0, 5, 0)];
    assert_eq!(judge(&survey(4, &[2], &row), &[0, 1, 2]), costs(0, 5));
}

#[test]
fn p12_allowance() {
    let a = survey(3, &[1], &A);
    let mut buffer = [0xaa; 50];
    assert_eq!(list(&a, 3, &mut buffer), Ok(()));
    assert_eq!(list(&a, 2, &mut buffer), Err(Refusal::whole(10)));
    assert_eq!(buffer, [0; 50]);
}

#[test]
fn limits_of_a_survey() {
    let number = |survey: &[u8]| judge(survey, &[0xff]).unwrap_err();
    let links = |count| vec![(0, 1, 1_000_000, 0, 0); count];
    assert_eq!(number(&survey(24, &[], &links(40))), Refusal::whole(11));
    assert_eq!(number(&survey(25, &[], &links(40))), Refusal::whole(3));
    assert_eq!(number(&survey(24, &[], &links(41))), Refusal::whole(4));
}
