//! Sums below 0, as relays with a panel have them.

use crate::samples::{bytes_of, chain, told, yard, yard_a};
use crate::yards::check;
use ranqustei::{PlanList, Survey, Yard, YardError, YardRecord};

/// Survey A with other sums.
fn a_with(sums: [i32; 3]) -> Yard {
    let mut yard = yard_a(1);
    for (link, sum) in yard.links.iter_mut().zip(sums) {
        link.sum = sum;
    }
    yard
}

fn accepted(yard: &Yard) -> Survey {
    yard.survey().expect("the yard is accepted")
}

#[test]
fn sums_on_both_sides_of_0() {
    check(
        &a_with([-4, 3, -1]),
        &["-5 9 links 0 2", "-1 7 links 0 1"],
        3,
    );
    let across = [(0, 1, 1, &[1][..]), (0, 1, -1, &[9]), (0, 1, 0, &[5])];
    check(
        &yard(2, &[1], &across),
        &["-1 9 links 1", "0 5 links 2", "1 1 links 0"],
        3,
    );
}

#[test]
fn all_sums_below_0() {
    check(&a_with([-4, -3, -1]), &["-7 7 links 0 1"], 2);
    check(
        &a_with([-1, -2, -4]),
        &["-6 9 links 1 2", "-3 7 links 0 1"],
        3,
    );
}

#[test]
fn equal_sums_below_0() {
    let [low, high] = [(0, 1, -5, &[3][..]), (0, 1, -5, &[8][..])];
    check(&yard(2, &[1], &[low, high]), &["-5 3 links 0"], 1);
    check(&yard(2, &[1], &[high, low]), &["-5 3 links 1"], 2);
}

#[test]
fn questions() {
    let survey = accepted(&a_with([-4, 3, -1]));
    let best = |bound| survey.best([bound, 0, 0]).map(|plan| plan.to_string());
    assert_eq!(best(9), Ok("-5 9 links 0 2".to_string()));
    assert_eq!(best(8), Ok("-1 7 links 0 1".to_string()));
    assert_eq!(best(6).map_err(told), Err((14, 0)));
    let judged = |drawn: &[u8]| survey.judge(drawn).map(|plan| plan.costs.sum);
    assert_eq!(judged(&[0, 1]), Ok(-1));
    assert_eq!(judged(&[0, 2]), Ok(-5));
    assert_eq!(judged(&[1, 2]), Ok(2));
}

#[test]
fn limits_of_a_sum() {
    for sum in [-1_000_000, 1_000_000] {
        for link in 0..3 {
            let mut yard = a_with([0; 3]);
            yard.links[link].sum = sum;
            let survey = accepted(&yard);
            assert_eq!(survey.yard(), &yard);
            assert!(survey.plans().is_ok());
        }
    }
    for sum in [-1_000_001, 1_000_001, i32::MIN, i32::MAX] {
        for link in 0..3 {
            let mut yard = a_with([0; 3]);
            yard.links[link].sum = sum;
            let Err(YardError::Refused(refusal)) = yard.survey() else {
                panic!("a sum of {sum} is refused");
            };
            assert_eq!(told(refusal), (8, link as u8 + 1));
        }
    }
}

#[test]
fn the_longest_tree_at_the_limits() {
    let links: String = (0..23).map(|link| format!(" {link}")).collect();
    for (sum, total) in [(-1_000_000, "-23000000"), (1_000_000, "23000000")] {
        check(&chain(24, sum), &[&format!("{total} links{links}")], 1);
    }
}

#[test]
fn bytes_are_twos_complement() {
    let yard = a_with([-4, 3, -1_000_000]);
    let survey = bytes_of(&yard, YardRecord::Plain);
    let sum = |link: usize| &survey[10 + 12 * link..][..4];
    assert_eq!(sum(0), [0xFC, 0xFF, 0xFF, 0xFF]);
    assert_eq!(sum(1), [0x03, 0x00, 0x00, 0x00]);
    assert_eq!(sum(2), [0xC0, 0xBD, 0xF0, 0xFF]);
    let plans = accepted(&yard).plans().expect("an accepted survey lists");
    // -1,000,004
    assert_eq!(plans.as_bytes()[12..16], [0xBC, 0xBD, 0xF0, 0xFF]);
}

#[test]
fn any_sum_of_a_stored_list() {
    let plans = accepted(&yard_a(1)).plans().expect("survey A lists");
    for sum in [i32::MIN, -1, 0, i32::MAX] {
        let mut bytes = plans.as_bytes().to_vec();
        bytes[12..16].copy_from_slice(&sum.to_le_bytes());
        let stored = PlanList::from_bytes(bytes).expect("all plans can be fetched");
        assert_eq!(stored.get(0).map(|plan| plan.costs.sum), Ok(sum));
    }
}
