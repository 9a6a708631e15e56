//! The yards of document 01 and yards at its limits, on figures.

use crate::samples::{chain, largest, told, yard, yard_a, RECORDS};
use ranqustei::{Cause, PlanList, Yard, YardError};

/// The plans of a yard as the planner's program prints them, and the solved count.
fn listed(yard: &Yard) -> (Vec<String>, u32) {
    let survey = yard.survey().expect("the yard is accepted");
    let plans = survey.plans().expect("an accepted survey lists");
    assert_eq!(plans.len() as usize, plans.iter().count());
    assert_eq!(survey.yard(), yard);
    (
        plans.iter().map(|plan| plan.to_string()).collect(),
        plans.solved(),
    )
}

/// Holds the plans of a yard and its solved count against what they should be.
pub fn check(yard: &Yard, plans: &[&str], solved: u32) {
    assert_eq!(
        listed(yard),
        (plans.iter().map(|plan| plan.to_string()).collect(), solved)
    );
}

/// The refusal of a yard.
fn refused(yard: &Yard) -> Option<Cause> {
    match yard.survey() {
        Err(YardError::Refused(refusal)) => Some(refusal.cause()),
        _ => None,
    }
}

#[test]
fn worked_yards() {
    check(&yard_a(1), &["4 9 links 1 2", "7 7 links 0 1"], 3);
    check(&yard_a(2), &["4 2 links 1 2"], 1);
    let two = [
        (0, 1, 4, &[7, 1][..]),
        (1, 2, 3, &[2, 6]),
        (0, 2, 1, &[9, 3]),
    ];
    check(
        &yard(3, &[1, 1], &two),
        &["4 9 6 links 1 2", "5 9 3 links 0 2", "7 7 6 links 0 1"],
        6,
    );
    check(
        &yard(3, &[2, 2], &two),
        &["4 2 3 links 1 2", "5 7 1 links 0 2", "7 2 1 links 0 1"],
        3,
    );
    check(
        &yard(2, &[1], &[(0, 1, 5, &[3]), (0, 1, 5, &[8])]),
        &["5 3 links 0"],
        1,
    );
    check(
        &yard(2, &[1], &[(0, 1, 5, &[8]), (0, 1, 5, &[3])]),
        &["5 3 links 1"],
        2,
    );
    check(&yard(1, &[], &[]), &["0 links"], 1);
    check(&yard(2, &[1], &[]), &[], 0);
}

#[test]
fn questions_to_survey_a() {
    let survey = yard_a(1).survey().expect("survey A is accepted");
    assert_eq!(
        survey.best([8, 0, 0]).map(|plan| plan.to_string()),
        Ok("7 7 links 0 1".to_string())
    );
    assert_eq!(survey.best([6, 0, 0]).map_err(told), Err((14, 0)));
    assert_eq!(survey.best([i16::MIN, 0, 0]).map_err(told), Err((14, 0)));
    assert_eq!(
        survey
            .judge(&[0, 2])
            .map(|plan| (plan.costs.sum, plan.ceiling_costs())),
        Ok((5, vec![9]))
    );
    assert_eq!((survey.positions(), survey.list_need()), (3, 46));
    assert_eq!(survey.list(3), survey.plans());
    assert_eq!(survey.list(2).map_err(told), Err((10, 0)));
}

#[test]
fn stored_lists() {
    let survey = yard_a(1).survey().expect("survey A is accepted");
    let plans = survey.plans().expect("survey A lists");
    assert_eq!(plans.as_bytes().len(), 34);
    assert_eq!(
        PlanList::from_bytes(plans.as_bytes().to_vec()),
        Ok(plans.clone())
    );
    let longer = [plans.as_bytes(), &[1, 2, 3]].concat();
    assert_eq!(PlanList::from_bytes(longer), Ok(plans.clone()));
    assert_eq!(plans.get(2).map_err(told), Err((13, 0)));
    assert_eq!(plans.get(u32::MAX).map_err(told), Err((13, 0)));
    // The mark of the second plan.
    let mut damaged = plans.as_bytes().to_vec();
    damaged[22] = 0;
    assert_eq!(PlanList::from_bytes(damaged).map_err(told), Err((12, 0)));
}

#[test]
fn limits_of_a_yard() {
    assert_eq!(listed(&chain(24, 1)).0.len(), 1);
    assert_eq!(refused(&chain(25, 1)), Some(Cause::Stations));
    let parallel = |links| yard(2, &[], &vec![(0, 1, 1, &[][..]); links]);
    check(&parallel(40), &["1 links 0"], 1);
    assert_eq!(refused(&parallel(41)), Some(Cause::Links));
    check(
        &yard(2, &[], &[(1, 0, 1_000_000, &[])]),
        &["1000000 links 0"],
        1,
    );
    assert_eq!(
        refused(&yard(2, &[], &[(1, 0, 1_000_001, &[])])),
        Some(Cause::Figures)
    );
    check(&yard_a(2), &["4 2 links 1 2"], 1);
    assert_eq!(refused(&yard_a(3)), Some(Cause::Rank));
}

#[test]
fn ranks_beside_each_other() {
    let bare = |stations, ranks: [u8; 2]| yard(stations, &ranks, &[]);
    for ranks in [[1, 3], [2, 2], [3, 1]] {
        check(&bare(4, ranks), &[], 0);
    }
    for ranks in [[2, 3], [3, 2], [3, 3]] {
        assert_eq!(refused(&bare(4, ranks)), Some(Cause::Rank));
    }
    check(&bare(3, [2, 2]), &[], 0);
    assert_eq!(refused(&bare(2, [2, 2])), Some(Cause::Rank));
}

#[test]
fn the_longest_list_buffer() {
    let survey = largest().survey().expect("the yard is accepted");
    assert_eq!((survey.positions(), survey.list_need()), (1_600, 52_810));
    assert_eq!(survey.plans().map(|plans| plans.len()), Ok(18));
}

#[test]
fn ceilings_that_a_survey_cannot_hold() {
    let four = yard(3, &[1, 1, 1, 1], &[])
        .survey()
        .expect_err("four ceilings");
    assert_eq!(four, YardError::Ceilings { room: 3, found: 4 });
    assert_eq!(
        four.to_string(),
        "the yard record has room for 3 ceilings: found 4"
    );
    for record in RECORDS {
        let three = yard(3, &[1, 1, 1], &[]).survey_with(record);
        assert_eq!(three, Err(YardError::Ceilings { room: 2, found: 3 }));
    }
}

#[test]
fn costs_that_a_survey_cannot_hold() {
    let links = [(0, 1, 4, &[7][..]), (1, 2, 3, &[])];
    let missing = yard(3, &[1], &links)
        .survey()
        .expect_err("a cost is missing");
    assert_eq!(
        missing,
        YardError::Costs {
            link: 1,
            needed: 1,
            found: 0
        }
    );
    assert_eq!(
        missing.to_string(),
        "link 1 needs a cost for each ceiling, 1 in all: found 0"
    );
    let many = yard(3, &[1], &[(0, 1, 4, &[7, 7, 7])])
        .survey()
        .expect_err("too many costs");
    assert_eq!(
        many,
        YardError::Costs {
            link: 0,
            needed: 1,
            found: 3
        }
    );
}
