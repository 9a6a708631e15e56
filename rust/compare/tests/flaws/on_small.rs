//! Flaws of small surveys, told by the numbers that the proved planner is held to; and flaws of
//! other calls, told by the complete set.

use crate::any_yard::{AllSolved, ClearedTail, KeptTail, LastTree, OverAllowance, Stale, Walking};
use crate::assert_each_noticed;
use crate::small_outputs::{RefusingSmall, SmallBy, SMALL_OUTPUTS, SMALL_REFUSALS};
use crate::small_surveys::{
    SpoilingSmall, TakingNumber, SMALL_NUMBERS, SMALL_ORDERS, SMALL_SPOILS,
};
use compare::comparison::Comparison;
use compare::complete_set::run;
use compare::planner::{Peer, Planner};
use compare::rng::Rng;
use compare::small_calls::{calls_in_order, calls_with_any};
use compare::tally::Tally;

/// Whether some call for a small survey tells two planners apart, or has a fault in both.
fn is_noticed(left: &dyn Planner, right: &dyn Planner) -> bool {
    [calls_in_order, calls_with_any].iter().any(|calls| {
        let mut tally = Tally::default();
        let mut comparison = Comparison::new(left, right, &mut tally);
        calls(&mut comparison, &mut Rng::new(0)).is_err()
    })
}

/// Whether a planner fails in the run of the complete set.
fn is_noticed_in_set(planner: &dyn Planner) -> bool {
    run(planner, &mut Tally::default()).is_err()
}

#[test]
fn right_planners_are_not_noticed() {
    let right: [&dyn Planner; 5] = [
        &Peer,
        &TakingNumber(|number| number),
        &SpoilingSmall(|_| {}),
        &SmallBy(peer::small_survey),
        &RefusingSmall(|_, refusal| refusal),
    ];
    for planner in right {
        assert!(!is_noticed(&Peer, planner));
        assert!(!is_noticed_in_set(planner));
    }
    assert!(!is_noticed_in_set(&Walking::default()));
}

#[test]
fn flawed_orders_are_noticed() {
    assert_each_noticed(is_noticed, &SMALL_ORDERS);
    assert_each_noticed(|_, planner| is_noticed_in_set(planner), &SMALL_ORDERS);
}

#[test]
fn flawed_surveys_are_noticed() {
    assert_each_noticed(is_noticed, &SMALL_SPOILS);
    assert_each_noticed(|_, planner| is_noticed_in_set(planner), &SMALL_SPOILS);
}

#[test]
fn flaws_of_numbers_are_noticed() {
    assert_each_noticed(is_noticed, &SMALL_NUMBERS);
}

#[test]
fn flaws_of_outputs_and_refusals_are_noticed() {
    assert_each_noticed(is_noticed, &SMALL_OUTPUTS);
    assert_each_noticed(is_noticed, &SMALL_REFUSALS);
}

#[test]
fn flaws_of_other_calls_are_noticed_in_the_set() {
    let past = Walking {
        past: 1,
        ..Walking::default()
    };
    let keeping = Walking {
        keeps_dominated: true,
        ..Walking::default()
    };
    let flawed: [(&str, &dyn Planner); 8] = [
        ("last tree", &LastTree),
        ("tree buffer cleared past the tree", &ClearedTail),
        ("one position over the allowance", &OverAllowance),
        ("list buffer's last byte kept", &KeptTail),
        ("all positions counted as solved", &AllSolved),
        ("lists kept for other surveys", &Stale::default()),
        ("own place marked past", &past),
        ("dominated vectors kept", &keeping),
    ];
    for (flaw, planner) in flawed {
        assert!(is_noticed_in_set(planner), "not noticed: {flaw}");
    }
}
