//! Flaws of indexes and lookups, told by the hand-made lists that the proved planner is held to.

use crate::indexes::{Declining, Misreading, Touching, READINGS, REFUSALS, TOUCHES};
use crate::lookups::{choice, is_index, Choosing, Testing, ValueFirst, CHOICES, TESTS};
use crate::orders::{Ordering, ORDERS};
use crate::{assert_each_noticed, SEEDS};
use compare::comparison::Comparison;
use compare::list_kinds::LIST_KINDS;
use compare::planner::{Peer, Planner};
use compare::rng::Rng;
use compare::tally::Tally;

/// Whether some call on the lists tells two planners apart, or has a fault in both.
pub fn is_noticed(left: &dyn Planner, right: &dyn Planner) -> bool {
    LIST_KINDS.iter().any(|kind| {
        (kind.first_seed..kind.first_seed + SEEDS.min(kind.seeds)).any(|seed| {
            let (mut rng, mut tally) = (Rng::new(seed), Tally::default());
            let list = kind.list(&mut rng);
            let mut comparison = Comparison::new(left, right, &mut tally);
            kind.calls(&mut comparison, &list, &mut rng).is_err()
        })
    })
}

#[test]
fn right_planners_are_not_noticed() {
    let right: [&dyn Planner; 7] = [
        &Peer,
        &Ordering(|counting, _, _| counting),
        &Touching(|_, _, _| {}),
        &Declining(|_, _, refusal| refusal),
        &Misreading(|_| {}),
        &Testing(is_index),
        &Choosing(choice),
    ];
    for planner in right {
        assert!(!is_noticed(&Peer, planner));
    }
}

#[test]
fn flawed_orders_are_noticed() {
    assert_each_noticed(is_noticed, &ORDERS);
}

#[test]
fn flaws_of_the_buffer_are_noticed() {
    assert_each_noticed(is_noticed, &TOUCHES);
}

#[test]
fn flawed_refusals_are_noticed() {
    assert_each_noticed(is_noticed, &REFUSALS);
    assert_each_noticed(is_noticed, &[("13 before 12 for the index", ValueFirst)]);
}

#[test]
fn flawed_readings_are_noticed() {
    assert_each_noticed(is_noticed, &READINGS);
}

#[test]
fn flawed_tests_of_an_index_are_noticed() {
    assert_each_noticed(is_noticed, &TESTS);
}

#[test]
fn flawed_choices_are_noticed() {
    assert_each_noticed(is_noticed, &CHOICES);
}
