//! Flaws of written surveys, told by the figures that the proved planner is held to.

use crate::cost_refusals::COST_REFUSALS;
use crate::figures::{Taking, COLUMNS_TAKEN, KINDS_TAKEN, LINKS_TAKEN, YARDS_TAKEN};
use crate::outputs::{Spoiling, TouchedBy, SPOILS, TOUCHES};
use crate::write_refusals::{Refusing, WRITE_REFUSALS};
use crate::{assert_each_noticed, is_small, SEEDS};
use compare::columns::Columns;
use compare::comparison::Comparison;
use compare::figure_kinds::FIGURE_KINDS;
use compare::kinds::KINDS;
use compare::planner::{Peer, Planner};
use compare::rng::Rng;
use compare::round_trip::round_trip;
use compare::tally::Tally;

/// Seeds of each kind of figures that a flaw has to show on.
const FIGURE_SEEDS: u64 = 8;

/// Whether some call on the figures tells two planners apart, or has a fault in both.
fn is_noticed(left: &dyn Planner, right: &dyn Planner) -> bool {
    FIGURE_KINDS.iter().any(|kind| {
        (kind.first_seed..kind.first_seed + FIGURE_SEEDS.min(kind.seeds)).any(|seed| {
            let (mut rng, mut tally) = (Rng::new(seed), Tally::default());
            let drafts = kind.drafts(&mut rng);
            let mut comparison = Comparison::new(left, right, &mut tally);
            drafts
                .iter()
                .map(Columns::of_draft)
                .any(|columns| kind.calls(&mut comparison, &columns, &mut rng).is_err())
        })
    })
}

/// Whether some survey that is written back tells two planners apart, or has a fault in both.
fn is_noticed_on_return(left: &dyn Planner, right: &dyn Planner) -> bool {
    let mut kinds = KINDS.iter().filter(|kind| is_small(kind));
    kinds.any(|kind| {
        (kind.first_seed..kind.first_seed + SEEDS.min(kind.seeds)).any(|seed| {
            let (mut rng, mut tally) = (Rng::new(seed), Tally::default());
            let surveys = kind.surveys(&mut rng);
            let mut comparison = Comparison::new(left, right, &mut tally);
            surveys
                .iter()
                .any(|survey| round_trip(&mut comparison, survey, &mut rng).is_err())
        })
    })
}

#[test]
fn right_planners_are_not_noticed() {
    let right: [&dyn Planner; 5] = [
        &Peer,
        &Spoiling(|_, _| {}),
        &TouchedBy(&[]),
        &Taking(|_, _| {}),
        &Refusing(|_, _, refusal| refusal),
    ];
    for planner in right {
        assert!(!is_noticed(&Peer, planner));
        assert!(!is_noticed_on_return(&Peer, planner));
    }
}

#[test]
fn flawed_outputs_are_noticed() {
    assert_each_noticed(is_noticed, &SPOILS);
    assert_each_noticed(is_noticed_on_return, &SPOILS);
    assert_each_noticed(is_noticed, &TOUCHES);
}

#[test]
fn flaws_of_kinds_are_noticed() {
    assert_each_noticed(is_noticed, &KINDS_TAKEN);
}

#[test]
fn flaws_of_yards_and_links_are_noticed() {
    assert_each_noticed(is_noticed, &YARDS_TAKEN);
    assert_each_noticed(is_noticed, &LINKS_TAKEN);
}

#[test]
fn flaws_of_columns_are_noticed() {
    assert_each_noticed(is_noticed, &COLUMNS_TAKEN);
}

#[test]
fn flawed_refusals_are_noticed() {
    assert_each_noticed(is_noticed, &WRITE_REFUSALS);
    assert_each_noticed(is_noticed, &COST_REFUSALS);
}
