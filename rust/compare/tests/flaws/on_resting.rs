//! Flaws of stations at rest, told by the surveys that the proved planner is held to.

use crate::any_yard::Walking;
use crate::reading::{refusing, Reading};
use crate::resting::{has_rest_bytes, is_resting, taking_rest, taking_unusable};
use crate::resting::{ClearedByRest, RestBytes, ORDERS};
use crate::trees_at_rest::{DrawnForAll, HeadForAll, Joining, Needing, TreeRoomForAll};
use crate::{assert_noticed, is_noticed_among, resting, trees_at_rest, SEEDS};
use compare::comparison::Comparison;
use compare::kinds::{Kind, KINDS};
use compare::planner::{Peer, Planner};
use compare::reduced::ByReduction;
use compare::rng::Rng;
use compare::round::survey_calls;
use compare::tally::Tally;
use peer::positions::Positions;
use peer::records::WRITTEN_RECORDS;
use peer::survey::{Link, Yard};

/// Whether the surveys are of small or large yards, or were damaged twice, or cut.
fn is_any_size_or_cut(kind: &Kind) -> bool {
    let names = [
        "large",
        "damaged",
        "damaged in pairs",
        "resting, cut",
        "resting, damaged in pairs",
    ];
    kind.name.starts_with("small") || names.contains(&kind.name)
}

/// Asserts that each flaw shows, and on surveys with rest bytes alone.
fn assert_noticed_at_rest(flawed: &[(&str, &dyn Planner)]) {
    assert_noticed(is_any_size_or_cut, |survey| !has_rest_bytes(survey), flawed);
}

/// Whether some call tells a planner's replies to a legal survey with rest bytes from its replies
/// to the yard without the stations at rest.
fn is_noticed_by_reduction(planner: &dyn Planner) -> bool {
    let legal = |kind: &&Kind| is_any_size_or_cut(kind) && kind.is_legal();
    KINDS.iter().filter(legal).any(|kind| {
        (kind.first_seed..kind.first_seed + SEEDS).any(|seed| {
            let (mut rng, mut tally) = (Rng::new(seed), Tally::default());
            let mut surveys = kind.surveys(&mut rng);
            surveys.retain(|survey| is_resting(survey));
            let record = rng.pick(&WRITTEN_RECORDS);
            let by_reduction = ByReduction { planner, record };
            let mut comparison = Comparison::new(planner, &by_reduction, &mut tally);
            surveys
                .iter()
                .any(|survey| survey_calls(&mut comparison, survey, &mut rng).is_err())
        })
    })
}

/// Asserts that each flaw shows beside the peer, and without it by the yard that is left.
fn assert_noticed_by_reduction(flawed: &[(&str, &dyn Planner)]) {
    assert_noticed_at_rest(flawed);
    for (flaw, planner) in flawed {
        let is_noticed = is_noticed_by_reduction(*planner);
        assert!(is_noticed, "not noticed by reduction: {flaw}");
    }
}

#[test]
fn right_planners_are_not_noticed() {
    let right: [&dyn Planner; 7] = [
        &Peer,
        &Walking::default(),
        &taking_rest(|rest, _| rest),
        &taking_unusable(|_, _| {}),
        &refusing(|_, refusal| refusal),
        &Needing(|yard| [Positions::of(yard).count(), yard.tree_len()]),
        &Joining(|_, link| link.is_usable),
    ];
    for planner in right {
        assert!(!is_noticed_among(is_any_size_or_cut, |_| true, planner));
        assert!(!is_noticed_by_reduction(planner));
    }
}

#[test]
fn flawed_readings_of_rest_are_noticed() {
    let readings: [fn(RestBytes, u8) -> RestBytes; 6] = [
        |_, _| [0; 3],
        |rest, _| rest.map(u8::reverse_bits),
        |[low, middle, high], _| [high, middle, low],
        resting::turned_round,
        |[low, middle, _], _| [low, middle, 0],
        |[low, middle, high], _| [low & !1, middle, high],
    ];
    let [ignored, high_bits, high_bytes, turned, third_ignored, first_works] =
        readings.map(taking_rest);
    assert_noticed_by_reduction(&[
        ("rest ignored", &ignored),
        ("bits from the high end", &high_bits),
        ("bytes in reverse order", &high_bytes),
        ("a bit set where a station works", &turned),
        ("the third byte ignored", &third_ignored),
        ("station 0 never at rest", &first_works),
        ("links numbered anew", &Reading(resting::renumbering)),
    ]);
}

#[test]
fn flawed_trees_are_noticed() {
    let [with_tree_of_all, with_all_values] = [
        trees_at_rest::with_tree_of_all,
        trees_at_rest::with_all_values,
    ]
    .map(Needing);
    let placing = Walking {
        places_unusable: true,
        ..Walking::default()
    };
    let tests: [fn(&Yard, &Link) -> bool; 3] = [
        |_, _| true,
        |yard, link| !yard.rest.has(link.ends[0]),
        |yard, link| !yard.rest.has(link.ends[1]),
    ];
    let [any_link, first_end, second_end] = tests.map(Joining);
    assert_noticed_by_reduction(&[
        ("n less 1 links drawn", &DrawnForAll),
        ("a tree buffer for n less 1 links", &TreeRoomForAll),
        ("a list buffer for n less 1 links", &with_tree_of_all),
        ("n less 1 in the list head", &HeadForAll),
        ("a list buffer by the values of all links", &with_all_values),
        ("the values of unusable links placed", &placing),
        ("links to stations at rest taken", &any_link),
        ("only the first end asked", &first_end),
        ("only the second end asked", &second_end),
    ]);
}

#[test]
fn flawed_refusals_are_noticed() {
    let [before_3, before_4, before_15, after_5, after_6, after_links] = ORDERS.map(refusing);
    let [past_accepted, none_works] =
        [resting::without_past, resting::none_of_all].map(taking_rest);
    let [any_mark, any_ends, any_costs] =
        [resting::any_mark, resting::any_ends, resting::any_costs].map(taking_unusable);
    assert_noticed_at_rest(&[
        ("18 before 3", &before_3),
        ("18 before 4", &before_4),
        ("18 before 15", &before_15),
        ("18 after 5", &after_5),
        ("18 after 6", &after_6),
        ("18 after the links", &after_links),
        ("18 with a place", &refusing(resting::with_place)),
        ("a list buffer cleared with 18", &ClearedByRest),
        ("bits past the last station accepted", &past_accepted),
        ("no working station accepted", &none_works),
        ("unusable links with any mark", &any_mark),
        ("unusable links with any ends", &any_ends),
        ("unusable links with any costs", &any_costs),
        (
            "the count of usable links",
            &Reading(resting::counting_usable),
        ),
        ("40 usable links accepted", &Reading(resting::forty_usable)),
        ("7 bytes for 10", &Reading(resting::measured_as_counted)),
        (
            "refused by its mark",
            &Reading(resting::without_resting_mark),
        ),
        ("ranks up to n less 1", &Reading(resting::ranks_by_all)),
    ]);
}
