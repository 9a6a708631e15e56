//! Flaws of three ceilings, told by the surveys and lists that the proved planner is held to.

use crate::any_yard::Walking;
use crate::indexes::Misreading;
use crate::on_lists::is_noticed;
use crate::reading::{refusing, Reading};
use crate::triple_calls::{
    third_largest, After, AskingAny, Bounding, ClearedByPositions, Costing, JudgingAny,
    ThirdTestedLast,
};
use crate::triple_fetches::{Fetching, Regarding, ThirdIn, FETCHES, REGARDS, THIRDS};
use crate::triple_lists::{NeedingLess, Relisting, Respelling, Shortened};
use crate::triple_surveys::{is_triple, taking_ranks, taking_triple};
use crate::{assert_each_noticed, assert_noticed, is_noticed_among};
use crate::{triple_lists, triple_surveys};
use compare::kinds::Kind;
use compare::planner::{Peer, Planner};

/// Whether the surveys are of yards with three ceilings and few links, or were damaged or cut.
fn is_triple_kind(kind: &Kind) -> bool {
    let is_long = kind.name == "triple, 40 links";
    kind.name.starts_with("triple") && !is_long || kind.name == "damaged in pairs"
}

/// Whether the surveys are of yards with three ceilings around the most positions.
fn is_at_positions(kind: &Kind) -> bool {
    kind.name.starts_with("positions") || kind.name.starts_with("too many positions")
}

/// Asserts that each flaw shows, and on surveys with three ceilings alone.
fn assert_noticed_with_three(flawed: &[(&str, &dyn Planner)]) {
    assert_noticed(is_triple_kind, |survey| !is_triple(survey), flawed);
}

/// Asserts that each flaw shows, and on surveys with three ceilings and many positions alone.
fn assert_noticed_at_positions(flawed: &[(&str, &dyn Planner)]) {
    assert_noticed(is_at_positions, |survey| !is_triple(survey), flawed);
}

#[test]
fn right_planners_are_not_noticed() {
    let right: [&dyn Planner; 8] = [
        &Walking::default(),
        &taking_triple(|_, _| {}),
        &refusing(|_, refusal| refusal),
        &Reading(|survey: &[u8]| taking_ranks(survey, |ranks| ranks)),
        &Bounding(|bounds| bounds),
        &Costing(|_, _, _| {}),
        &Relisting(|_| {}),
        &NeedingLess(0),
    ];
    for planner in right {
        assert!(!is_noticed_among(is_triple_kind, |_| true, planner));
    }
    let limited = Reading(|survey: &[u8]| triple_surveys::positions_up_to(1600, survey));
    assert!(!is_noticed_among(is_at_positions, |_| true, &limited));
    let on_lists: [&dyn Planner; 3] = [
        &Fetching(peer::fetch),
        &Regarding(Misreading(|_| {})),
        &ThirdIn(|[y1, sum, y2, _], number| [y1, sum, y2, number, 0]),
    ];
    for planner in on_lists {
        assert!(!is_noticed(&Peer, planner));
    }
}

#[test]
fn flawed_readings_of_links_are_noticed() {
    assert_noticed_with_three(&[
        (
            "c3 read from c2",
            &taking_triple(|_, links| each(links, |link| link.copy_within(10..12, 12))),
        ),
        (
            "c3 high byte first",
            &taking_triple(|_, links| each(links, |link| link.swap(12, 13))),
        ),
        (
            "c2 and c3 exchanged",
            &taking_triple(|_, links| each(links, |link| link[10..].rotate_left(2))),
        ),
        (
            "c3 without its sign",
            &taking_triple(|_, links| each(links, |link| link[13] &= 0x7f)),
        ),
        (
            "12 bytes for 14",
            &Reading(|survey: &[u8]| triple_surveys::measured_by(survey, 11, 12)),
        ),
    ]);
}

fn each(links: &mut [triple_surveys::LinkBytes], change: fn(&mut triple_surveys::LinkBytes)) {
    links.iter_mut().for_each(change);
}

#[test]
fn flawed_readings_of_the_yard_record_are_noticed() {
    assert_noticed_with_three(&[
        (
            "k2 and k3 exchanged",
            &taking_triple(|front, _| front.swap(5, 6)),
        ),
        (
            "the count read at k3",
            &taking_triple(|front, _| front[7] = front[6]),
        ),
        (
            "no station at rest",
            &taking_triple(|front, _| front[8..].fill(0)),
        ),
        (
            "10 bytes for 11",
            &Reading(|survey: &[u8]| triple_surveys::measured_by(survey, 10, 14)),
        ),
        (
            "refused by its mark",
            &Reading(triple_surveys::without_triple_mark),
        ),
        (
            "fewer ceilings accepted",
            &Reading(triple_surveys::fewer_ceilings),
        ),
    ]);
}

#[test]
fn flawed_rules_of_ranks_are_noticed() {
    let ranks: [fn([u8; 3]) -> [u8; 3]; 8] = [
        |ranks| if ranks == [2, 2, 2] { [2, 2, 1] } else { ranks },
        |[k1, k2, k3]| {
            if k3 > 1 && k1 + k2 > 2 {
                [9; 3]
            } else {
                [k1, k2, k3]
            }
        },
        |[k1, k2, k3]| [k1, k2, if k3 == 3 { 9 } else { k3 }],
        |[k1, k2, k3]| [k1, k2, k3.max(1)],
        |[k1, k2, k3]| [k1, k2, k3.min(1)],
        |ranks| if ranks == [3, 2, 1] { [2, 2, 1] } else { ranks },
        |ranks| if ranks == [3, 1, 2] { [3, 1, 1] } else { ranks },
        |ranks| if ranks == [1, 2, 3] { [1, 2, 2] } else { ranks },
    ];
    let [three_of_2, third_beside, third_of_3, third_of_0, ignored, of_3_2, of_3_1_2, of_2_3] =
        ranks.map(|taken| Reading(move |survey: &[u8]| taking_ranks(survey, taken)));
    assert_noticed_with_three(&[
        ("ranks 2, 2 and 2 accepted", &three_of_2),
        ("a third rank above 1 beside another refused", &third_beside),
        ("a third rank of 3 refused", &third_of_3),
        ("a third rank of 0 taken for 1", &third_of_0),
        ("the third rank taken for 1", &ignored),
        ("ranks 3, 2 and 1 accepted", &of_3_2),
        ("ranks 3, 1 and 2 accepted", &of_3_1_2),
        ("ranks 1, 2 and 3 accepted", &of_2_3),
        (
            "a third rank above t accepted",
            &Reading(triple_surveys::third_rank_above_t),
        ),
        ("the third cost judged by rank 1", &Costing(third_largest)),
    ]);
}

#[test]
fn flaws_of_19_are_noticed() {
    let [none, lower, higher] = [usize::MAX, 1599, 1610]
        .map(|most| Reading(move |survey: &[u8]| triple_surveys::positions_up_to(most, survey)));
    assert_noticed_at_positions(&[
        ("no limit of positions", &none),
        ("1,600 positions refused", &lower),
        ("1,610 positions accepted", &higher),
        (
            "the positions of all links",
            &Reading(triple_surveys::positions_of_all),
        ),
        (
            "19 before the links",
            &refusing(triple_surveys::before_links),
        ),
        ("19 with a place", &refusing(triple_surveys::with_place)),
        ("19 after 9", &After(9)),
        ("19 after 10", &After(10)),
        ("19 after 11", &After(11)),
        ("19 after 14", &After(14)),
        ("19 not in the judge", &JudgingAny),
        ("19 not in a question", &AskingAny),
        ("a list buffer cleared with 19", &ClearedByPositions),
    ]);
}

#[test]
fn flawed_plans_are_noticed() {
    let marking = Walking {
        marks_third: true,
        ..Walking::default()
    };
    assert_noticed_with_three(&[
        (
            "the third bound ignored",
            &Bounding(|[b1, b2, _]| [b1, b2, i16::MAX]),
        ),
        (
            "the second bound for the third",
            &Bounding(|[b1, b2, _]| [b1, b2, b2]),
        ),
        (
            "the third bound tested on the best of two",
            &ThirdTestedLast,
        ),
        ("no third cost", &Costing(|_, _, costs| costs[2] = 0)),
        (
            "the third cost not compared",
            &Relisting(triple_lists::without_third),
        ),
        (
            "the third cost before the second in order",
            &Relisting(|plans| triple_lists::third_before_second(plans)),
        ),
        ("every third place marked", &marking),
    ]);
}

#[test]
fn flawed_plan_records_are_noticed() {
    assert_noticed_with_three(&[
        (
            "the mark of two ceilings",
            &Respelling(|plan| plan[1] = b'L'),
        ),
        (
            "the third cost before the second",
            &Respelling(|plan| plan[8..12].rotate_left(2)),
        ),
        (
            "the third cost high byte first",
            &Respelling(|plan| plan.swap(10, 11)),
        ),
        ("plans without a third cost", &Shortened),
        ("a list buffer for plans 2 bytes shorter", &NeedingLess(2)),
    ]);
}

#[test]
fn three_ceilings_elsewhere_are_noticed() {
    let either_size = Reading(triple_surveys::marks_of_either_size);
    for sort in [is_triple, |survey: &[u8]| !is_triple(survey)] {
        let is_noticed = is_noticed_among(is_triple_kind, sort, &either_size);
        assert!(is_noticed, "not noticed: link marks of either size");
    }
    let three_of_two = Reading(triple_surveys::three_of_two);
    let flawed: [(&str, &dyn Planner); 1] =
        [("three ceilings where there is room for two", &three_of_two)];
    assert_noticed(is_triple_kind, is_triple, &flawed);
}

#[test]
fn flawed_fetches_are_noticed() {
    assert_each_noticed(is_noticed, &FETCHES);
    assert_each_noticed(is_noticed, &REGARDS);
}

#[test]
fn flawed_orders_of_an_index_are_noticed() {
    assert_each_noticed(is_noticed, &THIRDS);
}
