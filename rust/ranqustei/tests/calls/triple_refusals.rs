//! What is declined of yards with three ceilings, and in which order.

use crate::counted::{check_every_cut, declined};
use crate::samples::{bytes_of, chain, three_a, told, yard, yard_a, RECORDS};
use crate::triple::{triple_yards, with_values};
use ranqustei::{best, judge, list, Link, Survey, Yard, YardError, YardRecord};

/// The bytes of `three_a` with ranks 1.
fn bytes_three() -> Vec<u8> {
    bytes_of(&three_a([1, 1, 1]), YardRecord::Triple)
}

/// The refusal of a yard with the triple yard record.
fn refused(yard: &Yard) -> Option<(u8, u8)> {
    match yard.survey_with(YardRecord::Triple) {
        Err(YardError::Refused(refusal)) => Some(told(refusal)),
        _ => None,
    }
}

#[test]
fn every_cut_is_declined() {
    for yard in triple_yards() {
        check_every_cut(&bytes_of(&yard, YardRecord::Triple), 11, 14);
    }
}

#[test]
fn the_record_is_for_three_ceilings_alone() {
    for p in (0..3).chain([4, u8::MAX]) {
        let mut survey = bytes_three();
        survey[3] = p;
        assert_eq!(declined(&survey), Some((5, 0)), "p = {p}");
    }
    for ceilings in 0..3 {
        let links = [Link::new([0, 1], 1, vec![7; ceilings])];
        let yard = Yard::new(2, vec![1; ceilings], links);
        assert_eq!(refused(&yard), Some((5, 0)));
    }
    for record in RECORDS {
        let mut survey = bytes_of(&yard_a(1), record);
        survey[3] = 3;
        assert_eq!(declined(&survey), Some((5, 0)), "{record:?}");
    }
}

#[test]
fn ranks_of_three_ceilings() {
    for links in 1..5 {
        let bare = yard(links + 1, &[1, 1, 1], &[]);
        let survey = bytes_of(&bare, YardRecord::Triple);
        for number in 0..125 {
            let ranks = [number / 25, number / 5 % 5, number % 5];
            let are_present = ranks.iter().all(|rank| (1..=3.min(links)).contains(rank));
            let is_legal = are_present && ranks.iter().sum::<u8>() <= 5;
            let mut ranked = survey.clone();
            ranked[4..7].copy_from_slice(&ranks);
            match Survey::new(ranked) {
                Ok(found) => assert_eq!((is_legal, &found.yard().ranks[..]), (true, &ranks[..])),
                Err(refusal) => assert_eq!((is_legal, told(refusal)), (false, (6, 0))),
            }
        }
    }
    // One station works, and a present ceiling has no rank of 0.
    assert_eq!(refused(&Yard::new(1, [1, 1, 1], [])), Some((6, 0)));
    let alone = three_a([1, 1, 1]).with_resting([0, 2]);
    assert_eq!(refused(&alone), Some((6, 0)));
}

#[test]
fn marks_of_links() {
    for (place, at) in (1..).zip([12, 26, 40]) {
        let mut survey = bytes_three();
        survey[at] = b'K';
        assert_eq!(declined(&survey), Some((2, place)));
    }
    for record in RECORDS {
        let survey = bytes_of(&yard_a(1), record);
        let first = survey.len() - 35;
        for (place, at) in (1..).zip([first, first + 12, first + 24]) {
            let mut other = survey.clone();
            other[at] = b'M';
            assert_eq!(declined(&other), Some((2, place)), "{record:?}");
        }
    }
}

#[test]
fn other_records_have_no_room() {
    let mut survey = bytes_three();
    for mark in [b'D', b'E', b'F', b'H'] {
        survey[1] = mark;
        assert!(matches!(declined(&survey), Some((1, 0))));
    }
}

#[test]
fn the_order_of_numbers() {
    // A byte that is changed, and the refusal with legal rest bytes and with others.
    let edits = [
        (2, 0, (3, 0), (3, 0)),
        (2, 25, (3, 0), (3, 0)),
        (7, 2, (15, 0), (15, 0)),
        (3, 2, (5, 0), (18, 0)),
        (6, 3, (6, 0), (18, 0)),
        (12, 0, (2, 1), (18, 0)),
        (14, 3, (7, 1), (18, 0)),
        (18, 1, (8, 1), (18, 0)),
    ];
    for (at, byte, with_legal, with_other) in edits {
        for (rest, refusal) in [(0, with_legal), (7, with_other), (8, with_other)] {
            let mut survey = bytes_three();
            survey[at] = byte;
            survey[8] = rest;
            assert_eq!(declined(&survey), Some(refusal), "byte {at}, rest {rest}");
        }
    }
    let mut many = three_a([1, 1, 1]);
    many.links = vec![many.links[0].clone(); 41];
    assert_eq!(refused(&many), Some((4, 0)));
    assert_eq!(refused(&many.with_resting([9])), Some((4, 0)));
}

#[test]
fn over_1600_positions() {
    for values in [
        [23, 10, 7],
        [12, 12, 12],
        [40, 40, 2],
        [40, 40, 40],
        [1, 40, 40],
    ] {
        let yard = with_values(values);
        let positions: i16 = values[0] * values[1];
        let is_over = i32::from(positions) * i32::from(values[2]) > 1_600;
        assert_eq!(refused(&yard), is_over.then_some((19, 0)), "{values:?}");
    }
    // Two ceilings of 40 values each are 1,600 positions at most.
    let mut two = with_values([40, 40, 40]);
    two.ranks.pop();
    two.links.iter_mut().for_each(|link| link.costs.truncate(2));
    assert_eq!(two.survey().map(|survey| survey.positions()), Ok(1_600));
}

/// A yard that is over 1,600 positions, as bytes; the planner accepts no survey of it.
fn over() -> Vec<u8> {
    let mut survey = bytes_of(&with_values([40, 40, 1]), YardRecord::Triple);
    // Of the last link c3, which all links have alike.
    let last = survey.len() - 2;
    survey[last] ^= 1;
    survey
}

#[test]
fn positions_come_after_the_links_and_before_all_else() {
    let over = over();
    assert_eq!(declined(&over), Some((19, 0)));
    // No tree drawn, no tree that fits, no room, no allowance.
    assert_eq!(judge(&over, &[9, 9]).map_err(told), Err((19, 0)));
    for room in [0, 22, 23] {
        let reply = best(&over, [i16::MIN; 3], &mut vec![0; room]);
        assert_eq!(reply.map_err(told), Err((19, 0)));
    }
    for room in [0, 56_009, 56_010, 60_000] {
        let mut buffer = vec![0xA5; room];
        assert_eq!(list(&over, 0, &mut buffer).map_err(told), Err((19, 0)));
        assert_eq!(buffer, vec![0xA5; room]);
    }
    // The faults of the last link come before.
    let last = over.len() - 14;
    for (at, byte, number) in [(1, b'K', 2), (2, 24, 7), (7, 0x40, 8)] {
        let mut faulty = over.clone();
        faulty[last + at] = byte;
        assert_eq!(declined(&faulty), Some((number, 40)));
    }
}

#[test]
fn positions_go_by_usable_links() {
    // The last link alone has another value of the third ceiling: with one of its ends at rest
    // there are no more than 1,600 positions, also those of its other costs gone.
    let mut survey = over();
    survey[10] = 0b10;
    let accepted = Survey::new(survey).expect("station 17 rests");
    assert_eq!(accepted.yard().resting, [17].into());
    assert_eq!(accepted.positions(), 37 * 37);
    // No tree, and yet over.
    let mut apart = chain(24, 1);
    apart.ranks = vec![1, 1, 1];
    apart.links = (0..40)
        .map(|cost| Link::new([0, 1], 1, [cost, -cost, cost]))
        .collect();
    assert_eq!(refused(&apart), Some((19, 0)));
    // No usable link: no position.
    assert_eq!(refused(&apart.with_resting([0])), None);
}
