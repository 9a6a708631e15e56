//! Surveys whose yard record has a link count.

use crate::samples::{head, listed, plan, survey, A, A2};
use peer::survey::Yard;
use peer::{best, judge, list, Refusal};

/// A survey with the other yard record: mark 59 45, and a link count after the ranks.
fn counted(count: u8, mut survey: Vec<u8>) -> Vec<u8> {
    survey[1] = 0x45;
    survey.insert(6, count);
    survey
}

/// Survey A with a link count.
fn counted_a(count: u8) -> Vec<u8> {
    counted(count, survey(3, &[1], &A))
}

fn refusal(survey: &[u8]) -> Option<Refusal> {
    Yard::read(survey).err()
}

/// A refusal at place 0.
fn whole(number: u8) -> Option<Refusal> {
    Some(Refusal::whole(number))
}

#[test]
fn survey_a_with_its_count() {
    let bytes = listed(&counted_a(3), 46, 34);
    let plans = [plan(4, 9, 0, &[1, 2]), plan(7, 7, 0, &[0, 1])].concat();
    assert_eq!(bytes, [head(2, 3, 2, 1), plans].concat());
}

#[test]
fn either_record_gives_the_same_list() {
    let plain = survey(3, &[2, 2], &A2);
    let list = listed(&plain, 118, 46);
    assert_eq!(listed(&counted(3, plain), 118, 46), list);
    let empty = survey(1, &[], &[]);
    let list = listed(&empty, 20, 20);
    assert_eq!(listed(&counted(0, empty), 20, 20), list);
}

#[test]
fn a_wrong_count_leaves_all_as_it_was() {
    for count in [0, 2, 4, 255] {
        let (mut tree, mut buffer) = ([0xaa; 3], [0xaa; 50]);
        let a = counted_a(count);
        assert_eq!(judge(&a, &[0, 2]), Err(Refusal::whole(15)));
        assert_eq!(best(&a, [8, 0, 0], &mut tree), Err(Refusal::whole(15)));
        assert_eq!(list(&a, 1600, &mut buffer), Err(Refusal::whole(15)));
        assert_eq!((tree, buffer), ([0xaa; 3], [0xaa; 50]));
    }
}

#[test]
fn a_wrong_count_comes_after_4() {
    let links = |count| vec![(0, 1, 0, 0, 0); count];
    assert_eq!(refusal(&counted(2, survey(25, &[1], &A))), whole(3));
    assert_eq!(refusal(&counted(40, survey(2, &[], &links(40)))), None);
    for count in [3, 40, 41] {
        let over = counted(count, survey(2, &[], &links(41)));
        assert_eq!(refusal(&over), whole(4));
    }
    assert_eq!(refusal(&counted(0, survey(2, &[], &links(256)))), whole(4));
}

#[test]
fn a_wrong_count_comes_before_5() {
    let mut three_ceilings = survey(3, &[1, 1], &A2);
    three_ceilings[3] = 3;
    let others = [
        (5, 0, three_ceilings),
        (6, 0, survey(3, &[3], &A)),
        (7, 2, survey(2, &[1], &A)),
        (8, 1, survey(3, &[], &A)),
    ];
    for (number, place, survey) in others {
        let other = Some(Refusal { number, place });
        assert_eq!(refusal(&counted(3, survey.clone())), other);
        assert_eq!(refusal(&counted(2, survey)), whole(15));
    }
}

#[test]
fn the_mark_says_how_long_the_yard_record_is() {
    let [plain, with_count] = [survey(1, &[], &[]), counted(0, survey(1, &[], &[]))];
    assert_eq!(refusal(&plain), None);
    assert_eq!(refusal(&[&plain[..], &[0]].concat()), whole(1));
    assert_eq!(refusal(&with_count[..6]), whole(1));
    assert_eq!(refusal(&with_count), None);
    assert_eq!(refusal(&[&with_count[..], &[0]].concat()), whole(1));
}

#[test]
fn an_unknown_mark_is_measured_by_6_and_12() {
    for mark in [[0x59, 0x43], [0x59, 0x48], [0x58, 0x45], [0x45, 0x59]] {
        for len in 2..60 {
            let mut bytes = vec![0; len];
            bytes[..2].copy_from_slice(&mark);
            let number = if len % 12 == 6 { 2 } else { 1 };
            assert_eq!(refusal(&bytes), whole(number));
        }
    }
    assert_eq!(refusal(&[]), whole(1));
    assert_eq!(refusal(&[0x59]), whole(1));
}

#[test]
fn a_cut_survey_does_not_look_whole() {
    let a = counted_a(3);
    for len in 0..a.len() {
        let number = if len % 12 == 7 { 15 } else { 1 };
        assert_eq!(refusal(&a[..len]), whole(number));
    }
    // Without a count it does, at the end of each record.
    let plain = survey(3, &[1], &A);
    for len in 0..plain.len() {
        let reply = if len % 12 == 6 { None } else { whole(1) };
        assert_eq!(refusal(&plain[..len]), reply);
    }
}
