//! The small surveys: their bytes, their order, and what is declined.

use crate::samples::told;
use ranqustei::{
    small_survey, small_surveys, Link, Survey, YardRecord, SMALL_SURVEYS, SMALL_SURVEY_BYTES,
};
use std::collections::BTreeSet;

/// The ends of a link, in their order.
const ENDS: [[u8; 2]; 3] = [[0, 1], [0, 2], [1, 2]];

/// What so many dirty bytes hold after the call; or the refusal, which leaves every byte.
fn written(number: u32, room: usize) -> Result<Vec<u8>, (u8, u8)> {
    let dirty: Vec<u8> = (0..room).map(|at| 0xA5 ^ at as u8).collect();
    let mut survey = dirty.clone();
    let reply = small_survey(number, &mut survey);
    assert!(reply.is_ok() || survey == dirty);
    let past = SMALL_SURVEY_BYTES.min(room);
    assert_eq!(survey[past..], dirty[past..]);
    reply.map(|()| survey).map_err(told)
}

/// The links that a small survey may have, in their order.
fn choices() -> Vec<Link> {
    let mut links = Vec::new();
    for ends in ENDS {
        for sum in [0, 1] {
            links.extend([0, 1].map(|cost| Link::new(ends, sum, [cost])));
        }
    }
    links
}

/// The links of all small surveys, in their order.
fn all_links() -> Vec<[Link; 3]> {
    let mut surveys = Vec::new();
    for link_0 in choices() {
        for link_1 in choices() {
            for link_2 in choices() {
                surveys.push([link_0.clone(), link_1.clone(), link_2]);
            }
        }
    }
    surveys
}

#[test]
fn the_first_and_the_last() {
    let first = b"YD\x03\x01\x01\x00\
        LK\x00\x01\x00\x00\x00\x00\x00\x00\x00\x00\
        LK\x00\x01\x00\x00\x00\x00\x00\x00\x00\x00\
        LK\x00\x01\x00\x00\x00\x00\x00\x00\x00\x00";
    let last = b"YD\x03\x01\x01\x00\
        LK\x01\x02\x01\x00\x00\x00\x01\x00\x00\x00\
        LK\x01\x02\x01\x00\x00\x00\x01\x00\x00\x00\
        LK\x01\x02\x01\x00\x00\x00\x01\x00\x00\x00";
    assert_eq!(written(0, 42), Ok(first.to_vec()));
    assert_eq!(written(1_727, 42), Ok(last.to_vec()));
    assert_eq!((SMALL_SURVEYS, SMALL_SURVEY_BYTES), (1_728, 42));
}

/// Survey 1 has another cost, survey 2 another sum, survey 4 other ends, all of link 2; survey 12
/// has another cost of link 1, and survey 144 of link 0.
#[test]
fn link_2_changes_fastest() {
    let first = written(0, 42).expect("there is a survey 0");
    for (number, at, byte) in [
        (1, 38, 1),
        (2, 34, 1),
        (4, 33, 2),
        (12, 26, 1),
        (144, 14, 1),
    ] {
        let mut survey = first.clone();
        survey[at] = byte;
        assert_eq!(written(number, 42), Ok(survey));
    }
    let mut survey = first;
    survey[32..34].copy_from_slice(&[1, 2]);
    assert_eq!(written(8, 42), Ok(survey));
}

#[test]
fn every_survey_has_its_links() {
    let all = all_links();
    assert_eq!(all.len(), 1_728);
    for (number, links) in (0..).zip(all) {
        let survey = Survey::new(written(number, 42).expect("there is such a survey"));
        let survey = survey.expect("the planner accepts it");
        assert_eq!(survey.record(), YardRecord::Plain);
        let yard = survey.yard();
        assert_eq!((yard.stations, yard.ranks.as_slice()), (3, &[1][..]));
        assert_eq!(yard.links, links, "survey {number}");
        assert!(yard.resting.is_empty());
        let again = yard.survey_with(YardRecord::Plain);
        assert_eq!(again.as_ref(), Ok(&survey));
        assert_eq!(Survey::small(number).as_ref(), Ok(&survey));
    }
}

#[test]
fn each_occurs_once_and_they_rise() {
    let surveys: Vec<Survey> = small_surveys().collect();
    assert_eq!(surveys.len(), 1_728);
    let keys = surveys.iter().map(|survey| {
        let links = survey.yard().links.iter();
        let keys = links.map(|link| (link.ends, link.sum, link.costs.clone()));
        keys.collect::<Vec<_>>()
    });
    assert!(keys.is_sorted_by(|key, next| key < next));
    let bytes: BTreeSet<&[u8]> = surveys.iter().map(Survey::as_bytes).collect();
    assert_eq!(bytes.len(), 1_728);
}

#[test]
fn all_of_them_from_both_ends() {
    let rising: Vec<Survey> = small_surveys().collect();
    for (number, survey) in (0..).zip(&rising) {
        assert_eq!(Survey::small(number).as_ref(), Ok(survey));
    }
    let mut falling: Vec<Survey> = small_surveys().rev().collect();
    falling.reverse();
    assert_eq!(falling, rising);
    let mut both = small_surveys();
    for pair in 0..864 {
        assert_eq!(both.len(), 1_728 - 2 * pair);
        assert_eq!(both.next().as_ref(), rising.get(pair));
        assert_eq!(both.len(), 1_727 - 2 * pair);
        assert_eq!(both.next_back().as_ref(), rising.get(1_727 - pair));
    }
    assert_eq!((both.len(), both.size_hint()), (0, (0, Some(0))));
    for _ in 0..3 {
        assert_eq!((both.next(), both.next_back()), (None, None));
    }
}

#[test]
fn surveys_passed_over() {
    for n in [0, 1, 5, 863, 1_727] {
        let number = n as u32;
        let mut surveys = small_surveys();
        assert_eq!(surveys.nth(n), Survey::small(number).ok());
        assert_eq!(surveys.len(), 1_727 - n);
        assert_eq!(surveys.next(), Survey::small(number + 1).ok());
        let mut surveys = small_surveys();
        assert_eq!(surveys.nth_back(n), Survey::small(1_727 - number).ok());
        assert_eq!(surveys.len(), 1_727 - n);
    }
    for n in [1_728, 65_536, usize::MAX] {
        let mut surveys = small_surveys();
        assert_eq!((surveys.nth(n), surveys.len()), (None, 0));
        let mut surveys = small_surveys();
        assert_eq!((surveys.nth_back(n), surveys.len()), (None, 0));
    }
    let mut surveys = small_surveys();
    surveys.nth(99);
    let copy = surveys.clone();
    assert!(copy.eq(surveys));
}

#[test]
fn numbers_without_a_survey() {
    let with_a_low_part = [1 << 11, 1 << 16, (1 << 16) + 5, 1 << 31, (1 << 31) + 1_727];
    let numbers = (1_728..4_000).chain(with_a_low_part).chain([u32::MAX]);
    for number in numbers {
        for room in [0, 41, 42, 100] {
            assert_eq!(written(number, room), Err((20, 0)), "{number}");
        }
        assert_eq!(Survey::small(number).map_err(told), Err((20, 0)));
    }
}

#[test]
fn every_room() {
    for number in [0, 1, 70, 1_727] {
        let survey = written(number, 42).expect("there is such a survey");
        for room in 0..42 {
            assert_eq!(written(number, room), Err((17, 0)));
        }
        for room in [42, 43, 54, 100] {
            let longer = written(number, room).expect("there is room");
            assert_eq!(longer[..42], survey);
        }
    }
}
