//! The counted yard record: a survey that is cut off is declined, wherever the cut is.

use crate::samples::{bytes_a, bytes_of, largest, told, yard, yards, RECORDS};
use ranqustei::{best, judge, list, Survey, YardError, YardRecord};

/// A plain survey with the counted record instead, and this count in it.
fn counting(plain: &[u8], count: u8) -> Vec<u8> {
    [b"YE", &plain[2..6], &[count], &plain[6..]].concat()
}

/// What all calls on surveys decline a survey with. They leave every byte that they were lent.
pub fn declined(survey: &[u8]) -> Option<(u8, u8)> {
    let mut tree = [0xA5; 23];
    let mut buffer = [0xA5; 56_010];
    let refusals = [
        judge(survey, &[0, 1]).err(),
        best(survey, [i16::MAX; 3], &mut tree).err(),
        list(survey, 1_600, &mut buffer).err(),
    ];
    assert_eq!(refusals, [refusals[0]; 3]);
    assert!(tree.iter().chain(&buffer).all(|&byte| byte == 0xA5));
    refusals[0].map(told)
}

/// Asserts that a survey with a link count is declined wherever it is cut. Its yard record and each
/// of its link records have so many bytes.
pub fn check_every_cut(whole: &[u8], yard_bytes: usize, link_bytes: usize) {
    let record_ends: Vec<usize> = (yard_bytes..whole.len()).step_by(link_bytes).collect();
    for length in 0..whole.len() {
        let number = if record_ends.contains(&length) { 15 } else { 1 };
        assert_eq!(declined(&whole[..length]), Some((number, 0)), "{length}");
    }
}

#[test]
fn every_cut_is_declined() {
    let whole = bytes_of(&largest(), YardRecord::Counted);
    assert_eq!(whole.len(), 487);
    check_every_cut(&whole, 7, 12);
}

#[test]
fn a_plain_survey_cut_at_the_end_of_a_record_looks_whole() {
    let whole = bytes_of(&largest(), YardRecord::Plain);
    for links in 0..40 {
        let cut = Survey::new(whole[..6 + 12 * links].to_vec()).expect("it looks whole");
        assert_eq!(cut.yard().links, largest().links[..links]);
        let plans = cut.plans().expect("an accepted survey lists");
        assert_eq!(plans.len() as usize, links.saturating_sub(22));
    }
}

/// Holds a call's replies to all surveys of a yard against each other.
fn check_same<T: PartialEq>(surveys: &[Vec<u8>; 3], call: impl Fn(&[u8]) -> T) {
    let [plain, counted, resting] = surveys.each_ref().map(|survey| call(survey));
    assert!(plain == counted && plain == resting);
}

#[test]
fn all_records_get_the_same_replies() {
    let links: Vec<u8> = (0..23).collect();
    for yard in yards() {
        let surveys = RECORDS.map(|record| bytes_of(&yard, record));
        for drawn in [&[][..], &[0], &[0, 1], &[0, 2], &[1, 2], &[1, 0], &links] {
            check_same(&surveys, |survey| judge(survey, drawn));
        }
        for bound in [i16::MIN, -1, 6, 8, 19, i16::MAX] {
            check_same(&surveys, |survey| {
                let mut tree = [0xA5; 30];
                (best(survey, [bound, i16::MAX, 0], &mut tree), tree)
            });
        }
    }
}

#[test]
fn all_records_get_the_same_list() {
    for yard in yards() {
        let surveys = RECORDS.map(|record| bytes_of(&yard, record));
        for allowance in [0, 1, 2, 3, 1_600, u32::MAX] {
            for room in [0, 10, 45, 46, 52_809, 52_810, 60_000] {
                check_same(&surveys, |survey| {
                    let mut buffer = vec![0xA5; room];
                    (list(survey, allowance, &mut buffer), buffer)
                });
            }
        }
    }
}

#[test]
fn every_count_but_the_right_one_is_declined() {
    for yard in yards() {
        let plain = bytes_of(&yard, YardRecord::Plain);
        for count in 0..=u8::MAX {
            let survey = counting(&plain, count);
            if usize::from(count) == yard.links.len() {
                assert_eq!(survey, bytes_of(&yard, YardRecord::Counted));
            } else {
                assert_eq!(declined(&survey), Some((15, 0)), "{count}");
            }
        }
    }
}

#[test]
fn a_wrong_count_comes_after_3_and_before_5() {
    // A byte of survey A that is changed, and the refusal with the right count and with another.
    let edits = [
        (2, 0, (3, 0), (3, 0)),
        (2, 25, (3, 0), (3, 0)),
        (3, 3, (5, 0), (15, 0)),
        (4, 3, (6, 0), (15, 0)),
        (7, 0, (2, 1), (15, 0)),
        (9, 1, (7, 1), (15, 0)),
        (14, 1, (8, 1), (15, 0)),
    ];
    for (at, byte, with_right, with_wrong) in edits {
        for (count, refusal) in [(3, with_right), (2, with_wrong), (4, with_wrong)] {
            let mut survey = counting(&bytes_a(), count);
            survey[at] = byte;
            assert_eq!(declined(&survey), Some(refusal), "byte {at}, count {count}");
        }
    }
    let wrong = counting(&bytes_a(), 2);
    let short = [
        list(&wrong, 0, &mut []).err(),
        best(&wrong, [9; 3], &mut []).err(),
    ];
    assert_eq!(short.map(|refusal| refusal.map(told)), [Some((15, 0)); 2]);
}

#[test]
fn too_many_links_come_before_the_count() {
    let mut plain = bytes_of(&largest(), YardRecord::Plain);
    plain.extend_from_within(plain.len() - 12..);
    for count in 0..=u8::MAX {
        assert_eq!(declined(&counting(&plain, count)), Some((4, 0)), "{count}");
    }
    // From 256 links on, the count does not fit its byte.
    for links in [41, 255, 256, 296, 300] {
        let yard = yard(2, &[], &vec![(0, 1, 1, &[][..]); links]);
        for record in RECORDS {
            let Err(YardError::Refused(refusal)) = yard.survey_with(record) else {
                panic!("{links} links are refused");
            };
            assert_eq!(told(refusal), (4, 0));
        }
    }
}

#[test]
fn an_unknown_mark_is_measured_as_the_plain_one() {
    for mark in [b"YH", b"YC", b"XD", b"XE", b"XG", b"EY", b"LK"] {
        let survey = [&mark[..], &[0; 60]].concat();
        for length in 0..survey.len() {
            let is_measured_whole = [6, 18, 30, 42, 54].contains(&length);
            let number = if is_measured_whole { 2 } else { 1 };
            assert_eq!(declined(&survey[..length]), Some((number, 0)), "{length}");
        }
    }
}

#[test]
fn a_yard_comes_back_from_every_record() {
    for yard in yards() {
        for record in RECORDS {
            let survey = yard.survey_with(record).expect("the yard is accepted");
            assert_eq!((survey.record(), survey.yard()), (record, &yard));
            assert_eq!(Survey::new(survey.as_bytes().to_vec()), Ok(survey));
        }
        assert_eq!(yard.survey(), yard.survey_with(YardRecord::Counted));
    }
}
