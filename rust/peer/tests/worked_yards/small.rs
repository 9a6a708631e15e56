//! All small yards in order.

use crate::samples::{survey, LinkRow};
use peer::survey::Yard;
use peer::{small_survey, Refusal, SMALL_SURVEYS};

/// The small survey of a number, in a dirty output of its length.
fn small(number: u32) -> Vec<u8> {
    let mut output = vec![0xaa; 42];
    assert_eq!(small_survey(number, &mut output), Ok(()));
    output
}

/// Asserts that a number is refused in an output of any length, and the output stays.
fn assert_refused(number: u32, refusal: u8, lengths: &[usize]) {
    for &length in lengths {
        let mut output = vec![0xaa; length];
        let reply = small_survey(number, &mut output);
        assert_eq!(reply, Err(Refusal::whole(refusal)), "{number} in {length}");
        assert_eq!(output, vec![0xaa; length]);
    }
}

#[test]
fn the_first_survey_byte_by_byte() {
    let yard = [0x59, 0x44, 3, 1, 1, 0];
    let link = [0x4c, 0x4b, 0, 1, 0, 0, 0, 0, 0, 0, 0, 0];
    assert_eq!(small(0), [&yard[..], &link, &link, &link].concat());
}

#[test]
fn surveys_worked_by_hand() {
    let first: LinkRow = (0, 1, 0, 0, 0);
    let last: LinkRow = (1, 2, 1, 1, 0);
    let worked: [(u32, [LinkRow; 3]); 11] = [
        (0, [first, first, first]),
        (1, [first, first, (0, 1, 0, 1, 0)]),
        (2, [first, first, (0, 1, 1, 0, 0)]),
        (4, [first, first, (0, 2, 0, 0, 0)]),
        (11, [first, first, last]),
        (12, [first, (0, 1, 0, 1, 0), first]),
        (143, [first, last, last]),
        (144, [(0, 1, 0, 1, 0), first, first]),
        // 3 × 144 + 6 × 12 + 9.
        (513, [(0, 1, 1, 1, 0), (0, 2, 1, 0, 0), (1, 2, 0, 1, 0)]),
        (1_726, [last, last, (1, 2, 1, 0, 0)]),
        (1_727, [last, last, last]),
    ];
    for (number, links) in worked {
        assert_eq!(small(number), survey(3, &[1], &links), "{number}");
    }
}

#[test]
fn every_survey_is_accepted_and_no_two_are_the_same() {
    let mut surveys: Vec<Vec<u8>> = (0..SMALL_SURVEYS).map(small).collect();
    assert!(surveys.iter().all(|survey| Yard::read(survey).is_ok()));
    surveys.sort();
    surveys.dedup();
    assert_eq!(surveys.len(), 1_728);
}

#[test]
fn bytes_past_the_survey_stay() {
    for length in [43, 100] {
        let mut output = vec![0xaa; length];
        assert_eq!(small_survey(513, &mut output), Ok(()));
        assert_eq!(output[..42], small(513));
        assert_eq!(output[42..], vec![0xaa; length - 42]);
    }
}

#[test]
fn numbers_from_1728_on_are_refused_first_of_all() {
    for number in [1_728, 65_536, 65_541, 1 << 31, 4_294_967_295] {
        assert_refused(number, 20, &[0, 41, 42, 100]);
    }
}

#[test]
fn a_short_output_is_refused() {
    for number in [0, 513, 1_727] {
        assert_refused(number, 17, &[0, 1, 41]);
    }
}
