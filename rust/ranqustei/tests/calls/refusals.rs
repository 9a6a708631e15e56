//! Every refusal number: its call, its place, its cause and its sentence.

use crate::samples::{bytes_a, bytes_of, figures_a, told, yard, yard_a};
use ranqustei::{
    best, fetch, index, index_lookup, judge, list, small_survey, write_survey, Cause, Link,
    Refusal, YardError, YardRecord,
};

/// Holds a refusal against what document 01 and the sentences say.
fn check(refusal: Option<Refusal>, number: u8, place: u8, cause: Cause, sentence: &str) {
    assert_eq!(refusal.map(told), Some((number, place)));
    let refusal = refusal.expect("just compared");
    assert_eq!(refusal.cause(), cause);
    assert_eq!(refusal.link(), place.checked_sub(1));
    assert_eq!(
        refusal.to_string(),
        format!("{sentence} (number {number}, place {place})")
    );
}

/// The refusal of survey A with one byte changed.
fn edited(at: usize, byte: u8) -> Option<Refusal> {
    edited_in(bytes_a(), at, byte)
}

/// The refusal of a survey with one byte changed.
fn edited_in(mut survey: Vec<u8>, at: usize, byte: u8) -> Option<Refusal> {
    survey[at] = byte;
    let refusal = list(&survey, 9, &mut [0; 60]).err();
    assert_eq!(judge(&survey, &[0, 1]).err(), refusal);
    assert_eq!(best(&survey, [9; 3], &mut [0; 2]).err(), refusal);
    refusal
}

#[test]
fn surveys_of_a_wrong_length() {
    let survey = bytes_a();
    for length in [0, 5, 7, 41] {
        let refusal = judge(&survey[..length], &[]).err();
        check(
            refusal,
            1,
            0,
            Cause::Length,
            "a survey is 6 bytes, or 7 with a link count, or 10 with stations at rest, and then \
             12 bytes for each link; with three ceilings it is 11 bytes, and then 14",
        );
    }
}

#[test]
fn yard_records() {
    check(
        edited(0, 0),
        2,
        0,
        Cause::Mark,
        "the yard record has a wrong mark",
    );
    check(
        edited(2, 0),
        3,
        0,
        Cause::Stations,
        "a yard has 1 to 24 stations",
    );
    check(
        edited(3, 3),
        5,
        0,
        Cause::Ceilings,
        "a yard has at most 2 ceilings, and with the triple yard record it has 3",
    );
    let rule = "a rank is 1 to 3 and not above the links of a tree, what the ranks have above 1 \
                adds up to at most 2, and an absent ceiling has rank 0";
    check(edited(4, 3), 6, 0, Cause::Rank, rule);
    check(edited(5, 1), 6, 0, Cause::Rank, rule);
}

#[test]
fn too_many_links() {
    let mut yard = yard_a(1);
    yard.links = yard.links.iter().cycle().take(41).cloned().collect();
    let Err(YardError::Refused(refusal)) = yard.survey() else {
        panic!("41 links are refused");
    };
    check(
        Some(refusal),
        4,
        0,
        Cause::Links,
        "a yard has at most 40 links",
    );
}

#[test]
fn link_counts() {
    let survey = bytes_of(&yard_a(1), YardRecord::Counted);
    let words = "the survey has more or fewer links than its yard record counts: it may be cut off";
    for count in [2, 4] {
        let refusal = edited_in(survey.clone(), 6, count);
        check(refusal, 15, 0, Cause::LinkCount, words);
    }
}

#[test]
fn stations_at_rest() {
    let survey = bytes_of(&yard_a(1), YardRecord::Resting);
    let words = "a station at rest is not in the yard, or no station works";
    for (at, rest) in [(7, 0b111), (7, 0b1000), (8, 1), (9, 0x80)] {
        let refusal = edited_in(survey.clone(), at, rest);
        check(refusal, 18, 0, Cause::Resting, words);
    }
}

#[test]
fn positions() {
    let mut yard = yard(2, &[1, 1, 1], &[]);
    let link = |cost: i16| Link::new([0, 1], 1, [cost, -cost, cost / 2]);
    yard.links = (0..16).map(link).collect();
    let Err(YardError::Refused(refusal)) = yard.survey() else {
        panic!("16 × 16 × 8 positions are refused");
    };
    check(
        Some(refusal),
        19,
        0,
        Cause::Positions,
        "the yard has over 1,600 positions: the different costs of usable links by ceiling, \
         multiplied",
    );
}

#[test]
fn link_records() {
    check(edited(19, 0), 2, 2, Cause::Mark, "link 1 has a wrong mark");
    let ends = "joins a station that the yard does not have, or joins a station to itself";
    check(edited(32, 3), 7, 3, Cause::Ends, &format!("link 2 {ends}"));
    check(edited(8, 1), 7, 1, Cause::Ends, &format!("link 0 {ends}"));
    let figures = "has a sum outside -1,000,000 to 1,000,000, a cost for a ceiling that the yard \
                   does not have, or, in figures to be written, none for one that it has";
    check(
        edited(13, 1),
        8,
        1,
        Cause::Figures,
        &format!("link 0 {figures}"),
    );
    check(
        edited(28, 1),
        8,
        2,
        Cause::Figures,
        &format!("link 1 {figures}"),
    );
}

#[test]
fn buffers_and_allowance() {
    let survey = bytes_a();
    let mut buffer = [7; 46];
    check(
        list(&survey, 9, &mut buffer[..45]).err(),
        9,
        0,
        Cause::Buffer,
        "the buffer is too short",
    );
    check(
        best(&survey, [9; 3], &mut [0]).err(),
        9,
        0,
        Cause::Buffer,
        "the buffer is too short",
    );
    assert_eq!(buffer, [7; 46]);
    let words = "the walk would solve more positions than the allowance";
    check(
        list(&survey, 2, &mut buffer).err(),
        10,
        0,
        Cause::Allowance,
        words,
    );
    assert_eq!(buffer, [0; 46]);
}

#[test]
fn drawn_links_and_bounds() {
    let survey = bytes_a();
    let words = "the drawn links are no tree of the yard: they must be one fewer than the working \
                 stations, rising, in the survey, at no resting station, and without a ring";
    for drawn in [&[][..], &[0], &[0, 1, 2], &[1, 0], &[1, 1], &[0, 3]] {
        check(judge(&survey, drawn).err(), 11, 0, Cause::Drawn, words);
    }
    let mut tree = [7; 3];
    check(
        best(&survey, [6, 0, 0], &mut tree).err(),
        14,
        0,
        Cause::NoTree,
        "no tree fits the ceilings",
    );
    assert_eq!(tree, [7; 3]);
}

#[test]
fn plan_lists() {
    let mut stored = [0; 46];
    assert_eq!(list(&bytes_a(), 3, &mut stored), Ok(()));
    let damaged = |list: &[u8], plan| {
        check(
            fetch(list, plan).err(),
            12,
            0,
            Cause::Damaged,
            "the plan list is damaged, or the index is not its own",
        );
    };
    check(
        fetch(&stored, 2).err(),
        13,
        0,
        Cause::PlanNumber,
        "the list has no such plan",
    );
    damaged(&stored[..33], 0);
    damaged(&[], 0);
    stored[22] = 0;
    assert_eq!(fetch(&stored, 0), Ok(&[1, 2][..]));
    damaged(&stored, 1);
}

#[test]
fn indexes() {
    let mut stored = [0; 46];
    assert_eq!(list(&bytes_a(), 3, &mut stored), Ok(()));
    let short = "the index has fewer than 2 bytes for each plan";
    let mut buffer = [7; 3];
    check(
        index(&stored, &mut buffer).err(),
        16,
        0,
        Cause::Index,
        short,
    );
    assert_eq!(buffer, [7; 3]);
    let look_up = |index: &[u8], value| index_lookup(&stored, index, value).err();
    check(look_up(&[1, 0, 0], 9), 16, 0, Cause::Index, short);
    check(
        look_up(&[0, 0, 1, 0], 9),
        12,
        0,
        Cause::Damaged,
        "the plan list is damaged, or the index is not its own",
    );
    check(
        look_up(&[1, 0, 0, 0], 6),
        13,
        0,
        Cause::PlanNumber,
        "the list has no such plan",
    );
}

#[test]
fn written_surveys() {
    let write = |kind, room| write_survey(kind, &figures_a(), &mut vec![7; room]).err();
    check(
        write(YardRecord::Plain.kind(), 41),
        17,
        0,
        Cause::Output,
        "the output has no room for the survey",
    );
    for record in [YardRecord::Resting, YardRecord::Triple] {
        check(
            write(record.kind(), 600),
            2,
            0,
            Cause::Mark,
            "the yard record has a wrong mark",
        );
    }
}

#[test]
fn small_surveys() {
    let write = |number, room| small_survey(number, &mut vec![7; room]).err();
    check(
        write(1_728, 41),
        20,
        0,
        Cause::SurveyNumber,
        "there are 1,728 small surveys, numbered from 0",
    );
    check(
        write(1_727, 41),
        17,
        0,
        Cause::Output,
        "the output has no room for the survey",
    );
}
