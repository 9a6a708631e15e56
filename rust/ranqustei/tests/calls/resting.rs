//! The resting yard record: a tree joins the working stations, by links that end at none that rests.

use crate::counted::{check_every_cut, declined};
use crate::samples::{bytes_of, chain, largest, told, yard, yard_a, RECORDS};
use crate::yards::check;
use ranqustei::{best, judge, list, Link, Survey, Yard, YardError, YardRecord};

/// Survey A with a station more, linked to 1 and 2; the last station and station 0 rest.
fn winter() -> Yard {
    let mut winter = yard_a(1);
    winter.stations = 4;
    let [to_1, to_2] = [[3, 1], [2, 3]].map(|ends| Link::new(ends, 1, [-5]));
    winter.links.insert(0, to_1);
    winter.links.push(to_2);
    winter.with_resting([3, 0])
}

/// Accepted yards with stations at rest.
fn resting_yards() -> [Yard; 5] {
    [
        winter(),
        yard(2, &[], &[(0, 1, 7, &[])]).with_resting([1]),
        chain(24, -5).with_resting(12..24),
        largest().with_resting([0]),
        largest().with_resting([5, 23]),
    ]
}

/// The bytes of a yard's survey with the resting record.
fn bytes(yard: &Yard) -> Vec<u8> {
    bytes_of(yard, YardRecord::Resting)
}

/// The refusal of a yard.
fn refused(yard: &Yard) -> Option<(u8, u8)> {
    match yard.survey_with(YardRecord::Resting) {
        Err(YardError::Refused(refusal)) => Some(told(refusal)),
        _ => None,
    }
}

#[test]
fn the_record_has_a_bit_for_each_station() {
    let survey = bytes(&winter());
    assert_eq!(survey.len(), 70);
    assert_eq!(survey[..10], *b"YF\x04\x01\x01\x00\x05\x09\x00\x00");
    assert_eq!(
        survey[10..22],
        *b"LK\x03\x01\x01\x00\x00\x00\xFB\xFF\x00\x00"
    );
    for station in 0..24 {
        let resting = largest().with_resting([station]);
        let mut rest = [0; 3];
        rest[usize::from(station) / 8] = 1 << (station % 8);
        assert_eq!(bytes(&resting)[7..10], rest);
    }
    assert_eq!(bytes(&largest()).len(), 490);
}

#[test]
fn yards_come_back_from_their_surveys() {
    for yard in resting_yards() {
        let survey = yard.survey().expect("the yard is accepted");
        assert_eq!(
            (survey.record(), survey.yard()),
            (YardRecord::Resting, &yard)
        );
        assert_eq!(Survey::new(bytes(&yard)), Ok(survey));
    }
}

#[test]
fn other_records_do_not_say_which_stations_rest() {
    for yard in resting_yards() {
        for record in [YardRecord::Plain, YardRecord::Counted] {
            assert_eq!(yard.survey_with(record), Err(YardError::Record));
        }
        let working = yard.with_resting([]);
        for record in RECORDS {
            assert!(working.survey_with(record).is_ok());
        }
    }
    assert_eq!(
        YardError::Record.to_string(),
        "stations rest, and the yard record does not say which"
    );
}

#[test]
fn links_keep_their_numbers() {
    assert_eq!(winter().tree_links(), 1);
    check(&winter(), &["3 2 links 2"], 1);
    check(&yard_a(1).with_resting([1]), &["1 9 links 2"], 1);
    let links: String = (2..13).map(|link| format!(" {link}")).collect();
    let chain = chain(24, -5).with_resting((14..24).chain([0, 1]));
    check(&chain, &[&format!("-55 links{links}")], 1);
    let winter = winter();
    let usable = winter.links.iter().map(|link| winter.is_usable(link));
    assert!(usable.eq([false, false, true, false, false]));
}

#[test]
fn drawn_links() {
    let survey = bytes(&winter());
    let judged = |drawn: &[u8]| judge(&survey, drawn).map(|costs| (costs.sum, costs.ceilings[0]));
    assert_eq!(judged(&[2]), Ok((3, 2)));
    // Links with one or both ends at rest, none, too many, and one that is not there.
    for drawn in [
        &[0][..],
        &[1],
        &[3],
        &[4],
        &[],
        &[0, 2],
        &[2, 3],
        &[0, 2, 4],
        &[5],
    ] {
        assert_eq!(judged(drawn).map_err(told), Err((11, 0)), "{drawn:?}");
    }
}

#[test]
fn ranks_go_by_the_working_stations() {
    for rank in 1..=3 {
        for resting in 0..4 {
            let mut chain = chain(5, 1).with_resting(5 - resting..5);
            chain.ranks = vec![rank];
            chain.links.iter_mut().for_each(|link| link.costs = vec![1]);
            let refusal = (rank > 4 - resting).then_some((6, 0));
            assert_eq!(refused(&chain), refusal, "rank {rank}, {resting} at rest");
        }
    }
    let two = yard(4, &[2, 2], &[]);
    assert_eq!(refused(&two.clone().with_resting([1])), None);
    assert_eq!(refused(&two.with_resting([1, 3])), Some((6, 0)));
}

#[test]
fn one_working_station() {
    for working in 0..3 {
        let mut alone = yard_a(1).with_resting((0..3).filter(|&station| station != working));
        assert_eq!(refused(&alone), Some((6, 0)));
        alone.ranks.clear();
        alone.links.iter_mut().for_each(|link| link.costs.clear());
        check(&alone, &["0 links"], 1);
        let survey = alone.survey().expect("the yard is accepted");
        assert_eq!((survey.positions(), survey.list_need()), (1, 20));
        assert_eq!(survey.judge(&[]).map(|plan| plan.costs.sum), Ok(0));
        assert_eq!(survey.judge(&[0]).map_err(told), Err((11, 0)));
        assert!(survey
            .best([i16::MIN; 3])
            .is_ok_and(|plan| plan.links.is_empty()));
    }
}

#[test]
fn no_usable_link() {
    let bare = yard(3, &[1], &[(0, 1, 4, &[7]), (2, 1, 3, &[2])]).with_resting([1]);
    check(&bare, &[], 0);
    let survey = bare.survey().expect("the yard is accepted");
    assert_eq!((survey.positions(), survey.list_need()), (0, 10));
    let mut head = [0xA5; 11];
    assert_eq!(list(&bytes(&bare), 0, &mut head), Ok(()));
    assert_eq!(head, *b"PH\x00\x00\x00\x00\x00\x00\x01\x01\x00");
    assert_eq!(survey.best([i16::MAX; 3]).map_err(told), Err((14, 0)));
    // Without ceilings there is one position, and it is solved.
    let bare = yard(3, &[], &[(0, 1, 4, &[])]).with_resting([1]);
    check(&bare, &[], 1);
}

#[test]
fn values_are_those_of_usable_links() {
    let ends = [(0, 1), (1, 2), (2, 3), (0, 2)];
    let links = ends
        .iter()
        .zip(1..)
        .map(|(&(a, b), cost)| Link::new([a, b], 1, [cost, 9 - cost]));
    let yard = Yard::new(4, [1, 1], links.collect::<Vec<_>>());
    for (resting, positions) in [(0, 4), (1, 4), (2, 1), (3, 9)] {
        let survey = yard.clone().with_resting([resting]).survey();
        let survey = survey.expect("the yard is accepted");
        let need = 10 + 12 * positions;
        assert_eq!(
            (survey.positions(), survey.list_need()),
            (positions as u32, need)
        );
        let list = |room| list(survey.as_bytes(), 16, &mut vec![0; room]);
        assert_eq!(list(need - 1).map_err(told), Err((9, 0)), "{resting} rests");
        assert_eq!(list(need), Ok(()));
    }
}

#[test]
fn lent_bytes() {
    let survey = bytes(&winter());
    let mut tree = [0xA5; 4];
    assert_eq!(
        best(&survey, [1, 0, 0], &mut tree).map_err(told),
        Err((14, 0))
    );
    assert_eq!(best(&survey, [2, 0, 0], &mut []).map_err(told), Err((9, 0)));
    assert_eq!(tree, [0xA5; 4]);
    assert!(best(&survey, [2, 0, 0], &mut tree).is_ok());
    assert_eq!(tree, [2, 0xA5, 0xA5, 0xA5]);
    let mut buffer = [0xA5; 30];
    assert_eq!(
        list(&survey, 9, &mut buffer[..20]).map_err(told),
        Err((9, 0))
    );
    assert_eq!(buffer, [0xA5; 30]);
    assert_eq!(list(&survey, 1, &mut buffer), Ok(()));
    assert_eq!(buffer[..12], *b"PH\x01\x00\x01\x00\x00\x00\x01\x01PL");
    assert_eq!(buffer[12..21], [3, 0, 0, 0, 2, 0, 0, 0, 2]);
    assert_eq!(buffer[21..], [0; 9]);
    assert_eq!(list(&survey, 0, &mut buffer).map_err(told), Err((10, 0)));
    assert_eq!(buffer, [0; 30]);
}

#[test]
fn every_cut_is_declined() {
    for yard in resting_yards() {
        check_every_cut(&bytes(&yard), 10, 12);
    }
}

#[test]
fn stations_that_cannot_rest() {
    for stations in 1..=24 {
        let yard = Yard::new(stations, [], []);
        for resting in 0..24 {
            let is_legal = resting < stations && stations > 1;
            let refusal = (!is_legal).then_some((18, 0));
            assert_eq!(refused(&yard.clone().with_resting([resting])), refusal);
        }
        assert_eq!(
            refused(&yard.clone().with_resting(0..stations)),
            Some((18, 0))
        );
        assert_eq!(refused(&yard.with_resting(1..stations)), None);
    }
    for station in [24, 31, 32, 255] {
        let error = yard_a(1).with_resting([1, station]).survey();
        assert_eq!(error, Err(YardError::Resting { station }));
        assert_eq!(
            YardError::Resting { station }.to_string(),
            format!("a station at rest is one from 0 to 23: found {station}")
        );
    }
}

#[test]
fn wrong_rest_comes_after_15_and_before_5() {
    // A byte of survey A that is changed, and the refusal with legal rest bytes and with others.
    let edits = [
        (0, 0, (1, 0), (1, 0)),
        (2, 0, (3, 0), (3, 0)),
        (2, 25, (3, 0), (3, 0)),
        (6, 2, (15, 0), (15, 0)),
        (3, 3, (5, 0), (18, 0)),
        (4, 3, (6, 0), (18, 0)),
        (10, 0, (2, 1), (18, 0)),
        (12, 1, (7, 1), (18, 0)),
        (17, 1, (8, 1), (18, 0)),
    ];
    let legal = [[0, 0, 0], [2, 0, 0]].map(|rest| (rest, true));
    let others =
        [[7, 0, 0], [8, 0, 0], [0, 1, 0], [0, 0, 0x80], [0xFF; 3]].map(|rest| (rest, false));
    for (rest, is_legal) in legal.into_iter().chain(others) {
        let mut survey = bytes(&yard_a(1));
        survey[7..10].copy_from_slice(&rest);
        for (at, byte, with_legal, with_other) in edits {
            let mut edited = survey.clone();
            edited[at] = byte;
            let refusal = if is_legal { with_legal } else { with_other };
            assert_eq!(declined(&edited), Some(refusal), "byte {at}, rest {rest:?}");
        }
        let short = list(&survey, 0, &mut []).map_err(told);
        let number = if is_legal { 9 } else { 18 };
        assert_eq!(short, Err((number, 0)));
    }
}

#[test]
fn all_links_count_and_are_tested() {
    // Link 0 ends at the station that rests.
    let winter = winter();
    for (ends, sum, number) in [([3, 4], 1, 7), ([3, 3], 1, 7), ([3, 1], 1_000_001, 8)] {
        let mut wrong = winter.clone();
        wrong.links[0] = Link::new(ends, sum, [1]);
        assert_eq!(refused(&wrong), Some((number, 1)));
    }
    for links in [41, 255, 256, 296, 300] {
        let mut many = winter.clone();
        many.links = vec![winter.links[0].clone(); links];
        assert_eq!(refused(&many), Some((4, 0)));
        assert_eq!(refused(&many.with_resting([9])), Some((4, 0)));
    }
}
