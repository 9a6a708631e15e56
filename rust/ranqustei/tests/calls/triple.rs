//! Yards of three ceilings: the triple yard record, and every call on it.

use crate::samples::{bytes_of, chain, list_of, three_a, told, yard};
use crate::yards::check;
use ranqustei::{
    best, fetch, index, index_lookup, judge, list, Link, PlanList, Survey, Yard, YardRecord,
};

/// The bytes of a yard's survey.
fn bytes(yard: &Yard) -> Vec<u8> {
    bytes_of(yard, YardRecord::Triple)
}

/// Forty links between 24 stations, with so many different values for each ceiling. The first 23 are
/// a plan.
pub fn with_values(values: [i16; 3]) -> Yard {
    let mut yard = chain(24, 1);
    yard.ranks = vec![1, 1, 1];
    let more = (0..17).map(|end| Link::new([end, end + 1], 2, []));
    yard.links.extend(more);
    for (number, link) in (0..).zip(&mut yard.links) {
        link.costs = values.map(|count| 20 - number % count).to_vec();
    }
    yard
}

/// Accepted yards of three ceilings.
pub fn triple_yards() -> Vec<Yard> {
    vec![
        three_a([1, 1, 1]),
        three_a([2, 1, 2]),
        yard(2, &[1, 1, 1], &[]),
        yard(4, &[1, 3, 1], &[(3, 1, -9, &[i16::MIN, i16::MAX, -1])]),
        with_values([40, 40, 1]),
        with_values([5, 1, 2]).with_resting([0, 9, 23]),
    ]
}

#[test]
fn the_bytes_of_a_survey() {
    let records = b"YG\x03\x03\x01\x02\x02\x03\x00\x00\x00\
        LM\x00\x01\x04\x00\x00\x00\x07\x00\x01\x00\x05\x00\
        LM\x01\x02\x03\x00\x00\x00\x02\x00\x06\x00\x08\x00\
        LM\x00\x02\x01\x00\x00\x00\x09\x00\x03\x00\x04\x00";
    assert_eq!(bytes(&three_a([1, 2, 2])), records);
    assert_eq!(YardRecord::Triple.kind(), 0x5947);
    let resting = three_a([1, 1, 1]).with_resting([1]);
    assert_eq!(
        bytes(&resting)[..11],
        *b"YG\x03\x03\x01\x01\x01\x03\x02\x00\x00"
    );
    let signed = yard(2, &[1, 1, 1], &[(1, 0, -2, &[-1, i16::MAX, i16::MIN])]);
    assert_eq!(
        bytes(&signed)[11..],
        *b"LM\x01\x00\xFE\xFF\xFF\xFF\xFF\xFF\xFF\x7F\x00\x80"
    );
    assert_eq!(bytes(&with_values([1, 1, 1])).len(), 571);
}

#[test]
fn yards_come_back_from_their_surveys() {
    for yard in triple_yards() {
        let survey = yard.survey().expect("the yard is accepted");
        assert_eq!(
            (survey.record(), survey.yard()),
            (YardRecord::Triple, &yard)
        );
        assert_eq!(Survey::new(bytes(&yard)), Ok(survey));
    }
}

#[test]
fn plans_with_at_most_one_rank_above_1() {
    check(
        &three_a([1, 1, 1]),
        &[
            "4 9 6 8 links 1 2",
            "5 9 3 5 links 0 2",
            "7 7 6 8 links 0 1",
        ],
        9,
    );
    check(
        &three_a([1, 1, 2]),
        &[
            "4 9 6 4 links 1 2",
            "5 9 3 4 links 0 2",
            "7 7 6 5 links 0 1",
        ],
        7,
    );
}

#[test]
fn plans_with_two_ranks_above_1() {
    check(
        &three_a([2, 2, 1]),
        &[
            "4 2 3 8 links 1 2",
            "5 7 1 5 links 0 2",
            "7 2 1 8 links 0 1",
        ],
        6,
    );
    check(
        &three_a([2, 1, 2]),
        &["4 2 6 4 links 1 2", "5 7 3 4 links 0 2"],
        4,
    );
    check(
        &three_a([1, 2, 2]),
        &[
            "4 9 3 4 links 1 2",
            "5 9 1 4 links 0 2",
            "7 7 1 5 links 0 1",
        ],
        5,
    );
}

#[test]
fn questions_and_drawn_trees() {
    let survey = three_a([1, 1, 1]).survey().expect("the yard is accepted");
    let best = |bounds| survey.best(bounds).map(|plan| plan.to_string());
    assert_eq!(best([9, 6, 8]), Ok("4 9 6 8 links 1 2".to_string()));
    // Each bound alone excludes the cheapest tree.
    assert_eq!(best([8, 6, 8]), Ok("7 7 6 8 links 0 1".to_string()));
    assert_eq!(best([9, 5, 8]), Ok("5 9 3 5 links 0 2".to_string()));
    assert_eq!(best([9, 6, 7]), Ok("5 9 3 5 links 0 2".to_string()));
    for bounds in [[8, 6, 7], [8, 5, 8], [9, 6, 4], [9, 6, i16::MIN]] {
        assert_eq!(best(bounds).map_err(told), Err((14, 0)), "{bounds:?}");
    }
    let drawn = survey.judge(&[0, 2]).expect("links 0 and 2 are a tree");
    assert_eq!((drawn.costs.sum, drawn.costs.ceilings), (5, [9, 3, 5]));
    assert_eq!(drawn.ceiling_costs(), [9, 3, 5]);
    assert_eq!(survey.judge(&[2, 0]).map_err(told), Err((11, 0)));
    assert_eq!((survey.positions(), survey.list_need()), (27, 388));
}

#[test]
fn a_third_bound_is_ignored_where_there_are_two_ceilings() {
    let mut two = three_a([1, 1, 1]);
    two.ranks.pop();
    two.links.iter_mut().for_each(|link| link.costs.truncate(2));
    let survey = two.survey().expect("the yard is accepted");
    for bound in [i16::MIN, 0, i16::MAX] {
        let plan = survey.best([9, 6, bound]).expect("a tree fits");
        assert_eq!(plan.costs.ceilings, [9, 6, 0]);
        assert_eq!(plan.to_string(), "4 9 6 links 1 2");
    }
}

/// The list of `three_a` with ranks 1, as document 02 lays it out.
const LIST: &[u8; 52] = b"PH\x03\x00\x09\x00\x00\x00\x02\x03\
    PM\x04\x00\x00\x00\x09\x00\x06\x00\x08\x00\x01\x02\
    PM\x05\x00\x00\x00\x09\x00\x03\x00\x05\x00\x00\x02\
    PM\x07\x00\x00\x00\x07\x00\x06\x00\x08\x00\x00\x01";

#[test]
fn lent_bytes() {
    let survey = bytes(&three_a([1, 1, 1]));
    for room in [0, 10, 52, 387, 388, 389, 600] {
        let mut buffer = vec![0xA5; room];
        let reply = list(&survey, 9, &mut buffer).map_err(told);
        if room < 388 {
            assert_eq!((reply, buffer), (Err((9, 0)), vec![0xA5; room]));
            continue;
        }
        assert_eq!((reply, &buffer[..52]), (Ok(()), &LIST[..]));
        assert!(buffer[52..].iter().all(|&byte| byte == 0));
        assert_eq!(list(&survey, 8, &mut buffer).map_err(told), Err((10, 0)));
        assert_eq!(buffer, vec![0; room]);
    }
    let mut tree = [0xA5; 4];
    let none = best(&survey, [8, 6, 7], &mut tree).map_err(told);
    assert_eq!((none, tree), (Err((14, 0)), [0xA5; 4]));
    let short = best(&survey, [8, 6, 7], &mut tree[..1]).map_err(told);
    assert_eq!((short, tree), (Err((9, 0)), [0xA5; 4]));
    assert!(best(&survey, [9, 6, 7], &mut tree).is_ok());
    assert_eq!(tree, [0, 2, 0xA5, 0xA5]);
}

#[test]
fn plans_are_fetched_from_records_of_12_bytes_and_their_links() {
    for (plan, links) in (0..).zip([[1, 2], [0, 2], [0, 1]]) {
        let part = fetch(LIST, plan).expect("the list has the plan");
        assert_eq!(part, links);
        let start = part.as_ptr() as usize - LIST.as_ptr() as usize;
        assert_eq!(start, 22 + plan as usize * 14);
    }
    assert_eq!(fetch(LIST, 3).map_err(told), Err((13, 0)));
    let plans = PlanList::from_bytes([LIST, &[1, 2, 3][..]].concat()).expect("it is whole");
    assert_eq!(plans.as_bytes(), LIST);
    let costs = plans.iter().map(|plan| plan.costs.ceilings);
    assert!(costs.eq([[9, 6, 8], [9, 3, 5], [7, 6, 8]]));
    assert_eq!(plans.get(1).map(|plan| plan.costs.sum), Ok(5));
}

#[test]
fn indexes_and_lookups() {
    let mut built = [0xA5; 8];
    assert_eq!(index(LIST, &mut built), Ok(()));
    assert_eq!(built, [2, 0, 0, 0, 1, 0, 0xA5, 0xA5]);
    let look_up = |value| index_lookup(LIST, &built, value).map_err(told);
    assert_eq!([7, 8, 9].map(look_up), [Ok(2), Ok(2), Ok(0)]);
    assert_eq!(look_up(6), Err((13, 0)));
    let plans = PlanList::from_bytes(LIST.to_vec()).expect("it is whole");
    let index = plans.index().expect("a list has an index");
    let (number, plan) = index.cheapest(8).expect("plan 2 meets it");
    assert_eq!(
        (number, plan.to_string().as_str()),
        (2, "7 7 6 8 links 0 1")
    );
}

#[test]
fn damaged_lists() {
    for length in 0..LIST.len() {
        assert_eq!(fetch(&LIST[..length], 0).map_err(told), Err((12, 0)));
        assert!(PlanList::from_bytes(LIST[..length].to_vec()).is_err());
    }
    // The marks of two ceilings, of which the other plans keep theirs.
    for (plan, at) in (0..).zip([11, 25, 39]) {
        let mut damaged = *LIST;
        damaged[at] = b'L';
        for other in 0..3 {
            assert_eq!(fetch(&damaged, other).is_err(), other == plan);
        }
        let refusal = index(&damaged, &mut [0; 6]).map_err(told);
        assert_eq!(refusal, Err((12, 0)));
    }
    for p in [0, 1, 2, 4, u8::MAX] {
        let mut damaged = *LIST;
        damaged[9] = p;
        assert_eq!(fetch(&damaged, 0).map_err(told), Err((12, 0)), "p = {p}");
    }
    // Records of two ceilings in a list of three, and the other way round.
    for list in [
        list_of(2, 3, &[(1, [2, 3]); 7]),
        list_of(2, 2, &[(1, [2, 3, 4]); 7]),
    ] {
        assert_eq!(fetch(&list, 0).map_err(told), Err((12, 0)));
    }
}

#[test]
fn stations_at_rest() {
    let resting = three_a([1, 1, 1]).with_resting([1]);
    check(&resting, &["1 9 3 4 links 2"], 1);
    let survey = resting.survey().expect("the yard is accepted");
    assert_eq!((survey.positions(), survey.list_need()), (1, 23));
    assert!(judge(survey.as_bytes(), &[2]).is_ok());
    assert_eq!(judge(survey.as_bytes(), &[0]).map_err(told), Err((11, 0)));
}

#[test]
fn no_usable_link() {
    let apart = yard(3, &[1, 1, 1], &[(0, 1, 4, &[7, 1, 5])]).with_resting([1]);
    for yard in [apart, yard(2, &[1, 1, 1], &[])] {
        check(&yard, &[], 0);
        let mut head = [0xA5; 11];
        assert_eq!(list(&bytes(&yard), 0, &mut head), Ok(()));
        assert_eq!(head, *b"PH\x00\x00\x00\x00\x00\x00\x01\x03\x00");
        let none = best(&bytes(&yard), [i16::MAX; 3], &mut [0; 2]).map_err(told);
        assert_eq!(none, Err((14, 0)));
    }
}

#[test]
fn the_longest_list_buffer() {
    for values in [
        [40, 40, 1],
        [1, 40, 40],
        [40, 1, 40],
        [40, 5, 8],
        [10, 16, 10],
    ] {
        let survey = with_values(values).survey().expect("the yard is accepted");
        assert_eq!((survey.positions(), survey.list_need()), (1_600, 56_010));
        let room = |room| list(survey.as_bytes(), 1_600, &mut vec![0; room]).map_err(told);
        assert_eq!((room(56_009), room(56_010)), (Err((9, 0)), Ok(())));
    }
}
