//! Surveys whose yard record has the stations at rest.

use crate::samples::{head, listed, plan, survey, LinkRow, A, A2};
use peer::survey::Yard;
use peer::{best, judge, list, write_survey, Costs, Figures, Refusal};

/// A survey with the third yard record: mark 59 46, the link count, and the rest bytes.
fn with_rest(rest: [u8; 3], survey: &[u8]) -> Vec<u8> {
    let (front, links) = survey.split_at(6);
    let count = (links.len() / 12) as u8;
    [&[0x59, 0x46], &front[2..], &[count], &rest, links].concat()
}

/// A survey in which some stations rest.
fn resting(stations: &[usize], survey: &[u8]) -> Vec<u8> {
    let mut rest = [0; 3];
    for station in stations {
        rest[station / 8] |= 1 << (station % 8);
    }
    with_rest(rest, survey)
}

fn refusal(survey: &[u8]) -> Option<Refusal> {
    Yard::read(survey).err()
}

/// A refusal at place 0.
fn whole(number: u8) -> Option<Refusal> {
    Some(Refusal::whole(number))
}

const NO_TREE: Result<Costs, Refusal> = Err(Refusal::whole(11));

/// A with a link to a fourth station before the others: the cheapest, with a cost of its own.
const A_AND_HIVE: [LinkRow; 4] = [(3, 0, 0, 1, 0), A[0], A[1], A[2]];

#[test]
fn the_cheapest_link_leads_to_a_station_at_rest() {
    let yard = resting(&[3], &survey(4, &[1], &A_AND_HIVE));
    let bytes = listed(&yard, 46, 34);
    let plans = [plan(4, 9, 0, &[2, 3]), plan(7, 7, 0, &[1, 2])].concat();
    assert_eq!(bytes, [head(2, 3, 2, 1), plans].concat());
    let mut tree = [0xaa; 3];
    assert_eq!(
        best(&yard, [1, 0, 0], &mut tree[..1]),
        Err(Refusal::whole(9))
    );
    assert_eq!(best(&yard, [1, 0, 0], &mut tree), Err(Refusal::whole(14)));
    assert_eq!(tree, [0xaa; 3]);
    let costs = Costs {
        sum: 7,
        ceilings: [7, 0, 0],
    };
    assert_eq!(best(&yard, [8, 0, 0], &mut tree), Ok(costs));
    assert_eq!(tree, [1, 2, 0xaa]);
}

#[test]
fn a_drawn_link_to_a_station_at_rest() {
    let yard = resting(&[3], &survey(4, &[1], &A_AND_HIVE));
    let costs = Costs {
        sum: 5,
        ceilings: [9, 0, 0],
    };
    assert_eq!(judge(&yard, &[1, 3]), Ok(costs));
    let wrong: [&[u8]; 5] = [&[0, 1], &[0, 1, 2], &[1, 2, 3], &[3, 1], &[1, 4]];
    for drawn in wrong {
        assert_eq!(judge(&yard, drawn), NO_TREE);
    }
}

#[test]
fn station_0_rests() {
    let links = [
        (1, 2, 4, 7, 0),
        (0, 1, -5, 3, 0),
        (2, 3, 3, 2, 0),
        (1, 3, 1, 9, 0),
    ];
    let bytes = listed(&resting(&[0], &survey(4, &[1], &links)), 46, 34);
    let plans = [plan(4, 9, 0, &[2, 3]), plan(7, 7, 0, &[0, 2])].concat();
    assert_eq!(bytes, [head(2, 3, 2, 1), plans].concat());
}

#[test]
fn a_bit_of_each_byte() {
    let at_rest = [7, 8, 16, 23];
    let mut working: Vec<u8> = (0..24).collect();
    working.retain(|&station| !at_rest.contains(&station.into()));
    // A row over the working stations, after cheap links to the others.
    let mut links: Vec<LinkRow> = at_rest.map(|end| (end as u8, 0, -9, 0, 0)).to_vec();
    links.extend(working.windows(2).map(|ends| (ends[0], ends[1], 1, 0, 0)));
    let yard = resting(&at_rest, &survey(24, &[], &links));
    assert_eq!(yard[7..10], [0x80, 0x01, 0x81]);
    let row: Vec<u8> = (4..23).collect();
    let bytes = listed(&yard, 39, 39);
    assert_eq!(bytes, [head(1, 1, 19, 0), plan(19, 0, 0, &row)].concat());
}

#[test]
fn one_station_works() {
    let links = A.map(|(a, b, sum, ..)| (a, b, sum, 0, 0));
    for working in 0..3 {
        let mut others = vec![0, 1, 2];
        others.remove(working);
        let yard = resting(&others, &survey(3, &[], &links));
        let bytes = listed(&yard, 20, 20);
        assert_eq!(bytes, [head(1, 1, 0, 0), plan(0, 0, 0, &[])].concat());
        assert_eq!(best(&yard, [0, 0, 0], &mut []), Ok(Costs::default()));
        assert_eq!(judge(&yard, &[]), Ok(Costs::default()));
        assert_eq!(judge(&yard, &[working as u8]), NO_TREE);
        let ranked = resting(&others, &survey(3, &[1], &A));
        assert_eq!(refusal(&ranked), whole(6));
    }
}

#[test]
fn no_link_is_usable() {
    let links = [(0, 1, 4, 7, 0), (1, 2, 3, 2, 0)];
    let yard = resting(&[1], &survey(3, &[1], &links));
    assert_eq!(listed(&yard, 10, 10), head(0, 0, 1, 1));
    assert_eq!(list(&yard, 0, &mut [0; 10]), Ok(()));
    let reply = best(&yard, [i16::MAX; 3], &mut [0]);
    assert_eq!(reply, Err(Refusal::whole(14)));
    // Without ceilings there is one position, and no tree for it.
    let links = links.map(|(a, b, sum, ..)| (a, b, sum, 0, 0));
    let yard = resting(&[1], &survey(3, &[], &links));
    assert_eq!(listed(&yard, 21, 10), head(0, 1, 1, 0));
    assert_eq!(list(&yard, 0, &mut [0; 21]), Err(Refusal::whole(10)));
}

#[test]
fn ranks_up_to_t() {
    let is_legal = |ranks: &[u8], at_rest: &[usize]| {
        let refusal = refusal(&resting(at_rest, &survey(5, ranks, &[])));
        assert!(refusal.is_none() || refusal == whole(6));
        refusal.is_none()
    };
    assert!(is_legal(&[3], &[4]) && !is_legal(&[3], &[0, 4]));
    assert!(is_legal(&[2], &[0, 4]) && !is_legal(&[2], &[0, 2, 4]));
    assert!(is_legal(&[2, 2], &[1, 3]) && !is_legal(&[2, 2], &[1, 2, 3]));
    assert!(is_legal(&[1, 2], &[1, 3]) && !is_legal(&[1, 2], &[1, 2, 3]));
    assert!(is_legal(&[1, 1], &[1, 2, 3]) && !is_legal(&[1, 1], &[1, 2, 3, 4]));
    let yard = resting(&[3], &survey(4, &[2], &A_AND_HIVE));
    let bytes = listed(&yard, 46, 22);
    assert_eq!(bytes, [head(1, 1, 2, 1), plan(4, 2, 0, &[2, 3])].concat());
}

#[test]
fn a_bit_past_the_last_station() {
    let bare = |n: u8| survey(n, &[], &[]);
    for n in 1..24 {
        for bit in 0..24 {
            let reply = refusal(&resting(&[bit], &bare(n)));
            let is_legal = bit < n.into() && n > 1;
            assert_eq!(reply, if is_legal { None } else { whole(18) });
        }
    }
    assert_eq!(refusal(&resting(&[23], &bare(23))), whole(18));
    assert_eq!(refusal(&resting(&[23], &bare(24))), None);
}

#[test]
fn no_station_works() {
    for n in 1..=24 {
        let all: Vec<usize> = (0..n.into()).collect();
        assert_eq!(refusal(&resting(&all, &survey(n, &[], &[]))), whole(18));
        let but_one = refusal(&resting(&all[1..], &survey(n, &[], &[])));
        assert_eq!(but_one, None);
    }
}

#[test]
fn a_wrong_rest_leaves_all_as_it_was() {
    for rest in [[7, 0, 0], [8, 0, 0], [0, 1, 0], [0, 0, 0x80], [0xff; 3]] {
        let a = with_rest(rest, &survey(3, &[1], &A));
        let (mut tree, mut buffer) = ([0xaa; 3], [0xaa; 50]);
        assert_eq!(judge(&a, &[0, 2]), Err(Refusal::whole(18)));
        assert_eq!(best(&a, [8, 0, 0], &mut tree), Err(Refusal::whole(18)));
        assert_eq!(list(&a, 1600, &mut buffer), Err(Refusal::whole(18)));
        assert_eq!(list(&a, 0, &mut []), Err(Refusal::whole(18)));
        assert_eq!((tree, buffer), ([0xaa; 3], [0xaa; 50]));
    }
}

#[test]
fn a_wrong_rest_comes_after_15() {
    let wrong = |n, links: &[LinkRow]| with_rest([0xff; 3], &survey(n, &[1], links));
    assert_eq!(refusal(&wrong(3, &A)), whole(18));
    assert_eq!(refusal(&wrong(25, &A)), whole(3));
    assert_eq!(refusal(&wrong(0, &A)), whole(3));
    assert_eq!(refusal(&wrong(3, &[A[0]; 41])), whole(4));
    for count in [2, 4] {
        let mut counted = wrong(3, &A);
        counted[6] = count;
        assert_eq!(refusal(&counted), whole(15));
    }
}

#[test]
fn a_wrong_rest_comes_before_5() {
    let mut three_ceilings = survey(3, &[1, 1], &A2);
    three_ceilings[3] = 3;
    let mut marked = survey(3, &[1], &A);
    marked[6] = 0;
    let others = [
        (5, 0, three_ceilings),
        (6, 0, survey(3, &[3], &A)),
        (2, 1, marked),
        (7, 2, survey(2, &[1], &A)),
        (8, 1, survey(3, &[], &A)),
    ];
    for (number, place, survey) in others {
        let other = Some(Refusal { number, place });
        assert_eq!(refusal(&with_rest([0; 3], &survey)), other);
        assert_eq!(refusal(&with_rest([0xff; 3], &survey)), whole(18));
    }
}

#[test]
fn links_to_stations_at_rest_are_tested() {
    let links = [A[1], (0, 2, 1, 9, 0)];
    let at_2 = |number| Some(Refusal { number, place: 2 });
    let reply =
        |link: LinkRow, ranks: &[u8]| refusal(&resting(&[0], &survey(3, ranks, &[links[0], link])));
    assert_eq!(reply(links[1], &[1]), None);
    for link in [(0, 3, 1, 9, 0), (255, 0, 1, 9, 0), (0, 0, 1, 9, 0)] {
        assert_eq!(reply(link, &[1]), at_2(7));
    }
    for link in [(0, 2, 1_000_001, 9, 0), (2, 0, 1, 9, 1)] {
        assert_eq!(reply(link, &[1]), at_2(8));
    }
    let mut marked = resting(&[0], &survey(3, &[1], &links));
    marked[22] = 0;
    assert_eq!(refusal(&marked), at_2(2));
    // All 41 count, though none is usable.
    let over = resting(&[0], &survey(3, &[1], &[links[1]; 41]));
    assert_eq!(refusal(&over), whole(4));
}

#[test]
fn no_bit_is_set() {
    let a2 = survey(3, &[2, 2], &A2);
    assert_eq!(listed(&resting(&[], &a2), 118, 46), listed(&a2, 118, 46));
    let empty = survey(1, &[], &[]);
    let list = listed(&empty, 20, 20);
    assert_eq!(listed(&resting(&[], &empty), 20, 20), list);
}

#[test]
fn ten_bytes_and_whole_links() {
    let a = resting(&[2], &survey(3, &[1], &A));
    assert_eq!(refusal(&a), None);
    for len in 2..a.len() {
        let number = if len % 12 == 10 { 15 } else { 1 };
        assert_eq!(refusal(&a[..len]), whole(number));
    }
    assert_eq!(refusal(&[&a[..], &[0]].concat()), whole(1));
}

#[test]
fn such_a_yard_is_not_written() {
    let mut figures = Figures {
        stations: 3,
        ceilings: 0,
        ranks: [0, 0],
        ends: &[],
        sums: &[],
        costs: &[],
    };
    for stations in [3, 25] {
        figures.stations = stations;
        let mut output = [0xaa; 20];
        for room in [0, 10, 20] {
            let reply = write_survey(0x5946, &figures, &mut output[..room]);
            assert_eq!(reply, Err(Refusal::whole(2)));
        }
        assert_eq!(output, [0xaa; 20]);
    }
}
