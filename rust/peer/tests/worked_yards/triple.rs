//! Surveys whose yard record has a third ceiling.

use crate::samples::{head, survey, A};
use peer::listing::Listing;
use peer::positions::Positions;
use peer::survey::Yard;
use peer::{best, fetch, index, index_lookup, judge, list, plan_list, write_survey};
use peer::{Costs, Figures, Refusal};

/// The ends, sum and three ceiling costs of a link.
type LinkRow = (u8, u8, i32, [i16; 3]);

/// The links of survey A with second and third costs.
const A3: [LinkRow; 3] = [
    (0, 1, 4, [7, 1, 5]),
    (1, 2, 3, [2, 6, 5]),
    (0, 2, 1, [9, 3, 8]),
];

/// A survey with mark 59 47, in which some stations rest.
fn resting(n: u8, ranks: [u8; 3], at_rest: &[usize], links: &[LinkRow]) -> Vec<u8> {
    let mut rest = [0; 3];
    for station in at_rest {
        rest[station / 8] |= 1 << (station % 8);
    }
    let mut bytes = vec![0x59, 0x47, n, 3];
    bytes.extend(ranks);
    bytes.push(links.len() as u8);
    bytes.extend(rest);
    for (a, b, sum, costs) in links {
        bytes.extend([0x4c, 0x4d, *a, *b]);
        bytes.extend(sum.to_le_bytes());
        bytes.extend(costs.map(i16::to_le_bytes).as_flattened());
    }
    bytes
}

fn triple(n: u8, ranks: [u8; 3], links: &[LinkRow]) -> Vec<u8> {
    resting(n, ranks, &[], links)
}

/// Survey A with all ranks 1.
fn a3() -> Vec<u8> {
    triple(3, [1; 3], &A3)
}

/// A plan of small ceiling costs.
fn plan(sum: i32, costs: [u8; 3], links: &[u8]) -> Vec<u8> {
    let [s0, s1, s2, s3] = sum.to_le_bytes();
    let [y1, y2, y3] = costs;
    [&[0x50, 0x4d, s0, s1, s2, s3, y1, 0, y2, 0, y3, 0], links].concat()
}

fn refusal(survey: &[u8]) -> Option<Refusal> {
    Yard::read(survey).err()
}

/// A refusal at place 0.
fn whole(number: u8) -> Option<Refusal> {
    Some(Refusal::whole(number))
}

/// The list of a survey in a dirty buffer of exactly its need, held against all trees.
fn listed(survey: &[u8]) -> Vec<u8> {
    let yard = Yard::read(survey).unwrap();
    let need = plan_list::need(&yard, Positions::of(&yard).count());
    let mut short = vec![0xaa; need - 1];
    assert_eq!(list(survey, 1600, &mut short), Err(Refusal::whole(9)));
    assert!(short.iter().all(|&byte| byte == 0xaa));
    let mut buffer = vec![0xaa; need];
    assert_eq!(list(survey, 1600, &mut buffer), Ok(()));
    let listing = Listing::of(&yard);
    let mut by_listing = vec![0xaa; need];
    let solved = listing.solved_count();
    plan_list::write(&mut by_listing, &yard, solved, &listing.plans());
    assert_eq!(buffer, by_listing);
    buffer
}

#[test]
fn survey_a_with_three_ceilings() {
    let bytes = listed(&a3());
    // The values are 9, 7, 2; 6, 3, 1; 8, 5: 18 positions of 14 bytes.
    assert_eq!(bytes.len(), 10 + 18 * 14);
    let plans = [
        plan(4, [9, 6, 8], &[1, 2]),
        plan(5, [9, 3, 8], &[0, 2]),
        plan(7, [7, 6, 5], &[0, 1]),
    ];
    let due = [head(3, bytes[4], 2, 3), plans.concat()].concat();
    assert_eq!(bytes[..due.len()], due);
    assert!(bytes[due.len()..].iter().all(|&byte| byte == 0));
}

#[test]
fn the_third_cost_alone_tells_plans_apart() {
    // Two stations: each link is a tree.
    let links = [
        (0, 1, 5, [3, 3, 8]),
        (0, 1, 6, [3, 3, 7]),
        (0, 1, 7, [3, 3, 7]),
        (1, 0, 5, [3, 3, 9]),
    ];
    let bytes = listed(&triple(2, [1; 3], &links));
    let plans = [plan(5, [3, 3, 8], &[0]), plan(6, [3, 3, 7], &[1])].concat();
    assert_eq!(bytes[10..10 + plans.len()], plans);
    assert_eq!(bytes[..4], [0x50, 0x48, 2, 0]);
    // Of equal sums and second costs the order is that of the third, where the first is equal too.
    let links = [(0, 1, 5, [3, 4, 8]), (0, 1, 5, [3, 5, 7])];
    let bytes = listed(&triple(2, [1; 3], &links));
    let plans = [plan(5, [3, 4, 8], &[0]), plan(5, [3, 5, 7], &[1])].concat();
    assert_eq!(bytes[10..10 + plans.len()], plans);
}

#[test]
fn questions_under_three_bounds() {
    let mut tree = [0xaa; 3];
    let costs = |sum, ceilings| Ok(Costs { sum, ceilings });
    assert_eq!(best(&a3(), [9, 6, 8], &mut tree), costs(4, [9, 6, 8]));
    assert_eq!(tree, [1, 2, 0xaa]);
    assert_eq!(best(&a3(), [9, 6, 7], &mut tree), costs(7, [7, 6, 5]));
    assert_eq!(tree, [0, 1, 0xaa]);
    assert_eq!(best(&a3(), [9, 6, 4], &mut tree), Err(Refusal::whole(14)));
    assert_eq!(
        best(&a3(), [9, 6, 4], &mut tree[..1]),
        Err(Refusal::whole(9))
    );
    assert_eq!(judge(&a3(), &[0, 2]), costs(5, [9, 3, 8]));
    assert_eq!(judge(&a3(), &[0, 1, 2]), Err(Refusal::whole(11)));
    let second_worst = triple(3, [1, 1, 2], &A3);
    assert_eq!(judge(&second_worst, &[0, 2]), costs(5, [9, 3, 5]));
    assert_eq!(
        best(&second_worst, [9, 6, 5], &mut tree),
        costs(4, [9, 6, 5])
    );
}

#[test]
fn ranks_above_1_add_up_to_2() {
    for ranks in (0..125_u8).map(|i| [i / 25, i / 5 % 5, i % 5]) {
        let above: u8 = ranks.iter().map(|rank| rank.saturating_sub(1)).sum();
        let is_legal = !ranks.contains(&0) && above <= 2;
        let reply = refusal(&triple(5, ranks, &[]));
        assert_eq!(reply, if is_legal { None } else { whole(6) }, "{ranks:?}");
        // With two links in a tree a rank of 3 is too high.
        let is_legal = is_legal && ranks.iter().all(|&rank| rank <= 2);
        let reply = refusal(&resting(5, ranks, &[1, 3], &[]));
        assert_eq!(reply, if is_legal { None } else { whole(6) }, "{ranks:?}");
    }
    let one_works = resting(3, [1; 3], &[0, 2], &A3);
    assert_eq!(refusal(&one_works), whole(6));
}

#[test]
fn three_ceilings_and_no_other_number() {
    for ceilings in [0, 1, 2, 4, 255] {
        let mut other = a3();
        other[3] = ceilings;
        assert_eq!(refusal(&other), whole(5));
    }
    for mark in [0x44, 0x45, 0x46] {
        let old = survey(3, &[1, 1], &A);
        let mut other = match mark {
            0x44 => old,
            0x45 => [&old[..6], &[3], &old[6..]].concat(),
            _ => [&old[..6], &[3, 0, 0, 0], &old[6..]].concat(),
        };
        other[1] = mark;
        assert_eq!(refusal(&other), None);
        other[3] = 3;
        assert_eq!(refusal(&other), whole(5));
    }
}

#[test]
fn link_marks_of_the_other_size() {
    for place in 1..=3 {
        let mut other = a3();
        other[11 + 14 * (usize::from(place) - 1) + 1] = 0x4b;
        assert_eq!(refusal(&other), Some(Refusal { number: 2, place }));
        let mut other = survey(3, &[1], &A);
        other[6 + 12 * (usize::from(place) - 1) + 1] = 0x4d;
        assert_eq!(refusal(&other), Some(Refusal { number: 2, place }));
    }
}

#[test]
fn eleven_bytes_and_whole_links() {
    let a = a3();
    for len in 2..a.len() {
        let number = if len % 14 == 11 { 15 } else { 1 };
        assert_eq!(refusal(&a[..len]), whole(number));
    }
    assert_eq!(refusal(&[&a[..], &[0]].concat()), whole(1));
}

#[test]
fn the_order_of_the_head() {
    let damaged = |changes: &[(usize, u8)]| {
        let mut bytes = a3();
        changes.iter().for_each(|&(at, byte)| bytes[at] = byte);
        refusal(&bytes)
    };
    // n, the link count, the rest bytes, p and k3 are wrong, from the last to the first.
    let wrong = [(2, 25), (7, 2), (8, 7), (3, 2), (6, 3)];
    for (i, number) in [3, 15, 18, 5, 6].into_iter().enumerate() {
        assert_eq!(damaged(&wrong[i..]), whole(number));
    }
    let over = triple(25, [9; 3], &[(9, 9, 0, [0; 3]); 41]);
    assert_eq!(refusal(&over), whole(3));
    let over = triple(24, [9; 3], &[(9, 9, 0, [0; 3]); 41]);
    assert_eq!(refusal(&over), whole(4));
}

/// A yard of two stations with so many values of each ceiling, on so many links.
fn of_values(links: i16, counts: [i16; 3]) -> Vec<LinkRow> {
    let link = |i: i16| (0, 1, i32::from(i), counts.map(|count| i % count));
    (0..links).map(link).collect()
}

#[test]
fn at_most_1600_positions() {
    for counts in [
        [10, 10, 16],
        [40, 40, 1],
        [1, 40, 40],
        [40, 20, 2],
        [5, 8, 40],
    ] {
        let yard = triple(2, [1; 3], &of_values(40, counts));
        let bytes = listed(&yard);
        assert_eq!(bytes.len(), 10 + 1600 * 13);
    }
    for counts in [[7, 10, 23], [23, 7, 10], [40, 40, 2], [40; 3], [12, 12, 12]] {
        let yard = triple(2, [1; 3], &of_values(40, counts));
        let (mut tree, mut buffer) = ([0xaa; 3], vec![0xaa; 70_000]);
        assert_eq!(judge(&yard, &[0]), Err(Refusal::whole(19)));
        assert_eq!(judge(&yard, &[0, 1]), Err(Refusal::whole(19)));
        assert_eq!(best(&yard, [40; 3], &mut tree), Err(Refusal::whole(19)));
        assert_eq!(best(&yard, [-1; 3], &mut tree), Err(Refusal::whole(19)));
        assert_eq!(best(&yard, [-1; 3], &mut []), Err(Refusal::whole(19)));
        for room in [0, 20_000, 70_000] {
            let reply = list(&yard, 0, &mut buffer[..room]);
            assert_eq!(reply, Err(Refusal::whole(19)));
        }
        assert!(tree.iter().chain(&buffer).all(|&byte| byte == 0xaa));
    }
}

#[test]
fn positions_are_of_usable_links() {
    let mut links = of_values(40, [12, 12, 12]);
    assert_eq!(refusal(&triple(3, [1; 3], &links)), whole(19));
    // The highest value of the first ceiling is on links to a station at rest alone.
    for link in links.iter_mut().filter(|(.., costs)| costs[0] == 11) {
        link.1 = 2;
    }
    assert_eq!(refusal(&triple(3, [1; 3], &links)), whole(19));
    let yard = Yard::read(&resting(3, [1; 3], &[2], &links)).unwrap();
    assert!(Positions::of(&yard).count() <= 1600);
    // No link is usable: there is no position.
    links.iter_mut().for_each(|link| (link.0, link.1) = (0, 2));
    let yard = resting(3, [1; 3], &[2], &links);
    assert_eq!(listed(&yard), head(0, 0, 1, 3));
    let reply = best(&yard, [i16::MAX; 3], &mut [0]);
    assert_eq!(reply, Err(Refusal::whole(14)));
}

#[test]
fn the_last_link_comes_before_the_positions() {
    let mut links = of_values(40, [40; 3]);
    links[39].2 = 1_000_001;
    let reply = refusal(&triple(2, [1; 3], &links));
    assert_eq!(
        reply,
        Some(Refusal {
            number: 8,
            place: 40
        })
    );
    links[39].1 = 2;
    let reply = refusal(&triple(2, [1; 3], &links));
    assert_eq!(
        reply,
        Some(Refusal {
            number: 7,
            place: 40
        })
    );
}

#[test]
fn plans_of_14_bytes_are_fetched() {
    let list = listed(&a3());
    for (r, links) in [(0, [1, 2]), (1, [0, 2]), (2, [0, 1])] {
        assert_eq!(fetch(&list, r), Ok(&links[..]));
        let start = 22 + 14 * r as usize;
        assert_eq!(list[start..start + 2], links);
        let mut other = list.clone();
        other[10 + 14 * r as usize + 1] = 0x4c;
        assert_eq!(fetch(&other, r), Err(Refusal::whole(12)));
        assert_eq!(index(&other, &mut [0; 6]), Err(Refusal::whole(12)));
    }
    assert_eq!(fetch(&list, 3), Err(Refusal::whole(13)));
    assert_eq!(fetch(&list[..52], 0), Ok(&[1, 2][..]));
    assert_eq!(fetch(&list[..51], 0), Err(Refusal::whole(12)));
    let mut over = list.clone();
    over[9] = 4;
    assert_eq!(fetch(&over, 0), Err(Refusal::whole(12)));
    // Under p = 2 the mark of such a plan is wrong.
    over[9] = 2;
    assert_eq!(fetch(&over, 0), Err(Refusal::whole(12)));
}

#[test]
fn the_third_cost_is_not_in_the_index() {
    let plans = [
        plan(5, [3, 4, 9], &[]),
        plan(5, [3, 4, 8], &[]),
        plan(4, [3, 4, 7], &[]),
        plan(6, [2, 4, 7], &[]),
    ];
    let list = [head(4, 9, 0, 3), plans.concat()].concat();
    let mut entries = [0xaa; 10];
    assert_eq!(index(&list, &mut entries), Ok(()));
    assert_eq!(entries, [3, 0, 2, 0, 0, 0, 1, 0, 0xaa, 0xaa]);
    assert_eq!(index_lookup(&list, &entries, 2), Ok(3));
    assert_eq!(index_lookup(&list, &entries, 3), Ok(2));
    assert_eq!(index_lookup(&list, &entries, 1), Err(Refusal::whole(13)));
    let other = [3, 0, 2, 0, 1, 0, 0, 0];
    assert_eq!(index_lookup(&list, &other, 3), Err(Refusal::whole(12)));
    assert_eq!(index(&list[..57], &mut entries), Err(Refusal::whole(12)));
}

#[test]
fn such_a_yard_is_not_written() {
    let figures = Figures {
        stations: 3,
        ceilings: 3,
        ranks: [1, 1],
        ends: &[],
        sums: &[],
        costs: &[],
    };
    let mut output = [0xaa; 20];
    let reply = write_survey(0x5947, &figures, &mut output);
    assert_eq!(reply, Err(Refusal::whole(2)));
    let reply = write_survey(0x5944, &figures, &mut output);
    assert_eq!(reply, Err(Refusal::whole(5)));
    assert_eq!(output, [0xaa; 20]);
}
