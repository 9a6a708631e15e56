//! Yards that several tests use.

use ranqustei::{Figures, Link, Refusal, Yard, YardRecord};

/// The yard records that a survey of at most two ceilings may have.
pub const RECORDS: [YardRecord; 3] = [YardRecord::Plain, YardRecord::Counted, YardRecord::Resting];

/// A yard from its stations, its ranks and its links: two ends, a sum, ceiling costs.
pub fn yard(stations: u8, ranks: &[u8], links: &[(u8, u8, i32, &[i16])]) -> Yard {
    let links = links
        .iter()
        .map(|&(a, b, sum, costs)| Link::new([a, b], sum, costs));
    Yard::new(stations, ranks, links.collect::<Vec<_>>())
}

/// Survey A with two further ceiling costs, and ranks for all three ceilings.
pub fn three_a(ranks: [u8; 3]) -> Yard {
    let links = [
        (0, 1, 4, &[7, 1, 5][..]),
        (1, 2, 3, &[2, 6, 8]),
        (0, 2, 1, &[9, 3, 4]),
    ];
    yard(3, &ranks, &links)
}

/// Survey A of document 01, with another rank perhaps.
pub fn yard_a(rank: u8) -> Yard {
    yard(
        3,
        &[rank],
        &[(0, 1, 4, &[7]), (1, 2, 3, &[2]), (0, 2, 1, &[9])],
    )
}

/// The figures of survey A.
pub fn figures_a() -> Figures<'static> {
    Figures {
        stations: 3,
        ceilings: 1,
        ranks: [1, 0],
        ends: &[0, 1, 1, 2, 0, 2],
        sums: &[4, 3, 1],
        costs: &[7, 0, 2, 0, 9, 0],
    }
}

/// The bytes of survey A, as document 01 has it.
pub fn bytes_a() -> Vec<u8> {
    bytes_of(&yard_a(1), YardRecord::Plain)
}

/// The bytes of an accepted yard's survey.
pub fn bytes_of(yard: &Yard, record: YardRecord) -> Vec<u8> {
    let survey = yard.survey_with(record).expect("the yard is accepted");
    survey.as_bytes().to_vec()
}

/// A chain of stations, one link of this sum from each to the next.
pub fn chain(stations: u8, sum: i32) -> Yard {
    let links = (0..stations - 1).map(|end| Link::new([end, end + 1], sum, []));
    Yard::new(stations, [], links.collect::<Vec<_>>())
}

/// A yard at the limits: 24 stations, 40 links, 1,600 positions. Its first 23 links are a plan, and
/// each link after them makes for one plan more.
pub fn largest() -> Yard {
    let mut yard = chain(24, 1);
    yard.ranks = vec![1, 1];
    let more = (0..17).map(|end| Link::new([end, end + 1], 2, []));
    yard.links.extend(more);
    for (number, link) in (0..).zip(&mut yard.links) {
        link.costs = vec![20 - number, i16::MIN + number];
    }
    yard
}

/// Accepted yards of every size, with all stations at work.
pub fn yards() -> [Yard; 7] {
    [
        yard(1, &[], &[]),
        yard(2, &[], &[]),
        yard(2, &[1], &[]),
        yard_a(1),
        yard_a(2),
        chain(24, -5),
        largest(),
    ]
}

/// The bytes of a plan list of this t and p, whoever made it: each plan with its sum and its
/// ceiling costs, two or three, and with 0 for every link.
pub fn list_of<const N: usize>(t: u8, p: u8, plans: &[(i32, [i16; N])]) -> Vec<u8> {
    let [low, high] = (plans.len() as u16).to_le_bytes();
    let mut bytes = vec![b'P', b'H', low, high, 0, 0, 0, 0, t, p];
    for (sum, costs) in plans {
        bytes.extend(if N == 2 { b"PL" } else { b"PM" });
        bytes.extend(sum.to_le_bytes());
        bytes.extend(costs.iter().flat_map(|cost| cost.to_le_bytes()));
        bytes.extend(vec![0; usize::from(t)]);
    }
    bytes
}

/// A refusal's number and place.
pub fn told(refusal: Refusal) -> (u8, u8) {
    (refusal.number, refusal.place)
}
