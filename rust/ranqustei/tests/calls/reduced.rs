//! Random yards with stations at rest, against the same yards without those stations and their links.

use crate::random::Random;
use crate::samples::told;
use ranqustei::{Link, Plan, Survey, Yard, YardError, YardRecord};

/// A yard whose links are legal; its ranks and its resting stations may not be.
fn random_yard(random: &mut Random) -> Yard {
    let stations = 2 + random.below(8);
    let ranks = (0..random.below(4)).map(|_| 1 + random.below(3) as u8);
    let ranks: Vec<u8> = ranks.collect();
    let links = (0..random.below(15)).map(|_| {
        let end = random.below(stations);
        let other = (end + 1 + random.below(stations - 1)) % stations;
        let costs = ranks.iter().map(|_| random.below(5) as i16 - 2);
        let costs: Vec<i16> = costs.collect();
        Link::new([end as u8, other as u8], random.below(7) as i32 - 2, costs)
    });
    let links: Vec<Link> = links.collect();
    let of_all = if random.below(20) == 0 { 24 } else { stations };
    let resting = (0..of_all).filter(|_| random.below(4) == 0);
    let resting: Vec<u8> = resting.map(|station| station as u8).collect();
    Yard::new(stations as u8, ranks, links).with_resting(resting)
}

/// The yard of the working stations and the usable links alone, and the former numbers of the links.
fn reduced(yard: &Yard) -> (Yard, Vec<u8>) {
    let working = |below: u8| (0..below).filter(|&station| yard.works(station)).count() as u8;
    let (mut links, mut numbers) = (Vec::new(), Vec::new());
    for (number, link) in (0..).zip(&yard.links) {
        if !link.ends.iter().any(|end| yard.resting.contains(end)) {
            links.push(Link::new(
                link.ends.map(working),
                link.sum,
                link.costs.clone(),
            ));
            numbers.push(number);
        }
    }
    (
        Yard::new(working(yard.stations), yard.ranks.clone(), links),
        numbers,
    )
}

/// A plan of the reduced yard with the former link numbers.
fn with_former(mut plan: Plan, numbers: &[u8]) -> Plan {
    plan.links
        .iter_mut()
        .for_each(|link| *link = numbers[usize::from(*link)]);
    plan
}

/// Holds the answers for a yard against those for its reduced one.
fn check(whole: &Survey, reduced: &Survey, numbers: &[u8], random: &mut Random) {
    assert_eq!(whole.positions(), reduced.positions());
    assert_eq!(whole.list_need(), reduced.list_need());
    let [plans, expected] = [whole, reduced].map(|survey| survey.plans().expect("it lists"));
    assert_eq!(
        (plans.len(), plans.solved()),
        (expected.len(), expected.solved())
    );
    for (plan, expected) in plans.iter().zip(expected.iter()) {
        assert_eq!(plan, with_former(expected, numbers));
    }
    for _ in 0..4 {
        let bounds = [0; 3].map(|_: u8| random.below(6) as i16 - 3);
        let found = reduced.best(bounds).map(|plan| with_former(plan, numbers));
        assert_eq!(whole.best(bounds), found);
    }
}

#[test]
fn resting_stations_are_as_good_as_gone() {
    let mut random = Random(11);
    let mut seen = [0; 3];
    for _ in 0..6_000 {
        let yard = random_yard(&mut random);
        let survey = yard.survey_with(match yard.ranks.len() {
            3 => YardRecord::Triple,
            _ => YardRecord::Resting,
        });
        let (left, numbers) = reduced(&yard);
        let is_beyond = yard.resting.last() >= Some(&yard.stations);
        match (survey, left.survey()) {
            (Ok(whole), Ok(reduced)) if !is_beyond => {
                check(&whole, &reduced, &numbers, &mut random);
                seen[0] += 1;
            }
            (Err(YardError::Refused(refusal)), _) if is_beyond || left.stations == 0 => {
                assert_eq!(told(refusal), (18, 0));
                seen[1] += 1;
            }
            (survey, reduced) => {
                assert_eq!(survey, reduced);
                seen[2] += 1;
            }
        }
    }
    assert!(seen.iter().all(|&count| count > 100), "{seen:?}");
}
