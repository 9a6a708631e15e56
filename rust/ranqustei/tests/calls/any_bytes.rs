//! Random bytes and random yards: every call replies, and figures come back as they went in.

use crate::random::Random;
use crate::samples::{bytes_of, three_a, yard_a, RECORDS};
use ranqustei::{
    best, fetch, index, index_lookup, judge, list, small_surveys, Link, PlanList, Survey, Yard,
    YardRecord,
};

/// Puts a survey to every call.
fn ask(survey: Vec<u8>, random: &mut Random) {
    let drawn = random.bytes(30);
    let bounds = [0; 3].map(|_: u8| random.below(65_536) as u16 as i16);
    let judged = judge(&survey, &drawn);
    let found = best(&survey, bounds, &mut vec![0; random.below(30)]);
    let listed = list(
        &survey,
        random.below(2_000) as u32,
        &mut vec![1; random.below(2_000)],
    );
    match Survey::new(survey) {
        Err(refusal) => {
            assert!(matches!(refusal.number, 1..=8 | 15 | 18 | 19));
            assert_eq!(
                (judged.err(), found.err(), listed.err()),
                (Some(refusal), Some(refusal), Some(refusal))
            );
        }
        Ok(survey) => {
            let plans = survey.plans().expect("an accepted survey lists");
            assert!(plans
                .iter()
                .all(|plan| survey.judge(&plan.links) == Ok(plan)));
            assert_eq!(survey.best([i16::MAX; 3]).is_err(), plans.is_empty());
            let index = plans.index().expect("a list has an index");
            let looked_up = index.cheapest(bounds[0]).map(|(_, plan)| plan.costs.sum);
            let solved = survey.best([bounds[0], i16::MAX, i16::MAX]);
            assert_eq!(solved.map(|plan| plan.costs.sum).ok(), looked_up.ok());
        }
    }
}

#[test]
fn every_small_survey() {
    let mut random = Random(12);
    for survey in small_surveys() {
        ask(survey.as_bytes().to_vec(), &mut random);
    }
}

#[test]
fn any_bytes_are_a_survey_or_refused() {
    let mut random = Random(1);
    for _ in 0..3_000 {
        let bytes = random.bytes(200);
        ask(bytes, &mut random);
    }
}

#[test]
fn surveys_with_a_few_bytes_changed() {
    let mut random = Random(2);
    let mut surveys = RECORDS.map(|record| bytes_of(&yard_a(1), record)).to_vec();
    surveys.push(bytes_of(&three_a([1, 1, 1]), YardRecord::Triple));
    for _ in 0..4_000 {
        let mut bytes = surveys[random.below(4)].clone();
        for _ in 0..random.below(4) {
            let at = random.below(bytes.len());
            bytes[at] = random.below(12) as u8;
        }
        ask(bytes, &mut random);
    }
}

/// Puts a plan list to every call.
fn ask_of_list(list: Vec<u8>, random: &mut Random) {
    let plan = random.below(4) as u32;
    let fetched = fetch(&list, plan).map(<[u8]>::to_vec);
    let mut buffer = vec![0; random.below(12)];
    let indexed = index(&list, &mut buffer);
    let looked_up = index_lookup(&list, &buffer, i16::MAX);
    match PlanList::from_bytes(list) {
        Err(refusal) => {
            assert_eq!(
                (refusal.number, indexed.err(), looked_up.err()),
                (12, Some(refusal), Some(refusal))
            );
        }
        Ok(plans) => {
            assert_eq!(plans.get(plan).map(|plan| plan.links), fetched);
            assert_eq!(plans.iter().count(), plans.len() as usize);
            assert_eq!(indexed.is_ok(), buffer.len() >= 2 * plans.len() as usize);
            assert_eq!(looked_up.is_ok(), indexed.is_ok() && !plans.is_empty());
            assert!(plans.index().is_ok());
        }
    }
}

#[test]
fn any_bytes_are_a_plan_list_or_refused() {
    let mut random = Random(3);
    let lists = [yard_a(1), three_a([1, 1, 1])].map(|yard| {
        let survey = yard.survey().expect("the yard is accepted");
        let plans = survey.plans().expect("an accepted survey lists");
        plans.as_bytes().to_vec()
    });
    for round in 0..6_000 {
        let mut bytes = match lists.get(round % 3) {
            Some(list) => list.clone(),
            None => random.bytes(80),
        };
        for _ in 0..random.below(3) {
            let length = bytes.len().max(1);
            if let Some(byte) = bytes.get_mut(random.below(length)) {
                *byte = random.below(256) as u8;
            }
        }
        ask_of_list(bytes, &mut random);
    }
}

/// A yard whose figures may break any rule.
fn random_yard(random: &mut Random) -> Yard {
    let stations = random.below(26) as u8;
    let ranks: Vec<u8> = (0..random.below(5))
        .map(|_| random.below(3) as u8)
        .collect();
    let ends = usize::from(stations) + 1;
    let links = (0..4).map(|_| {
        let link_ends = [random.below(ends) as u8, random.below(ends) as u8];
        let sum = random.below(2_000_200) as i32 - 1_000_100;
        let costs = ranks.iter().map(|_| random.below(65_536) as u16 as i16);
        Link::new(link_ends, sum, costs.collect::<Vec<_>>())
    });
    let links: Vec<Link> = links.collect();
    Yard::new(stations, ranks, links)
}

#[test]
fn yards_come_back_from_their_surveys() {
    let mut random = Random(4);
    let mut accepted = [0; 2];
    for _ in 0..5_000 {
        let yard = random_yard(&mut random);
        let [plain, counted, resting] = RECORDS.map(|record| {
            let survey = yard.survey_with(record);
            survey.map(|survey| survey.yard().clone())
        });
        assert_eq!((&plain, &plain), (&counted, &resting));
        if let Ok(found) = plain {
            assert_eq!(found, yard);
            accepted[0] += 1;
        }
        if let Ok(survey) = yard.survey_with(YardRecord::Triple) {
            assert_eq!((survey.yard(), yard.ranks.len()), (&yard, 3));
            accepted[1] += 1;
        }
    }
    assert!(accepted.iter().all(|&count| count > 50), "{accepted:?}");
}
