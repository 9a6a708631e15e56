//! Random figures: they are written if and only if a survey of them is accepted and no cost of a
//! present ceiling is missing.

use crate::random::Random;
use crate::samples::told;
use crate::writing::{encoded, written, KINDS, RESTING};
use ranqustei::{Figures, Survey, YardRecord};

/// Figures with columns of their own.
struct Draft {
    stations: u8,
    ceilings: u8,
    ranks: [u8; 2],
    ends: Vec<u8>,
    sums: Vec<i32>,
    costs: Vec<i16>,
}

/// Sets any entry of a column, if it has one.
fn set<T>(column: &mut [T], random: &mut Random, value: T) {
    let at = random.below(column.len().max(1));
    if let Some(entry) = column.get_mut(at) {
        *entry = value;
    }
}

impl Draft {
    /// Figures that are accepted.
    fn legal(random: &mut Random) -> Draft {
        let stations = 3 + random.below(22);
        let ceilings = random.below(3);
        let links = random.below(41);
        let ends = (0..links).flat_map(|_| {
            let end = random.below(stations);
            let other = end + 1 + random.below(stations - 1);
            [end as u8, (other % stations) as u8]
        });
        let ends = ends.collect();
        let sums = (0..links).map(|_| random.below(2_000_001) as i32 - 1_000_000);
        let sums = sums.collect();
        let costs = (0..2 * links).map(|at| match at % 2 < ceilings {
            true => random.below(65_536) as u16 as i16,
            false => 0,
        });
        Draft {
            stations: stations as u8,
            ceilings: ceilings as u8,
            ranks: [[0, 0], [2, 0], [1, 2]][ceilings],
            ends,
            sums,
            costs: costs.collect(),
        }
    }

    /// Gives one figure another value, or doubles the links.
    fn change(&mut self, random: &mut Random) {
        match random.below(7) {
            0 => self.stations = random.below(27) as u8,
            1 => self.ceilings = random.below(5) as u8,
            2 => self.ranks[random.below(2)] = random.below(5) as u8,
            3 => {
                let end = random.below(26) as u8;
                set(&mut self.ends, random, end);
            }
            4 => {
                let sum = random.below(3_000_000) as i32 - 1_500_000;
                set(&mut self.sums, random, sum);
            }
            5 => {
                let cost = random.below(3) as i16 - 1;
                set(&mut self.costs, random, cost);
            }
            _ => {
                self.ends.extend_from_within(..);
                self.sums.extend_from_within(..);
                self.costs.extend_from_within(..);
            }
        }
    }

    fn figures(&self) -> Figures<'_> {
        Figures {
            stations: self.stations,
            ceilings: self.ceilings,
            ranks: self.ranks,
            ends: &self.ends,
            sums: &self.sums,
            costs: &self.costs,
        }
    }
}

/// Holds what is written from figures against what a survey of them is read as.
fn check(kind: u32, figures: &Figures) -> bool {
    let survey = encoded(kind, figures);
    let read = Survey::new(survey.clone());
    let reply = written(kind, figures, survey.len());
    match &read {
        Err(refusal) => assert_eq!(reply, Err(told(*refusal))),
        Ok(read) => {
            assert_eq!(reply.as_ref(), Ok(&survey));
            assert_eq!(read.yard().survey_with(read.record()).as_ref(), Ok(read));
        }
    }
    read.is_ok()
}

/// Holds the survey with the resting yard record against one with another: no station rests.
fn check_resting(figures: &Figures) {
    let [other, resting] = [KINDS[0], RESTING].map(|kind| Survey::new(encoded(kind, figures)));
    let yards = [&other, &resting].map(|survey| survey.as_ref().map(Survey::yard));
    assert_eq!(yards[0], yards[1]);
    if let Ok(yard) = yards[0] {
        assert_eq!(yard.survey_with(YardRecord::Resting).ok(), resting.ok());
    }
}

#[test]
fn figures_are_declined_as_their_surveys_are() {
    let mut random = Random(10);
    let mut accepted = 0;
    for round in 0..20_000 {
        let mut draft = Draft::legal(&mut random);
        for _ in 0..round % 4 {
            draft.change(&mut random);
        }
        let [plain, counted] = KINDS.map(|kind| check(kind, &draft.figures()));
        assert_eq!(plain, counted);
        check_resting(&draft.figures());
        assert!(plain || round % 4 > 0);
        accepted += usize::from(plain);
    }
    assert!((6_000..14_000).contains(&accepted), "{accepted}");
}

/// The refusal at the first link that lacks the cost of a present ceiling. More than 40 links are
/// declined before it.
fn refusal_for_costs(figures: &Figures) -> Option<(u8, u8)> {
    let present = usize::from(figures.ceilings).min(2);
    let lacks = |&link: &usize| {
        let mut entries = 2 * link..2 * link + present;
        entries.any(|entry| entry >= figures.costs.len())
    };
    let link = (0..figures.sums.len().min(40)).find(lacks)?;
    Some((8, link as u8 + 1))
}

/// Holds what is written from figures without some of their costs against what a survey with 0 for
/// these is read as; gives the refusal.
fn check_short(kind: u32, whole: &Figures, length: usize) -> Option<(u8, u8)> {
    let mut filled = whole.costs.to_vec();
    filled[length..].fill(0);
    let costs = &whole.costs[..length];
    let short = Figures { costs, ..*whole };
    let costs = &filled;
    let survey = encoded(kind, &Figures { costs, ..*whole });
    let read = Survey::new(survey.clone()).err().map(told);
    let refusals = read.into_iter().chain(refusal_for_costs(&short));
    let first = refusals.min_by_key(|&(number, place)| (place, number));
    let due = first.map_or(Ok(survey.clone()), Err);
    assert_eq!(written(kind, &short, survey.len()), due);
    first
}

#[test]
fn figures_without_some_costs() {
    let mut random = Random(11);
    let mut counts = [0; 3];
    for round in 0..20_000 {
        let mut draft = Draft::legal(&mut random);
        for _ in 0..round % 3 {
            draft.change(&mut random);
        }
        let length = random.below(draft.costs.len() + 1);
        let [plain, counted] = KINDS.map(|kind| check_short(kind, &draft.figures(), length));
        assert_eq!(plain, counted);
        counts[match plain {
            None => 0,
            Some((8, _)) => 1,
            Some(_) => 2,
        }] += 1;
    }
    assert!(counts.iter().all(|&count| count > 2_000), "{counts:?}");
}
