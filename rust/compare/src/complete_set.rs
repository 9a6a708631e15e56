//! The complete set of small surveys, run through all calls and held against all trees.

use crate::all_trees::{Link, Yard};
use crate::by_all_trees::ByAllTrees;
use crate::columns::Columns;
use crate::comparison::{Comparison, Difference};
use crate::planner::Planner;
use crate::records::kind_of;
use crate::small_rules::SMALL;
use crate::tally::{Tally, CALLS};
use crate::write_rules::Request;
use peer::records::PLAIN;
use peer::{SMALL_SURVEYS, SMALL_SURVEY_BYTES};
use std::collections::BTreeSet;

/// What lent buffers are filled with.
const FILLING: u8 = 0xaa;

/// The values that ceilings and lookups are given.
const VALUES: [i16; 4] = [-1, 0, 1, 2];

/// What the set came to.
#[derive(Clone, Copy, PartialEq, Eq, Debug, Default)]
pub struct Summary {
    /// Surveys.
    pub surveys: usize,
    /// Trees of all yards.
    pub trees: usize,
    /// Plans of all lists.
    pub plans: usize,
    /// Solved positions of all walks.
    pub solved: u32,
    /// Lists without a plan: the yard has no tree.
    pub empty: usize,
    /// Lists with two plans.
    pub two_plans: usize,
}

/// What it has to come to. Of the 27 ways to choose the ends of three links, 3 have a single pair,
/// 18 have one pair twice, 6 have all three; each occurs with 64 choices of s and c1. There are
/// 0, 2 and 3 trees, 0, 68 and 73 plans for the 64 choices, and 64, 104 and 104 solved positions.
pub const DUE: Summary = Summary {
    surveys: 27 * 64,
    trees: 64 * (18 * 2 + 6 * 3),
    plans: 18 * 68 + 6 * 73,
    solved: 3 * 64 + 18 * 104 + 6 * 104,
    empty: 3 * 64,
    two_plans: 18 * (68 - 64) + 6 * (73 - 64),
};

/// How often each call has to be made, in the order of `Call`: all lists of up to three of four links
/// are drawn, and each list is fetched from, indexed and looked up in by its plans.
pub fn due_calls() -> [u64; CALLS.len()] {
    let (surveys, plans) = (DUE.surveys as u64, DUE.plans as u64);
    [
        surveys * (1 + 4 + 16 + 64),
        surveys * 4 * 4,
        surveys * (2 * 3 + 1),
        plans + surveys,
        2 * plans + 3 * surveys,
        surveys * 4,
        surveys * 3,
        0,
    ]
}

/// Runs the set of a planner through its calls.
pub fn run(planner: &dyn Planner, tally: &mut Tally) -> Result<Summary, Difference> {
    let surveys = surveys_of(planner);
    check_set(&surveys)?;
    let mut summary = Summary::default();
    for survey in &surveys {
        tally.samples += 1;
        let by_all_trees = ByAllTrees::of(survey);
        let mut comparison = Comparison::new(planner, &by_all_trees, tally);
        tree_calls(&mut comparison, survey)?;
        list_calls(&mut comparison, survey, &by_all_trees)?;
        write_back(&mut comparison, survey, &by_all_trees.all().yard)?;
        summary.count(&by_all_trees);
    }
    Ok(summary)
}

impl Summary {
    fn count(&mut self, yard: &ByAllTrees) {
        self.surveys += 1;
        self.trees += yard.all().trees.len();
        self.plans += yard.plan_count();
        self.solved += yard.solved_count();
        self.empty += usize::from(yard.plan_count() == 0);
        self.two_plans += usize::from(yard.plan_count() == 2);
    }
}

/// The surveys that a planner gives, up to the first number that it refuses.
fn surveys_of(planner: &dyn Planner) -> Vec<Vec<u8>> {
    let survey = |number| {
        let mut survey = vec![FILLING; SMALL_SURVEY_BYTES];
        let reply = planner.small_survey(number, &mut survey);
        reply.map(|()| survey).ok()
    };
    (0..SMALL_SURVEYS).map_while(survey).collect()
}

/// Checks that surveys are those of their kind, each once and in order.
fn check_set(surveys: &[Vec<u8>]) -> Result<(), Difference> {
    let [set, kind] = [surveys, &SMALL].map(|surveys| surveys.iter().collect::<BTreeSet<_>>());
    let key = |survey: &Vec<u8>| {
        let links = Yard::read(survey).links;
        let choice = |link: &Link| (link.ends, link.sum, link.costs[0]);
        links.iter().map(choice).collect::<Vec<_>>()
    };
    if set == kind && surveys.is_sorted_by(|a, b| key(a) < key(b)) {
        return Ok(());
    }
    let other = surveys.iter().zip(SMALL.iter()).position(|(a, b)| a != b);
    let other = other.unwrap_or(surveys.len());
    Err(Difference {
        call: format!("small survey {other}, the first that is missing or another"),
        replies: [surveys, &SMALL].map(|surveys| format!("{:02x?}", surveys.get(other))),
    })
}

/// Draws all lists of up to three links, rising or not, where link 3 is not in the survey, and asks
/// for the best tree under every ceiling.
fn tree_calls(c: &mut Comparison, survey: &[u8]) -> Result<(), Difference> {
    let mut drawn: Vec<Vec<u8>> = vec![Vec::new()];
    for _ in 0..3 {
        let longer = drawn
            .iter()
            .flat_map(|drawn| (0..4).map(|link| [&drawn[..], &[link]].concat()));
        drawn = [vec![Vec::new()], longer.collect()].concat();
    }
    for drawn in &drawn {
        c.judge(survey, drawn)?;
    }
    for bound in VALUES {
        for room in 0..4 {
            c.best(survey, [bound, i16::MIN, i16::MAX], &vec![FILLING; room])?;
        }
    }
    Ok(())
}

/// Lists in buffers and with allowances around their limits, fetches every plan and one more, and
/// builds the index and looks up in it.
fn list_calls(c: &mut Comparison, survey: &[u8], due: &ByAllTrees) -> Result<(), Difference> {
    let (need, solved) = (due.all().list_need(), due.solved_count());
    for room in [need - 1, need + 1] {
        for allowance in [solved - 1, solved, u32::MAX] {
            c.list(survey, allowance, &vec![FILLING; room])?;
        }
    }
    let list = c.list(survey, solved, &vec![FILLING; need])?.bytes;
    let plans = due.plan_count();
    for plan in 0..=plans {
        c.fetch(&list, plan as u32)?;
    }
    for room in 0..2 * plans + 2 {
        c.index(&list, &vec![FILLING; room])?;
    }
    let index = c.index(&list, &vec![FILLING; 2 * plans])?.bytes;
    for value in VALUES {
        c.lookup(&list, &index, value)?;
    }
    Ok(())
}

/// Writes a survey from its figures: its own bytes come back.
fn write_back(c: &mut Comparison, survey: &[u8], yard: &Yard) -> Result<(), Difference> {
    let costs = |link: &Link| [link.costs[0] as i16, 0];
    let columns = Columns {
        stations: yard.rests.len() as u8,
        ceilings: yard.ranks.len() as u8,
        ranks: [yard.ranks[0] as u8, 0],
        ends: yard
            .links
            .iter()
            .flat_map(|link| link.ends.map(|end| end as u8))
            .collect(),
        sums: yard.links.iter().map(|link| link.sum as i32).collect(),
        costs: yard.links.iter().flat_map(costs).collect(),
    };
    let request = Request {
        kind: kind_of(PLAIN),
        figures: columns.figures(),
    };
    for room in [survey.len() - 1, survey.len(), survey.len() + 1] {
        c.write_survey(&request, &vec![FILLING; room])?;
    }
    Ok(())
}
