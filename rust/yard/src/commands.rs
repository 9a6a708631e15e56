//! The commands on yards, lists and indexes, each from its operands to its result.

use crate::chart::chart;
use crate::drawing::draw;
use crate::failure::Failure;
use crate::figures::counted;
use crate::files::{named, read_index, read_list, read_survey, shown};
use crate::table::table;
use crate::text;
use crate::words::{number, Words};
use ranqustei::{fetch, Cause, Plan, PlanIndex, PlanList, Refusal, Survey, YardRecord, CEILINGS};
use std::ffi::{OsStr, OsString};
use std::io::Read;

/// The commands and what they take.
const COMMANDS: [(&str, &str); 11] = [
    ("plans", "YARD"),
    ("best", "YARD BOUND..."),
    ("judge", "YARD LINK..."),
    ("text", "YARD"),
    ("survey", "YARD [--record plain|counted|resting|triple]"),
    ("list", "YARD"),
    ("fetch", "FILE.list PLAN"),
    ("index", "FILE.list"),
    ("cheapest", "FILE.list FILE.index BOUND"),
    ("draw", "YARD [--plan PLAN]"),
    ("frontier", "YARD"),
];

/// What a bound is.
const BOUND: &str = "bound, a number from -32768 to 32767";
/// What number 12 says of a list.
const DAMAGED_LIST: &str = "the plan list is damaged";
/// What number 12 says of an index, where the list is not damaged.
const OTHER_INDEX: &str = "the index is not that of the plan list";

/// The result of a command.
pub fn answer(command: &OsStr, words: &Words, input: &mut dyn Read) -> Result<Vec<u8>, Failure> {
    let known = COMMANDS.iter().find(|(name, _)| command == *name);
    let Some(&(command, takes)) = known else {
        return Err(Failure::usage(format!(
            "`{}` is no command",
            command.display()
        )));
    };
    let wrong = || {
        Err(Failure::usage(format!(
            "the command is `yard {command} {takes} [-o FILE]`"
        )))
    };
    let ([file, rest @ ..], false) = (words.operands.as_slice(), words.all) else {
        return wrong();
    };
    match (command, rest, words.plan, words.record) {
        ("fetch", [plan], None, None) => fetched(file, plan, input),
        ("index", [], None, None) => index(file, &read_plans(file, input)?),
        ("cheapest", [index, bound], None, None) => cheapest(file, index, bound, input),
        ("draw", [], plan, None) => drawn(file, &read_survey(file, input)?, plan),
        ("best", bounds, None, None) => best(file, &read_survey(file, input)?, bounds),
        ("judge", links, None, None) => judge(file, &read_survey(file, input)?, links),
        ("plans", [], None, None) => plans(file, &read_survey(file, input)?),
        ("text", [], None, None) => Ok(text::write(read_survey(file, input)?.yard()).into_bytes()),
        ("survey", [], None, record) => survey(file, &read_survey(file, input)?, record),
        ("list", [], None, None) => list(file, &read_survey(file, input)?),
        ("frontier", [], None, None) => frontier(file, &read_survey(file, input)?),
        _ => wrong(),
    }
}

/// A refusal that speaks of a file.
fn refused(file: &OsStr) -> impl Fn(Refusal) -> Failure + '_ {
    move |refusal| named(file, refusal)
}

/// A refusal that speaks of a stored file; number 12 has the words for this file.
fn refused_as<'a>(file: &'a OsStr, words: &'a str) -> impl Fn(Refusal) -> Failure + 'a {
    move |refusal| match (refusal.cause(), refusal.number, refusal.place) {
        (Cause::Damaged, number, place) => {
            named(file, format!("{words} (number {number}, place {place})"))
        }
        _ => named(file, refusal),
    }
}

fn plans(file: &OsStr, survey: &Survey) -> Result<Vec<u8>, Failure> {
    let list = survey.plans().map_err(refused(file))?;
    let plans: Vec<Plan> = list.iter().collect();
    let mut answer = if plans.is_empty() {
        String::new()
    } else {
        table(&survey.yard().links, &plans, Some(0))
    };
    let solved = counted(list.solved() as usize, "position");
    answer += &format!("{}, {solved} solved\n", counted(plans.len(), "plan"));
    Ok(answer.into_bytes())
}

/// The survey's bytes with the yard record that is asked for, else with its own.
fn survey(file: &OsStr, survey: &Survey, record: Option<YardRecord>) -> Result<Vec<u8>, Failure> {
    let record = record.unwrap_or(survey.record());
    let written = survey.yard().survey_with(record);
    let written = written.map_err(|error| named(file, error))?;
    Ok(written.as_bytes().to_vec())
}

fn list(file: &OsStr, survey: &Survey) -> Result<Vec<u8>, Failure> {
    Ok(survey.plans().map_err(refused(file))?.as_bytes().to_vec())
}

fn fetched(file: &OsStr, plan: &OsStr, input: &mut dyn Read) -> Result<Vec<u8>, Failure> {
    let plan = number(plan, "plan number")?;
    let list = read_list(file, input)?;
    let links = fetch(&list, plan).map_err(refused_as(file, DAMAGED_LIST))?;
    let links: Vec<String> = links.iter().map(u8::to_string).collect();
    Ok((links.join(" ") + "\n").into_bytes())
}

/// The plans of a stored list, all of which can be fetched.
fn read_plans(file: &OsStr, input: &mut dyn Read) -> Result<PlanList, Failure> {
    PlanList::from_bytes(read_list(file, input)?).map_err(refused_as(file, DAMAGED_LIST))
}

fn index(file: &OsStr, plans: &PlanList) -> Result<Vec<u8>, Failure> {
    Ok(plans.index().map_err(refused(file))?.as_bytes().to_vec())
}

fn cheapest(
    list_file: &OsStr,
    index_file: &OsStr,
    bound: &OsStr,
    input: &mut dyn Read,
) -> Result<Vec<u8>, Failure> {
    let bound = number(bound, BOUND)?;
    let plans = read_plans(list_file, input)?;
    let index = PlanIndex::from_bytes(&plans, read_index(index_file, input)?)
        .map_err(refused_as(index_file, OTHER_INDEX))?;
    let (number, plan) = index.cheapest(bound).map_err(refused(list_file))?;
    Ok(table(&[], &[plan], Some(number)).into_bytes())
}

fn best(file: &OsStr, survey: &Survey, words: &[OsString]) -> Result<Vec<u8>, Failure> {
    let ceilings = survey.yard().ranks.len();
    if words.len() != ceilings {
        let (ceilings, bounds) = (counted(ceilings, "ceiling"), counted(words.len(), "bound"));
        return Err(Failure::usage(format!(
            "{}: the yard has {ceilings}: found {bounds}",
            shown(file)
        )));
    }
    let mut bounds = [0; CEILINGS];
    for (bound, word) in bounds.iter_mut().zip(words) {
        *bound = number(word, BOUND)?;
    }
    let plan = survey.best(bounds).map_err(refused(file))?;
    Ok(table(&survey.yard().links, &[plan], None).into_bytes())
}

fn judge(file: &OsStr, survey: &Survey, words: &[OsString]) -> Result<Vec<u8>, Failure> {
    let links = words.iter().map(|word| number(word, "link number"));
    let links: Vec<u8> = links.collect::<Result<_, _>>()?;
    let plan = survey.judge(&links).map_err(refused(file))?;
    Ok(table(&survey.yard().links, &[plan], None).into_bytes())
}

fn drawn(file: &OsStr, survey: &Survey, number: Option<u32>) -> Result<Vec<u8>, Failure> {
    let yard = survey.yard();
    let Some(number) = number else {
        return Ok(draw(yard, None).into_bytes());
    };
    let plan = survey
        .plans()
        .and_then(|list| list.get(number))
        .map_err(refused(file))?;
    Ok(draw(yard, Some((number, &plan))).into_bytes())
}

fn frontier(file: &OsStr, survey: &Survey) -> Result<Vec<u8>, Failure> {
    if survey.yard().ranks.is_empty() {
        return Err(named(
            file,
            "the yard has no ceiling: it has one plan at most, and there is no frontier to draw",
        ));
    }
    let plans: Vec<Plan> = survey.plans().map_err(refused(file))?.iter().collect();
    if plans.is_empty() {
        return Err(named(
            file,
            "no tree connects the working stations: there is no plan to draw",
        ));
    }
    Ok(chart(survey.yard(), &plans).into_bytes())
}
