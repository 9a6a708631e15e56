//! Holds the proved planner against the independent one, call by call and byte by byte.
//!
//! It runs all kinds of surveys, of hand-made lists and of figures, and the small surveys, or with a
//! seed as its argument the samples of that seed alone.

mod figures;
mod lists;
mod position_report;
mod reached;
mod report;
mod rest_report;
mod seeds;
mod small;
mod write_report;

use compare::by_listing::ByListing;
use compare::comparison::{Comparison, Difference};
use compare::indexing::index_calls;
use compare::kinds::{Kind, KINDS};
use compare::listed::is_listed;
use compare::planner::{Archive, Peer};
use compare::reduced::ByReduction;
use compare::rests::REST_RECORDS;
use compare::rng::Rng;
use compare::round::survey_calls;
use compare::round_trip::round_trip;
use compare::tally::Tally;
use figures::compare_figures;
use lists::{compare_lists, with_list};
use peer::records::{YardRecord, TRIPLE, WRITTEN_RECORDS};
use peer::survey::Yard;
use peer::Refusal;
use position_report::print_positions;
use reached::{unreached, unreached_figures, unreached_lists, unreached_numbers, unreached_small};
use report::{print_calls, print_indexes, print_listed, print_numbers, print_records, print_sums};
use rest_report::print_rests;
use seeds::{over_seeds, total_of, Tallies};
use small::{compare_small, print_small, run_complete_set};
use std::process::ExitCode;
use write_report::print_writes;

fn main() -> ExitCode {
    let seed: Option<u64> = std::env::args().find_map(|argument| argument.parse().ok());
    match compare_all(seed) {
        Ok(missing) if seed.is_some() || missing.is_empty() => ExitCode::SUCCESS,
        Ok(missing) => {
            println!("\nThe samples do not reach: {}.", missing.join("; "));
            ExitCode::FAILURE
        }
        Err(report) => {
            println!("\n{report}");
            ExitCode::FAILURE
        }
    }
}

/// Compares on all seeds, or on one; gives what was not reached.
fn compare_all(seed: Option<u64>) -> Result<Vec<String>, String> {
    let surveys = compare_surveys(seed)?;
    let total = total_of(&named(&surveys));
    print_surveys(&surveys, &total);
    let lists = compare_lists(seed)?;
    let by_hand = total_of(&lists);
    print_calls("lists", &lists, &by_hand);
    print_indexes(&total.indexes, &by_hand.indexes);
    let figures = compare_figures(seed)?;
    let written = total_of(&figures);
    print_calls("figures", &figures, &written);
    print_writes(&written);
    let numbered = match seed {
        None => compare_numbers()?,
        Some(_) => Tally::default(),
    };
    let all = total_of(&[
        ("surveys", total),
        ("lists", by_hand),
        ("figures", written),
        ("numbers", numbered),
    ]);
    print_numbers(&all);
    let mut missing = unreached(&surveys, &total);
    missing.extend(unreached_lists(&by_hand.indexes));
    missing.extend(unreached_figures(&written));
    missing.extend(unreached_small(&numbered.smalls));
    missing.extend(unreached_numbers(&all));
    Ok(missing)
}

/// Compares on the small surveys, and runs the complete set of them.
fn compare_numbers() -> Result<Tally, String> {
    let mut tallies = compare_small()?;
    tallies.extend(run_complete_set()?);
    let total = total_of(&tallies);
    print_calls("numbers", &tallies, &total);
    print_small(&total.smalls);
    Ok(total)
}

/// The tables of the surveys.
fn print_surveys(surveys: &[(&'static Kind, Tally)], total: &Tally) {
    print_calls("surveys", &named(surveys), total);
    print_listed(surveys, total);
    print_sums(surveys, total);
    print_records(surveys, total);
    print_rests(surveys, total);
    print_positions(total);
    let [legal, damaged] = [true, false].map(|legal| {
        let mut rows = surveys.to_vec();
        rows.retain(|(kind, _)| kind.is_legal() == legal);
        total_of(&named(&rows))
    });
    println!(
        "\n{} surveys: {} made legal and {} made damaged, of which {} are legal all the same.",
        total.samples, legal.samples, damaged.samples, damaged.legal
    );
    println!(
        "{} legal surveys were written back with each yard record that is written; {} have a third \
         ceiling and are not written.",
        total.writes.round_trips, total.writes.not_written
    );
}

/// Compares on the surveys of all seeds, or of one.
fn compare_surveys(seed: Option<u64>) -> Result<Vec<(&'static Kind, Tally)>, String> {
    let mut tallies = Vec::new();
    for kind in &KINDS {
        let tally = over_seeds(kind.first_seed, kind.seeds, seed, |seed, tally| {
            compare_seed(kind, seed, tally)
        })?;
        tallies.push((kind, tally));
    }
    Ok(tallies)
}

fn named(tallies: &[(&'static Kind, Tally)]) -> Tallies {
    let rows = tallies.iter();
    rows.map(|(kind, tally)| (kind.name, *tally)).collect()
}

/// Compares on the surveys of a seed; a difference is reported with all it takes to repeat it.
fn compare_seed(kind: &Kind, seed: u64, tally: &mut Tally) -> Result<(), String> {
    let [mut rng, mut filler] = [seed, !seed].map(Rng::new);
    for survey in kind.surveys(&mut rng) {
        let before = survey.clone();
        let report = |difference: String| {
            format!("DIFFERENCE, seed {seed}\nsurvey: {before:02x?}\n{difference}")
        };
        compare_survey(kind, &survey, &mut rng, tally)
            .and_then(|()| {
                let mut comparison = Comparison::new(&Archive, &Peer, tally);
                round_trip(&mut comparison, &survey, &mut filler)
            })
            .map_err(|difference| report(difference.to_string()))?;
        if survey != before {
            return Err(report(format!("the survey became {survey:02x?}")));
        }
        tally.samples += 1;
    }
    Ok(())
}

/// Compares on one survey, with a listing of all trees too if there are few enough sets to try.
fn compare_survey(
    kind: &Kind,
    survey: &[u8],
    rng: &mut Rng,
    tally: &mut Tally,
) -> Result<(), Difference> {
    let mut comparison = Comparison::new(&Archive, &Peer, tally);
    if let Some(list) = kind.calls(&mut comparison, survey, rng)? {
        with_list(list, |list| index_calls(&mut comparison, list, rng))?;
    }
    let yard = match Yard::read(survey) {
        Ok(yard) => yard,
        Err(refusal) => {
            count_refused(survey, refusal, tally);
            return Ok(());
        }
    };
    count_legal(survey, &yard, tally);
    if is_listed(&yard) {
        let by_listing = ByListing::of(&yard);
        tally.listed.count(&yard, &by_listing);
        let mut comparison = Comparison::new(&Archive, &by_listing, tally);
        kind.calls(&mut comparison, survey, rng)?;
    }
    if YardRecord::of(survey).rest_at.is_some() {
        compare_reduced(survey, rng, tally)?;
    }
    Ok(())
}

fn count_legal(survey: &[u8], yard: &Yard, tally: &mut Tally) {
    tally.legal += 1;
    tally.sums.count_legal(yard);
    tally.records.count_legal(survey);
    tally.positions.count_legal(survey, yard);
    for (rests, record) in tally.rests.iter_mut().zip(REST_RECORDS) {
        rests.count_legal(record, survey, yard);
    }
}

fn count_refused(survey: &[u8], refusal: Refusal, tally: &mut Tally) {
    tally.sums.count_refused(survey, refusal);
    tally.records.count_refused(survey, refusal);
    tally.positions.count_refused(survey, refusal);
    tally.triple_reasons.count_refused(survey, refusal);
    for (rests, record) in tally.rests.iter_mut().zip(REST_RECORDS) {
        rests.count_refused(record, survey, refusal);
    }
}

/// Holds the proved planner's replies to a survey with rest bytes against its replies to the yard
/// without the stations at rest.
fn compare_reduced(survey: &[u8], rng: &mut Rng, tally: &mut Tally) -> Result<(), Difference> {
    let own = YardRecord::of(survey);
    let by_reduction = ByReduction {
        planner: &Archive,
        record: match own {
            TRIPLE => own,
            _ => rng.pick(&WRITTEN_RECORDS),
        },
    };
    for (rests, record) in tally.rests.iter_mut().zip(REST_RECORDS) {
        rests.reduced += u64::from(record == own);
    }
    let mut comparison = Comparison::new(&Archive, &by_reduction, tally);
    survey_calls(&mut comparison, survey, rng).map(|_| ())
}
