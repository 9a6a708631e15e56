//! Small surveys: those of every number, numbers of none, and the complete set run.

use crate::seeds::Tallies;
use compare::comparison::{Comparison, Difference};
use compare::complete_set::{due_calls, run, Summary, DUE};
use compare::planner::{Archive, Peer};
use compare::rng::Rng;
use compare::small_calls::{calls_in_order, calls_with_any};
use compare::small_tally::{SmallTally, OVER, ROOMS};
use compare::tally::Tally;

/// Calls for small surveys.
type Calls = fn(&mut Comparison, &mut Rng) -> Result<(), Difference>;

/// Compares on every number of a small survey and on others.
pub fn compare_small() -> Result<Tallies, String> {
    let kinds: [(&str, Calls); 2] = [
        ("every number", calls_in_order),
        ("any number", calls_with_any),
    ];
    let mut tallies = Vec::new();
    for (name, calls) in kinds {
        let mut tally = Tally::default();
        calls(
            &mut Comparison::new(&Archive, &Peer, &mut tally),
            &mut Rng::new(0),
        )
        .map_err(|difference| format!("DIFFERENCE\n{difference}"))?;
        tallies.push((name, tally));
    }
    Ok(tallies)
}

/// Runs the complete set through all calls, held against all trees.
pub fn run_complete_set() -> Result<Tallies, String> {
    let mut tally = Tally::default();
    let summary = run(&Archive, &mut tally)
        .map_err(|difference| format!("DIFFERENCE in the complete set\n{difference}"))?;
    print_summary(&summary);
    let (calls, due) = (tally.calls(), due_calls());
    match (summary == DUE, calls == due) {
        (true, true) => Ok(vec![("the complete set", tally)]),
        (false, _) => Err(format!("The complete set should come to {DUE:?}.")),
        _ => Err(format!(
            "Calls on the complete set: {calls:?}, due {due:?}."
        )),
    }
}

fn print_summary(summary: &Summary) {
    println!("\n| the complete set of small surveys | count |\n|---|---|");
    println!("| surveys | {} |", summary.surveys);
    println!("| trees | {} |", summary.trees);
    println!("| plans | {} |", summary.plans);
    println!("| solved positions | {} |", summary.solved);
    println!("| lists without a plan | {} |", summary.empty);
    println!("| lists with two plans | {} |", summary.two_plans);
}

/// The outputs that were lent, and the numbers that were refused.
pub fn print_small(tally: &SmallTally) {
    println!("\n| bytes of the output | written | refused by 17 | refused by 20 |");
    println!("|---|---|---|---|");
    for (room, counts) in ROOMS.iter().zip(tally.rooms) {
        let counts = counts.map(|count| count.to_string()).join(" | ");
        println!("| {room} | {counts} |");
    }
    println!("\n| number refused by 20 | calls |\n|---|---|");
    for (number, count) in OVER.iter().zip(tally.over) {
        println!("| {number} | {count} |");
    }
    let [written, short] = tally.surveys();
    println!("\n{written} different small surveys were written, {short} were refused by 17.");
}
