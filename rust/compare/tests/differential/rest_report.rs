//! The tables of yards with stations at rest.

use compare::kinds::Kind;
use compare::records::marks;
use compare::rests::{RestTally, REST_ORDER, REST_REASONS, REST_RECORDS, REST_SORTS};
use compare::tally::Tally;

/// The sorts of yards with each yard record that has rest bytes, and why such surveys were refused.
pub fn print_rests(tallies: &[(&Kind, Tally)], total: &Tally) {
    for (i, mark) in marks(REST_RECORDS).iter().enumerate() {
        print_sorts(mark, i, tallies, total);
        print_refusals(mark, &total.rests[i]);
    }
}

/// The sorts of yards with the yard record of a number.
fn print_sorts(mark: &str, record: usize, tallies: &[(&Kind, Tally)], total: &Tally) {
    let sorts = REST_SORTS.map(|(name, _)| name).join(" | ");
    println!("\n| legal surveys with {mark} | {sorts} |");
    println!("|---|{}", "---|".repeat(REST_SORTS.len()));
    let rows = tallies.iter().map(|(kind, tally)| (kind.name, tally));
    for (name, tally) in rows.chain([("all", total)]) {
        let counts = tally.rests[record].sorts.map(|count| count.to_string());
        println!("| {name} | {} |", counts.join(" | "));
    }
}

/// Why surveys with a yard record were refused.
fn print_refusals(mark: &str, tally: &RestTally) {
    println!("\n| {mark} refused by 18 for | surveys |\n|---|---|");
    for ((name, _), count) in REST_REASONS.iter().zip(tally.reasons) {
        println!("| {name} | {count} |");
    }
    println!("\n| {mark} refused by | though also | surveys |\n|---|---|---|");
    for ([first, other], count) in REST_ORDER.iter().zip(tally.order) {
        println!("| {first} | {other} | {count} |");
    }
    println!(
        "\nA yard record {mark} was cut to {} lengths and refused by 1.",
        tally.short_lengths()
    );
    println!(
        "{} legal surveys with it were held against the yard without its stations at rest.",
        tally.reduced
    );
}
