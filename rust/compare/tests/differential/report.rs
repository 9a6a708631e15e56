//! The tables of what was compared.

use compare::index_damage::INDEX_DAMAGES;
use compare::index_tally::{IndexTally, LIST_SORTS};
use compare::kinds::Kind;
use compare::list_damage::LIST_DAMAGES;
use compare::records::{marks, COUNTING_RECORDS};
use compare::sums::{OUTSIDE, SORTS};
use compare::tally::{Tally, CALLS, NUMBERS};
use peer::records::YARD_RECORDS;

/// How often each call was made on each kind of samples, for the calls that were made on some.
pub fn print_calls(samples: &str, tallies: &[(&str, Tally)], total: &Tally) {
    let mut calls: Vec<usize> = (0..CALLS.len()).collect();
    calls.retain(|&call| total.calls()[call] > 0);
    let columns: Vec<&str> = calls.iter().map(|&call| CALLS[call].0).collect();
    let columns = columns.join(" | ");
    println!("\n| kind | {samples} | {columns} | bytes compared | differences |");
    println!("|---|---|{}---|---|", "---|".repeat(calls.len()));
    for (name, tally) in tallies.iter().chain([&("all", *total)]) {
        let counts = calls.iter().map(|&call| tally.calls()[call].to_string());
        let counts = counts.collect::<Vec<_>>().join(" | ");
        let (samples, bytes) = (tally.samples, tally.bytes);
        println!("| {name} | {samples} | {counts} | {bytes} | 0 |");
    }
}

/// The yards that were held against a listing of all trees too.
pub fn print_listed(tallies: &[(&Kind, Tally)], total: &Tally) {
    println!(
        "\n| held against all trees | yards | trees | p = 0 | p = 1 | p = 2 | p = 3 \
         | rank above 1 | two above 1 | tied plans |"
    );
    println!("|---|---|---|---|---|---|---|---|---|---|");
    let rows = tallies.iter().map(|(kind, tally)| (kind.name, tally));
    let rows = rows.filter(|(_, tally)| tally.listed.yards > 0);
    for (name, tally) in rows.chain([("all", total)]) {
        let listed = tally.listed;
        let ceilings = listed.ceilings.map(|count| count.to_string()).join(" | ");
        println!(
            "| {name} | {} | {} | {ceilings} | {} | {} | {} |",
            listed.yards, listed.trees, listed.ranked, listed.two_ranked, listed.tied
        );
    }
}

/// The sum costs of the legal surveys, and those that were refused.
pub fn print_sums(tallies: &[(&Kind, Tally)], total: &Tally) {
    let sorts = SORTS.map(|(name, _)| name).join(" | ");
    println!("\n| sums of legal surveys | {sorts} | one below 0 twice | lists across 0 |");
    println!("|---|{}---|---|", "---|".repeat(SORTS.len()));
    let rows = tallies.iter().map(|(kind, tally)| (kind.name, tally));
    for (name, tally) in rows.chain([("all", total)]) {
        let sums = &tally.sums;
        let sorts = sums.sorts.map(|count| count.to_string()).join(" | ");
        println!("| {name} | {sorts} | {} | {} |", sums.repeated, sums.across);
    }
    println!("\n| sum refused | surveys | links that had it |\n|---|---|---|");
    for (sum, refused) in OUTSIDE.iter().zip(&total.sums.refused) {
        println!("| {sum} | {} | {} |", refused.count, refused.places());
    }
}

/// The yard records of the legal surveys, and the cuts that a link count gave away.
pub fn print_records(tallies: &[(&Kind, Tally)], total: &Tally) {
    println!(
        "\n| yard records of legal surveys | {} |",
        marks(YARD_RECORDS).join(" | ")
    );
    println!("|---|{}", "---|".repeat(YARD_RECORDS.len()));
    let rows = tallies.iter().map(|(kind, tally)| (kind.name, tally));
    for (name, tally) in rows.chain([("all", total)]) {
        let counts = tally.records.legal.map(|count| count.to_string());
        println!("| {name} | {} |", counts.join(" | "));
    }
    for (record, mark) in COUNTING_RECORDS.into_iter().zip(marks(COUNTING_RECORDS)) {
        let cuts = total.records.cuts(record);
        println!("\n{mark}: 40 links were cut at {cuts} record ends and refused by 15.");
    }
}

/// The lists that were indexed, those of list calls and those made by hand, and what was refused.
pub fn print_indexes(listed: &IndexTally, by_hand: &IndexTally) {
    println!("\n| lists indexed | of list calls | by hand |\n|---|---|---|");
    println!("| all | {} | {} |", listed.lists, by_hand.lists);
    let sorts = LIST_SORTS.iter().zip(listed.sorts).zip(by_hand.sorts);
    for (((name, _), listed), by_hand) in sorts {
        println!("| {name} | {listed} | {by_hand} |");
    }
    println!("\n| refused by 12 for | of list calls | by hand |\n|---|---|---|");
    let names = LIST_DAMAGES.iter().map(|(name, _)| name);
    let names = names.chain(INDEX_DAMAGES.iter().map(|(name, _)| name));
    let [listed, by_hand] = [listed, by_hand].map(|tally| {
        let damages = tally.list_damages.into_iter().chain(tally.index_damages);
        damages.collect::<Vec<_>>()
    });
    for ((name, listed), by_hand) in names.zip(listed).zip(by_hand) {
        println!("| {name} | {listed} | {by_hand} |");
    }
}

/// How often each number was replied to each call.
pub fn print_numbers(total: &Tally) {
    let names = CALLS.map(|(name, _)| name).join(" | ");
    println!("\n| number replied to | {names} |");
    println!("|---|{}", "---|".repeat(CALLS.len()));
    for number in 0..NUMBERS {
        let counts = total.replies.map(|numbers| numbers[number].to_string());
        println!("| {number} | {} |", counts.join(" | "));
    }
}
